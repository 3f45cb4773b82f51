//! What a command is.

use crate::args::Args;
use crate::io::Io;
use visorlongan::End;

/// One command of visor. A file of commands/ has one as its `COMMAND`.
pub struct Command {
    pub name: &'static str,
    /// A line that says what it is for.
    pub summary: &'static str,
    /// The operands and options, after `visor NAME`.
    pub usage: &'static str,
    /// What the operands and options mean.
    pub help: &'static str,
    /// What to type, after `visor`, for the worked example of the help.
    pub example: &'static str,
    /// What that prints; the tests hold it to what it does print.
    pub shows: &'static str,
    pub run: fn(Args, &mut Io) -> Outcome,
}

pub type Outcome = Result<Status, Failure>;

/// How a command ended that could do its work: the exit status.
#[derive(Clone, Copy, Debug, PartialEq, Eq)]
pub enum Status {
    /// Planned, drawn, made, answered, the same.
    Good = 0,
    /// A plan, a picture or a cell's background was refused, or two plans differ.
    Refused = 1,
}

impl Status {
    /// That of a plan, by its end.
    pub fn of(end: &End) -> Status {
        match end.result() {
            Ok(()) => Status::Good,
            Err(_) => Status::Refused,
        }
    }
}

/// Why a command could not do its work.
#[derive(Clone, Debug, PartialEq, Eq)]
pub enum Failure {
    /// Wrong use: exit status 2.
    Use(String),
    /// Input that says nothing that could be planned: exit status 2.
    Input(String),
    /// Reading or writing failed: exit status 3.
    System(String),
    /// Nobody reads the output any more: ends quietly.
    Closed,
}

impl Failure {
    /// What the system said of a file or stream.
    pub fn system(name: &str, error: &std::io::Error) -> Failure {
        if error.kind() == std::io::ErrorKind::BrokenPipe {
            return Failure::Closed;
        }
        let said = error.to_string();
        let plain = said.split(" (os error").next().unwrap_or(&said);
        Failure::System(format!("{name}: {plain}"))
    }
}

/// Of standard output, which every command writes to.
impl From<std::io::Error> for Failure {
    fn from(error: std::io::Error) -> Failure {
        Failure::system("standard output", &error)
    }
}
