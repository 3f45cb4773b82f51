//! The commands. A new one is a file here with its `COMMAND`, and its name in the list below.

use crate::args::Args;
use crate::command::{Command, Failure, Outcome, Status};
use crate::help;
use crate::io::Io;
use std::ffi::OsString;

macro_rules! commands {
    ($($name:ident),* $(,)?) => {
        $(mod $name;)*
        pub const ALL: &[&Command] = &[$(&$name::COMMAND),*];
    };
}

commands!(plan, draw, report, explain, diff, make, cell);

/// Finds the command that the first argument names, and runs it on the others.
pub fn dispatch(mut arguments: Vec<OsString>, io: &mut Io) -> Outcome {
    if arguments.is_empty() {
        return Err(Failure::Use("there is no command".to_string()));
    }
    let name = arguments.remove(0).to_string_lossy().into_owned();
    match name.as_str() {
        "--help" | "-h" | "help" => return help::of(arguments, io),
        "--version" | "-V" => return help::version(io),
        "--man" => return help::manual(io),
        _ => {}
    }
    let command = named(&name)?;
    if arguments
        .iter()
        .any(|argument| argument == "--help" || argument == "-h")
    {
        help::page(command, io)?;
        return Ok(Status::Good);
    }
    (command.run)(Args::new(arguments), io)
}

/// The command of a name.
pub fn named(name: &str) -> Result<&'static Command, Failure> {
    let found = ALL.iter().find(|command| command.name == name);
    let unknown = || Failure::Use(format!("there is no command {name}"));
    found.copied().ok_or_else(unknown)
}
