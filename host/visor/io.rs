//! The three streams of a command, and whether people watch them.

use crate::command::Failure;
use std::ffi::OsStr;
use std::io::{self, BufWriter, IsTerminal, Read, Write};
use std::path::{Path, PathBuf};

pub struct Io<'a> {
    pub input: &'a mut dyn Read,
    pub out: &'a mut dyn Write,
    pub err: &'a mut dyn Write,
    /// Whether standard output takes colours.
    pub colour: bool,
    /// Whether standard error is a terminal, where progress may be shown.
    pub watched: bool,
}

/// Colours of a terminal, by what they mean.
#[derive(Clone, Copy, Debug, PartialEq, Eq)]
pub enum Style {
    Heading,
    Good,
    Bad,
    Faint,
}

pub fn standard() -> (io::Stdin, BufWriter<io::Stdout>, io::Stderr) {
    (io::stdin(), BufWriter::new(io::stdout()), io::stderr())
}

/// Writes a whole file, or leaves what was there: it is written beside its place, and moved there.
pub fn save(name: &OsStr, bytes: &[u8]) -> Result<(), Failure> {
    let wrong = |error: io::Error| Failure::system(&name.to_string_lossy(), &error);
    let path = Path::new(name);
    if path.exists() && !path.is_file() {
        return std::fs::write(path, bytes).map_err(wrong);
    }
    let mut part = name.to_os_string();
    part.push(format!(".{}.part", std::process::id()));
    let part = PathBuf::from(part);
    let saved = std::fs::write(&part, bytes).and_then(|()| std::fs::rename(&part, path));
    saved.map_err(|error| {
        // Where there is nothing to remove, nothing was written.
        let _ = std::fs::remove_file(&part);
        wrong(error)
    })
}

impl<'a> Io<'a> {
    /// The process's own streams.
    pub fn on_streams(
        input: &'a mut dyn Read,
        out: &'a mut dyn Write,
        err: &'a mut dyn Write,
    ) -> Io<'a> {
        let plain = std::env::var_os("NO_COLOR").is_some_and(|value| !value.is_empty());
        Io {
            input,
            out,
            err,
            colour: io::stdout().is_terminal() && !plain,
            watched: io::stderr().is_terminal(),
        }
    }

    /// A text in a style, where standard output takes one.
    pub fn styled(&self, style: Style, text: &str) -> String {
        let code = match style {
            Style::Heading => "1",
            Style::Good => "32",
            Style::Bad => "31",
            Style::Faint => "2",
        };
        if self.colour {
            format!("\x1b[{code}m{text}\x1b[0m")
        } else {
            text.to_string()
        }
    }

    /// A line on standard error. Where it cannot be written there is nobody to tell.
    pub fn tell(&mut self, line: &str) {
        let _ = writeln!(self.err, "{line}");
    }

    pub fn flush(&mut self) -> Result<(), Failure> {
        self.out.flush().map_err(Failure::from)
    }
}
