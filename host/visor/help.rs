//! The help, the manual page and the version, all made from the list of commands.

use crate::command::{Command, Failure, Outcome, Status};
use crate::commands::{named, ALL};
use crate::input::Asked;
use crate::io::{Io, Style};
use std::ffi::OsString;

const SUMMARY: &str = "plans of Nintendo 64 backgrounds (S2DEX2), from a planner that is proved";

const INPUT: &str = "\
A FILE, or - for standard input, is a record of 61 bytes (the object's 40, the scissor, the render
mode, the opcode and the address, as bgplan reads it), or an object: 40 bytes of uObjBg (copy) or
36 of uObjScaleBg (scaled). Text is read as hex: the output of xxd, `xxd -p`, `xxd -i`,
`hexdump -C`, `od -A x -t x1` and gdb's `x/40xb`, bytes as \\x00 or 0x00, and bare digits. Offsets,
names and ASCII columns are left out. What a FILE was taken for is said on standard error.";

const STATUS: &[(&str, &str)] = &[
    (
        "0",
        "planned, drawn, made, the same, or a cell answered, whether or not its plan is refused",
    ),
    (
        "1",
        "refused, and the verdict or the reason is said; or two plans differ",
    ),
    (
        "2",
        "wrong use, input that says nothing that could be planned, or a file left out of a report",
    ),
    ("3", "reading or writing failed"),
];

const CASES: &str = "Their files are in tests/cases of the crate visorlongan.";

/// `visor --help`, or `visor help COMMAND`.
pub fn of(arguments: Vec<OsString>, io: &mut Io) -> Outcome {
    match arguments.as_slice() {
        [] => overview(io)?,
        [name, ..] => page(named(&name.to_string_lossy())?, io)?,
    }
    Ok(Status::Good)
}

fn overview(io: &mut Io) -> Result<(), Failure> {
    writeln!(io.out, "visor: {SUMMARY}\n")?;
    heading("usage", io)?;
    writeln!(
        io.out,
        "  visor COMMAND ...\n  visor COMMAND --help\n  visor --version\n  visor --man\n"
    )?;
    heading("commands", io)?;
    for command in ALL {
        writeln!(io.out, "  {:<9}{}", command.name, command.summary)?;
    }
    writeln!(io.out)?;
    heading("input", io)?;
    writeln!(io.out, "{}\n", indented(INPUT))?;
    heading("input options", io)?;
    writeln!(io.out, "{}\n", Asked::HELP)?;
    heading("exit status", io)?;
    for (number, meaning) in STATUS {
        writeln!(io.out, "  {number}  {meaning}")?;
    }
    writeln!(io.out)?;
    heading("examples", io)?;
    writeln!(
        io.out,
        "  {CASES} `visor COMMAND --help` shows all of their output."
    )?;
    for command in ALL {
        writeln!(io.out)?;
        example(command, 9, io)?;
    }
    Ok(())
}

/// The help of one command.
pub fn page(command: &Command, io: &mut Io) -> Result<(), Failure> {
    writeln!(io.out, "visor {}: {}\n", command.name, command.summary)?;
    heading("usage", io)?;
    writeln!(io.out, "  visor {} {}\n", command.name, command.usage)?;
    writeln!(io.out, "{}\n", command.help)?;
    if command.usage.contains("INPUT OPTIONS") {
        heading("input options", io)?;
        writeln!(io.out, "{}\n", Asked::HELP)?;
    }
    heading("example", io)?;
    writeln!(io.out, "  {CASES}\n")?;
    example(command, usize::MAX, io)
}

/// The worked example of a command, with so many lines of what it prints.
fn example(command: &Command, lines: usize, io: &mut Io) -> Result<(), Failure> {
    let typed = io.styled(Style::Heading, &format!("$ visor {}", command.example));
    writeln!(io.out, "  {typed}")?;
    let shown: Vec<&str> = command.shows.lines().take(lines).collect();
    writeln!(io.out, "{}", indented(&shown.join("\n")))?;
    if command.shows.lines().count() > lines {
        writeln!(io.out, "  ..")?;
    }
    Ok(())
}

fn heading(text: &str, io: &mut Io) -> Result<(), Failure> {
    Ok(writeln!(io.out, "{}", io.styled(Style::Heading, text))?)
}

fn indented(text: &str) -> String {
    let line = |line: &str| format!("  {line}").trim_end().to_string();
    let lines: Vec<String> = text.lines().map(line).collect();
    lines.join("\n")
}

/// `visor --version`: the program's and the library's, and the sum of the library's archive.
pub fn version(io: &mut Io) -> Outcome {
    let [major, minor, patch] = visorlongan::version();
    let sum = env!("LIBRARY_SUM");
    writeln!(io.out, "visor {}", env!("CARGO_PKG_VERSION"))?;
    writeln!(
        io.out,
        "library {major}.{minor}.{patch}, SHA-256 of libvisorlongan.a {sum}"
    )?;
    Ok(Status::Good)
}

/// `visor --man`: the manual page, for `man -l`.
pub fn manual(io: &mut Io) -> Outcome {
    let version = env!("CARGO_PKG_VERSION");
    writeln!(
        io.out,
        ".TH VISOR 1 \"\" \"visorlongan {version}\" \"User Commands\""
    )?;
    writeln!(io.out, ".SH NAME\nvisor \\- {}", troff(SUMMARY))?;
    writeln!(io.out, ".SH SYNOPSIS\n.nf")?;
    for command in ALL {
        let usage = troff(command.usage);
        writeln!(io.out, "\\fBvisor {}\\fR {usage}", command.name)?;
    }
    writeln!(
        io.out,
        "\\fBvisor\\fR \\-\\-help | \\-\\-version | \\-\\-man\n.fi"
    )?;
    writeln!(io.out, ".SH COMMANDS")?;
    for command in ALL {
        let (summary, help) = (troff(command.summary), troff(command.help));
        writeln!(
            io.out,
            ".SS {}\n{summary}.\n.PP\n.nf\n{help}\n.fi",
            command.name
        )?;
    }
    let options = troff(Asked::HELP);
    writeln!(
        io.out,
        ".SH INPUT\n{}\n.PP\n.nf\n{options}\n.fi",
        troff(INPUT)
    )?;
    writeln!(io.out, ".SH EXIT STATUS")?;
    for (number, meaning) in STATUS {
        writeln!(io.out, ".TP\n{number}\n{meaning}")?;
    }
    writeln!(io.out, ".SH EXAMPLES\n{}", troff(CASES))?;
    for command in ALL {
        let (typed, shown) = (troff(command.example), troff(command.shows));
        writeln!(io.out, ".PP\n.nf\n\\fB$ visor {typed}\\fR\n{shown}\n.fi")?;
    }
    writeln!(
        io.out,
        ".SH ENVIRONMENT\n.TP\nNO_COLOR\nWhere it is set and not empty, nothing is coloured."
    )?;
    Ok(Status::Good)
}

/// A text that troff prints as it is.
fn troff(text: &str) -> String {
    let line = |line: &str| {
        let line = line.replace('\\', "\\e").replace('-', "\\-");
        match line.starts_with(['.', '\'']) {
            true => format!("\\&{line}"),
            false => line,
        }
    };
    let lines: Vec<String> = text.lines().map(line).collect();
    lines.join("\n")
}

#[cfg(test)]
mod tests {
    use super::*;

    #[test]
    fn troff_takes_no_line_for_a_request() {
        assert_eq!(troff(".x\n'y\na-b \\x00"), "\\&.x\n\\&'y\na\\-b \\ex00");
    }
}
