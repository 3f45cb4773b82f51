//! visor: what people do with backgrounds. It reads records, objects and hex dumps, and shows their
//! plans as tables, text, sheets and reports; it says what a cell of the screen shows, and makes the
//! object of a picture. This program parses and prints; entries, verdicts, strip numbers, drift, what
//! a cell shows and objects come from the proved library.

mod args;
mod clipped;
mod command;
mod commands;
mod deflate;
mod fields;
mod font;
#[cfg(test)]
mod fuzz;
mod glyphs;
mod help;
mod hex;
mod inflate;
mod input;
mod io;
mod machine;
mod page;
mod pages;
mod paint;
mod picture;
mod png;
mod ppm;
mod raster;
mod reading;
mod report;
mod sheet;
mod step;
mod strips;
mod study;
mod svg;

use crate::command::{Failure, Status};
use crate::io::Io;
use std::ffi::OsString;
use std::process::ExitCode;

fn main() -> ExitCode {
    let arguments: Vec<OsString> = std::env::args_os().skip(1).collect();
    let (mut input, mut out, mut err) = io::standard();
    let mut io = Io::on_streams(&mut input, &mut out, &mut err);
    ExitCode::from(run(arguments, &mut io))
}

/// Runs one command line and says what went wrong; the answer is the exit status.
fn run(arguments: Vec<OsString>, io: &mut Io) -> u8 {
    let outcome = commands::dispatch(arguments, io);
    let flushed = io.flush();
    let status = match outcome.and_then(|status| flushed.map(|()| status)) {
        Ok(status) => status as u8,
        Err(failure) => failed(&failure, io),
    };
    // Where not even this can be written there is nobody to tell.
    let _ = io.err.flush();
    status
}

fn failed(failure: &Failure, io: &mut Io) -> u8 {
    let (status, said) = match failure {
        Failure::Use(said) => (
            2,
            format!("{said}\nvisor: `visor --help` says how it is used"),
        ),
        Failure::Input(said) => (2, said.clone()),
        Failure::System(said) => (3, said.clone()),
        Failure::Closed => return Status::Good as u8,
    };
    io.tell(&format!("visor: {said}"));
    status
}
