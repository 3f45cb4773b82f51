//! `visor plan`: the plan of a background, in four forms.

use crate::args::Args;
use crate::command::{Command, Failure, Outcome, Status};
use crate::fields::{self, EntryKind, Form, Part};
use crate::input::{self, Asked, Subject};
use crate::io::{Io, Style};
use crate::pages;
use crate::strips::{self, Measured};
use visorlongan::{count, Drift, End, Entry, Planner};

pub const COMMAND: Command = Command {
    name: "plan",
    summary: "the plan of a background: a table by strips",
    usage: "FILE [--entries | --json | --raw] [INPUT OPTIONS]",
    help: "  --entries    one row for each entry, with all its numbers by name
  --json       one object a line for each entry, and one for the end
  --raw        the bytes that bgplan prints

The table has a row for each rectangle. `words` are the rows x line of its largest load, `bytes`
those from the first to the last that its loads read, `drift` is how far below its exact place (or
above, where it is negative) each line samples the image. A refused plan prints what stands of it,
and why and where it stopped; the exit status is 1.",
    example: "plan C.bin",
    shows: "\
copy background, strips of up to 8 rows
image 256 x 9 texels, RGBA 16 bits, at 0x0000000000001000, shown from (0, 0)
frame 256 x 9 pixels at (0, 0), scissor (0, 0) to (320, 240)

  strip      lines    columns      columns         rows   words    bytes            address
 number  on screen  on screen     of image     of image of TMEM     read    first byte read
      1       0..7     0..255       0..255         0..7     512     4096 0x0000000000001000
      2       8..8     0..255       0..255         8..8      64      512 0x0000000000002000

11 entries, 2 rectangles; the largest load fills 512 of 512 words of TMEM
verdict 0, finished: The plan is complete.",
    run,
};

fn run(mut args: Args, io: &mut Io) -> Outcome {
    let flags = ["--entries", "--json", "--raw"].map(|name| args.flag(name));
    let asked = Asked::take(&mut args)?;
    let [file] = args.operands("FILE")?;
    let print = match flags {
        [false, false, false] => strips::print,
        [true, false, false] => entries,
        [false, true, false] => json,
        [false, false, true] => raw,
        _ => {
            let one = "only one of --entries, --json and --raw can be printed";
            return Err(Failure::Use(one.to_string()));
        }
    };
    let subject = input::subject(&file, &asked, io)?;
    let end = print(&subject, io)?;
    Ok(Status::of(&end))
}

/// Does something with each entry, its number and its measure, and answers the end.
fn follow(
    subject: &Subject,
    drifts: &[Drift],
    mut each: impl FnMut(u64, &Entry, Option<&Drift>) -> Result<(), Failure>,
) -> Result<End, Failure> {
    let request = subject.request();
    let mut planner = Planner::new(&request);
    let mut drifts = drifts.iter();
    for (number, entry) in (1..).zip(planner.by_ref()) {
        let drift = match entry {
            Entry::Rect(_) => drifts.next(),
            _ => None,
        };
        each(number, &entry, drift)?;
    }
    Ok(planner.end().unwrap_or_else(|| count(&request)))
}

/// An entry's kind, and its numbers beside their names.
fn parts(
    entry: &Entry,
) -> (
    &'static EntryKind,
    impl Iterator<Item = (&'static Part, u64)>,
) {
    let words = entry.to_words();
    let kind = fields::kind(words[0]).expect("each entry of the crate has a kind");
    (kind, kind.parts.iter().zip(words.into_iter().skip(1)))
}

fn entries(subject: &Subject, io: &mut Io) -> Result<End, Failure> {
    let measured = Measured::of(&subject.request());
    strips::introduce(subject, io)?;
    writeln!(io.out)?;
    for kind in fields::kinds() {
        let units = io.styled(Style::Faint, &units(kind));
        writeln!(io.out, "{units}")?;
    }
    let heading = io.styled(Style::Heading, "   entry  kind   numbers");
    writeln!(io.out, "{heading}")?;
    let end = follow(subject, &[], |number, entry, _| {
        let (kind, parts) = parts(entry);
        write!(io.out, "{number:>8}  {:<5}", kind.name)?;
        for (part, word) in parts {
            write!(io.out, "  {} {}", part.name, part.text(word))?;
        }
        Ok(writeln!(io.out)?)
    })?;
    writeln!(io.out)?;
    strips::conclude(subject, &end, &measured, io)?;
    Ok(end)
}

/// The units of a kind's numbers, those of one unit together.
fn units(kind: &EntryKind) -> String {
    let mut told: Vec<(&str, String)> = Vec::new();
    for part in kind.parts.iter().filter(|part| !part.unit.is_empty()) {
        match told.iter_mut().find(|(unit, _)| *unit == part.unit) {
            Some((_, names)) => *names += &format!(" {}", part.name),
            None => told.push((part.unit, part.name.to_string())),
        }
    }
    let told: Vec<String> = told
        .iter()
        .map(|(unit, names)| format!("{names}: {unit}"))
        .collect();
    format!("          {:<5}  {}", kind.name, told.join("; "))
}

fn json(subject: &Subject, io: &mut Io) -> Result<End, Failure> {
    let measured = Measured::of(&subject.request());
    let end = follow(subject, &measured.drifts, |number, entry, drift| {
        let (kind, parts) = parts(entry);
        write!(io.out, "{{\"entry\":{number},\"kind\":\"{}\"", kind.name)?;
        for (part, word) in parts {
            let quote = if part.form == Form::Address { "\"" } else { "" };
            write!(
                io.out,
                ",\"{}\":{quote}{}{quote}",
                part.name,
                part.text(word)
            )?;
        }
        if let Some(drift) = drift {
            write!(
                io.out,
                ",\"strip\":{},\"drift\":{}",
                drift.strip, drift.distance
            )?;
        }
        Ok(writeln!(io.out, "}}")?)
    })?;
    let name = pages::name(end.verdict);
    let sentence = end.verdict.sentence();
    // Neither names nor sentences have a letter that JSON would escape, as a test sees to.
    writeln!(
        io.out,
        "{{\"kind\":\"end\",\"verdict\":{},\"name\":\"{name}\",\"sentence\":\"{sentence}\",\
         \"entries\":{},\"rectangles\":{},\"tile_words\":{}}}",
        end.verdict.number(),
        end.entries,
        end.rectangles,
        end.tile_words
    )?;
    tell_refusal(&end, io);
    Ok(end)
}

fn raw(subject: &Subject, io: &mut Io) -> Result<End, Failure> {
    let end = follow(subject, &[], |_, entry, _| Ok(writeln!(io.out, "{entry}")?))?;
    writeln!(io.out, "{end}")?;
    tell_refusal(&end, io);
    Ok(end)
}

/// Where the output is for programs, people are told on standard error.
fn tell_refusal(end: &End, io: &mut Io) {
    if let Err(refusal) = end.result() {
        io.tell(&format!("visor: {refusal}"));
    }
}
