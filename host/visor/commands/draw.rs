//! `visor draw`: a plan on one sheet.

use crate::args::Args;
use crate::command::{Command, Failure, Outcome, Status};
use crate::input::{self, Asked};
use crate::io::{self, Io};
use crate::paint::Drawing;
use crate::picture::Picture;
use crate::sheet::{self, Sheet};
use crate::study::Study;
use crate::{png, raster, svg};
use std::ffi::OsStr;
use std::path::Path;
use visorlongan::Verdict;

/// A sheet larger than this is made coarser: it is to go by mail.
const LARGEST: usize = 400_000;

pub const COMMAND: Command = Command {
    name: "draw",
    summary: "draw a plan on one sheet: screen, seams, drift, image, texture memory",
    usage: "FILE -o SHEET.svg|.png|.html [--picture IMAGE] [INPUT OPTIONS]",
    help: "\
FILE is a record, an object or a hex dump; - is standard input.
  -o SHEET          where the sheet goes; its ending says the form: .svg, .png or .html
  --picture IMAGE   the image itself in place of colours: its raw texels, a PNG or a PPM
Without a picture hue is a texel's column and lightness its row, so that a wrap or a flip is a
break of colour. A refused plan shows what stands, and in red where and why it stopped.",
    example: "draw H.bin -o case-h.svg",
    shows: "\
case-h.svg: verdict 0, The plan is complete.
Drift from +0 to +896 of 1,024; the proved limits are -1030 and +1038.
39 of 39 seams show: 34 go on by up to 144/1,024 of a row, 5 go back by up to 856/1,024.
14,088 of 76,800 texels are not sampled (striped grey in the image).",
    run,
};

fn run(mut args: Args, io: &mut Io) -> Outcome {
    let asked = Asked::take(&mut args)?;
    let out = args.value("-o")?;
    let picture = args.value("--picture")?;
    let [file] = args.operands("FILE")?;
    let out = out.ok_or_else(|| Failure::Use("-o SHEET is wanted".to_string()))?;
    let form = Form::of(&out)?;
    let study = Study::of(&input::subject(&file, &asked, io)?);
    let picture = match picture {
        Some(picture) => {
            let (name, bytes) = input::source(&picture, io)?;
            Picture::read(&name, &bytes, &study)?
        }
        None => Picture::places(&study),
    };
    let sheet = Sheet::of(&study, &picture);
    let name = out.to_string_lossy();
    io::save(&out, &form.bytes(&sheet))?;
    let verdict = study.end.verdict;
    match verdict {
        Verdict::Finished => writeln!(io.out, "{name}: verdict 0, {verdict}")?,
        // The first of the words is the refusal.
        _ => writeln!(io.out, "{name}: what stands of a refused plan")?,
    }
    for line in &sheet.words {
        writeln!(io.out, "{line}")?;
    }
    Ok(Status::of(&study.end))
}

#[derive(Clone, Copy)]
enum Form {
    Svg,
    Png,
    Html,
}

impl Form {
    fn of(name: &OsStr) -> Result<Form, Failure> {
        let ending = Path::new(name).extension().and_then(OsStr::to_str);
        match ending.map(str::to_ascii_lowercase).as_deref() {
            Some("svg") => Ok(Form::Svg),
            Some("png") => Ok(Form::Png),
            Some("html" | "htm") => Ok(Form::Html),
            _ => Err(Failure::Use(format!(
                "{} ends in none of .svg, .png and .html",
                name.to_string_lossy()
            ))),
        }
    }

    /// The sheet as a file, coarser where it would be too large.
    fn bytes(self, sheet: &Sheet) -> Vec<u8> {
        let mut bytes = self.whole(&sheet.drawing, sheet);
        for times in 1..=6 {
            if bytes.len() < LARGEST {
                break;
            }
            bytes = self.whole(&sheet::coarser(&sheet.drawing, times), sheet);
        }
        bytes
    }

    fn whole(self, drawing: &Drawing, sheet: &Sheet) -> Vec<u8> {
        match self {
            Form::Svg => svg::text(drawing).into_bytes(),
            Form::Html => svg::page(drawing, &sheet.words).into_bytes(),
            Form::Png => png::encode(&raster::paint(drawing, 1.0)),
        }
    }
}
