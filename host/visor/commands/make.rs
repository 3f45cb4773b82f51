//! `visor make`: a copy object from a picture.

use crate::args::Args;
use crate::command::{Command, Failure, Outcome, Status};
use crate::fields::{self, counted, grouped};
use crate::input::{self, Asked};
use crate::io::{self, Io, Style};
use crate::strips;
use std::ffi::{OsStr, OsString};
use std::path::Path;
use visorlongan::{copy_object, Mode, NoObject};

/// The bytes of a copy object.
const OBJECT: u64 = Mode::Copy.object_bytes() as u64;

pub const COMMAND: Command = Command {
    name: "make",
    summary: "make a copy object from a picture's width, height, format and size",
    usage: "W H FMT SIZ [-o OBJECT] [--pointer NUMBER] [--scissor ULX,ULY,LRX,LRY] \
            [--address NUMBER]",
    help: "  W, H                         the picture's width and height in texels
  FMT                          rgba, yuv, ci, ia or i, or its number from 0 to 4
  SIZ                          4b, 8b, 16b or 32b, or its number from 0 to 3
  -o OBJECT                    where the object's 40 bytes go, for `visor plan` and `visor draw`
  --pointer NUMBER             the object's pointer to the picture; 0 where it is not given
  --scissor ULX,ULY,LRX,LRY    of the plan, in pixels; 0,0,320,240 where it is not given
  --address NUMBER             where the picture is, for the plan; 0x80200000 where it is not given

The object shows the whole picture at the screen's corner, in strips of as many rows as texture
memory holds. Printed are its fields that are not 0, its bytes in hex, and its plan as `visor plan`
prints it. Frame, start and flip may be changed in the object afterwards: no such plan ends with
verdict 7. A picture that no copy object can show is refused, and nothing is written. The exit
status is 1 then; it is 1 too where the plan is refused, and the object is written all the same. An
object that is there is replaced, and any other file is left as it is. From row to row a plan goes
on by whole bytes: a picture of 4 bits a texel wants an even width, and of an odd one a line says so.",
    example: "make 320 12 rgba 16b -o bar.bin",
    shows: "\
bar.bin: a copy object for a picture of 320 x 12 texels, RGBA 16 bits

  offset  field             number  unit       meaning
       2  image_w             1280  1/4 texel  width of the image
       6  frame_w             1280  1/4 pixel  width of the frame
      10  image_h               48  1/4 texel  height of the image
      14  frame_h               48  1/4 pixel  height of the frame
      20  image_load        0xfff4             0xfff4 loads by tile, 0x0033 by block
      23  image_siz              2             size: 0 to 3 for texels of 4, 8, 16 and 32 bits
      30  tmem_h                24  1/4 texel  greatest height of a strip
      32  tmem_load_sh        1920             low half of tmem_h x tmem_size_w
      36  tmem_size_w           80             words of an image row, or those times 2
          all others are 0

  00 00 05 00 00 00 05 00 00 00 00 30 00 00 00 30
  00 00 00 00 ff f4 00 02 00 00 00 00 00 00 00 18
  07 80 00 00 00 50 00 00

copy background, strips of up to 6 rows
image 320 x 12 texels, RGBA 16 bits, at 0x0000000080200000, shown from (0, 0)
frame 320 x 12 pixels at (0, 0), scissor (0, 0) to (320, 240)

  strip      lines    columns      columns         rows   words    bytes            address
 number  on screen  on screen     of image     of image of TMEM     read    first byte read
      1       0..5     0..319       0..319         0..5     480     3840 0x0000000080200000
      2      6..11     0..319       0..319        6..11     480     3840 0x0000000080200f00

11 entries, 2 rectangles; the largest load fills 480 of 512 words of TMEM
verdict 0, finished: The plan is complete.",
    run,
};

fn run(mut args: Args, io: &mut Io) -> Outcome {
    let asked = Asked::take_places(&mut args)?;
    let out = args.value("-o")?;
    let pointer = args.text("--pointer")?;
    let pointer = pointer.map(|value| input::number("--pointer", &value));
    let pointer = pointer.transpose()?.unwrap_or(0);
    let wanted = Wanted::of(&args.operands("W H FMT SIZ")?)?;
    let Wanted {
        width,
        height,
        format,
        size,
    } = wanted;
    match copy_object(width, height, format, size, pointer) {
        Ok(object) => made(&wanted, &object, out, &asked, io),
        Err(reason) => refused(&wanted, reason, out, io),
    }
}

/// What the picture is said to be.
struct Wanted {
    width: u64,
    height: u64,
    format: u64,
    size: u64,
}

impl Wanted {
    fn of(operands: &[OsString; 4]) -> Result<Wanted, Failure> {
        let [width, height, format, size] = operands.each_ref().map(|text| text.to_string_lossy());
        Ok(Wanted {
            width: input::number("W", &width)?,
            height: input::number("H", &height)?,
            format: named("FMT", &format, fields::format_number, fields::format_names)?,
            size: named("SIZ", &size, fields::size_number, fields::size_names)?,
        })
    }

    /// What its texels are called, of a format and a size that there are.
    fn texels(&self) -> String {
        fields::texels(self.format as u8, self.size as u8)
    }
}

/// The number of an operand that has names, or is a number itself.
fn named(
    operand: &str,
    value: &str,
    number: fn(&str) -> Option<u64>,
    names: fn() -> String,
) -> Result<u64, Failure> {
    let found = number(value).or_else(|| input::parsed(value));
    let wanted = || format!("{operand} wants {} or a number, not {value}", names());
    found.ok_or_else(|| Failure::Use(wanted()))
}

/// Saves and shows the object, and its plan.
fn made(
    wanted: &Wanted,
    object: &[u8; 40],
    out: Option<OsString>,
    asked: &Asked,
    io: &mut Io,
) -> Outcome {
    let (width, height, texels) = (wanted.width, wanted.height, wanted.texels());
    let mut told = format!("a copy object for a picture of {width} x {height} texels, {texels}");
    if let Some(out) = out {
        free(&out)?;
        io::save(&out, object)?;
        told = format!("{}: {told}", out.to_string_lossy());
    }
    writeln!(io.out, "{told}\n")?;
    stored(object, io)?;
    writeln!(io.out)?;
    for bytes in object.chunks(16) {
        let pairs: Vec<String> = bytes.iter().map(|byte| format!("{byte:02x}")).collect();
        writeln!(io.out, "  {}", pairs.join(" "))?;
    }
    if let Some(warning) = askew(wanted) {
        writeln!(io.out, "\n{}", io.styled(Style::Bad, &warning))?;
    }
    writeln!(io.out)?;
    let end = strips::print(&asked.object("picture", object, Mode::Copy), io)?;
    Ok(Status::of(&end))
}

/// Only an object may be replaced: whoever types the picture's name for the object's keeps the picture.
fn free(out: &OsStr) -> Result<(), Failure> {
    let taken = Path::new(out).metadata();
    if taken.is_ok_and(|file| file.is_file() && file.len() != OBJECT) {
        let name = out.to_string_lossy();
        return Err(Failure::Use(format!(
            "{name} is there and is no object of {OBJECT} bytes: give another name"
        )));
    }
    Ok(())
}

/// What to know of rows that end in the middle of a byte: a plan goes on by whole bytes (6.3).
fn askew(wanted: &Wanted) -> Option<String> {
    let odd = wanted.size == 0 && wanted.width % 2 == 1;
    odd.then(|| {
        let bytes = counted(wanted.width / 2, "byte", "bytes");
        format!(
            "From row to row the plan goes on by {bytes}, half a byte less than a row has: rows that\n\
             begin at whole bytes want an even width."
        )
    })
}

/// The fields that are not 0.
fn stored(object: &[u8; 40], io: &mut Io) -> Result<(), Failure> {
    let heading = "  offset  field             number  unit       meaning";
    writeln!(io.out, "{}", io.styled(Style::Heading, heading))?;
    for field in fields::of(Mode::Copy) {
        let bytes = &object[field.offset..field.offset + field.bytes];
        let number = field
            .stored(object)
            .filter(|_| bytes.iter().any(|byte| *byte != 0));
        if let Some(number) = number {
            let (offset, name, unit) = (field.offset, field.name, field.measure.unit());
            let meaning = field.meaning;
            writeln!(
                io.out,
                "{offset:>8}  {name:<12}  {number:>10}  {unit:<9}  {meaning}"
            )?;
        }
    }
    writeln!(
        io.out,
        "{}",
        io.styled(Style::Faint, "          all others are 0")
    )?;
    Ok(())
}

fn refused(wanted: &Wanted, reason: NoObject, out: Option<OsString>, io: &mut Io) -> Outcome {
    let told = format!("REFUSED, number {}: {reason}", reason.number());
    writeln!(io.out, "{}", io.styled(Style::Bad, &told))?;
    for fault in faults(wanted, reason) {
        writeln!(io.out, "{fault}")?;
    }
    if let Some(out) = out {
        writeln!(io.out, "{}: nothing is written", out.to_string_lossy())?;
    }
    Ok(Status::Refused)
}

/// The numbers at fault, each tried by itself, with what they may be.
fn faults(wanted: &Wanted, reason: NoObject) -> Vec<String> {
    let Wanted {
        width,
        height,
        format,
        size,
    } = *wanted;
    let made = |width, height, format, size| copy_object(width, height, format, size, 0).is_ok();
    let formats = format!(": {}", fields::format_names());
    let sizes = format!(": {}", fields::size_names());
    let both = match reason {
        NoObject::Texels => [
            fault("the format", format, 0, &formats, |n| made(1, 1, n, 0)),
            fault("the size", size, 0, &sizes, |n| made(1, 1, 0, n)),
        ],
        _ => {
            let texels = format!(" texels of {}", wanted.texels());
            [
                fault("the width", width, 1, &texels, |n| made(n, 1, format, size)),
                fault("the height", height, 1, " texels", |n| {
                    made(1, n, format, size)
                }),
            ]
        }
    };
    both.into_iter().flatten().collect()
}

/// A number that is not taken, with those that are: from the least to the one before the first
/// that is not. The library is asked; no limit of its stands here.
fn fault(
    name: &str,
    number: u64,
    least: u64,
    unit: &str,
    taken: impl Fn(u64) -> bool,
) -> Option<String> {
    if taken(number) {
        return None;
    }
    let (mut greatest, mut beyond) = (least, u64::MAX);
    while beyond - greatest > 1 {
        let middle = greatest + (beyond - greatest) / 2;
        match taken(middle) {
            true => greatest = middle,
            false => beyond = middle,
        }
    }
    let [number, greatest] = [number, greatest].map(grouped);
    Some(format!(
        "{name} is {number}, and may be {least} to {greatest}{unit}"
    ))
}

#[cfg(test)]
mod tests {
    use super::*;

    #[test]
    fn faults_have_what_is_taken() {
        let upto = |limit| move |number| (1..=limit).contains(&number);
        let told = |number| fault("it", number, 1, " rows", upto(5));
        assert_eq!((told(1), told(5)), (None, None));
        assert_eq!(told(0).unwrap(), "it is 0, and may be 1 to 5 rows");
        assert_eq!(told(6).unwrap(), "it is 6, and may be 1 to 5 rows");
        let most = fault("it", u64::MAX, 1, "", upto(u64::MAX - 1)).unwrap();
        assert!(most.ends_with("1 to 18,446,744,073,709,551,614"), "{most}");
    }
}
