//! `visor explain`: the page of a verdict.

use crate::args::Args;
use crate::command::{Command, Failure, Outcome, Status};
use crate::fields;
use crate::io::{Io, Style};
use crate::pages::{self, Page};
use visorlongan::{Mode, Verdict};

pub const COMMAND: Command = Command {
    name: "explain",
    summary: "what a verdict means, and what to look at first",
    usage: "[NUMBER]",
    help: "  NUMBER    a verdict, as a plan's end has it; without it all are listed

The page says exactly when the verdict comes, what the plan leaves behind, which fields to look at,
what would be right, and a command that shows it on the worked cases.",
    example: "explain 7",
    shows: "\
verdict 7, too big
A copy strip does not fit texture memory.

when     The rows of a copy strip, each rounded up to whole words, need more words
         than texture memory has for them: 256 where the format is CI or a texel has
         32 bits, else 512. The first such strip ends the plan. (SPECIFICATION 7.8
         step 1)

left     The entries before it stand, and the tiles are as after them.

look at  offset  bytes  field         unit        meaning
             30      2  tmem_h        1/4 texel   greatest height of a strip
              2      2  image_w       1/4 texel   width of the image
              6      2  frame_w       1/4 pixel   width of the frame
             22      1  image_fmt                 format: 0 RGBA, 1 YUV, 2 CI, 3 IA, 4 I
             23      1  image_siz                 size: 0 to 3 for texels of 4, 8, 16 and 32 bits

right    A tmem_h of at most 4 times the rows that fit (words of texture memory /
         words of a row, rounded down), and tmem_load_sh and tmem_size made anew
         from it. A strip that does not begin at a whole word needs one word more in
         each row. `visor make` makes an object of a picture that has it right for
         every frame.

example  Rows of 80 words, 7 at once: 560 of 512 words. Case A has 6 at once and is
         planned.
           $ visor plan B.bin",
    run,
};

/// The columns of a page's text.
const WIDTH: usize = 84;

fn run(args: Args, io: &mut Io) -> Outcome {
    let operands = args.any_operands()?;
    match operands.as_slice() {
        [] => list(io)?,
        [number] => page(wanted(&number.to_string_lossy())?, io)?,
        _ => {
            return Err(Failure::Use(
                "too many operands: NUMBER is wanted".to_string(),
            ))
        }
    }
    Ok(Status::Good)
}

fn wanted(text: &str) -> Result<&'static Page, Failure> {
    let number = text.parse::<u64>().ok();
    let verdict = number.and_then(|number| Verdict::try_from(number).ok());
    let last = pages::ALL.len() - 1;
    let besides = match number {
        Some(11) => "; 11 is what `visor make` says of a picture that no object can show",
        _ => "",
    };
    let unknown = || {
        Failure::Use(format!(
            "there is no verdict {text}: they go from 0 to {last}{besides}"
        ))
    };
    verdict.and_then(pages::of).ok_or_else(unknown)
}

fn list(io: &mut Io) -> Result<(), Failure> {
    for page in pages::ALL {
        let (number, sentence) = (page.verdict.number(), page.verdict.sentence());
        let name = io.styled(Style::Heading, &format!("{:<8}", page.name));
        let lines = wrapped(sentence, WIDTH - 14);
        for (n, line) in lines.iter().enumerate() {
            match n {
                0 => writeln!(io.out, "{number:>4}  {name}  {line}")?,
                _ => writeln!(io.out, "{:14}  {line}", "")?,
            }
        }
    }
    Ok(())
}

fn page(page: &Page, io: &mut Io) -> Result<(), Failure> {
    let title = format!("verdict {}, {}", page.verdict.number(), page.name);
    writeln!(io.out, "{}", io.styled(Style::Heading, &title))?;
    paragraph("", page.verdict.sentence(), io)?;
    let when = format!("{} (SPECIFICATION {})", page.when, page.statement);
    paragraph("when", &when, io)?;
    paragraph("left", page.left, io)?;
    look_at(page.look, io)?;
    paragraph("right", page.right, io)?;
    paragraph("example", page.seen, io)?;
    writeln!(io.out, "           $ {}", page.example)?;
    Ok(())
}

/// A paragraph beside its heading.
fn paragraph(heading: &str, text: &str, io: &mut Io) -> Result<(), Failure> {
    let indent = if heading.is_empty() { 0 } else { 9 };
    if !heading.is_empty() {
        writeln!(io.out)?;
    }
    for (n, line) in wrapped(text, WIDTH - indent).iter().enumerate() {
        let heading = format!("{:indent$}", if n == 0 { heading } else { "" });
        let heading = io.styled(Style::Heading, &heading);
        writeln!(io.out, "{heading}{line}")?;
    }
    Ok(())
}

fn look_at(names: &[&str], io: &mut Io) -> Result<(), Failure> {
    if names.is_empty() {
        return Ok(());
    }
    let heading = io.styled(Style::Heading, "look at");
    let columns = "offset  bytes  field         unit        meaning";
    let columns = io.styled(Style::Faint, columns);
    writeln!(io.out, "\n{heading}  {columns}")?;
    let mut behind = false;
    for field in names.iter().filter_map(|name| fields::named(name)) {
        let (name, unit) = (field.name, field.measure.unit());
        let (offset, bytes, meaning) = (field.offset, field.bytes, field.meaning);
        let place = format!("{offset:>15}{bytes:>7}");
        writeln!(io.out, "{place}  {name:<12}  {unit:<10}  {meaning}")?;
        behind |= offset >= Mode::Copy.object_bytes();
    }
    if behind {
        let told = "         Offsets from 40 on are those of a record, behind its object.";
        writeln!(io.out, "{}", io.styled(Style::Faint, told))?;
    }
    Ok(())
}

/// A text in lines of at most so many letters; a longer word stands alone.
fn wrapped(text: &str, width: usize) -> Vec<String> {
    let mut lines = vec![String::new()];
    for word in text.split_whitespace() {
        let line = lines.last_mut().expect("there is always a line");
        if !line.is_empty() && line.chars().count() + 1 + word.chars().count() > width {
            lines.push(word.to_string());
        } else {
            let blank = if line.is_empty() { "" } else { " " };
            *line += &format!("{blank}{word}");
        }
    }
    lines
}

#[cfg(test)]
mod tests {
    use super::*;

    #[test]
    fn lines_are_no_longer_than_wanted() {
        assert_eq!(wrapped("one two three", 7), ["one two", "three"]);
        assert_eq!(
            wrapped("incomprehensible is it", 5),
            ["incomprehensible", "is it"]
        );
        assert_eq!(wrapped("", 5), [""]);
    }
}
