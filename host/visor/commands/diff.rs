//! `visor diff`: the first entry in which two plans differ.

use crate::args::Args;
use crate::command::{Command, Failure, Outcome, Status};
use crate::fields::{self, counted, Part};
use crate::input::{self, Asked, Subject};
use crate::io::{Io, Style};
use crate::pages;
use crate::step::{begins_plan, Step, Told};
use std::ffi::OsStr;
use visorlongan::{count, Mode, Planner, Verdict};

pub const COMMAND: Command = Command {
    name: "diff",
    summary: "the first entry in which two plans differ",
    usage: "LEFT RIGHT [INPUT OPTIONS]",
    help: "  LEFT, RIGHT    each a plan's text as bgplan or `visor plan --raw` prints it, or a
                 record, an object or hex

The first entry that differs is shown with the numbers of both sides by name; a star marks those
that differ. Of two requests their own fields that differ are listed too. The exit status is 0
where the plans are the same, 1 where they differ.",
    example: "diff E.bin H.bin",
    shows: "\
entry 1 is the first that differs

           E.bin  H.bin  unit
  kind      tile   tile
  index        7      7
  fmt          0      0
  siz          2      2
* line        81     80  words of 8 bytes
  tmem         0      0  words of 8 bytes
  palette      0      0
  cms          0      0
  cmt          0      0
  masks        0      0  bits
  maskt        0      0  bits

the requests differ in

           E.bin  H.bin  unit
* scale_w   1024   1000  1/1,024
* scale_h   1024   1000  1/1,024",
    run,
};

fn run(mut args: Args, io: &mut Io) -> Outcome {
    let asked = Asked::take(&mut args)?;
    let operands: [_; 2] = args.operands("LEFT RIGHT")?;
    if operands.iter().all(|operand| operand == "-") {
        return Err(Failure::Use(
            "standard input can be only one of the two".to_string(),
        ));
    }
    let sides = [
        Side::read(&operands[0], &asked, io)?,
        Side::read(&operands[1], &asked, io)?,
    ];
    let status = compare(&sides, io)?;
    if let [Plan::Asked(left), Plan::Asked(right)] = [&sides[0].plan, &sides[1].plan] {
        request_fields([left, right], io)?;
    }
    Ok(status)
}

/// One of the two plans, with the name to call it by.
struct Side {
    name: String,
    plan: Plan,
}

enum Plan {
    /// As text, in the form of bgplan.
    Text(String),
    Asked(Subject),
}

impl Side {
    fn read(operand: &OsStr, asked: &Asked, io: &mut Io) -> Result<Side, Failure> {
        let (name, bytes) = input::source(operand, io)?;
        let text = std::str::from_utf8(&bytes)
            .ok()
            .filter(|text| begins_plan(text));
        let plan = match text {
            Some(text) => {
                io.tell(&format!("visor: {name}: a plan's text"));
                Plan::Text(text.to_string())
            }
            None => Plan::Asked(input::only(&name, &bytes, asked, io)?),
        };
        Ok(Side { name, plan })
    }

    fn steps(&self) -> Steps<'_> {
        match &self.plan {
            Plan::Text(text) => Steps::Lines {
                name: &self.name,
                lines: text.lines().enumerate(),
            },
            Plan::Asked(subject) => {
                let planner = Planner::new(&subject.request());
                Steps::Planner(subject, Box::new(planner))
            }
        }
    }
}

/// The steps of a plan, one after another.
enum Steps<'a> {
    Lines {
        name: &'a str,
        lines: std::iter::Enumerate<std::str::Lines<'a>>,
    },
    Planner(&'a Subject, Box<Planner>),
}

impl Steps<'_> {
    /// The next step; after the end nothing asks for one.
    fn next(&mut self) -> Result<Step, Failure> {
        match self {
            Steps::Planner(subject, planner) => {
                if let Some(entry) = planner.next() {
                    return Ok(Step::Entry(entry.to_words()));
                }
                let end = planner.end();
                Ok(end.unwrap_or_else(|| count(&subject.request())).into())
            }
            Steps::Lines { name, lines } => {
                let line = lines.find(|(_, line)| !line.trim().is_empty());
                let missing = "the plan has no end: its last line would begin with 9";
                let (n, line) = line.ok_or(Failure::Input(format!("{name}: {missing}")))?;
                let wrong = || format!("{name}:{}:1: this is no line of a plan", n + 1);
                Step::parse(line).ok_or_else(|| Failure::Input(wrong()))
            }
        }
    }
}

fn compare(sides: &[Side; 2], io: &mut Io) -> Outcome {
    let [mut left, mut right] = [sides[0].steps(), sides[1].steps()];
    for number in 1.. {
        let steps = [left.next()?, right.next()?];
        match steps {
            [Step::End(end), other] if other == steps[0] => {
                let told = ended(&end);
                writeln!(
                    io.out,
                    "{}",
                    io.styled(Style::Good, &format!("the same plan: {told}"))
                )?;
                return Ok(Status::Good);
            }
            [one, other] if one == other => {}
            _ => {
                differ(number, &steps, sides, io)?;
                break;
            }
        }
    }
    Ok(Status::Refused)
}

/// An end in words.
fn ended(&[verdict, entries, rectangles, _]: &[u64; 4]) -> String {
    let verdict = Verdict::try_from(verdict).map_or(format!("verdict {verdict}"), |verdict| {
        let name = pages::name(verdict);
        format!("verdict {}, {name}", verdict.number())
    });
    let entries = counted(entries, "entry", "entries");
    let rectangles = counted(rectangles, "rectangle", "rectangles");
    format!("{entries}, {rectangles}, {verdict}")
}

fn differ(number: u64, steps: &[Step; 2], sides: &[Side; 2], io: &mut Io) -> Result<(), Failure> {
    let names = [sides[0].name.as_str(), sides[1].name.as_str()];
    let told = match steps {
        [Step::Entry(_), Step::Entry(_)] => format!("entry {number} is the first that differs"),
        [Step::End(end), Step::Entry(_)] => {
            format!(
                "{} ends ({}); {} goes on with entry {number}",
                names[0],
                ended(end),
                names[1]
            )
        }
        [Step::Entry(_), Step::End(end)] => {
            format!(
                "{} ends ({}); {} goes on with entry {number}",
                names[1],
                ended(end),
                names[0]
            )
        }
        [Step::End(_), Step::End(_)] => "the entries are the same, and the ends differ".to_string(),
    };
    writeln!(io.out, "{}\n", io.styled(Style::Bad, &told))?;
    let [(left_kind, left), (right_kind, right)] = told_apart(steps);
    let mut rows = Rows::new(names);
    rows.push(
        "kind",
        "",
        Some(left_kind.to_string()),
        Some(right_kind.to_string()),
    );
    for (part, text) in &left {
        rows.push(
            part.name,
            part.unit,
            Some(text.clone()),
            find(&right, part.name),
        );
    }
    for (part, text) in right
        .iter()
        .filter(|(part, _)| find(&left, part.name).is_none())
    {
        rows.push(part.name, part.unit, None, Some(text.clone()));
    }
    rows.print(io)
}

/// What both steps are; an end beside an entry has been told in words.
fn told_apart(steps: &[Step; 2]) -> [Told; 2] {
    let ends = steps.map(|step| matches!(step, Step::End(_)));
    let [mut left, mut right] = steps.map(|step| step.told());
    match ends {
        [true, false] => left.1.clear(),
        [false, true] => right.1.clear(),
        _ => {}
    }
    [left, right]
}

fn find(parts: &[(&Part, String)], name: &str) -> Option<String> {
    let found = parts.iter().find(|(part, _)| part.name == name);
    found.map(|(_, text)| text.clone())
}

/// What stands for a number that one of the sides does not have.
const NONE: &str = "-";

/// A table of numbers of both sides.
struct Rows {
    rows: Vec<[String; 4]>,
}

impl Rows {
    fn new(names: [&str; 2]) -> Rows {
        let [left, right] = names.map(|name| name.rsplit('/').next().unwrap_or(name));
        let names = if left == right {
            ["left", "right"]
        } else {
            [left, right]
        };
        let heading = ["", names[0], names[1], "unit"];
        Rows {
            rows: vec![heading.map(str::to_string)],
        }
    }

    fn push(&mut self, name: &str, unit: &str, left: Option<String>, right: Option<String>) {
        let [left, right] = [left, right].map(|text| text.unwrap_or(NONE.to_string()));
        self.rows
            .push([name.to_string(), left, right, unit.to_string()]);
    }

    fn print(&self, io: &mut Io) -> Result<(), Failure> {
        let width = |column: usize| {
            let widths = self.rows.iter().map(|row| row[column].chars().count());
            widths.max().unwrap_or(0)
        };
        let widths = [0, 1, 2].map(width);
        for (n, [name, left, right, unit]) in self.rows.iter().enumerate() {
            let differs = n > 0 && left != right && left != NONE && right != NONE;
            let line = format!(
                "{} {name:<a$}  {left:>b$}  {right:>c$}  {unit}",
                if differs { "*" } else { " " },
                a = widths[0],
                b = widths[1],
                c = widths[2]
            );
            let style = match (n, differs) {
                (0, _) => Style::Heading,
                (_, true) => Style::Bad,
                _ => Style::Faint,
            };
            writeln!(io.out, "{}", io.styled(style, line.trim_end()))?;
        }
        Ok(())
    }
}

/// The fields in which two requests differ.
fn request_fields(subjects: [&Subject; 2], io: &mut Io) -> Result<(), Failure> {
    let [left, right] = subjects.map(values);
    let mut rows = Rows::new(subjects.map(|subject| subject.name.as_str()));
    let here = |values: &[Value], name: &str| {
        let found = values.iter().find(|value| value.name == name);
        found.map(|value| value.text.clone())
    };
    let only_right = right
        .iter()
        .filter(|value| here(&left, value.name).is_none());
    for value in left.iter().chain(only_right) {
        let texts = [here(&left, value.name), here(&right, value.name)];
        if texts[0] != texts[1] {
            let [left, right] = texts;
            rows.push(value.name, value.unit, left, right);
        }
    }
    if rows.rows.len() == 1 {
        writeln!(io.out, "\nthe requests are the same")?;
        return Ok(());
    }
    writeln!(
        io.out,
        "\n{}\n",
        io.styled(Style::Heading, "the requests differ in")
    )?;
    rows.print(io)
}

/// A field of a request.
struct Value {
    name: &'static str,
    unit: &'static str,
    text: String,
}

fn values(subject: &Subject) -> Vec<Value> {
    let mode = Mode::of(subject.opcode).unwrap_or(Mode::Copy);
    let object = fields::of(mode).filter_map(|field| {
        Some(Value {
            name: field.name,
            unit: field.measure.unit(),
            text: field.stored(&subject.object)?,
        })
    });
    let scissor = subject.scissor;
    let asked = [
        scissor.ulx.to_string(),
        scissor.uly.to_string(),
        scissor.lrx.to_string(),
        scissor.lry.to_string(),
        format!("{:#010x}", subject.render_mode),
        subject.opcode.to_string(),
        fields::address(subject.address),
    ];
    let request = fields::REQUEST
        .iter()
        .zip(asked)
        .map(|(field, text)| Value {
            name: field.name,
            unit: field.measure.unit(),
            text,
        });
    object.chain(request).collect()
}

#[cfg(test)]
mod tests {
    use super::*;

    #[test]
    fn a_text_that_is_no_plan_says_where() {
        let side = |text: &str| Side {
            name: "p.txt".to_string(),
            plan: Plan::Text(text.to_string()),
        };
        let cut = side(" 1 0 2 15 4096\n\n");
        let mut steps = cut.steps();
        assert!(steps.next().is_ok());
        let Err(Failure::Input(said)) = steps.next() else {
            panic!("no end");
        };
        assert!(said.starts_with("p.txt: the plan has no end"));
        let damaged = side(" 1 0 2 15 4096\n\n 2 7\n");
        let mut steps = damaged.steps();
        assert!(steps.next().is_ok());
        let wrong = Failure::Input("p.txt:3:1: this is no line of a plan".to_string());
        assert_eq!(steps.next(), Err(wrong));
    }
}
