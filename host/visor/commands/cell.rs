//! `visor cell`: what one cell of a copied background should show.

use crate::args::Args;
use crate::clipped::Clipped;
use crate::command::{Command, Failure, Outcome, Status};
use crate::fields::{address, counted, grouped};
use crate::input::{self, Asked, Subject};
use crate::io::{Io, Style};
use crate::reading::{columns, is_too_wide, Reading};
use crate::strips::{self, Measured};
use crate::study::row_bytes;
use std::fmt::{self, Display};
use visorlongan::{
    count, sample, End, Entry, Load, Mode, Object, Planner, Request, Sample, Scissor, BG_COPY,
};

pub const COMMAND: Command = Command {
    name: "cell",
    summary: "what one cell of a copied background should show: the image's column and row",
    usage: "FILE X Y [INPUT OPTIONS]",
    help: "  FILE    a record or an object of a copied background
  X, Y    the cell's column and line in the clipped frame, each from 0: that frame is what the
          scissor leaves of the object's, and its cells are as large as pixels

Printed are the image's column and row, the cell's place on the screen, the address of the texel,
and the rectangle and the load that show it, by their numbers in `visor plan FILE --entries`.
Column and row come from an engine that makes no plan. The plan is read so: cell i of a rectangle
shows number uls / 32 + i of the columns of the load before it, of which 0 is the first; counted
down from there, -1 is the first again and -2 the second. Line j of it shows the load's first row
plus j. That this gives the same is proved of every finished plan, but for flipped loads of more
than 1,024 columns.

A cell outside the clipped frame is answered as outside. Where the plan ends before the cell, no
rectangle shows it, and the engine answers all the same. The exit status is 0 then too; it is 1
where the object or the scissor is refused, and 2 where FILE is a scaled background.",
    example: "cell C.bin 28 3 --scissor 100,5,320,240",
    shows: "\
copy background, strips of up to 8 rows
image 256 x 9 texels, RGBA 16 bits, at 0x0000000000001000, shown from (0, 0)
frame 256 x 9 pixels at (0, 0), scissor (100, 5) to (320, 240)

cell (28, 3) should show column 128, row 8 of the image

on screen  pixel (128, 8); the clipped frame has 156 columns and 4 lines from pixel (100, 5) on
address    0x0000000000002100, 2 bytes
rectangle  entry 6, of strip 1: its cell i = 28 of 0..155, its line j = 3 of 0..3
load       entry 5: columns 100..255 and rows 5..8 of the image
           number uls / 32 + i = 0 + 28 = 28 of its columns, where 0 is the first: column 128
           number j = 3 of its rows, where 0 is the first: row 8

rectangle and load show the same, as is proved for this cell (SPECIFICATION 16.4)",
    run,
};

fn run(mut args: Args, io: &mut Io) -> Outcome {
    let asked = Asked::take(&mut args)?;
    let [file, x, y] = args.operands("FILE X Y")?;
    let column = input::number("X", &x.to_string_lossy())?;
    let line = input::number("Y", &y.to_string_lossy())?;
    let subject = input::subject(&file, &asked, io)?;
    copied(&subject)?;
    strips::introduce(&subject, io)?;
    writeln!(io.out)?;
    let cell = || Cell::of(&subject, column, line);
    match sample(&subject.object, subject.scissor, column, line) {
        Sample::Texel { column, row } => shown(&cell(), &Texel { column, row }, io)?,
        Sample::Outside => outside(&cell(), io)?,
        Sample::Refused(verdict) => {
            let told = format!("REFUSED, {}", strips::verdict(verdict));
            strips::refused(verdict, &told, io)?;
            return Ok(Status::Refused);
        }
    }
    Ok(Status::Good)
}

/// The engine would answer another background too, as if its bytes were a copied one's.
fn copied(subject: &Subject) -> Result<(), Failure> {
    let (name, opcode) = (&subject.name, subject.opcode);
    let kind = match Mode::of(opcode) {
        Some(Mode::Copy) => return Ok(()),
        Some(Mode::Scaled) => "a scaled background's",
        None => "no background's",
    };
    Err(Failure::Input(format!(
        "{name}: its opcode is {opcode}, {kind}; `visor cell` is for copied ones, with opcode \
         {BG_COPY}"
    )))
}

/// The cell that is asked for.
struct Cell<'a> {
    subject: &'a Subject,
    object: Object,
    frame: Clipped,
    column: u64,
    line: u64,
}

impl Cell<'_> {
    /// That of an object which is not refused.
    fn of(subject: &Subject, column: u64, line: u64) -> Cell<'_> {
        let object = Object::decode(&subject.object, Mode::Copy).expect("an object of 40 bytes");
        let Scissor { ulx, uly, lrx, lry } = subject.scissor;
        Cell {
            subject,
            object,
            frame: Clipped::of(&object, [ulx, uly, lrx, lry]),
            column,
            line,
        }
    }

    /// Where it begins on the screen, in quarters of a pixel, if it lies in the frame.
    fn begins(&self) -> [i32; 2] {
        let Clipped { left, top, .. } = self.frame;
        [left + 4 * self.column as i32, top + 4 * self.line as i32]
    }

    fn pixel(&self) -> String {
        let begins = self.begins();
        let [x, y] = begins.map(|quarters| quarters.div_euclid(4));
        match begins.map(|quarters| quarters % 4) {
            [0, 0] => format!("pixel ({x}, {y})"),
            _ => {
                let [left, top] = begins.map(|quarters| f64::from(quarters) / 4.0);
                format!("pixel ({x}, {y}), in which it begins at ({left}, {top})")
            }
        }
    }

    /// What the clipped frame has.
    fn frame_has(&self) -> String {
        let Clipped { columns, lines, .. } = self.frame;
        let (x, y) = self.frame.pixels();
        let columns = counted(columns as u64, "column", "columns");
        let lines = counted(lines as u64, "line", "lines");
        format!(
            "{columns} and {lines} from pixel ({}, {}) on",
            x.start, y.start
        )
    }
}

impl Display for Cell<'_> {
    fn fmt(&self, f: &mut fmt::Formatter) -> fmt::Result {
        write!(f, "cell ({}, {})", self.column, self.line)
    }
}

fn outside(cell: &Cell, io: &mut Io) -> Result<(), Failure> {
    let Clipped { columns, lines, .. } = cell.frame;
    let told = format!("{cell} lies outside the clipped frame");
    let told = io.styled(Style::Heading, &told);
    match columns.min(lines) {
        0 => writeln!(
            io.out,
            "{told}, which is empty: less than a cell of the frame lies inside the scissor"
        )?,
        _ => {
            let (has, right, lower) = (cell.frame_has(), columns - 1, lines - 1);
            writeln!(
                io.out,
                "{told}, which has {has}: cells (0, 0) to ({right}, {lower})"
            )?;
        }
    }
    Ok(())
}

/// A texel of the image.
#[derive(Debug, PartialEq, Eq)]
struct Texel {
    column: u64,
    row: u64,
}

impl Display for Texel {
    fn fmt(&self, f: &mut fmt::Formatter) -> fmt::Result {
        write!(f, "column {}, row {} of the image", self.column, self.row)
    }
}

/// What the engine says that a cell should show, and how the plan comes to it.
fn shown(cell: &Cell, texel: &Texel, io: &mut Io) -> Result<(), Failure> {
    let request = cell.subject.request();
    let end = count(&request);
    let strip = Strip::of(&request, cell.begins());
    let rows = match &strip {
        Some(strip) => Rows::of(&strip.reading.load),
        None => Rows::of_image(cell),
    };
    let told = format!("{cell} should show {texel}");
    writeln!(io.out, "{}\n", io.styled(Style::Heading, &told))?;
    let (pixel, has) = (cell.pixel(), cell.frame_has());
    part(
        "on screen",
        &format!("{pixel}; the clipped frame has {has}"),
        io,
    )?;
    part("address", &rows.place(texel, cell.object.image_siz), io)?;
    let Some(strip) = strip else {
        let told = format!("no rectangle of the plan shows it: {}", stop(cell, &end));
        writeln!(io.out)?;
        return strips::refused(end.verdict, &told, io);
    };
    strip.tell(io)?;
    let (style, told) = compared(cell, texel, &strip, &end);
    writeln!(io.out, "\n{}", io.styled(style, &told))?;
    Ok(())
}

/// A line of the answer beside its heading.
fn part(heading: &str, text: &str, io: &mut Io) -> Result<(), Failure> {
    let heading = io.styled(Style::Heading, &format!("{heading:<10}"));
    Ok(writeln!(io.out, "{heading} {text}")?)
}

/// The strip of a plan that shows a cell.
struct Strip {
    /// Its number in the table of `visor plan`.
    number: u64,
    /// The numbers of its load and of its rectangle.
    entries: [u64; 2],
    reading: Reading,
    /// The cell in the rectangle.
    cell: [i32; 2],
}

impl Strip {
    /// That whose rectangle has the cell which begins at a place of the screen, in quarters of a
    /// pixel.
    fn of(request: &Request, place: [i32; 2]) -> Option<Strip> {
        let mut rectangles = 0;
        let mut last = None;
        for (entry, number) in Planner::new(request).zip(1..) {
            match entry {
                Entry::Load(load) => last = Some((number, load)),
                Entry::Rect(rect) => {
                    rectangles += 1;
                    let (before, load) = last?;
                    let reading = Reading { load, rect };
                    if let Some(cell) = reading.cell(place) {
                        return Some(Strip {
                            number: rectangles,
                            entries: [before, number],
                            reading,
                            cell,
                        });
                    }
                }
                Entry::Image(_) | Entry::Tile(_) | Entry::Size(_) => {}
            }
        }
        None
    }

    /// What its rectangle and its load show at the cell.
    fn texel(&self) -> Texel {
        let [i, j] = self.cell;
        Texel {
            column: self.reading.column(i),
            row: self.reading.row(j),
        }
    }

    fn tell(&self, io: &mut Io) -> Result<(), Failure> {
        let Reading { load, rect } = self.reading;
        let ([i, j], [loaded, drawn]) = (self.cell, self.entries);
        let [last_i, last_j] = [(rect.lrx - rect.ulx) / 4, (rect.lry - rect.uly) / 4];
        let strip = self.number;
        let cell = format!("its cell i = {i} of 0..{last_i}, its line j = {j} of 0..{last_j}");
        part(
            "rectangle",
            &format!("entry {drawn}, of strip {strip}: {cell}"),
            io,
        )?;
        let ends = |first: u16, last: u16| format!("{}..{}", first / 4, last / 4);
        let (columns, rows) = (ends(load.uls, load.lrs), ends(load.ult, load.lrt));
        let read = format!("columns {columns} and rows {rows} of the image");
        part("load", &format!("entry {loaded}: {read}"), io)?;
        let (number, Texel { column, row }) = (self.reading.number(i), self.texel());
        let sum = format!("uls / 32 + i = {} + {i} = {number}", number - i);
        let first = if number < 0 { -1 } else { 0 };
        let found = |loaded: bool, told: String| match loaded {
            true => told,
            false => "not loaded".to_string(),
        };
        let column = found(self.reading.has_column(i), format!("column {column}"));
        let row = found(self.reading.has_row(j), format!("row {row}"));
        let across = format!("number {sum} of its columns, where {first} is the first: {column}");
        let down = format!("number j = {j} of its rows, where 0 is the first: {row}");
        part("", &across, io)?;
        part("", &down, io)
    }
}

/// The plan's answer beside the engine's.
fn compared(cell: &Cell, texel: &Texel, strip: &Strip, end: &End) -> (Style, String) {
    let (shown, load) = (strip.texel(), &strip.reading.load);
    let (style, what) = match strip.reading.is_loaded(strip.cell) {
        false => (Style::Bad, "what is not loaded".to_string()),
        true if shown != *texel => (Style::Bad, format!("another, {shown}")),
        true => (Style::Good, "the same".to_string()),
    };
    let why = if is_too_wide(&cell.object, load) {
        let columns = grouped(columns(load));
        format!(
            ": nothing is claimed of a flipped load of more than 1,024 columns, and this one has \
             {columns} (SPECIFICATION 16.4)"
        )
    } else if style == Style::Bad {
        ": they should show the same (SPECIFICATION 16.4)".to_string()
    } else {
        match end.result() {
            Ok(()) => ", as is proved for this cell (SPECIFICATION 16.4)".to_string(),
            Err(_) => format!("; the plan ends further on, with {}", stop(cell, end)),
        }
    };
    (style, format!("rectangle and load show {what}{why}"))
}

/// Where and why the plan ends that is not finished.
fn stop(cell: &Cell, end: &End) -> String {
    strips::stop(cell.subject, end, &Measured::default())
}

/// Rows of the image in memory.
struct Rows {
    /// The address of the first byte, and the column and row of the texel there.
    start: u64,
    first: Texel,
    /// Bytes from row to row.
    stride: u64,
}

impl Rows {
    /// Those that a load reads.
    fn of(load: &Load) -> Rows {
        Rows {
            start: load.start,
            first: Texel {
                column: (load.uls / 4).into(),
                row: (load.ult / 4).into(),
            },
            stride: load.stride,
        }
    }

    /// All of them, where no load has the texel.
    fn of_image(cell: &Cell) -> Rows {
        Rows {
            start: cell.subject.address,
            first: Texel { column: 0, row: 0 },
            stride: row_bytes(Mode::Copy, &cell.object),
        }
    }

    /// The half bytes before a texel, from address 0 on.
    fn half(&self, texel: &Texel, siz: u8) -> i128 {
        let from = |number: u64, first: u64| i128::from(number) - i128::from(first);
        let rows = i128::from(self.stride) * from(texel.row, self.first.row);
        let columns = from(texel.column, self.first.column);
        2 * (i128::from(self.start) + rows) + (columns << siz)
    }

    /// The address of a texel, and what of the bytes there is the texel's. Of a byte's two texels the
    /// first has the high bits.
    fn place(&self, texel: &Texel, siz: u8) -> String {
        let half = self.half(texel, siz);
        let bytes = match siz {
            0 if half % 2 == 0 => "the high four bits of the byte".to_string(),
            0 => "the low four bits of the byte".to_string(),
            _ => counted(1 << siz >> 1, "byte", "bytes"),
        };
        // A texel of several bytes may begin in the address space and end beyond it.
        let [first, last] = [half, half + (1 << siz) - 1].map(|half| half.div_euclid(2));
        match (u64::try_from(first), u64::try_from(last)) {
            (Ok(first), Ok(_)) => format!("{}, {bytes}", address(first)),
            _ => "beyond the 64-bit address space".to_string(),
        }
    }
}

#[cfg(test)]
mod tests {
    use super::*;
    use crate::machine::Machine;
    use visorlongan::{copy_object, Verdict};

    /// 21 by 10 texels, shown from column 19 and row 8 in a frame of 50 by 12 cells that begins inside
    /// a pixel: three strips side by side, or more.
    fn subject(size: u64, flip: u8) -> Subject {
        let mut object = copy_object(21, 10, 0, size, 0).expect("an object");
        let fields = [
            (0, 19 * 32),
            (4, -6),
            (6, 203),
            (8, 8 * 32),
            (12, 3),
            (14, 48),
        ];
        for (at, field) in fields {
            object[at..at + 2].copy_from_slice(&i16::to_be_bytes(field));
        }
        object[27] = flip;
        Asked::default().object("title", &object, Mode::Copy)
    }

    fn engine(subject: &Subject, column: u64, line: u64) -> Texel {
        match sample(&subject.object, subject.scissor, column, line) {
            Sample::Texel { column, row } => Texel { column, row },
            other => panic!("{other:?}"),
        }
    }

    /// The plan done on the machine, whose pixels tell which half byte they show.
    fn drawn(subject: &Subject) -> Machine {
        let mut machine = Machine::new(320, 240);
        for entry in Planner::new(&subject.request()) {
            machine.tiles.apply(&entry);
            match entry {
                Entry::Load(load) => machine.load(&load),
                Entry::Rect(rect) => machine.draw(&rect),
                Entry::Image(_) | Entry::Tile(_) | Entry::Size(_) => {}
            }
        }
        machine
    }

    /// Of every cell the plan's texel is the engine's, and lies where the cell's pixel has it from.
    #[test]
    fn every_cell_is_where_its_pixel_has_it_from() {
        for (siz, flip) in [0, 1, 2, 3]
            .into_iter()
            .flat_map(|siz| [(siz, 0), (siz, 1)])
        {
            let subject = subject(siz.into(), flip);
            let machine = drawn(&subject);
            let Clipped { columns, lines, .. } = Cell::of(&subject, 0, 0).frame;
            assert_eq!((columns, lines), (49, 12));
            for (column, line) in (0..49).flat_map(|x| (0..12).map(move |y| (x, y))) {
                let cell = Cell::of(&subject, column, line);
                let strip = Strip::of(&subject.request(), cell.begins()).expect("a strip");
                let texel = engine(&subject, column, line);
                assert_eq!(strip.texel(), texel);
                let [x, y] = cell.begins().map(|quarters| quarters.div_euclid(4));
                let shown = machine.pixel(x, y).shows.expect("a texel").into();
                assert_eq!(Rows::of(&strip.reading.load).half(&texel, siz), shown);
                assert_eq!(Rows::of_image(&cell).half(&texel, siz), shown);
            }
        }
    }

    #[test]
    fn places_of_texels() {
        let rows = |start| Rows {
            start,
            first: Texel { column: 16, row: 2 },
            stride: 10,
        };
        let told = |start, column, row, siz| rows(start).place(&Texel { column, row }, siz);
        let high = "0x0000000000001000, the high four bits of the byte";
        assert_eq!(told(4_096, 16, 2, 0), high);
        let low = "0x000000000000100c, the low four bits of the byte";
        assert_eq!(told(4_096, 21, 3, 0), low);
        assert_eq!(told(4_096, 21, 3, 1), "0x000000000000100f, 1 byte");
        assert_eq!(told(4_096, 21, 3, 2), "0x0000000000001014, 2 bytes");
        assert_eq!(told(4_096, 21, 3, 3), "0x000000000000101e, 4 bytes");
        assert_eq!(told(u64::MAX, 16, 2, 1), "0xffffffffffffffff, 1 byte");
        let beyond = "beyond the 64-bit address space";
        assert_eq!(told(u64::MAX, 17, 2, 1), beyond);
        let half = "0xffffffffffffffff, the low four bits of the byte";
        assert_eq!(told(u64::MAX, 17, 2, 0), half);
        assert_eq!(told(u64::MAX, 18, 2, 0), beyond);
        let last = "0xfffffffffffffffe, 2 bytes";
        assert_eq!(told(u64::MAX - 1, 16, 2, 2), last);
        assert_eq!(told(u64::MAX, 16, 2, 2), beyond);
        let last = "0xfffffffffffffffc, 4 bytes";
        assert_eq!(told(u64::MAX - 3, 16, 2, 3), last);
        assert_eq!(told(u64::MAX - 2, 16, 2, 3), beyond);
    }

    /// What is said of a cell, numbers and comparison, where its rectangle and its load were changed.
    fn told(subject: &Subject, place: [u64; 2], change: fn(&mut Reading)) -> (Style, String) {
        let [column, line] = place;
        let (cell, end) = (Cell::of(subject, column, line), count(&subject.request()));
        assert_eq!(end.verdict, Verdict::Finished);
        let mut strip = Strip::of(&subject.request(), cell.begins()).expect("a strip");
        change(&mut strip.reading);
        let (mut out, mut err) = (Vec::new(), Vec::new());
        let mut io = Io {
            input: &mut std::io::empty(),
            out: &mut out,
            err: &mut err,
            colour: false,
            watched: false,
        };
        strip.tell(&mut io).expect("written");
        let texel = engine(subject, column, line);
        let (style, said) = compared(&cell, &texel, &strip, &end);
        (style, String::from_utf8(out).expect("text") + &said)
    }

    const PROVED: &str = "show the same, as is proved for this cell (SPECIFICATION 16.4)";

    #[test]
    fn another_texel_is_told() {
        let subject = subject(2, 1);
        let (style, said) = told(&subject, [0, 1], |_| {});
        assert!(style == Style::Good && said.ends_with(PROVED), "{said}");
        let wrong = |change: fn(&mut Reading), shown: &str| {
            let (style, said) = told(&subject, [0, 1], change);
            let ending = format!("{shown}: they should show the same (SPECIFICATION 16.4)");
            assert!(style == Style::Bad && said.ends_with(&ending), "{said}");
            said
        };
        let another = "show another, column 3, row 9 of the image";
        wrong(|reading| reading.rect.uls += 32, another);
        // The right texel, of a column or a row that is not loaded.
        let lost = "show what is not loaded";
        let said = wrong(|reading| reading.load.lrs -= 4, lost);
        assert!(said.contains("where -1 is the first: not loaded\n"));
        assert!(said.contains("where 0 is the first: row 9\n"));
        let said = wrong(|reading| reading.load.lrt -= 4, lost);
        assert!(said.contains("where -1 is the first: column 4\n"));
        assert!(said.contains("where 0 is the first: not loaded\n"));
    }

    /// Of a flipped load of more than 1,024 columns it is not said that the right texel is proved.
    #[test]
    fn what_is_not_claimed_is_told() {
        let wide = |r: &mut Reading| r.load.lrs = r.load.uls + 4 * 1_024;
        let (_, said) = told(&subject(2, 1), [0, 0], wide);
        let nothing = "show the same: nothing is claimed of a flipped load of more than 1,024 \
                       columns, and this one has 1,025 (SPECIFICATION 16.4)";
        assert!(said.ends_with(nothing), "{said}");
        let (_, said) = told(&subject(2, 0), [0, 0], wide);
        assert!(said.ends_with(PROVED), "{said}");
        let narrower = |r: &mut Reading| r.load.lrs = r.load.uls + 4 * 1_023;
        let (_, said) = told(&subject(2, 1), [0, 0], narrower);
        assert!(said.ends_with(PROVED), "{said}");
    }
}
