//! Command lines and inputs at random: whatever they are, there is an answer and a status from 0 to
//! 3, and nobody panics. Nor does a sheet, a picture or a report of any record. FUZZ_SECONDS says for
//! how long; the default is 1.

use crate::clipped::Clipped;
use crate::input::Subject;
use crate::io::Io;
use crate::picture::Picture;
use crate::report::{summary, Row};
use crate::sheet::Sheet;
use crate::study::Study;
use crate::{page, png, raster, run, svg};
use std::ffi::OsString;
use std::io::{self, Write};
use std::time::{Duration, Instant};
use visorlongan::{sample, Mode, Object, Record, Sample, Scissor};

/// Numbers that look like chance and are the same in each run (splitmix64).
pub struct Random(u64);

impl Random {
    pub const fn new(seed: u64) -> Random {
        Random(seed)
    }

    pub fn number(&mut self) -> u64 {
        self.0 = self.0.wrapping_add(0x9e37_79b9_7f4a_7c15);
        let mut n = self.0;
        n = (n ^ (n >> 30)).wrapping_mul(0xbf58_476d_1ce4_e5b9);
        n = (n ^ (n >> 27)).wrapping_mul(0x94d0_49bb_1331_11eb);
        n ^ (n >> 31)
    }

    /// A number below a limit, which is not 0.
    pub fn below(&mut self, limit: usize) -> usize {
        (self.number() % limit as u64) as usize
    }

    pub fn of<'a, T: ?Sized>(&mut self, all: &[&'a T]) -> &'a T {
        all[self.below(all.len())]
    }
}

/// Takes so many bytes; then nobody reads any more, as when `head` has ended.
struct Head(usize);

impl Write for Head {
    fn write(&mut self, bytes: &[u8]) -> io::Result<usize> {
        self.0 = self
            .0
            .checked_sub(bytes.len())
            .ok_or(io::ErrorKind::BrokenPipe)?;
        Ok(bytes.len())
    }

    fn flush(&mut self) -> io::Result<()> {
        Ok(())
    }
}

const CASES: &str = concat!(env!("CARGO_MANIFEST_DIR"), "/tests/cases");

fn word(random: &mut Random) -> OsString {
    let words = [
        "-",
        "-",
        "-",
        "L.bin",
        "H.bin",
        "J.bin",
        "L.txt",
        "B.txt",
        "no-such-file",
        "--entries",
        "--json",
        "--raw",
        "--as",
        "record",
        "copy",
        "scaled",
        "hex",
        "--as=hex",
        "--as=copy",
        "--as=scaled",
        "--scissor",
        "0,0,320,240",
        "--scissor=0,0,1023,1023",
        "--mode",
        "8",
        "--address",
        "0xffffffffffffff00",
        "--",
        "--help",
        "--pointer",
        "-1",
        "7",
        "11",
        "320",
        "rgba",
        "16b",
        "99999999999999999999",
        "",
    ];
    let word = random.of(&words);
    match word.ends_with(".bin") || word.ends_with(".txt") {
        true => format!("{CASES}/{word}").into(),
        false => word.into(),
    }
}

/// A record with some bytes changed, cut off or written as hex.
fn input(random: &mut Random) -> Vec<u8> {
    let case = random.of(&["L", "A", "C", "E", "H", "I", "J", "O"]);
    let mut bytes = std::fs::read(format!("{CASES}/{case}.bin")).expect("a case");
    for _ in 0..random.below(4) {
        let at = random.below(bytes.len());
        bytes[at] = random.number() as u8;
    }
    let lengths = [61, 61, 61, 40, 36, random.below(62)];
    bytes.truncate(lengths[random.below(lengths.len())]);
    if random.below(2) == 0 {
        let pairs = bytes
            .iter()
            .flat_map(|byte| format!("{byte:02x} ").into_bytes());
        let mut text: Vec<u8> = pairs.collect();
        for _ in 0..random.below(3) {
            let at = random.below(text.len() + 1);
            text.insert(
                at,
                *random.of(&[&b'0', &b'\n', &b'x', &b'*', &0xc3, &b':', &b'|']),
            );
        }
        return text;
    }
    bytes
}

fn deadline() -> Instant {
    let seconds = std::env::var("FUZZ_SECONDS");
    let seconds = seconds.ok().and_then(|text| text.parse().ok());
    Instant::now() + Duration::from_secs(seconds.unwrap_or(1))
}

/// Runs a command line on some input: its status, and what is said on standard error.
fn answered(
    arguments: Vec<OsString>,
    bytes: &[u8],
    out: &mut dyn Write,
    colour: bool,
) -> (u8, String) {
    let (mut input, mut err) = (bytes, Vec::new());
    let mut io = Io {
        input: &mut input,
        out,
        err: &mut err,
        colour,
        watched: false,
    };
    let status = run(arguments, &mut io);
    (
        status,
        String::from_utf8(err).expect("what is said is text"),
    )
}

#[test]
fn any_command_line_is_answered() {
    let deadline = deadline();
    let mut random = Random::new(2026);
    let mut statuses = [0; 4];
    while Instant::now() < deadline {
        // Nothing is written: -o is not among the words.
        let commands = [
            "plan",
            "plan",
            "diff",
            "report",
            "draw",
            "explain",
            "make",
            "cell",
            "cell",
            "help",
            "--help",
            "--version",
            "--man",
            "what",
        ];
        let mut arguments = vec![OsString::from(random.of(&commands))];
        arguments.extend((0..random.below(5)).map(|_| word(&mut random)));
        let bytes = input(&mut random);
        let mut out = Head(1 << 16);
        let colour = random.below(2) == 0;
        let (status, said) = answered(arguments.clone(), &bytes, &mut out, colour);
        assert!(status < 4, "{arguments:?}");
        assert!(
            status < 2 || said.contains("visor: "),
            "{arguments:?}: nothing is said"
        );
        statuses[usize::from(status)] += 1;
    }
    assert!(statuses.iter().all(|count| *count > 0), "{statuses:?}");
}

/// A cell inside most frames, or any.
fn place(random: &mut Random) -> OsString {
    let number = match random.below(4) {
        0 => random.number() >> random.below(64),
        _ => random.below(120) as u64,
    };
    number.to_string().into()
}

/// Any cell of any input is answered, and no plan shows what it should not.
#[test]
fn any_cell_is_answered() {
    let deadline = deadline();
    let mut random = Random::new(8);
    let (mut statuses, mut shown) = ([0; 3], 0);
    while Instant::now() < deadline {
        let bytes = input(&mut random);
        let cell = [(); 2].map(|()| place(&mut random));
        let arguments = ["cell", "-", "--as=copy"].map(OsString::from);
        let arguments = [&arguments[..2 + random.below(2)], &cell].concat();
        let mut out = Vec::new();
        let (status, _) = answered(arguments.clone(), &bytes, &mut out, false);
        let text = String::from_utf8(out).expect("text");
        assert!(
            !text.contains("they should"),
            "{arguments:?} {bytes:?}\n{text}"
        );
        statuses[usize::from(status)] += 1;
        shown += usize::from(text.contains("as is proved for this cell"));
    }
    assert!(
        statuses.iter().all(|count| *count > 0) && shown > 0,
        "{statuses:?} {shown}"
    );
}

/// A record that is mostly planned: the scissor's edges are in range, and some fields are changed.
fn subject(random: &mut Random) -> Subject {
    let case = random.of(&["L", "A", "C", "E", "H", "I", "J", "O"]);
    let bytes = std::fs::read(format!("{CASES}/{case}.bin")).expect("a case");
    let mut record: [u8; Record::BYTES] = bytes.try_into().expect("61 bytes");
    for _ in 0..random.below(6) {
        let at = random.below(Record::BYTES);
        record[at] = random.number() as u8;
    }
    let record = Record::from(record);
    let request = record.request();
    let mut edge = |limit| random.below(limit) as i32;
    let scissor = Scissor::new(edge(40), edge(40), edge(1024), edge(1024));
    Subject {
        name: "any \u{7} <record>".to_string(),
        object: request.object.to_vec(),
        opcode: request.opcode,
        scissor: if random.below(2) == 0 {
            scissor
        } else {
            request.scissor
        },
        render_mode: request.render_mode,
        address: request.address,
    }
}

/// The clipped frame that sheets and cells go by has the cells that the engine has.
#[test]
fn clipped_frames_are_the_engine_s() {
    let mut random = Random::new(16);
    let (mut frames, mut empty) = (0, 0);
    for _ in 0..50_000 {
        let Subject {
            object, scissor, ..
        } = subject(&mut random);
        let cell = |column: i32, line: i32| sample(&object, scissor, column as u64, line as u64);
        if matches!(cell(0, 0), Sample::Refused(_)) {
            continue;
        }
        let fields = Object::decode(&object, Mode::Copy).expect("40 bytes");
        let edges = [scissor.ulx, scissor.uly, scissor.lrx, scissor.lry];
        let Clipped { columns, lines, .. } = Clipped::of(&fields, edges);
        let last = match columns.min(lines) {
            0 => cell(0, 0),
            _ => cell(columns - 1, lines - 1),
        };
        assert_eq!(
            last == Sample::Outside,
            columns.min(lines) == 0,
            "{object:?}"
        );
        let beyond = [cell(columns, 0), cell(0, lines)];
        assert_eq!(beyond, [Sample::Outside; 2], "{object:?}");
        frames += 1;
        empty += usize::from(last == Sample::Outside);
    }
    assert!(empty > 100 && frames > 2 * empty, "{frames} {empty}");
}

/// A picture of the right size, of another, or of no format at all.
fn picture(random: &mut Random, study: &Study) -> Picture {
    let mut bytes = vec![0; random.below(400_000)];
    bytes.fill_with(|| random.number() as u8);
    match random.below(3) {
        0 => bytes.clear(),
        1 => {
            let mut file = png::encode(&crate::paint::Bitmap::new(8, 8));
            let at = random.below(file.len());
            file[at] ^= 1 << random.below(8);
            bytes = file;
        }
        _ => {}
    }
    Picture::read("picture", &bytes, study).unwrap_or(Picture::places(study))
}

#[test]
fn any_record_is_drawn_and_reported() {
    let deadline = deadline();
    let mut random = Random::new(15);
    let mut rows = Vec::new();
    while Instant::now() < deadline {
        let study = Study::of(&subject(&mut random));
        let copied = study.mode == Some(Mode::Copy) && study.end.result().is_ok();
        let kept = study.met.is_once() && study.wrong_loads() == 0;
        assert!(!copied || kept, "{:?}", study.object);
        let picture = picture(&mut random, &study);
        let sheet = Sheet::of(&study, &picture);
        let text = svg::page(&sheet.drawing, &sheet.words);
        assert!(text.ends_with("</html>\n") && !text.contains('\u{7}'));
        if random.below(8) == 0 {
            let bitmap = raster::paint(&sheet.drawing, 1.0);
            assert_eq!(bitmap.width, 1560);
        }
        rows.truncate(50);
        rows.push(Row::of(&study, true));
        assert!(summary(&rows)[0].contains("planned"));
    }
    assert!(page::html("all", &rows, &[]).ends_with("</html>\n"));
}
