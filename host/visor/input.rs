//! What a plan is asked for: records, objects and hex dumps, out of files or standard input.

use crate::args::Args;
use crate::command::Failure;
use crate::fields::counted;
use crate::hex;
use crate::io::Io;
use crate::step::begins_plan;
use std::borrow::Cow;
use std::ffi::OsStr;
use std::fs::File;
use std::io::{self, Read};
use std::path::Path;
use visorlongan::{Mode, Record, Request, Scissor, BG_1CYC, BG_COPY};

/// No input is longer, in bytes: the records of a million backgrounds are not.
const LONGEST: u64 = 64 << 20;

const SCISSOR: Scissor = Scissor::new(0, 0, 320, 240);
const RENDER_MODE: u32 = 0;
const ADDRESS: u64 = 0x8020_0000;

/// One request, with a name to tell it by.
#[derive(Clone, Debug, PartialEq, Eq)]
pub struct Subject {
    pub name: String,
    pub object: Vec<u8>,
    pub opcode: u8,
    pub scissor: Scissor,
    pub render_mode: u32,
    pub address: u64,
}

impl Subject {
    pub fn request(&self) -> Request<'_> {
        Request {
            object: &self.object,
            opcode: self.opcode,
            scissor: self.scissor,
            render_mode: self.render_mode,
            address: self.address,
        }
    }
}

/// What the input is to be taken as.
#[derive(Clone, Copy, Debug, PartialEq, Eq)]
enum Form {
    Record,
    Object(Mode),
    Hex,
}

/// The options that say how input is read, the same for all commands.
#[derive(Clone, Debug, Default, PartialEq, Eq)]
pub struct Asked {
    form: Option<Form>,
    scissor: Option<Scissor>,
    render_mode: Option<u32>,
    address: Option<u64>,
}

impl Asked {
    /// These options' lines in the help of a command.
    pub const HELP: &'static str =
        "  --as KIND                    record, copy, scaled or hex, whatever it looks like
  --scissor ULX,ULY,LRX,LRY    in pixels; a record has its own, an object 0,0,320,240
  --mode NUMBER                the render mode: 8 is the bilinear filter; an object has 0
  --address NUMBER             where the image is; an object has 0x80200000";

    /// Takes these options off a command line.
    pub fn take(args: &mut Args) -> Result<Asked, Failure> {
        let form = args.text("--as")?.map(|value| form(&value));
        let mode = args.text("--mode")?.map(|value| number("--mode", &value));
        Ok(Asked {
            form: form.transpose()?,
            render_mode: mode.transpose()?,
            ..Asked::take_places(args)?
        })
    }

    /// Takes the scissor and the address alone: the others mean nothing to a copy object that is
    /// made here.
    pub fn take_places(args: &mut Args) -> Result<Asked, Failure> {
        let scissor = args.text("--scissor")?.map(|value| scissor(&value));
        let address = args
            .text("--address")?
            .map(|value| number("--address", &value));
        Ok(Asked {
            scissor: scissor.transpose()?,
            address: address.transpose()?,
            ..Asked::default()
        })
    }

    /// The request of an object's bytes, which are as many as the mode wants, or fewer.
    pub fn object(&self, name: &str, bytes: &[u8], mode: Mode) -> Subject {
        Subject {
            name: name.to_string(),
            object: bytes[..bytes.len().min(mode.object_bytes())].to_vec(),
            opcode: match mode {
                Mode::Copy => BG_COPY,
                Mode::Scaled => BG_1CYC,
            },
            scissor: self.scissor.unwrap_or(SCISSOR),
            render_mode: self.render_mode.unwrap_or(RENDER_MODE),
            address: self.address.unwrap_or(ADDRESS),
        }
    }

    fn record(&self, name: String, record: &Record) -> Subject {
        let request = record.request();
        Subject {
            name,
            object: request.object.to_vec(),
            opcode: request.opcode,
            scissor: self.scissor.unwrap_or(request.scissor),
            render_mode: self.render_mode.unwrap_or(request.render_mode),
            address: self.address.unwrap_or(request.address),
        }
    }

    /// The options that an object is planned with though they were not given.
    fn defaults(&self) -> String {
        let Scissor { ulx, uly, lrx, lry } = SCISSOR;
        let all = [
            (
                self.scissor.is_none(),
                format!(" --scissor {ulx},{uly},{lrx},{lry}"),
            ),
            (self.render_mode.is_none(), format!(" --mode {RENDER_MODE}")),
            (self.address.is_none(), format!(" --address {ADDRESS:#x}")),
        ];
        let taken: String = all
            .into_iter()
            .filter(|each| each.0)
            .map(|each| each.1)
            .collect();
        match taken.as_str() {
            "" => taken,
            _ => format!("; planned with{taken}"),
        }
    }
}

fn form(value: &str) -> Result<Form, Failure> {
    match value {
        "record" => Ok(Form::Record),
        "copy" => Ok(Form::Object(Mode::Copy)),
        "scaled" => Ok(Form::Object(Mode::Scaled)),
        "hex" => Ok(Form::Hex),
        _ => Err(Failure::Use(format!(
            "--as wants record, copy, scaled or hex, not {value}"
        ))),
    }
}

fn scissor(value: &str) -> Result<Scissor, Failure> {
    let edges: Option<Vec<i32>> = value.split(',').map(|edge| parsed(edge.trim())).collect();
    match edges.as_deref() {
        Some([ulx, uly, lrx, lry]) => Ok(Scissor::new(*ulx, *uly, *lrx, *lry)),
        _ => Err(Failure::Use(format!(
            "--scissor wants four whole numbers, as 0,0,320,240, not {value}"
        ))),
    }
}

/// The number that an option or operand of this name has as its value.
pub fn number<T: TryFrom<i128>>(name: &str, value: &str) -> Result<T, Failure> {
    let bits = 8 * size_of::<T>();
    let wanted = format!("{name} wants a number of {bits} bits, decimal or 0x.., not {value}");
    parsed(value).ok_or(Failure::Use(wanted))
}

/// A number in decimal, or in hex after 0x.
pub fn parsed<T: TryFrom<i128>>(text: &str) -> Option<T> {
    let (negative, digits) = match text.strip_prefix('-') {
        Some(digits) => (true, digits),
        None => (false, text),
    };
    let hex = digits.strip_prefix("0x").or(digits.strip_prefix("0X"));
    let (digits, radix) = hex.map_or((digits, 10), |digits| (digits, 16));
    // Parsing would take a second sign.
    let plain = digits.chars().all(|digit| digit.is_ascii_hexdigit());
    let number = i128::from_str_radix(digits, radix).ok().filter(|_| plain)?;
    T::try_from(if negative { -number } else { number }).ok()
}

/// The bytes of a file, or of standard input for `-`, with the name to call them by.
pub fn source(operand: &OsStr, io: &mut Io) -> Result<(String, Vec<u8>), Failure> {
    if operand == "-" {
        let name = "standard input".to_string();
        let bytes = limited(&mut io.input, &name)?;
        return Ok((name, bytes));
    }
    let path = Path::new(operand);
    let name = path.to_string_lossy().into_owned();
    if path.is_dir() {
        return Err(Failure::Input(format!(
            "{name}: it is a folder, and a file is wanted"
        )));
    }
    let mut file = File::open(path).map_err(|error| unreadable(&name, &error))?;
    let bytes = limited(&mut file, &name)?;
    Ok((name, bytes))
}

fn limited(from: &mut dyn Read, name: &str) -> Result<Vec<u8>, Failure> {
    let mut bytes = Vec::new();
    let read = from.take(LONGEST + 1).read_to_end(&mut bytes);
    match read {
        Ok(count) if count as u64 > LONGEST => {
            let limit = LONGEST >> 20;
            Err(Failure::Input(format!(
                "{name}: it is longer than {limit} MB"
            )))
        }
        Ok(_) => Ok(bytes),
        Err(error) => Err(unreadable(name, &error)),
    }
}

/// A pipe that breaks while it is read is no end of the output.
fn unreadable(name: &str, error: &io::Error) -> Failure {
    match Failure::system(name, error) {
        Failure::Closed => Failure::System(format!("{name}: it broke off")),
        failure => failure,
    }
}

/// The one request of an operand. What it was taken for is said on standard error.
pub fn subject(operand: &OsStr, asked: &Asked, io: &mut Io) -> Result<Subject, Failure> {
    let (name, bytes) = source(operand, io)?;
    only(&name, &bytes, asked, io)
}

/// The same of bytes that have been read.
pub fn only(name: &str, bytes: &[u8], asked: &Asked, io: &mut Io) -> Result<Subject, Failure> {
    let (mut subjects, detected) = subjects(name, bytes, asked)?;
    let count = subjects.len();
    match subjects.pop() {
        Some(subject) if count == 1 => {
            io.tell(&format!("visor: {name}: {detected}"));
            Ok(subject)
        }
        _ => Err(Failure::Input(format!(
            "{name}: {detected}, and one is wanted; `visor report` takes them all"
        ))),
    }
}

/// All requests in some bytes, and a sentence that says what they were taken for.
pub fn subjects(
    name: &str,
    bytes: &[u8],
    asked: &Asked,
) -> Result<(Vec<Subject>, String), Failure> {
    if bytes.is_empty() {
        return Err(Failure::Input(format!("{name}: there is nothing in it")));
    }
    let text = asked.form == Some(Form::Hex) || is_text(bytes);
    let bytes = if text {
        Cow::from(decoded(name, &String::from_utf8_lossy(bytes))?)
    } else {
        Cow::from(bytes)
    };
    let found = found(name, &bytes, text, asked.form)?;
    let hex = if text { " in hex" } else { "" };
    let said = found.said(bytes.len(), hex);
    Ok(match found {
        Found::Records(records) => {
            let named = |(n, record): (usize, &Record)| match records.len() {
                1 => asked.record(name.to_string(), record),
                _ => asked.record(format!("{name}#{n}"), record),
            };
            (records.iter().enumerate().map(named).collect(), said)
        }
        Found::Object(mode, _) => {
            let said = said + &asked.defaults();
            (vec![asked.object(name, &bytes, mode)], said)
        }
    })
}

fn decoded(name: &str, text: &str) -> Result<Vec<u8>, Failure> {
    if begins_plan(text) {
        let said = "it is a plan's text, and a request is wanted; `visor diff` compares plans";
        return Err(Failure::Input(format!("{name}: {said}")));
    }
    hex::bytes(name, text).map_err(Failure::Input)
}

/// What bytes were taken for, and why an object was taken for its kind.
enum Found {
    Records(Vec<Record>),
    Object(Mode, Why),
}

#[derive(Clone, Copy, PartialEq, Eq)]
enum Why {
    Asked,
    Length,
    /// The four bytes that a scaled object does not have are 0, which no copy object's are.
    Zeros,
    /// They are not.
    NoZeros,
}

/// Takes bytes for records or an object: as asked, or by their length.
fn found(name: &str, bytes: &[u8], text: bool, form: Option<Form>) -> Result<Found, Failure> {
    let length = bytes.len();
    let records = length % Record::BYTES == 0;
    match form {
        Some(Form::Object(mode)) => Ok(Found::Object(mode, Why::Asked)),
        Some(Form::Record) if !records => Err(Failure::Input(format!(
            "{name}: a record has 61 bytes, and there are {length}"
        ))),
        _ if records => {
            let records = bytes.chunks_exact(Record::BYTES).map(Record::try_from);
            Ok(Found::Records(records.filter_map(Result::ok).collect()))
        }
        _ if length == 36 => Ok(Found::Object(Mode::Scaled, Why::Length)),
        // A dump that goes on behind the object: people copy whole lines.
        _ if length == 40 || text && length > 40 => Ok(match bytes[36..40] {
            [0, 0, 0, 0] => Found::Object(Mode::Scaled, Why::Zeros),
            _ => Found::Object(Mode::Copy, Why::NoZeros),
        }),
        // Windows writes such text, also of dumps.
        _ if bytes.starts_with(&[0xff, 0xfe]) || bytes.starts_with(&[0xfe, 0xff]) => Err(
            Failure::Input(format!("{name}: it is text in UTF-16; save it as UTF-8")),
        ),
        _ => Err(Failure::Input(format!(
            "{name}: {}: a copy object has 40, a scaled one 36, a record 61; --as copy or \
             --as scaled takes them as an object all the same",
            counted(length as u64, "byte", "bytes")
        ))),
    }
}

impl Found {
    fn said(&self, length: usize, hex: &str) -> String {
        let bytes = counted(length as u64, "byte", "bytes");
        match self {
            Found::Records(records) if records.len() == 1 => format!("a record of 61 bytes{hex}"),
            Found::Records(records) => format!("{} records of 61 bytes{hex}", records.len()),
            Found::Object(mode, why) => {
                let kind = match mode {
                    Mode::Copy => "copy",
                    Mode::Scaled => "scaled",
                };
                let why = match why {
                    Why::Asked => ", as asked",
                    Why::Length => "",
                    Why::Zeros => ", as bytes 36 to 39 are 0 (else --as copy)",
                    Why::NoZeros => ", as bytes 36 to 39 are not 0 (else --as scaled)",
                };
                match length {
                    41.. => format!("a {kind} object, the first 40 of {bytes}{hex}{why}"),
                    _ => format!("a {kind} object of {bytes}{hex}{why}"),
                }
            }
        }
    }
}

/// Text as people write it: no control characters, and few letters of other scripts.
fn is_text(bytes: &[u8]) -> bool {
    let Ok(text) = std::str::from_utf8(bytes) else {
        return false;
    };
    let control = |letter: char| letter.is_control() && !letter.is_whitespace();
    let plain = bytes.iter().filter(|byte| byte.is_ascii()).count();
    !text.contains(control) && plain >= bytes.len() / 2
}

#[cfg(test)]
mod tests {
    use super::*;
    use std::ffi::OsString;

    fn asked(words: &str) -> Result<Asked, Failure> {
        let words = words.split_whitespace().map(OsString::from).collect();
        Asked::take(&mut Args::new(words))
    }

    fn one(bytes: &[u8], words: &str) -> Result<(Subject, String), String> {
        let found = subjects("in", bytes, &asked(words).unwrap());
        match found {
            Ok((mut subjects, said)) => Ok((subjects.remove(0), said)),
            Err(Failure::Input(said)) => Err(said),
            Err(other) => panic!("{other:?}"),
        }
    }

    #[test]
    fn options_that_make_no_sense_are_wrong_use() {
        for words in [
            "--as picture",
            "--scissor 0,0,320",
            "--scissor 0,0,320,x",
            "--mode -1",
            "--mode 0x100000000",
            "--address ten",
            "--address 0x",
            "--address --1",
            "--address 18446744073709551616",
        ] {
            assert!(matches!(asked(words), Err(Failure::Use(_))), "{words}");
        }
        let all =
            asked("--scissor -1,0x10,320,240 --mode 0x8 --address 0xffffffffffffffff").unwrap();
        assert_eq!(all.scissor, Some(Scissor::new(-1, 16, 320, 240)));
        assert_eq!((all.render_mode, all.address), (Some(8), Some(u64::MAX)));
    }

    #[test]
    fn objects_by_their_length() {
        let zeros = "; planned with --scissor 0,0,320,240 --mode 0 --address 0x80200000";
        let (scaled, said) = one(&[0; 36], "").unwrap();
        assert_eq!((scaled.opcode, scaled.object.len()), (BG_1CYC, 36));
        assert_eq!(said, format!("a scaled object of 36 bytes{zeros}"));
        let (padded, said) = one(&[0; 40], "--mode 8 --address 16").unwrap();
        assert_eq!(
            (padded.opcode, padded.render_mode, padded.address),
            (BG_1CYC, 8, 16)
        );
        let why = "as bytes 36 to 39 are 0 (else --as copy)";
        let rest = "planned with --scissor 0,0,320,240";
        assert_eq!(said, format!("a scaled object of 40 bytes, {why}; {rest}"));
        let mut bytes = [0; 40];
        bytes[37] = 1;
        let (copy, _) = one(&bytes, "").unwrap();
        assert_eq!((copy.opcode, copy.object), (BG_COPY, bytes.to_vec()));
        assert_eq!(one(&bytes, "--as scaled").unwrap().0.opcode, BG_1CYC);
        assert_eq!(one(&[0; 3], "--as copy").unwrap().0.object.len(), 3);
        assert!(one(&[0; 39], "").unwrap_err().starts_with("in: 39 bytes: "));
        assert!(one(&[0; 48], "").is_err());
        assert!(one(&[], "").is_err());
    }

    #[test]
    fn records_and_what_overrides_them() {
        let mut bytes = [0; 122];
        bytes[52] = 9;
        bytes[122 - 1] = 5;
        let (all, said) = subjects("in", &bytes, &Asked::default()).unwrap();
        assert_eq!(said, "2 records of 61 bytes");
        let names: Vec<&str> = all.iter().map(|subject| subject.name.as_str()).collect();
        assert_eq!(names, ["in#0", "in#1"]);
        assert_eq!((all[0].opcode, all[1].address), (9, 5));
        let (one, said) = one(&bytes[..61], "--address 77").unwrap();
        assert_eq!((one.name.as_str(), one.address, one.opcode), ("in", 77, 9));
        assert_eq!(said, "a record of 61 bytes");
        let short = subjects("in", &bytes[..60], &asked("--as record").unwrap());
        let wanted = "in: a record has 61 bytes, and there are 60";
        assert_eq!(short.unwrap_err(), Failure::Input(wanted.to_string()));
    }

    #[test]
    fn text_is_hex() {
        let (subject, said) = one("00".repeat(36).as_bytes(), "").unwrap();
        assert_eq!(subject.object, [0; 36]);
        assert!(said.starts_with("a scaled object of 36 bytes in hex;"));
        let (subject, said) = one("00".repeat(48).as_bytes(), "--as hex").unwrap();
        assert_eq!(subject.object.len(), 36);
        assert!(said.contains("the first 40 of 48 bytes in hex"), "{said}");
        assert_eq!(
            one("00".repeat(61).as_bytes(), "").unwrap().1,
            "a record of 61 bytes in hex"
        );
        assert_eq!(
            one("0000".repeat(61).as_bytes(), "").unwrap().1,
            "2 records of 61 bytes in hex"
        );
        assert_eq!(
            one(b"00\n0g", "").unwrap_err(),
            "in:2:2: 'g' is no hex digit"
        );
        assert!(one(&[0xff; 36], "--as hex")
            .unwrap_err()
            .contains("no hex digit"));
        assert!(one("\u{a0}ff".repeat(36).as_bytes(), "").is_ok());
        assert!(one(b" 9 2 0 0 0\n", "")
            .unwrap_err()
            .starts_with("in: it is a plan's text"));
        assert!(one(b"\xff\xfe0\x000\x00", "")
            .unwrap_err()
            .contains("UTF-16"));
    }

    #[test]
    fn standard_input_folders_and_endless_files() {
        let (mut input, mut out, mut err) = (&b"00"[..], Vec::new(), Vec::new());
        let mut io = Io {
            input: &mut input,
            out: &mut out,
            err: &mut err,
            colour: false,
            watched: false,
        };
        let read = source(OsStr::new("-"), &mut io).unwrap();
        assert_eq!(read, ("standard input".to_string(), b"00".to_vec()));
        let folder = source(OsStr::new("/"), &mut io).unwrap_err();
        assert!(matches!(folder, Failure::Input(said) if said.contains("folder")));
        let endless = source(OsStr::new("/dev/zero"), &mut io).unwrap_err();
        assert!(matches!(endless, Failure::Input(said) if said.contains("64 MB")));
        let missing = source(OsStr::new("/no/such"), &mut io).unwrap_err();
        assert!(matches!(missing, Failure::System(_)));
    }

    /// Whatever the bytes and options, there is an answer.
    #[test]
    fn any_bytes_are_answered() {
        let mut random = crate::fuzz::Random::new(11);
        let kinds = ["", "--as hex", "--as copy", "--as scaled", "--as record"];
        for _ in 0..5_000 {
            let length = [36, 40, 61, 122, random.below(200)][random.below(5)];
            let letters = random.below(2) == 0;
            let byte = |random: &mut crate::fuzz::Random| match letters {
                true => b"0123456789abcdefx\\,: \n"[random.below(22)],
                false => random.below(256) as u8,
            };
            let bytes: Vec<u8> = (0..length).map(|_| byte(&mut random)).collect();
            let asked = asked(kinds[random.below(kinds.len())]).unwrap();
            if let Ok((subjects, _)) = subjects("in", &bytes, &asked) {
                assert!(!subjects.is_empty());
            }
        }
    }
}
