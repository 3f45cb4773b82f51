//! visor as people use it: the program itself, its output held to files in tests/visor, its exit
//! status and what it says on standard error. `BLESS=1 cargo test --test visor` writes the files
//! anew; look at them before they are kept.

use std::io::Write;
use std::path::{Path, PathBuf};
use std::process::{Command, Output, Stdio};

const VISOR: &str = env!("CARGO_BIN_EXE_visor");
const CASES: &str = concat!(env!("CARGO_MANIFEST_DIR"), "/tests/cases");
const GOLDEN: &str = concat!(env!("CARGO_MANIFEST_DIR"), "/tests/visor");

/// What a run printed, and its exit status.
#[derive(Debug, PartialEq, Eq)]
struct Ran {
    out: String,
    err: String,
    status: i32,
}

impl Ran {
    fn of(output: Output) -> Ran {
        Ran {
            out: String::from_utf8(output.stdout).expect("text"),
            err: String::from_utf8(output.stderr).expect("text"),
            status: output.status.code().expect("an exit status"),
        }
    }
}

/// Runs a program in a folder with an input.
fn ran(program: &str, arguments: &[&str], folder: &Path, input: &[u8]) -> Ran {
    let programs = Path::new(VISOR).parent().expect("a folder").display();
    let path = format!("{programs}:{}", std::env::var("PATH").unwrap_or_default());
    let mut child = Command::new(program)
        .args(arguments)
        .current_dir(folder)
        .env("PATH", path)
        .env_remove("NO_COLOR")
        .stdin(Stdio::piped())
        .stdout(Stdio::piped())
        .stderr(Stdio::piped())
        .spawn()
        .unwrap_or_else(|error| panic!("{program}: {error}"));
    // A program that reads no input may have ended already.
    let _ = child.stdin.take().expect("a pipe").write_all(input);
    Ran::of(child.wait_with_output().expect("an end"))
}

fn visor(arguments: &[&str]) -> Ran {
    ran(VISOR, arguments, Path::new(CASES), b"")
}

fn visor_on(arguments: &[&str], input: &[u8]) -> Ran {
    ran(VISOR, arguments, Path::new(CASES), input)
}

/// A line for the shell, in the folder of the cases.
fn shell(line: &str) -> Ran {
    ran("sh", &["-c", line], Path::new(CASES), b"")
}

/// An empty folder for one test.
fn folder(name: &str) -> PathBuf {
    let folder = Path::new(env!("CARGO_TARGET_TMPDIR")).join(format!("visor-{name}"));
    let _ = std::fs::remove_dir_all(&folder);
    std::fs::create_dir_all(&folder).expect("a folder");
    folder
}

fn case(name: &str) -> Vec<u8> {
    std::fs::read(format!("{CASES}/{name}")).unwrap_or_else(|e| panic!("{name}: {e}"))
}

fn case_text(name: &str) -> String {
    String::from_utf8(case(name)).expect("text")
}

/// The names of the cases with the bytes that the planner gets of their objects.
fn cases() -> Vec<(String, usize)> {
    let list = case_text("list.txt");
    let case = |line: &str| {
        let (name, count) = line.split_once(' ').expect("name and count");
        (name.to_string(), count.parse().expect("a count"))
    };
    list.lines().map(case).collect()
}

/// The longest plan there is: an image of one cell under a frame of 1,023 by 1,023 cells.
fn largest() -> Vec<u8> {
    let mut bytes = case("L.bin");
    let object = [(2, 4), (10, 4), (6, 4092), (14, 4092), (30, 4), (32, 4)];
    for (at, field) in object.into_iter().chain([(44, 1023), (46, 1023)]) {
        bytes[at..at + 2].copy_from_slice(&u16::to_be_bytes(field));
    }
    bytes
}

fn has(program: &str) -> bool {
    let found = Command::new("sh")
        .args(["-c", &format!("command -v {program}")])
        .output();
    found.is_ok_and(|output| output.status.success())
}

/// Holds a run to its file, or writes the file where BLESS is set. Of long outputs the beginning
/// and the end are kept.
fn golden(name: &str, arguments: &[&str]) {
    kept(name, arguments, visor(arguments));
}

/// The same of several, each by the line that is typed.
fn all_golden(lines: &[(&str, &str)]) {
    for (name, line) in lines {
        let arguments: Vec<&str> = line.split(' ').collect();
        golden(name, &arguments);
    }
}

/// The same of a run elsewhere.
fn kept(name: &str, arguments: &[&str], run: Ran) {
    let Ran { out, err, status } = run;
    let lines: Vec<&str> = out.lines().collect();
    let out = match lines.len() {
        0..=60 => out,
        count => {
            let (head, tail) = (lines[..24].join("\n"), lines[count - 8..].join("\n"));
            format!("{head}\n[{} lines]\n{tail}\n", count - 32)
        }
    };
    let typed = arguments.join(" ");
    let seen = format!("$ visor {typed}\n{out}[standard error]\n{err}[exit status {status}]\n");
    let file = format!("{GOLDEN}/{name}.txt");
    if std::env::var_os("BLESS").is_some() {
        std::fs::write(&file, &seen).unwrap_or_else(|e| panic!("{file}: {e}"));
    }
    let kept = std::fs::read_to_string(&file).unwrap_or_default();
    assert!(
        kept == seen,
        "{file} has\n{kept}\nand visor printed\n{seen}"
    );
}

#[test]
fn plans_of_the_worked_cases_as_tables() {
    for name in ["L", "A", "B", "C", "E", "G", "H", "I", "J", "O"] {
        golden(&format!("plan-{name}"), &["plan", &format!("{name}.bin")]);
    }
    golden(
        "plan-K-copy-39",
        &["plan", "K-copy-39.bin", "--as", "copy", "--mode=8"],
    );
    golden("plan-M-scaled-fmt-5", &["plan", "M-scaled-fmt-5.bin"]);
}

#[test]
fn plans_of_the_worked_cases_by_entries_and_for_programs() {
    for name in ["L", "B", "C", "E", "G", "H", "I", "J"] {
        let file = format!("{name}.bin");
        golden(&format!("entries-{name}"), &["plan", &file, "--entries"]);
        golden(&format!("json-{name}"), &["plan", &file, "--json"]);
    }
    golden("raw-B", &["plan", "--raw", "B.bin"]);
}

/// What a sheet says in words, and a report of all cases; tests/sheets.rs looks at the pixels.
#[test]
fn sheets_and_a_report_of_the_worked_cases() {
    let folder = folder("words");
    for name in ["L", "A", "B", "C", "E", "G", "H", "I", "J", "O", "N-copy"] {
        let file = format!("{name}.bin");
        std::fs::write(folder.join(&file), case(&file)).expect("a file");
        let arguments = ["draw", &file, "-o", "sheet.svg"];
        let run = ran(VISOR, &arguments, &folder, b"");
        kept(&format!("draw-{name}"), &arguments, run);
    }
    golden("report", &["report", "cases.records"]);
}

#[test]
fn pages_of_the_verdicts() {
    golden("explain", &["explain"]);
    for number in 0..=10 {
        golden(
            &format!("explain-{number}"),
            &["explain", &number.to_string()],
        );
    }
}

#[test]
fn differences() {
    golden("diff-request", &["diff", "L.bin", "C.bin"]);
    golden("diff-text", &["diff", "E.txt", "H.txt"]);
    golden("diff-end", &["diff", "B.txt", "A.bin"]);
    golden("diff-kind", &["diff", "L.bin", "E.bin"]);
    golden("diff-ends", &["diff", "I.bin", "J.bin"]);
    golden("diff-same", &["diff", "E.bin", "N-scaled.bin"]);
    golden("diff-same-text", &["diff", "L.bin", "L.txt"]);
}

/// Objects of pictures, and the pictures that have none.
#[test]
fn objects_made_from_pictures() {
    all_golden(&[
        ("make", "make 320 240 rgba 16b"),
        ("make-ci", "make 301 20 CI 4b --pointer 0x06000000"),
        (
            "make-wide",
            "make 8192 2 I 4b --scissor=300,0,1023,1 --address 0x1000",
        ),
        ("make-scissor", "make 64 64 ia 8b --scissor 0,0,1024,1"),
        ("make-refused-width", "make 2049 240 rgba 16b"),
        ("make-refused-both", "make 0 16384 ci 8b"),
        ("make-refused-texels", "make 0 240 5 16"),
    ]);
}

/// Cells at a wrap and at a flip, outside, of a load that is too wide for the claim, and of refused
/// plans and objects.
#[test]
fn cells_of_copies() {
    all_golden(&[
        ("cell-wrap", "cell ../visor/wrap.bin 19 0"),
        ("cell-flip", "cell ../visor/flip.bin 18 3"),
        ("cell-wide", "cell ../visor/wide.bin 0 0"),
        ("cell-wide-lost", "cell ../visor/wide.bin 0x3fe 0"),
        ("cell-outside", "cell ../visor/wrap.bin 28 0"),
        ("cell-empty", "cell L.bin 0 0 --scissor 16,0,320,240"),
        ("cell-too-big", "cell B.bin 319 239"),
        (
            "cell-further",
            "cell A.bin 7 5 --address 0xfffffffffffe0000",
        ),
        (
            "cell-address",
            "cell A.bin 7 239 --address=0xfffffffffffe0000",
        ),
        ("cell-refused", "cell N-copy.bin 0 0"),
        ("cell-scaled", "cell E.bin 0 0"),
    ]);
}

/// The project's README, where it is at hand, has two of them as they are printed.
#[test]
fn cells_of_the_readme() {
    let project = Path::new(env!("CARGO_MANIFEST_DIR")).join("..");
    let readme = project.join("README.md");
    // Where the crate lies outside the project, a README there is another crate's.
    if !readme.exists() || !project.join("crates/visorlongan").exists() {
        return println!("not in the repository: the project's README is not here");
    }
    let readme = std::fs::read_to_string(readme).expect("text");
    for line in [
        "cell tests/visor/wrap.bin 19 0",
        "cell tests/visor/flip.bin 18 3",
    ] {
        let arguments: Vec<&str> = line.split(' ').collect();
        let run = ran(
            VISOR,
            &arguments,
            Path::new(env!("CARGO_MANIFEST_DIR")),
            b"",
        );
        let typed = line.replace("tests", "host/tests");
        let shown = format!("    visor {typed}\n\n```\n{}```\n", run.out);
        assert!(readme.contains(&shown), "README.md has not\n{shown}");
    }
}

#[test]
fn raw_is_what_bgplan_prints() {
    let cases = cases();
    assert_eq!(cases.len(), 21);
    for (name, bytes) in &cases {
        let mut arguments = vec!["plan", "-", "--raw"];
        let mut input = case(&format!("{name}.bin"));
        if ![36, 40].contains(bytes) {
            // A record has all bytes of its object; a shorter one comes as an object.
            let kind = if name.contains("copy") {
                "--as=copy"
            } else {
                "--as=scaled"
            };
            arguments.extend([kind, "--address", "0x1000"]);
            input.truncate(*bytes);
        }
        let Ran { out, status, err } = visor_on(&arguments, &input);
        let wanted = case_text(&format!("{name}.txt"));
        assert_eq!(out, wanted, "case {name}");
        let end = wanted.lines().last().expect("an end");
        let finished = end.split_whitespace().nth(1) == Some("0");
        assert_eq!(status, i32::from(!finished), "case {name}");
        assert_eq!(
            err.contains("visor: verdict "),
            !finished,
            "case {name}: {err}"
        );
    }
}

/// Each table has a row for each rectangle, and its largest load is the end's.
#[test]
fn tables_agree_with_the_raw_plans() {
    for (name, column) in [("L", 5), ("A", 5), ("C", 5), ("E", 7), ("H", 7)] {
        let file = format!("{name}.bin");
        let table = visor(&["plan", &file]).out;
        let number = |text: &str| text.parse::<u64>().ok();
        let rows: Vec<Vec<&str>> = table
            .lines()
            .map(|line| line.split_whitespace().collect())
            .filter(|cells: &Vec<&str>| cells.len() > column && cells[1].contains(".."))
            .collect();
        let largest = rows.iter().filter_map(|cells| number(cells[column])).max();
        let raw = visor(&["plan", &file, "--raw"]).out;
        let end: Vec<u64> = raw
            .lines()
            .last()
            .expect("an end")
            .split_whitespace()
            .filter_map(number)
            .collect();
        assert_eq!(end[3], rows.len() as u64, "{name}");
        assert_eq!(end[4], largest.unwrap_or(0), "{name}");
    }
}

fn pairs(bytes: &[u8]) -> Vec<String> {
    bytes.iter().map(|byte| format!("{byte:02x}")).collect()
}

fn ascii(bytes: &[u8]) -> String {
    let letter = |byte: &u8| {
        if (32..127).contains(byte) {
            *byte as char
        } else {
            '.'
        }
    };
    bytes.iter().map(letter).collect()
}

/// An object as the tools dump it, with offsets.
fn dumps(bytes: &[u8]) -> Vec<(&'static str, String)> {
    let lines = |width: usize, line: &dyn Fn(usize, &[u8]) -> String| -> String {
        let chunks = bytes.chunks(width).enumerate();
        chunks.map(|(n, chunk)| line(n * width, chunk)).collect()
    };
    let groups = |chunk: &[u8], width: usize, between: &str| {
        let groups: Vec<String> = chunk
            .chunks(width)
            .map(|group| pairs(group).concat())
            .collect();
        groups.join(between)
    };
    let xxd = |width: usize, columns: usize| {
        lines(16, &|at, chunk| {
            let groups = groups(chunk, width, " ");
            format!("{at:08x}: {groups:<columns$}  {}\n", ascii(chunk))
        })
    };
    let canonical = lines(16, &|at, chunk| {
        let halves: Vec<String> = chunk.chunks(8).map(|half| groups(half, 1, " ")).collect();
        format!(
            "{at:08x}  {:<48}  |{}|\r\n",
            halves.join("  "),
            ascii(chunk)
        )
    });
    let gdb = lines(8, &|at, chunk| {
        let address = 0x7ffd_4020 + at;
        format!("{address:#x} <bg+{at}>:\t0x{}\n", groups(chunk, 1, "\t0x"))
    });
    vec![
        ("xxd", xxd(2, 39)),
        ("xxd -g1", xxd(1, 47)),
        (
            "xxd -p",
            lines(30, &|_, chunk| pairs(chunk).concat() + "\n"),
        ),
        ("hexdump -C", format!("{canonical}{:08x}\r\n", bytes.len())),
        ("gdb", format!("(gdb) x/40xb &bg\n{gdb}")),
    ]
}

/// An object as programs have it, without offsets.
fn lists(bytes: &[u8]) -> Vec<(&'static str, String)> {
    let list = |before: &str, after: &str| -> String {
        let pairs = pairs(bytes).into_iter();
        pairs.map(|pair| format!("{before}{pair}{after}")).collect()
    };
    let (escaped, prefixed) = (list("\\x", ""), list("0x", ", "));
    let array = format!("unsigned char bg[] = {{\n  {prefixed}\n}};\nunsigned int bg_len = 40;\n");
    vec![
        ("\\x in C", format!("\"{escaped}\";\n")),
        ("\\x in Python", format!("b'{escaped}'\n")),
        ("\\x", escaped),
        ("an array", array),
        ("0x", prefixed),
        ("bare", list("", "")),
        ("upper", list("", "").to_uppercase()),
        ("pairs", list("", " ")),
        ("a byte a line", list("", "\n")),
    ]
}

#[test]
fn every_form_of_an_object_gives_the_same_plan() {
    for (name, kind, length) in [("L", "copy", 40), ("H", "scaled", 36), ("H", "scaled", 40)] {
        let object = &case(&format!("{name}.bin"))[..length];
        let wanted = case_text(&format!("{name}.txt"));
        let plan = ["plan", "-", "--raw", "--address=4096"];
        let binary = visor_on(&plan, object);
        assert_eq!(
            (binary.out.as_str(), binary.status),
            (wanted.as_str(), 0),
            "{name}"
        );
        for (form, text) in dumps(object).into_iter().chain(lists(object)) {
            let Ran { out, err, status } = visor_on(&plan, text.as_bytes());
            assert_eq!(
                (out, status),
                (wanted.clone(), 0),
                "{name} as {form}: {err}"
            );
            let said = format!("visor: standard input: a {kind} object of {length} bytes in hex");
            assert!(err.starts_with(&said), "{name} as {form}: {err}");
            let forced = visor_on(&[&plan[..], &["--as", kind]].concat(), text.as_bytes());
            assert_eq!(forced.out, wanted, "{name} as {form}");
        }
    }
    let record = pairs(&case("H.bin")).concat();
    assert_eq!(
        visor_on(&["plan", "-", "--raw", "--as=hex"], record.as_bytes()).out,
        case_text("H.txt")
    );
}

#[test]
fn what_the_tools_themselves_print_is_read() {
    let folder = folder("tools");
    std::fs::write(folder.join("bg"), &case("L.bin")[..40]).expect("a file");
    let bytes: String = pairs(&case("L.bin")[..40])
        .iter()
        .map(|pair| format!("0x{pair},"))
        .collect();
    let source =
        format!("unsigned char bg[40] = {{{bytes}}}; int main(void) {{ return bg[0]; }}\n");
    std::fs::write(folder.join("bg.c"), source).expect("a file");
    for (programs, line) in [
        ("xxd", "xxd bg"),
        ("xxd", "xxd -g1 -c8 bg"),
        ("xxd", "xxd -p bg"),
        ("xxd", "xxd -i bg"),
        ("xxd", "xxd -a bg"),
        ("hexdump", "hexdump -C bg"),
        ("od", "od -A x -t x1 bg"),
        ("od", "od -A x -t x1z bg"),
        (
            "gdb cc",
            "cc -g bg.c -o bg.program && gdb -q -batch -ex 'x/40xb bg' bg.program 2>/dev/null",
        ),
    ] {
        if !programs.split(' ').all(has) {
            continue;
        }
        let piped = format!("({line}) | visor plan - --raw --address 4096");
        let Ran { out, err, .. } = ran("sh", &["-c", &piped], &folder, b"");
        assert_eq!(out, case_text("L.txt"), "{line}: {err}");
    }
}

/// What is wrong with a text is said with its file, line and column.
#[test]
fn bad_hex_has_its_place() {
    let folder = folder("bad");
    let line = |at: &str, bytes: &str| format!("{at}: {bytes}  ................\n");
    let whole = "0000 0500 0000 0500 0000 03c0 0000 03c0";
    let first = line("00000000", whole) + &line("00000010", whole);
    let tail = line("00000020", "0000 0 0000");
    for (text, said) in [
        (
            first.clone() + &tail,
            "log.txt:3:16: odd number of hex digits; an object needs 40 bytes, got 36",
        ),
        (
            first.replace("03c0  ", "03g0  "),
            "log.txt:1:48: 'g' is no hex digit",
        ),
        (
            line("00000000", whole) + &line("00000020", whole),
            "log.txt:2:1: bytes are missing before this line: its offset is 0x20, and 0x10 would \
             be next",
        ),
        (
            "0000000 0000 0005 0000 0005\n".to_string(),
            "log.txt:1:1: an offset of seven digits: hexdump without -C and od print words whose \
             bytes may be swapped; use hexdump -C or xxd",
        ),
        (
            "0x4020 <bg>:\t0x00050000\n".to_string(),
            "log.txt:1:14: 0x00050000 is a word whose byte order is unknown; print single bytes, \
             as gdb's x/40xb does",
        ),
        (
            "\n \n".to_string(),
            "log.txt: there are no hex digits in it",
        ),
        (
            "00".repeat(37),
            "log.txt: 37 bytes: a copy object has 40, a scaled one 36, a record 61; --as copy or \
             --as scaled takes them as an object all the same",
        ),
    ] {
        std::fs::write(folder.join("log.txt"), text).expect("a file");
        let run = ran(VISOR, &["plan", "log.txt"], &folder, b"");
        let wanted = Ran {
            out: String::new(),
            err: format!("visor: {said}\n"),
            status: 2,
        };
        assert_eq!(run, wanted);
    }
}

#[test]
fn what_was_taken_is_said() {
    let said = |arguments: &[&str], input: &[u8]| visor_on(arguments, input).err;
    assert_eq!(
        said(&["plan", "H.bin"], b""),
        "visor: H.bin: a record of 61 bytes\n"
    );
    let object = &case("L.bin")[..40];
    let taken =
        "visor: standard input: a copy object of 40 bytes, as bytes 36 to 39 are not 0 (else \
                 --as scaled); planned with --scissor 0,0,320,240 --mode 0 --address 0x80200000\n";
    assert_eq!(said(&["plan", "-"], object), taken);
    let asked = [
        "plan",
        "-",
        "--scissor=0,0,9,9",
        "--mode=0",
        "--address=1",
        "--as=copy",
    ];
    assert_eq!(
        said(&asked, object),
        "visor: standard input: a copy object of 40 bytes, as asked\n"
    );
    let two = [case("L.bin"), case("H.bin")].concat();
    let more =
        "visor: standard input: 2 records of 61 bytes, and one is wanted; `visor report` takes \
                them all\n";
    assert_eq!(said(&["plan", "-"], &two), more);
    // A dump that goes on behind the object.
    let long = pairs(&[object, &[0; 8]].concat()).join(" ");
    assert!(said(&["plan", "-"], long.as_bytes())
        .contains("a copy object, the first 40 of 48 bytes in hex"));
}

/// Options say more than a record does.
#[test]
fn options_override_a_record() {
    let plan = |option: &str| visor(&["plan", "L.bin", "--raw", option]).out;
    assert!(
        plan("--address=0x2000").starts_with(" 1       0       2      15                 8192\n")
    );
    assert_eq!(
        plan("--scissor=0,0,1024,240"),
        " 9       3       0       0       0\n"
    );
    assert!(plan("--scissor=0,0,320,1").contains("\n 9       0       6       1       4\n"));
    let filtered = visor(&["plan", "E.bin", "--raw", "--mode=8"]).out;
    assert_ne!(filtered, case_text("E.txt"));
}

/// From a width and a height to a sheet: the object in the file is the one in the hex lines, and its
/// plan the one that was printed.
#[test]
fn an_object_is_made_planned_and_drawn() {
    let folder = folder("make");
    let made = |out: &str| {
        let arguments = ["make", "320", "240", "rgba", "16b", "-o", out];
        ran(VISOR, &arguments, &folder, b"")
    };
    let Ran { out, err, status } = made("title.bin");
    assert_eq!((err.as_str(), status), ("", 0));
    let bytes = std::fs::read(folder.join("title.bin")).expect("an object");
    let hex = out.split("\n\n").nth(2).expect("the bytes in hex");
    assert_eq!(hex.split_whitespace().collect::<Vec<_>>(), pairs(&bytes));
    let planned = ran(VISOR, &["plan", "title.bin"], &folder, b"");
    assert_eq!(planned.status, 0);
    assert!(out.ends_with(&planned.out), "{out}");
    let pasted = visor_on(&["plan", "-"], hex.as_bytes());
    assert_eq!(pasted.out, planned.out);
    for sheet in ["title.svg", "title.png", "title.html"] {
        let drawn = ran(VISOR, &["draw", "title.bin", "-o", sheet], &folder, b"");
        assert_eq!(drawn.status, 0, "{}", drawn.err);
        let said = format!("{sheet}: verdict 0, The plan is complete.\n");
        assert!(drawn.out.starts_with(&said), "{}", drawn.out);
    }
    assert_eq!(made("no/such/title.bin").status, 3);
    // An object is replaced, and the picture itself is not.
    std::fs::write(folder.join("title.bin"), [0; 40]).expect("an object");
    assert_eq!(made("title.bin").status, 0);
    let again = std::fs::read(folder.join("title.bin")).expect("an object");
    assert_eq!(again, bytes);
    let picture = std::fs::read(folder.join("title.png")).expect("a picture");
    let Ran { out, err, status } = made("title.png");
    assert_eq!((out.as_str(), status), ("", 2));
    assert!(err.contains("title.png is there and is no object of 40 bytes"));
    let kept = std::fs::read(folder.join("title.png")).expect("a picture");
    assert_eq!(kept, picture);
}

/// Formats and sizes by their names, in any case, and by their numbers.
#[test]
fn names_and_numbers_make_the_same_object() {
    let made = |format: &str, size: &str| visor(&["make", "32", "0x10", format, size]);
    let formats = ["rgba", "yuv", "ci", "ia", "i"];
    let sizes = ["4b", "8b", "16b", "32b"];
    for (f, format) in formats.iter().enumerate() {
        for (s, size) in sizes.iter().enumerate() {
            let named = made(format, size);
            assert_eq!((named.status, named.err.as_str()), (0, ""));
            let stored = format!(" ff f4 {f:02x} {s:02x} ");
            assert!(named.out.contains(&stored), "{}", named.out);
            let upper = made(&format.to_uppercase(), &size.to_uppercase());
            assert_eq!(upper, named);
            assert_eq!(made(&f.to_string(), &s.to_string()), named);
            assert_eq!(made(&format!("0x{f}"), &format!("0x{s}")), named);
        }
    }
}

/// Pictures that are refused: the number of the refusal, and what is said of the number at fault.
const REFUSED: &[(&str, u8, &str)] = &[
    ("320 240 0 4", 4, "the size is 4, and may be 0 to 3: "),
    ("320 240 5 2", 4, "the format is 5, and may be 0 to 4: "),
    ("0 240 0 2", 11, "the width is 0, and may be 1 to 2,048"),
    ("320 0 0 2", 11, "the height is 0, and may be 1 to 16,383"),
    ("8193 1 i 4b", 11, "1 to 8,192 texels of I 4 bits"),
    ("4097 1 ci 4b", 11, "1 to 4,096 texels of CI 4 bits"),
    ("1025 1 ia 32b", 11, "1 to 1,024 texels of IA 32 bits"),
    ("99999999 1 yuv 8b", 11, "the width is 99,999,999, and"),
    (
        "1 0xffffffffffffffff 0 0",
        11,
        "is 18,446,744,073,709,551,615",
    ),
];

/// A picture that is refused leaves a file as it was, and makes none.
#[test]
fn a_refused_picture_is_not_written() {
    let folder = folder("refused");
    std::fs::write(folder.join("old.bin"), b"as it was").expect("a file");
    for (picture, number, said) in REFUSED {
        for name in ["old.bin", "new.bin"] {
            let mut arguments = vec!["make"];
            arguments.extend(picture.split(' ').chain(["-o", name]));
            let Ran { out, err, status } = ran(VISOR, &arguments, &folder, b"");
            assert_eq!((err.as_str(), status), ("", 1), "{picture}");
            let lines: Vec<&str> = out.lines().collect();
            let [refusal, fault, written] = lines[..] else {
                panic!("{out}");
            };
            let refused = format!("REFUSED, number {number}: The ");
            assert!(refusal.starts_with(&refused), "{out}");
            assert!(fault.contains(said), "{out}");
            assert_eq!(written, format!("{name}: nothing is written"));
        }
    }
    let files = std::fs::read_dir(&folder).expect("the folder").count();
    let old = std::fs::read(folder.join("old.bin")).expect("the file");
    assert_eq!((files, old.as_slice()), (1, &b"as it was"[..]));
}

/// Lines that are wrong use, and what is said of them.
const NO_PICTURES: &[(&str, &str)] = &[
    (
        "-1 240 rgba 16b",
        "W wants a number of 64 bits, decimal or 0x.., not -1",
    ),
    (
        "wide 240 rgba 16b",
        "W wants a number of 64 bits, decimal or 0x.., not wide",
    ),
    (
        "320 2.5 rgba 16b",
        "H wants a number of 64 bits, decimal or 0x.., not 2.5",
    ),
    (
        "320 18446744073709551616 rgba 16b",
        "H wants a number of 64 bits, decimal or 0x.., not 18446744073709551616",
    ),
    (
        "320 240 rgb 16b",
        "FMT wants RGBA, YUV, CI, IA, I or a number, not rgb",
    ),
    (
        "320 240 -1 16b",
        "FMT wants RGBA, YUV, CI, IA, I or a number, not -1",
    ),
    (
        "320 240 rgba 64b",
        "SIZ wants 4b, 8b, 16b, 32b or a number, not 64b",
    ),
    ("320 240 rgba", "too few operands: W H FMT SIZ is wanted"),
    (
        "320 240 rgba 16b x",
        "too many operands: W H FMT SIZ is wanted",
    ),
    ("320 240 rgba 16b -o", "-o wants a value"),
    (
        "320 240 rgba 16b --pointer 0x100000000",
        "--pointer wants a number of 32 bits, decimal or 0x.., not 0x100000000",
    ),
    ("320 240 rgba 16b --as copy", "there is no option --as"),
    ("320 240 rgba 16b --mode 8", "there is no option --mode"),
];

#[test]
fn pictures_that_are_wrong_use() {
    for (line, said) in NO_PICTURES {
        let mut arguments = vec!["make"];
        arguments.extend(line.split(' '));
        let Ran { out, err, status } = visor(&arguments);
        let wanted = format!("visor: {said}\nvisor: `visor --help` says how it is used\n");
        assert_eq!((out.as_str(), err, status), ("", wanted, 2), "{line}");
    }
}

/// Cell lines that are wrong use or have no copied background, and what is said of them.
const NO_CELLS: &[(&str, &str)] = &[
    ("", "too few operands: FILE X Y is wanted"),
    ("L.bin", "too few operands: FILE X Y is wanted"),
    ("L.bin 1", "too few operands: FILE X Y is wanted"),
    ("L.bin 1 2 3", "too many operands: FILE X Y is wanted"),
    (
        "L.bin -1 0",
        "X wants a number of 64 bits, decimal or 0x.., not -1",
    ),
    (
        "L.bin 0 -0x1",
        "Y wants a number of 64 bits, decimal or 0x.., not -0x1",
    ),
    (
        "L.bin left 0",
        "X wants a number of 64 bits, decimal or 0x.., not left",
    ),
    (
        "L.bin 0 0.5",
        "Y wants a number of 64 bits, decimal or 0x.., not 0.5",
    ),
    (
        "L.bin 0 18446744073709551616",
        "Y wants a number of 64 bits, decimal or 0x.., not 18446744073709551616",
    ),
    ("L.bin 0 0 --picture L.bin", "there is no option --picture"),
    ("L.bin 0 0 -o", "there is no option -o"),
];

#[test]
fn cells_that_are_wrong_use() {
    for (line, said) in NO_CELLS {
        let arguments: Vec<&str> = ["cell"]
            .into_iter()
            .chain(line.split_whitespace())
            .collect();
        let Ran { out, err, status } = visor(&arguments);
        let wanted = format!("visor: {said}\nvisor: `visor --help` says how it is used\n");
        assert_eq!((out.as_str(), err, status), ("", wanted, 2), "{line}");
    }
    let mut bytes = case("L.bin");
    bytes[52] = 11;
    let Ran { out, err, status } = visor_on(&["cell", "-", "0", "0"], &bytes);
    let said = "visor: standard input: its opcode is 11, no background's; `visor cell` is for \
                copied ones, with opcode 10\n";
    assert_eq!((out.as_str(), status), ("", 2));
    assert!(err.ends_with(said), "{err}");
}

/// A cell is looked at last: what is refused is refused for every cell, far ones too.
#[test]
fn refusals_of_cells() {
    let far = u64::MAX.to_string();
    let refused = |options: &[&str], input: &[u8]| {
        let arguments = [&["cell", "-", &far, "0xffffffffffffffff"], options].concat();
        let Ran { out, status, .. } = visor_on(&arguments, input);
        let verdict = out
            .lines()
            .find_map(|line| line.strip_prefix("REFUSED, verdict "));
        (verdict.and_then(|line| line.chars().next()), status)
    };
    let mut bytes = case("L.bin");
    assert_eq!(refused(&[], &bytes), (None, 0));
    bytes[27] = 2;
    assert_eq!(refused(&[], &bytes), (Some('5'), 1));
    bytes[22] = 5;
    assert_eq!(refused(&[], &bytes), (Some('4'), 1));
    let wide = ["--scissor", "0,0,1024,240"];
    assert_eq!(refused(&wide, &bytes), (Some('3'), 1));
    let short = [&wide[..], &["--as", "copy"]].concat();
    assert_eq!(refused(&short, &bytes[..39]), (Some('2'), 1));
}

/// A cell far down the longest plan, found in the memory of a short one.
#[test]
fn a_cell_of_the_longest_plan() {
    let line = "ulimit -v 100000; visor cell - 1022 1022";
    let Ran { out, err, status } = ran("sh", &["-c", line], Path::new(CASES), &largest());
    assert_eq!(status, 0, "{err}");
    assert!(out.contains("entry 5232646, of strip 1046529: "), "{out}");
}

#[test]
fn exit_statuses() {
    assert_eq!(visor(&["plan", "L.bin"]).status, 0);
    assert_eq!(visor(&["plan", "B.bin"]).status, 1);
    assert_eq!(visor(&["diff", "L.bin", "L.bin"]).status, 0);
    assert_eq!(visor(&["diff", "L.bin", "A.bin"]).status, 1);
    for wrong in [
        &[][..],
        &["what"],
        &["plan"],
        &["plan", "L.bin", "A.bin"],
        &["plan", "L.bin", "--what"],
        &["plan", "L.bin", "--raw", "--json"],
        &["plan", "L.bin", "--as", "picture"],
        &["plan", "L.bin", "--address", "there"],
        &["plan", "L.bin", "--scissor", "0,0"],
        &["plan", "L.bin", "--mode"],
        &["diff", "L.bin"],
        &["diff", "-", "-"],
        &["explain", "11"],
        &["explain", "seven"],
        &["explain", "1", "2"],
        &["help", "what"],
    ] {
        let Ran { out, err, status } = visor(wrong);
        assert_eq!((out.as_str(), status), ("", 2), "{wrong:?}");
        assert!(err.contains("visor --help"), "{wrong:?}: {err}");
    }
    let folder = visor(&["plan", "."]);
    assert_eq!(
        (folder.status, folder.err.as_str()),
        (2, "visor: .: it is a folder, and a file is wanted\n")
    );
    assert_eq!(visor_on(&["plan", "-"], b"").status, 2);
    let missing = visor(&["plan", "no-such.bin"]);
    let said = "visor: no-such.bin: No such file or directory\n";
    assert_eq!((missing.status, missing.err.as_str()), (3, said));
}

#[test]
fn output_that_cannot_be_written() {
    if !Path::new("/dev/full").exists() {
        return;
    }
    for form in ["", "--raw", "--json", "--entries"] {
        let full = shell(&format!("visor plan A.bin {form} > /dev/full"));
        assert_eq!(full.status, 3);
        assert!(
            full.err
                .ends_with("visor: standard output: No space left on device\n"),
            "{}",
            full.err
        );
    }
    assert_eq!(shell("visor --help > /dev/full").status, 3);
    assert_eq!(shell("visor explain 7 > /dev/full").status, 3);
    assert_eq!(shell("visor cell L.bin 0 0 > /dev/full").status, 3);
}

/// Nobody reads on: it ends at once, and quietly. The whole plan would be 430 MB.
#[test]
fn a_closed_pipe_ends_quietly() {
    let folder = folder("pipe");
    std::fs::write(folder.join("largest.bin"), largest()).expect("a file");
    for form in ["", "--raw", "--json", "--entries"] {
        let line = format!("(visor plan largest.bin {form}; echo $? >&2) | head -1");
        let Ran { out, err, .. } = ran("sh", &["-c", &line], &folder, b"");
        assert_eq!(out.lines().count(), 1);
        assert_eq!(
            err, "visor: largest.bin: a record of 61 bytes\n0\n",
            "{form}"
        );
    }
}

/// The longest plan goes through in the memory of a short one.
#[test]
fn the_longest_plan_is_streamed() {
    let folder = folder("largest");
    std::fs::write(folder.join("largest.bin"), largest()).expect("a file");
    let line = "ulimit -v 100000; visor plan largest.bin --raw | tail -1";
    let Ran { out, err, .. } = ran("sh", &["-c", line], &folder, b"");
    assert_eq!(out, " 9       0 5232646 1046529       1\n", "{err}");
}

#[test]
fn colour_only_on_a_terminal() {
    for arguments in [
        &["plan", "B.bin"][..],
        &["cell", "L.bin", "0", "0"],
        &["explain", "7"],
        &["--help"],
    ] {
        assert!(!visor(arguments).out.contains('\u{1b}'), "{arguments:?}");
    }
    if !has("script") {
        return;
    }
    let terminal = |before: &str| {
        let line = format!("{before} script -qec 'visor plan B.bin' /dev/null < /dev/null");
        shell(&line).out
    };
    let coloured = terminal("");
    if !coloured.contains("REFUSED") {
        return; // There is no terminal to be had here.
    }
    assert!(coloured.contains("\u{1b}[31mREFUSED"), "{coloured}");
    assert!(!terminal("NO_COLOR=1").contains('\u{1b}'));
}

/// The lines of a text after one, without their indentation.
fn after(text: &str, found: impl Fn(&str) -> bool) -> (&str, String) {
    let mut lines = text.lines();
    let line = lines.by_ref().find(|line| found(line)).expect("a line");
    let rest: Vec<&str> = lines
        .map(|line| line.strip_prefix("  ").unwrap_or(line))
        .collect();
    (line.trim(), rest.join("\n"))
}

fn trimmed(text: &str) -> String {
    let lines: Vec<&str> = text.trim_end().lines().map(str::trim_end).collect();
    lines.join("\n")
}

/// What the help says that an example prints is what it prints.
#[test]
fn examples_of_the_help() {
    // An example may write a file: the cases' own folder stays as it is.
    let folder = folder("examples");
    for entry in std::fs::read_dir(CASES).expect("the cases") {
        let file = entry.expect("a file");
        std::fs::copy(file.path(), folder.join(file.file_name())).expect("a copy");
    }
    let overview = visor(&["--help"]).out;
    let commands = overview.split("\ncommands\n").nth(1).expect("commands");
    let names = commands.lines().take_while(|line| !line.is_empty());
    for name in names.filter_map(|line| line.split_whitespace().next()) {
        let page = visor(&[name, "--help"]);
        assert_eq!((page.status, page.err.as_str()), (0, ""));
        assert_eq!(page.out, visor(&["help", name]).out);
        let (typed, shown) = after(&page.out, |line| line.starts_with("  $ visor "));
        let line = typed.trim_start_matches("$ ");
        assert!(overview.contains(typed), "{name}");
        let Ran { out, err, status } = ran("sh", &["-c", line], &folder, b"");
        assert!(status < 2 && !shown.is_empty(), "{line}: {err}");
        assert_eq!(trimmed(&out), trimmed(&shown), "{line}\n{err}");
    }
}

/// The command on a verdict's page answers with that verdict. Only a host's own buffer is full.
#[test]
fn examples_of_the_pages() {
    for number in 0..=10 {
        let page = visor(&["explain", &number.to_string()]).out;
        let (typed, _) = after(&page, |line| line.trim_start().starts_with("$ "));
        let Ran { out, err, status } = shell(typed.trim_start_matches("$ "));
        let (shown, wanted) = match number {
            10 => ("6 entries".to_string(), 0),
            0 => ("verdict 0".to_string(), 0),
            _ => (format!("verdict {number}, "), 1),
        };
        assert!(out.contains(&shown), "{typed}\n{out}{err}");
        assert_eq!(status, wanted, "{typed}");
    }
}

#[test]
fn the_version_names_the_library() {
    let version = visor(&["--version"]).out;
    let [program, library] = version.lines().collect::<Vec<_>>()[..] else {
        panic!("{version}");
    };
    assert_eq!(program, format!("visor {}", env!("CARGO_PKG_VERSION")));
    let numbers = visorlongan::version()
        .map(|number| number.to_string())
        .join(".");
    let sum = library.strip_prefix(&format!("library {numbers}, SHA-256 of libvisorlongan.a "));
    let sum = sum.unwrap_or_else(|| panic!("{library}"));
    assert!(
        sum.len() == 64 && sum.chars().all(|digit| digit.is_ascii_hexdigit()),
        "{sum}"
    );
    assert_eq!(visor(&["-V"]).out, version);
}

#[test]
fn the_manual_is_a_page_for_man() {
    let page = visor(&["--man"]).out;
    assert!(page.starts_with(".TH VISOR 1 "));
    for name in ["plan", "draw", "report", "explain", "diff", "make", "cell"] {
        assert!(page.contains(&format!("\n.SS {name}\n")), "{name}");
    }
    if has("groff") {
        let Ran { out, err, status } = ran(
            "groff",
            &["-man", "-Tutf8", "-ww"],
            Path::new(CASES),
            page.as_bytes(),
        );
        assert_eq!((err.as_str(), status), ("", 0));
        assert!(out.contains("nothing is coloured"));
    }
}

#[test]
fn json_is_json() {
    if !has("python3") {
        return;
    }
    let check = "import json, sys\n\
                 lines = [json.loads(line) for line in sys.stdin]\n\
                 assert [e['entry'] for e in lines[:-1]] == list(range(1, len(lines)))\n\
                 assert lines[-1]['entries'] == len(lines) - 1\n\
                 rects = [e for e in lines if e['kind'] == 'rect']\n\
                 assert len(rects) == lines[-1]['rectangles']\n\
                 print(sum('strip' in e and 'drift' in e for e in rects))\n";
    for (name, measured) in [("L", "0"), ("A", "0"), ("B", "0"), ("H", "40"), ("I", "0")] {
        let json = visor(&["plan", "--json", &format!("{name}.bin")]).out;
        let Ran { out, err, .. } =
            ran("python3", &["-c", check], Path::new(CASES), json.as_bytes());
        assert_eq!((out.trim(), err.as_str()), (measured, ""), "{name}");
    }
}

#[test]
fn plans_from_texts_and_pipes_are_compared() {
    let raw = visor(&["plan", "A.bin", "--raw"]).out;
    let same = visor_on(&["diff", "-", "A.bin"], raw.as_bytes());
    assert_eq!(
        (same.out.as_str(), same.status),
        (
            "the same plan: 201 entries, 40 rectangles, verdict 0, finished\n",
            0
        )
    );
    let damaged = raw
        .replacen("     480", "     480x", 1)
        .replacen("   81", "   8l", 1);
    let damaged = damaged.replacen("      80", "      8o", 1);
    let wrong = visor_on(&["diff", "-", "A.bin"], damaged.as_bytes());
    let said = "visor: standard input:2:1: this is no line of a plan\n";
    assert_eq!(
        (
            wrong.err.lines().last().map(|l| format!("{l}\n")),
            wrong.status
        ),
        (Some(said.to_string()), 2)
    );
    let cut: String = raw
        .lines()
        .take(9)
        .map(|line| format!("{line}\n"))
        .collect();
    let cut = visor_on(&["diff", "-", "A.bin"], cut.as_bytes());
    assert!(
        cut.err
            .ends_with("the plan has no end: its last line would begin with 9\n"),
        "{}",
        cut.err
    );
}
