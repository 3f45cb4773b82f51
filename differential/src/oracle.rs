//! Runs the reference's background planners on cases and prints their plans. See README.md.

#![allow(dead_code, unused_imports, unexpected_cfgs)]

mod cases;
mod cells;
mod claims;
mod coverage;
mod diag;
mod edges;
mod engine;
mod entry;
mod fnv;
mod generate;
mod hle;
mod inspect;
mod machine;
mod plan;
mod random;
mod record;
mod replay;
mod run;
mod scene;
mod spans;

pub use diag::{DiagKind, Diagnostic, MemoryAccess};
pub use hle::mem::{MemoryError, MemoryErrorKind};

use entry::print_entry;
use plan::{print_bank, print_end, Sink, BRANCH_NAMES};
use record::{initial_bank, Record, OBJECT_BYTES, RECORD_BYTES};
use run::{run, Answer, Settings};
use std::fmt::Write as _;
use std::io::{Read, Write};
use std::panic::{catch_unwind, set_hook, AssertUnwindSafe};

const USAGE: &str = "\
oracle [options]                 one case of 61 bytes from standard input
oracle [options] --records FILE  for each record of 61 bytes: `# n`, then its plan
oracle [options] --digest FILE   for each record one line: verdict, entries, rectangles,
                                   tile words, hash of the entries, hash of the bank
oracle [options] --coverage FILE how often each verdict and branch is met
oracle [options] --sample FILE   a few small records for each verdict and each branch
oracle [options] --find BRANCH FILE  number and bytes of the records that meet a branch
oracle [options] --claims FILE   sentences of the specification held against the plans
oracle --lines                   the lines of a scaled case from standard input
oracle --gen SEED COUNT MODE     records; MODE: mixed copy scaled thin whole
                                   corners damaged wild
oracle --cases DIRECTORY         the worked cases as host/tests/cases has them: .bin, .txt and
                                   .bank files, list.txt and initial-bank.txt
oracle --edges                   the edge records: their bytes, and what each is for
oracle [options] --initial-bank  the bank that the options name
oracle --replay DIRECTORY        the list of crates/replay, its bank and the Rust's answers
oracle --replayed DIRECTORY      whether the answers there are still the Rust's
FILE `-` is standard input.
options: --bank             print the eight tiles after each plan
         --bank-seed N      start from the bank made from seed N, not from zeros
         --object-bytes N   give the planner only the first N bytes of the object
         --capacity WORDS   a plan buffer of so many words (verdict 10)
";

enum Task {
    Single,
    Records(String),
    Digest(String),
    Coverage(String),
    Sample(String),
    Find(String, String),
    Claims(String),
    Lines,
    Generate(u64, u64, generate::Mode),
    Cases(String),
    Edges,
    InitialBank,
    Replay(String),
    Replayed(String),
}

fn usage() -> ! {
    eprint!("{USAGE}");
    std::process::exit(2);
}

fn number<T: std::str::FromStr>(text: Option<String>) -> T {
    text.and_then(|t| t.parse().ok()).unwrap_or_else(|| usage())
}

/// How cases are run, whether their banks are printed, and what is to be done.
struct Asked {
    settings: Settings,
    bank: bool,
    task: Task,
}

fn asked() -> Asked {
    let mut settings = Settings::default();
    let mut bank = false;
    let mut task = Task::Single;
    let mut arguments = std::env::args().skip(1);
    while let Some(argument) = arguments.next() {
        let mut file = || arguments.next().unwrap_or_else(|| usage());
        match argument.as_str() {
            "--bank" => bank = true,
            "--bank-seed" => settings.bank = initial_bank(Some(number(arguments.next()))),
            "--object-bytes" => {
                settings.object_bytes = number::<usize>(arguments.next()).min(OBJECT_BYTES)
            }
            "--capacity" => settings.capacity = number(arguments.next()),
            "--records" => task = Task::Records(file()),
            "--digest" => task = Task::Digest(file()),
            "--coverage" => task = Task::Coverage(file()),
            "--sample" => task = Task::Sample(file()),
            "--find" => task = Task::Find(file(), file()),
            "--claims" => task = Task::Claims(file()),
            "--lines" => task = Task::Lines,
            "--cases" => task = Task::Cases(file()),
            "--edges" => task = Task::Edges,
            "--initial-bank" => task = Task::InitialBank,
            "--replay" => task = Task::Replay(file()),
            "--replayed" => task = Task::Replayed(file()),
            "--gen" => {
                task = Task::Generate(
                    number(arguments.next()),
                    number(arguments.next()),
                    generate::Mode::from_name(&arguments.next().unwrap_or_default())
                        .unwrap_or_else(|| usage()),
                )
            }
            _ => usage(),
        }
    }
    Asked {
        settings,
        bank,
        task,
    }
}

fn main() {
    let asked = asked();
    // Panics are caught case by case; where they came from goes to standard error.
    set_hook(Box::new(|info| eprintln!("panic: {info}")));
    let mut out = Output::new();
    perform(asked, &mut out);
    out.flush();
}

fn perform(asked: Asked, out: &mut Output) {
    let Asked {
        settings,
        bank,
        task,
    } = asked;
    match task {
        Task::Single => match read_single() {
            Some(record) => print_plan(&record, &settings, bank, out),
            None => out.put(&short_text()),
        },
        Task::Records(file) => {
            for (n, record) in read_records(&file).enumerate() {
                out.put(&format!("# {n}\n"));
                print_plan(&record, &settings, bank, out);
            }
        }
        Task::Digest(file) => {
            for record in read_records(&file) {
                out.put(&digest_text(&record, &settings));
            }
        }
        Task::Coverage(file) => {
            let mut coverage = coverage::Coverage::default();
            for record in read_records(&file) {
                coverage.count(&record, caught(&record, &settings, Sink::Nothing));
            }
            out.put(&coverage.text());
        }
        Task::Sample(file) => {
            let mut sample = coverage::Sample::default();
            for record in read_records(&file) {
                let answer = caught(&record, &settings, Sink::Nothing);
                if answer.is_some_and(|answer| sample.takes(&record, &answer)) {
                    out.put_bytes(&record.to_bytes());
                }
            }
        }
        Task::Find(name, file) => {
            let branch = BRANCH_NAMES.iter().position(|n| *n == name);
            let branch = branch.unwrap_or_else(|| usage());
            for (n, record) in read_records(&file).enumerate() {
                let answer = caught(&record, &settings, Sink::Nothing);
                if answer.is_some_and(|a| a.plan.notes.hits[branch] > 0) {
                    out.put(&format!("{n} {}\n", claims::hex(&record)));
                }
            }
        }
        Task::Claims(file) => {
            let mut claims = claims_on(&file, &settings);
            let mut text = String::new();
            claims.print(&mut text);
            out.put(&text);
            if !claims.hold() {
                out.flush();
                fail(&file, "a sentence of the specification is broken");
            }
        }
        Task::Lines => {
            let record = read_single().unwrap_or_else(|| usage());
            let answer = run(&record, &settings, Sink::Keep);
            let drift = claims::drift(&answer).unwrap_or_else(|| usage());
            let mut text = String::new();
            claims::print_lines(&drift, &mut text);
            out.put(&text);
        }
        Task::Generate(seed, count, mode) => {
            let mut random = random::Random(seed);
            for _ in 0..count {
                out.put_bytes(&generate::generate(&mut random, mode).to_bytes());
            }
        }
        Task::Cases(directory) => write_cases(&directory),
        Task::Edges => {
            for (what, record) in edges::named() {
                out.put(&format!("{} {what}\n", claims::hex(&record)));
            }
        }
        Task::InitialBank => {
            let mut text = String::new();
            print_bank(&settings.bank, &mut text);
            out.put(&text);
        }
        Task::Replay(directory) => match replay::write(&directory) {
            Ok(count) => out.put(&format!("{count} records\n")),
            Err(error) => fail(&directory, &error.to_string()),
        },
        Task::Replayed(directory) => match replay::holds(&directory) {
            Ok(true) => out.put("the replayed answers are the Rust's\n"),
            Ok(false) => fail(&directory, "stdout is not what the Rust answers"),
            Err(error) => fail(&directory, &error.to_string()),
        },
    }
}

fn fail(what: &str, why: &str) -> ! {
    eprintln!("{what}: {why}");
    std::process::exit(1);
}

/// Buffered standard output that ends quietly when its reader does.
struct Output(std::io::BufWriter<std::io::Stdout>);

impl Output {
    fn new() -> Self {
        Output(std::io::BufWriter::with_capacity(
            1 << 16,
            std::io::stdout(),
        ))
    }
    fn put_bytes(&mut self, bytes: &[u8]) {
        if self.0.write_all(bytes).is_err() {
            std::process::exit(1);
        }
    }
    fn put(&mut self, text: &str) {
        self.put_bytes(text.as_bytes());
    }
    fn flush(&mut self) {
        if self.0.flush().is_err() {
            std::process::exit(1);
        }
    }
}

/// The case on standard input, or nothing if it has fewer than 61 bytes.
fn read_single() -> Option<Record> {
    let mut bytes = [0; RECORD_BYTES];
    std::io::stdin().read_exact(&mut bytes).ok()?;
    Some(Record::from_bytes(&bytes))
}

/// The whole records of a file, or of standard input for `-`; a cut last one is left out.
fn read_records(file: &str) -> impl Iterator<Item = Record> {
    let mut input: Box<dyn Read> = if file == "-" {
        Box::new(std::io::stdin())
    } else {
        match std::fs::File::open(file) {
            Ok(input) => Box::new(std::io::BufReader::with_capacity(1 << 16, input)),
            Err(error) => {
                eprintln!("{file}: {error}");
                std::process::exit(2);
            }
        }
    };
    std::iter::from_fn(move || {
        let mut bytes = [0; RECORD_BYTES];
        input.read_exact(&mut bytes).ok()?;
        Some(Record::from_bytes(&bytes))
    })
}

/// `bgplan` for too few bytes: one end line with verdict 2.
fn short_text() -> String {
    let mut text = String::new();
    let end = plan::End {
        verdict: 2,
        entries: 0,
        rectangles: 0,
        tile_words: 0,
    };
    print_end(&end, &mut text);
    text
}

fn caught(record: &Record, settings: &Settings, sink: Sink) -> Option<Answer> {
    let answer = catch_unwind(AssertUnwindSafe(|| run(record, settings, sink)));
    if answer.is_err() {
        eprintln!("panic on {}", claims::hex(record));
    }
    answer.ok()
}

fn print_plan(record: &Record, settings: &Settings, bank: bool, out: &mut Output) {
    out.flush();
    let sink = Sink::Print(std::io::BufWriter::with_capacity(
        1 << 16,
        std::io::stdout(),
    ));
    let answer = caught(record, settings, sink);
    out.put(&end_text(answer, bank));
}

/// The end line, and the bank if asked for.
fn end_text(answer: Option<Answer>, bank: bool) -> String {
    let Some(answer) = answer else {
        return "panic\n".to_string();
    };
    let mut text = String::new();
    print_end(&answer.end, &mut text);
    if bank {
        print_bank(&answer.bank, &mut text);
    }
    text
}

/// The same as `print_plan` prints without the bank, as one text.
fn plan_text(record: &Record, settings: &Settings) -> String {
    let answer = caught(record, settings, Sink::Keep);
    let mut text = String::new();
    for entry in answer.iter().flat_map(|a| &a.plan.entries) {
        print_entry(entry, &mut text);
    }
    text + &end_text(answer, false)
}

fn digest_text(record: &Record, settings: &Settings) -> String {
    let Some(answer) = caught(record, settings, Sink::Nothing) else {
        return "panic\n".to_string();
    };
    let end = answer.end;
    format!(
        "{} {} {} {} {:016x} {:016x}\n",
        end.verdict,
        end.entries,
        end.rectangles,
        end.tile_words,
        answer.plan.hash.value(),
        plan::hash_bank(&answer.bank)
    )
}

fn claims_on(file: &str, settings: &Settings) -> claims::Claims {
    let mut claims = claims::Claims::default();
    for (n, record) in read_records(file).enumerate() {
        if let Some(answer) = caught(&record, settings, Sink::Keep) {
            claims.check(n, &record, settings, &answer);
        }
    }
    claims
}

/// The bank of seed 1 and, for each case, the record, the plan from a zero bank, and the bank that
/// the plan leaves of the bank of seed 1.
fn write_cases(directory: &str) {
    let write = |name: &str, bytes: &[u8]| {
        std::fs::write(format!("{directory}/{name}"), bytes).expect("cases directory");
    };
    let bank_text = |bank: &record::Bank| {
        let mut text = String::new();
        print_bank(bank, &mut text);
        text
    };
    let seeded_bank = initial_bank(Some(1));
    let mut list = String::new();
    for case in cases::all() {
        let settings = Settings {
            object_bytes: case.object_bytes,
            ..Default::default()
        };
        let seeded = Settings {
            bank: seeded_bank.clone(),
            ..settings.clone()
        };
        let name = case.name;
        writeln!(list, "{name} {}", case.object_bytes).unwrap();
        write(&format!("{name}.bin"), &case.record.to_bytes());
        let plan = plan_text(&case.record, &settings);
        write(&format!("{name}.txt"), plan.as_bytes());
        let answer = run(&case.record, &seeded, Sink::Nothing);
        write(&format!("{name}.bank"), bank_text(&answer.bank).as_bytes());
    }
    write("list.txt", list.as_bytes());
    write("initial-bank.txt", bank_text(&seeded_bank).as_bytes());
}
