//! The proved planner and the original Rust side by side on the same records.
//!
//! Usage: bench [ROUNDS]
//!        bench --guard
//!
//! The Rust is the published text over shims that only store each call's entry, built for release.
//! Both write eleven words an entry into a buffer that has been written before. A round runs all
//! records of a group through one and then through the other; the best round of each counts.
//! A second table holds the proved count of a plan's end against the proved run. A third has what a
//! start and a step cost, and a fourth steps of the largest plan at three places of it.

#![allow(dead_code, unused_imports, unexpected_cfgs)]

mod cases;
mod diag;
mod edges;
mod entry;
mod generate;
mod hle;
mod inspect;
mod machine;
#[path = "store.rs"]
mod plan;
mod proved;
mod random;
mod record;
mod scene;

pub use diag::{DiagKind, Diagnostic, MemoryAccess};
pub use hle::mem::{MemoryError, MemoryErrorKind};

use generate::Mode;
use hle::rsp_s2dex2::{bg_1cyc, bg_copy};
use machine::{CaseMemory, Machine, Planner};
use plan::Plan;
use proved::{BANK_WORDS, END_WORDS, REQUEST_WORDS, STATE_WORDS, STEP_WORDS};
use random::Random;
use record::{Bank, Record, COPY, SCALED};
use std::time::{Duration, Instant};

struct Group {
    name: &'static str,
    records: Vec<Record>,
    /// How often a round runs each record.
    times: usize,
}

fn named(names: &[&str]) -> Vec<Record> {
    let all = cases::all();
    names
        .iter()
        .map(|name| all.iter().find(|c| c.name == *name).expect("a case").record)
        .collect()
}

fn random(mode: Mode) -> Vec<Record> {
    let mut random = Random(1);
    let records = (0..4_000).map(|_| generate::generate(&mut random, mode));
    records
        .filter(|r| [COPY, SCALED].contains(&r.opcode) && r.scissor.iter().all(|e| *e < 1024))
        .collect()
}

fn groups() -> Vec<Group> {
    let group = |name, records, times| Group {
        name,
        records,
        times,
    };
    vec![
        group("small: L", named(&["L"]), 20_000),
        group("small: C", named(&["C"]), 20_000),
        group("small: G", named(&["G"]), 20_000),
        group("refused: D", named(&["D"]), 20_000),
        group("refused: N in copy mode", named(&["N-copy"]), 20_000),
        group("typical: A", named(&["A"]), 1_000),
        group("typical: E", named(&["E"]), 1_000),
        group("typical: H", named(&["H"]), 1_000),
        group("random copy plans", random(Mode::Copy), 1),
        group("random scaled plans", random(Mode::Scaled), 1),
        group("largest", vec![edges::largest()], 1),
    ]
}

/// The original Rust, with the state that it keeps between commands, the tiles among it.
struct Original {
    machine: Machine,
}

impl Original {
    fn new(words: usize) -> Self {
        let plan = Plan {
            words: vec![1; words],
            at: 0,
        };
        Original {
            machine: Machine::new(Bank::default(), plan),
        }
    }

    /// The entries of a record's plan.
    fn run(&mut self, record: &Record) -> usize {
        let planner: Planner = if record.opcode == COPY {
            bg_copy
        } else {
            bg_1cyc
        };
        self.machine.rsp.plan.at = 0;
        self.machine.diagnostics.clear();
        let memory = CaseMemory::new(&record.object, record.address);
        self.machine.call(planner, record, memory);
        self.machine.rsp.plan.at / 11
    }
}

/// The proved planner, with the bank that a host keeps between commands.
struct Proved {
    bank: [u64; BANK_WORDS],
    words: Vec<u64>,
}

fn request(record: &Record) -> [u64; REQUEST_WORDS] {
    let [ulx, uly, lrx, lry] = record.scissor.map(u64::from);
    [
        record.opcode.into(),
        ulx,
        uly,
        lrx,
        lry,
        record.render_mode.into(),
        record.address,
    ]
}

/// The entries of a record's plan, counted without a buffer.
fn count(record: &Record) -> usize {
    let mut end = [0; END_WORDS];
    proved::count(&record.object, &request(record), &mut end);
    end[1] as usize
}

impl Proved {
    fn run(&mut self, record: &Record) -> usize {
        let mut end = [0; END_WORDS];
        proved::run(
            &record.object,
            &request(record),
            &mut self.bank,
            &mut self.words,
            &mut end,
        );
        end[1] as usize
    }
}

/// The first word of what a step gives at the end.
const END: u64 = 9;

/// The proved planner step by step, with the words that a host keeps between two steps.
struct Stepper {
    state: [u64; STATE_WORDS],
    bank: [u64; BANK_WORDS],
    out: [u64; STEP_WORDS],
}

impl Stepper {
    fn start(&mut self, record: &Record) {
        proved::start(&record.object, &request(record), &mut self.state);
    }

    fn step(&mut self) {
        proved::step(&mut self.state, &mut self.bank, &mut self.out);
    }

    /// The entries of a record's plan: a start, a step for each of them and one for the end.
    fn run(&mut self, record: &Record) -> usize {
        self.start(record);
        self.step();
        let mut entries = 0;
        while self.out[0] != END {
            entries += 1;
            self.step();
        }
        entries
    }
}

fn timed(group: &Group, mut run: impl FnMut(&Record) -> usize) -> (Duration, usize) {
    let start = Instant::now();
    let mut entries = 0;
    for _ in 0..group.times {
        for record in &group.records {
            entries += run(std::hint::black_box(record));
        }
    }
    (start.elapsed(), entries)
}

/// The best time of a way through a group's records.
fn best(group: &Group, rounds: usize, mut run: impl FnMut(&Record) -> usize) -> f64 {
    let times = (0..rounds).map(|_| timed(group, &mut run).0);
    times.min().unwrap_or(Duration::MAX).as_secs_f64()
}

/// Both must store the same words; the rectangles' image row is the proved code's alone.
fn assert_same(group: &Group, proved: &mut Proved, original: &mut Original) {
    for record in &group.records {
        let count = proved.run(record);
        assert_eq!(count, original.run(record));
        let words = original.machine.rsp.plan.words.chunks_exact(11);
        for (mine, theirs) in proved.words.chunks_exact(11).zip(words).take(count) {
            let compared = if mine[0] == entry::RECTANGLE { 10 } else { 11 };
            assert_eq!(mine[..compared], theirs[..compared]);
        }
    }
}

/// The best times of two ways through a group's records, and the entries of all its plans.
struct Measured {
    first: f64,
    second: f64,
    plans: f64,
    entries: f64,
}

impl Measured {
    /// Above 1: the first is faster.
    fn ratio(&self) -> f64 {
        self.second / self.first
    }
}

fn measured(
    group: &Group,
    rounds: usize,
    mut first: impl FnMut(&Record) -> usize,
    mut second: impl FnMut(&Record) -> usize,
) -> Measured {
    let (mut best_first, mut best_second, mut entries) = (Duration::MAX, Duration::MAX, 0);
    for _ in 0..rounds {
        let (time, given) = timed(group, &mut first);
        best_first = best_first.min(time);
        best_second = best_second.min(timed(group, &mut second).0);
        entries = given;
    }
    Measured {
        first: best_first.as_secs_f64(),
        second: best_second.as_secs_f64(),
        plans: (group.times * group.records.len()) as f64,
        entries: entries as f64,
    }
}

fn beside(group: &Group, rounds: usize, proved: &mut Proved, original: &mut Original) -> Measured {
    let rust = |record: &Record| original.run(record);
    measured(group, rounds, |record| proved.run(record), rust)
}

/// Plans and entries a second of the proved run and of the Rust.
fn print_runs(groups: &[Group], rounds: usize, proved: &mut Proved, original: &mut Original) {
    println!(
        "{:<25}{:>9}{:>13}{:>13}{:>13}{:>13}{:>7}",
        "", "entries", "plans/s", "entries/s", "plans/s", "entries/s", ""
    );
    println!(
        "{:<25}{:>9}{:>26}{:>26}{:>7}",
        "", "a plan", "proved", "Rust", "ratio"
    );
    for group in groups {
        assert_same(group, proved, original);
        let m = beside(group, rounds, proved, original);
        println!(
            "{:<25}{:>9.1}{:>13.0}{:>13.0}{:>13.0}{:>13.0}{:>7.2}",
            group.name,
            m.entries / m.plans,
            m.plans / m.first,
            m.entries / m.first,
            m.plans / m.second,
            m.entries / m.second,
            m.ratio()
        );
    }
}

/// Plans a second of `visor_count` and of `visor_run`, for typical, random and the largest plans.
fn print_counts(groups: &[Group], rounds: usize, proved: &mut Proved) {
    println!(
        "\n{:<25}{:>9}{:>13}{:>13}{:>7}\n{:<25}{:>9}{:>13}{:>13}{:>7}",
        "", "entries", "plans/s", "plans/s", "", "", "a plan", "counted", "run", "ratio"
    );
    let shown = ["typical", "random", "largest"];
    let shown = |group: &&Group| shown.iter().any(|name| group.name.starts_with(name));
    for group in groups.iter().filter(shown) {
        for record in &group.records {
            assert_eq!(count(record), proved.run(record));
        }
        let m = measured(group, rounds, count, |record| proved.run(record));
        println!(
            "{:<25}{:>9.1}{:>13.0}{:>13.0}{:>7.2}",
            group.name,
            m.entries / m.plans,
            m.plans / m.first,
            m.plans / m.second,
            m.ratio()
        );
    }
}

/// The steps must give the words that the run stores, and the end after them.
fn assert_steps(group: &Group, proved: &mut Proved, stepper: &mut Stepper) {
    for record in &group.records {
        let count = proved.run(record);
        stepper.start(record);
        for words in proved.words.chunks_exact(11).take(count) {
            stepper.step();
            assert_eq!(stepper.out, words);
        }
        stepper.step();
        assert_eq!((stepper.out[0], stepper.out[2]), (END, count as u64));
    }
}

/// Nanoseconds for each of so many; nothing to show where there are none.
fn each(seconds: f64, count: f64) -> String {
    if count == 0.0 {
        return "-".to_string();
    }
    format!("{:.1}", 1e9 * seconds / count)
}

/// Starts that a round has at least, so that looking at the clock does not count.
const STARTS: usize = 1_000;

/// The seconds of a start.
fn start_time(group: &Group, rounds: usize, stepper: &mut Stepper) -> f64 {
    let records = group.records.clone();
    let times = group.times.max(STARTS / records.len());
    let starts = (times * records.len()) as f64;
    let name = group.name;
    let again = Group {
        name,
        records,
        times,
    };
    let time = best(&again, rounds, |record| {
        stepper.start(record);
        0
    });
    time / starts
}

/// Nanoseconds of a start and of a step, without its plan's start and with it, and of an entry of
/// the run. The end is a step too.
fn print_steps(groups: &[Group], rounds: usize, proved: &mut Proved, stepper: &mut Stepper) {
    println!(
        "\n{:<25}{:>9}{:>13}{:>13}{:>13}{:>13}",
        "", "entries", "ns", "ns", "ns a step", "ns an entry"
    );
    println!(
        "{:<25}{:>9}{:>13}{:>13}{:>13}{:>13}",
        "", "a plan", "a start", "a step", "with start", "of the run"
    );
    for group in groups {
        assert_steps(group, proved, stepper);
        let start = start_time(group, rounds, stepper);
        let step = |record: &Record| stepper.run(record);
        let m = measured(group, rounds, step, |record| proved.run(record));
        let steps = m.entries + m.plans;
        println!(
            "{:<25}{:>9.1}{:>13}{:>13}{:>13}{:>13}",
            group.name,
            m.entries / m.plans,
            each(start, 1.0),
            each(m.first - start * m.plans, steps),
            each(m.first, steps),
            each(m.second, m.entries)
        );
    }
}

/// Steps that are timed together, at one place of a plan.
const STRETCH: usize = 1_000;

/// The best time of the next steps, taken again and again: the planner's words are put back.
fn stretch_time(rounds: usize, stepper: &mut Stepper) -> f64 {
    let state = stepper.state;
    let mut best = Duration::MAX;
    for _ in 0..rounds {
        let start = Instant::now();
        (0..STRETCH).for_each(|_| stepper.step());
        best = best.min(start.elapsed());
        stepper.state = state;
    }
    best.as_secs_f64()
}

/// Nanoseconds a step of the largest plan at its start, in its middle and before its end, all
/// reached by steps.
fn print_places(rounds: usize, stepper: &mut Stepper) {
    let record = edges::largest();
    let entries = count(&record);
    let (heading, from) = ("largest, 1,000 steps", "from");
    println!("\n{heading:<25}{from:>9}{:>13}", "ns a step");
    stepper.start(&record);
    let mut at = 0;
    for (name, from) in [
        ("the first", 0),
        ("in the middle", entries / 2),
        ("the last before the end", entries - STRETCH),
    ] {
        (at..from).for_each(|_| stepper.step());
        at = from;
        let time = each(stretch_time(10 * rounds, stepper), STRETCH as f64);
        println!("{name:<25}{from:>9}{time:>13}");
    }
}

/// A group that stays below this in every try is no noise: some layouts of the planner are seven times slower.
const LEAST_RATIO: f64 = 0.5;
const TRIES: usize = 3;
const GUARD_ROUNDS: usize = 3;

/// Whether every group reaches the least ratio in one of its tries.
fn guarded(groups: &[Group], proved: &mut Proved, original: &mut Original) -> bool {
    let mut all = true;
    for group in groups {
        let mut ratios = Vec::new();
        while ratios.len() < TRIES && ratios.iter().all(|r| *r < LEAST_RATIO) {
            ratios.push(beside(group, GUARD_ROUNDS, proved, original).ratio());
        }
        let reached = ratios.iter().any(|r| *r >= LEAST_RATIO);
        let text: Vec<String> = ratios.iter().map(|r| format!("{r:.2}")).collect();
        println!(
            "{:<25}{}{}",
            group.name,
            text.join(", "),
            if reached { "" } else { ": too slow" }
        );
        all &= reached;
    }
    all
}

fn main() {
    let argument = std::env::args().nth(1);
    let groups = groups();
    let words = 5_232_646 * 11;
    let mut original = Original::new(words);
    let mut proved = Proved {
        bank: [0; BANK_WORDS],
        words: vec![1; words],
    };
    if argument.as_deref() == Some("--guard") {
        if !guarded(&groups, &mut proved, &mut original) {
            println!("a group stays below {LEAST_RATIO} of the Rust's speed in {TRIES} tries");
            std::process::exit(1);
        }
        return;
    }
    let rounds = argument.map_or(9, |n| n.parse().expect("rounds"));
    print_runs(&groups, rounds, &mut proved, &mut original);
    print_counts(&groups, rounds, &mut proved);
    let mut stepper = Stepper {
        state: [0; STATE_WORDS],
        bank: [0; BANK_WORDS],
        out: [0; STEP_WORDS],
    };
    print_steps(&groups, rounds, &mut proved, &mut stepper);
    print_places(rounds, &mut stepper);
}
