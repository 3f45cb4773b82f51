//! The specification's cases, held to the text that the original Rust gave (tests/cases).

mod records;

use records::{bank, cases, largest, record, refused_loads, request, text};
use visorlongan::{count, run, Bank, Buffer, Entry, Request, Scissor, Verdict, ENTRY_WORDS};

#[test]
fn plans_are_the_rusts() {
    let mut buffer = Buffer::new();
    let cases = cases();
    assert_eq!(cases.len(), 21);
    for (name, record, object_bytes) in &cases {
        let request = request(record, *object_bytes);
        let plan = buffer.plan(&request, &mut Bank::default());
        let said = text(&format!("{name}.txt"));
        assert_eq!(plan.to_string(), said, "case {name}");
        assert_eq!(plan.entries().len() as u64, plan.end.entries);
        assert_eq!(count(&request), plan.end);
        assert_eq!(plan.result().is_ok(), plan.end.verdict == Verdict::Finished);
    }
}

#[test]
fn banks_are_the_rusts() {
    let mut buffer = Buffer::new();
    for (name, record, object_bytes) in &cases() {
        let mut tiles = bank(&text("initial-bank.txt"));
        let _ = buffer.plan(&request(record, *object_bytes), &mut tiles);
        assert_eq!(tiles, bank(&text(&format!("{name}.bank"))), "case {name}");
    }
}

/// Each step has the bank of a run that was cut off there, and the last one the plan's own.
#[test]
fn steps_have_the_bank_of_each_entry() {
    let before = bank(&text("initial-bank.txt"));
    for (name, record, object_bytes) in &cases() {
        let request = request(record, *object_bytes);
        let (mut buffer, mut after) = (Buffer::new(), before);
        let plan = buffer.plan(&request, &mut after);
        for (n, (entry, tiles)) in (1..).zip(plan.steps(before)) {
            let (mut words, mut cut) = (vec![0; n * ENTRY_WORDS], before);
            let shorter = run(&request, &mut cut, &mut words);
            assert_eq!(shorter.entries().next_back(), Some(entry));
            let whole = n as u64 == plan.end.entries;
            assert_eq!(
                tiles,
                if whole { after } else { cut },
                "case {name}, entry {n}"
            );
        }
        let banks = plan.steps(before).map(|(_, tiles)| tiles);
        assert_eq!(banks.last().unwrap_or(before), after, "case {name}");
    }
}

/// A load that is refused by its address has set tile 7's bounds, which is no entry.
#[test]
fn a_refused_load_has_set_its_size() {
    for (record, right) in refused_loads() {
        let (mut buffer, mut after) = (Buffer::new(), Bank::default());
        let plan = buffer.plan(&record.request(), &mut after);
        assert_eq!((plan.end.verdict, plan.end.entries), (Verdict::Address, 4));
        let (entry, tiles) = plan.steps(Bank::default()).last().expect("four entries");
        assert!(matches!(entry, Entry::Size(_) | Entry::Image(_)));
        assert_eq!((tiles.tiles[7].lrs, after.tiles[7].lrs), (0, right));
    }
}

#[test]
fn entries_come_from_both_ends() {
    let record = record("E");
    let mut buffer = Buffer::new();
    let plan = buffer.plan(&record.request(), &mut Bank::default());
    let forward: Vec<Entry> = plan.entries().collect();
    let mut backward: Vec<Entry> = plan.entries().rev().collect();
    backward.reverse();
    assert_eq!(forward, backward);
    let mut entries = plan.entries();
    assert_eq!((entries.nth(120), entries.len()), (Some(forward[120]), 2));
    assert_eq!(entries.next_back(), Some(forward[122]));
    assert_eq!(entries.next(), Some(forward[121]));
    assert_eq!(
        (entries.next(), entries.next(), entries.next_back()),
        (None, None, None)
    );
    let mut count = 0;
    for entry in &plan {
        let words = entry.to_words();
        let mode = visorlongan::Mode::Scaled;
        assert_eq!(Entry::from_words(&words, mode), Ok(entry));
        count += 1;
    }
    assert_eq!(count, 123);
}

/// Case E has 123 entries: every buffer up to its plan's length and a little more.
#[test]
fn buffers_of_every_length() {
    let record = record("E");
    let request = record.request();
    let mut whole = vec![7; 123 * ENTRY_WORDS];
    let end = run(&request, &mut Bank::default(), &mut whole).end;
    assert_eq!((end.verdict, end.entries), (Verdict::Finished, 123));
    for length in 0..whole.len() + 24 {
        let mut words = vec![7; length];
        let end = run(&request, &mut Bank::default(), &mut words).end;
        let fitting = (length / ENTRY_WORDS).min(123);
        let verdict = if fitting < 123 {
            Verdict::Full
        } else {
            Verdict::Finished
        };
        assert_eq!((end.verdict, end.entries), (verdict, fitting as u64));
        let (written, rest) = words.split_at(fitting * ENTRY_WORDS);
        assert_eq!(written, &whole[..written.len()]);
        assert!(rest.iter().all(|word| *word == 7));
    }
}

/// Case D is refused after one entry, and that is said though the buffer has room for no more.
#[test]
fn a_refusal_comes_before_a_full_buffer() {
    let record = record("D");
    let mut words = [7; ENTRY_WORDS];
    let end = run(&record.request(), &mut Bank::default(), &mut words).end;
    assert_eq!((end.verdict, end.entries), (Verdict::TooBig, 1));
    let end = run(&record.request(), &mut Bank::default(), &mut []).end;
    assert_eq!((end.verdict, end.entries), (Verdict::Full, 0));
}

#[test]
fn refused_requests_leave_the_bank() {
    let record = record("L");
    let good = record.request();
    let edge = |ulx| Request {
        scissor: Scissor {
            ulx,
            ..good.scissor
        },
        ..good
    };
    let opcode = |opcode| Request { opcode, ..good };
    let object = |object| Request { object, ..good };
    let tiles = bank(&text("initial-bank.txt"));
    for (request, verdict) in [
        (opcode(0), Verdict::Opcode),
        (opcode(255), Verdict::Opcode),
        (object(&[][..]), Verdict::Short),
        (object(&good.object[..39]), Verdict::Short),
        (edge(-1), Verdict::Scissor),
        (edge(1024), Verdict::Scissor),
        (edge(i32::MIN), Verdict::Scissor),
        (edge(i32::MAX), Verdict::Scissor),
        (object(&[0; 40][..]), Verdict::Object),
    ] {
        let (mut after, mut words) = (tiles, [7; 110]);
        let end = run(&request, &mut after, &mut words).end;
        assert_eq!((end.verdict, end.entries, after), (verdict, 0, tiles));
        assert_eq!(words, [7; 110]);
    }
}

#[test]
fn bytes_beyond_the_object_are_not_read() {
    for name in ["L", "E"] {
        let record = record(name);
        let mut bytes = record.request().object.to_vec();
        bytes.extend([255; 24]);
        let long = Request {
            object: &bytes,
            ..record.request()
        };
        let mut buffer = Buffer::new();
        let plan = buffer.plan(&long, &mut Bank::default());
        assert_eq!(plan.to_string(), text(&format!("{name}.txt")));
    }
}

#[test]
fn the_largest_plan() {
    let record = largest();
    let mut buffer = Buffer::new();
    let plan = buffer.plan(&record.request(), &mut Bank::default());
    assert_eq!(plan.end.verdict, Verdict::Finished);
    assert_eq!(
        (plan.end.entries, plan.end.rectangles),
        (5_232_646, 1_046_529)
    );
    assert_eq!(plan.entries().count(), 5_232_646);
    assert!(buffer.room() >= 5_232_646);
    buffer.shrink_to(10);
    assert_eq!(buffer.room(), 10);
}

/// A limit is kept, a plan that wants more is answered, and the bank is that of what fitted.
#[test]
fn buffers_with_a_limit() {
    let long = largest();
    for limit in [0, 1, 5, 511, 512, 513, 100_000] {
        let (mut buffer, mut after) = (Buffer::with_limit(limit), Bank::default());
        let plan = buffer.plan(&long.request(), &mut after);
        assert_eq!(
            (plan.end.verdict, plan.end.entries),
            (Verdict::Full, limit as u64)
        );
        let banks = plan.steps(Bank::default()).map(|(_, tiles)| tiles);
        assert_eq!(banks.last().unwrap_or_default(), after);
        assert_eq!(buffer.room(), limit);
    }
    let small = record("L");
    let mut buffer = Buffer::with_limit(6);
    let plan = buffer.plan(&small.request(), &mut Bank::default());
    assert_eq!(plan.result(), Ok(()));
}

/// The archive, the crate and the header are of one version.
#[test]
fn versions() {
    let [major, minor, patch] = visorlongan::version();
    let version = format!("{major}.{minor}.{patch}");
    assert_eq!(version, env!("CARGO_PKG_VERSION"));
    let header = concat!(env!("CARGO_MANIFEST_DIR"), "/include/visorlongan.h");
    let header = std::fs::read_to_string(header).expect("the header");
    assert!(header.contains(&format!("#define VISOR_VERSION_TEXT \"{version}\"")));
}
