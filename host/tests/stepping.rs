//! Planners that are stepped, held to the run: the same entries, each with the bank that it has in
//! the run's plan, and at the end the run's end and bank.

#[allow(dead_code)]
#[path = "../examples/fast3d.rs"]
mod fast3d;
mod random;
mod records;

use fast3d::{bg_1cyc, bg_copy, bg_frame, Ctx};
use random::Random;
use records::{bank, cases, record, refused_loads, request, text};
use visorlongan::{Bank, Buffer, End, Entry, Planner, Record, Request, Verdict, BG_1CYC, BG_COPY};

/// Holds a planner to the run. A buffer's limit cuts the run's plan and not the planner's, which is
/// then held to the entries that fitted.
fn held(request: &Request, before: Bank, buffer: &mut Buffer) -> End {
    let mut after = before;
    let plan = buffer.plan(request, &mut after);
    let mut planner = Planner::with_bank(request, &before);
    assert_eq!(planner.bank(), before);
    for (entry, tiles) in plan.steps(before) {
        assert_eq!((planner.end(), planner.result()), (None, Ok(())));
        let step = (planner.next(), planner.bank());
        assert_eq!(step, (Some(entry), tiles), "{request:?}");
    }
    if plan.end.verdict != Verdict::Full {
        assert_eq!(planner.next(), None, "{request:?}");
        assert_eq!(planner.end(), Some(plan.end), "{request:?}");
        assert_eq!(planner.bank(), after, "{request:?}");
        assert_eq!(planner.result(), plan.result());
    }
    plan.end
}

/// The entries of a case's plan by the run.
fn entries(record: &Record) -> Vec<Entry> {
    let mut buffer = Buffer::new();
    let plan = buffer.plan(&record.request(), &mut Bank::default());
    plan.entries().collect()
}

#[test]
fn cases_are_the_run_s() {
    let mut buffer = Buffer::new();
    for (_, record, object_bytes) in &cases() {
        for before in [Bank::default(), bank(&text("initial-bank.txt"))] {
            held(&request(record, *object_bytes), before, &mut buffer);
        }
    }
}

#[test]
fn random_requests_are_the_run_s() {
    let mut r = Random(8);
    let mut buffer = Buffer::with_limit(2_000);
    let (mut met, mut entries) = ([0; 11], 0);
    for _ in 0..20_000 {
        let object = r.object();
        let request = r.request(&object);
        let mut before = Bank::default();
        before.tiles[r.next() as usize % 8].lrt = r.next() as u16;
        let end = held(&request, before, &mut buffer);
        met[end.verdict.number() as usize] += 1;
        entries += end.entries;
    }
    println!("verdicts met: {met:?}, {entries} entries");
    assert!(met.iter().all(|count| *count > 0), "{met:?}");
}

/// A load that is refused by its address has set tile 7's bounds, which is no entry.
#[test]
fn a_refused_load_has_set_its_size() {
    for (record, right) in refused_loads() {
        let mut planner = Planner::new(&record.request());
        assert_eq!(planner.by_ref().take(4).count(), 4);
        assert_eq!((planner.end(), planner.bank().tiles[7].lrs), (None, 0));
        assert_eq!((planner.next(), planner.bank().tiles[7].lrs), (None, right));
        let end = planner.end().expect("the end");
        assert_eq!((end.verdict, end.entries), (Verdict::Address, 4));
        held(&record.request(), Bank::default(), &mut Buffer::new());
    }
}

#[test]
fn two_planners_do_not_disturb_each_other() {
    let (copied, scaled) = (record("A"), record("E"));
    let mut planners = [&copied, &scaled].map(|record| Planner::new(&record.request()));
    let mut given = [Vec::new(), Vec::new()];
    for n in 0..1_000 {
        let turn = usize::from(n % 3 == 0);
        given[turn].extend(planners[turn].next());
    }
    assert_eq!(given, [&copied, &scaled].map(entries));
    assert!(planners.iter().all(|planner| planner.end().is_some()));
}

/// A clone at every place of a plan, taken on after the planner itself has gone to its end.
#[test]
fn a_clone_goes_on_to_the_same_rest() {
    for (_, record, object_bytes) in &cases() {
        let request = request(record, *object_bytes);
        let mut planner = Planner::new(&request);
        let mut snapshots = Vec::new();
        let whole: Vec<Entry> = std::iter::from_fn(|| {
            snapshots.push(planner.clone());
            planner.next()
        })
        .collect();
        assert_eq!(snapshots.len(), whole.len() + 1);
        for (place, mut snapshot) in snapshots.into_iter().enumerate() {
            let rest = whole.len() - place;
            let (least, most) = snapshot.size_hint();
            assert!(least <= rest && most >= Some(rest));
            assert_eq!(snapshot.end(), None);
            assert!(snapshot.by_ref().eq(whole[place..].iter().copied()));
            assert_eq!(snapshot.end(), planner.end());
            assert_eq!(snapshot.bank(), planner.bank());
        }
    }
}

#[test]
fn after_the_end_it_stays_at_the_end() {
    for (name, record, object_bytes) in &cases() {
        let mut planner = Planner::new(&request(record, *object_bytes));
        assert_eq!(planner.end(), None, "case {name}");
        let count = planner.by_ref().count() as u64;
        let (end, tiles) = (planner.end(), planner.bank());
        assert_eq!(end.map(|end| end.entries), Some(count), "case {name}");
        for mut ended in [planner.clone(), planner] {
            assert_eq!(
                (ended.next(), ended.next(), ended.nth(9)),
                (None, None, None)
            );
            assert_eq!((ended.end(), ended.bank()), (end, tiles));
            assert_eq!(ended.size_hint(), (0, Some(0)));
        }
    }
}

#[test]
fn a_planner_goes_on_in_another_thread() {
    fn sent_and_shared<T: Send + Sync + 'static>() {}
    sent_and_shared::<Planner>();
    let record = record("E");
    let mut planner = Planner::new(&record.request());
    let first: Vec<Entry> = planner.by_ref().take(50).collect();
    let thread = std::thread::spawn(move || planner.collect::<Vec<Entry>>());
    let rest = thread.join().expect("the rest");
    assert_eq!([first, rest].concat(), entries(&record));
}

/// Other commands set tiles between two steps: the entries are the same, and set theirs over them.
#[test]
fn another_bank_between_two_steps() {
    let (record, other) = (record("A"), bank(&text("initial-bank.txt")));
    let mut planner = Planner::new(&record.request());
    let mut tiles = Bank::default();
    for (n, entry) in entries(&record).into_iter().enumerate() {
        if n % 7 == 3 {
            tiles = other;
            planner.set_bank(&other);
            assert_eq!(planner.bank(), other);
        }
        tiles.apply(&entry);
        assert_eq!((planner.next(), planner.bank()), (Some(entry), tiles));
    }
    planner.set_bank(&other);
    assert_eq!((planner.next(), planner.bank()), (None, other));
}

/// The example's frames draw what its whole plans draw, whatever a frame has time for.
#[test]
fn frames_draw_the_same_pixels() {
    let refused = refused_loads().map(|(record, _)| record);
    for record in refused.into_iter().chain(["A", "C", "E"].map(record)) {
        let request = record.request();
        let (object, scissor, address) = (request.object, request.scissor, request.address);
        let mut whole = Ctx::new(320, 240);
        let _ = match request.opcode {
            BG_COPY => bg_copy(object, scissor, address, &mut whole),
            BG_1CYC => bg_1cyc(object, scissor, address, &mut whole),
            opcode => panic!("{opcode} is no background's"),
        };
        for budget in [1, 7, 40, 10_000] {
            let (mut cx, mut planner) = (Ctx::new(320, 240), Planner::new(&request));
            let mut done = 0;
            while planner.end().is_none() {
                done += bg_frame(&mut planner, budget, &mut cx);
            }
            assert_eq!(Some(done), planner.end().map(|end| end.entries));
            assert!(cx.rdp.pixels().eq(whole.rdp.pixels()));
            assert_eq!((cx.rdp.tiles, cx.rdp.outside), (whole.rdp.tiles, 0));
            assert_eq!(cx.tex_image, whole.tex_image);
        }
    }
}
