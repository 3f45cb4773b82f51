//! Every public function with slices that are empty, short, long and random, and with extreme
//! numbers: each answers, and none panics.

mod random;

use random::Random;
use visorlongan::{
    copy_object, count, drift, run, sample, version, Bank, Buffer, Drift, Entry, Kind, Mode,
    NoObject, Object, Pixels, Plan, Planner, Quarters, Record, Refusal, Request, Sample, Scale,
    Scissor, ThirtySeconds, Tile, Verdict, WrongLength, ENTRY_WORDS,
};

const MODES: [Mode; 2] = [Mode::Copy, Mode::Scaled];

/// The first entries of a planner, or its whole plan where it has no more: tests/stepping.rs has the
/// rest.
fn some_steps(request: &Request, bank: Bank, plan: &Plan) {
    let some = 30;
    let mut planner = Planner::with_bank(request, &bank);
    for (entry, tiles) in plan.steps(bank).take(some) {
        assert_eq!((planner.end(), planner.result()), (None, Ok(())));
        assert_eq!((planner.next(), planner.bank()), (Some(entry), tiles));
        planner.set_bank(&tiles);
    }
    if plan.entries().len() < some {
        assert_eq!((planner.next(), planner.next()), (None, None));
        assert_eq!(planner.end(), Some(plan.end));
        assert_eq!(planner.result(), plan.result());
    }
    let mut zeros = Planner::new(request);
    assert_eq!(zeros.next(), plan.entries().next());
    let rest = plan.entries().len().saturating_sub(1);
    assert!(zeros.size_hint().0 <= rest && zeros.size_hint().1 >= Some(rest));
}

/// The plan's rectangles measured, as many as some words have room for.
fn measured(request: &Request, plan: &Plan, room: usize) {
    let rectangle = |entry: Entry| match entry {
        Entry::Rect(rect) => Some((rect.lry - rect.uly) as u64 / 4),
        _ => None,
    };
    let lines: Vec<u64> = plan.entries().filter_map(rectangle).take(room).collect();
    let mut words = vec![77; room * Drift::WORDS + 3];
    let drifts = drift(request, &mut words);
    let (proved, drifts) = (drifts.proved, drifts.collect::<Vec<_>>());
    let scaled = Mode::of(request.opcode) == Some(Mode::Scaled);
    assert_eq!(drifts.len(), if scaled { lines.len() } else { 0 });
    let beyond = &words[drifts.len() * Drift::WORDS..];
    assert!(beyond.iter().all(|word| *word == 77));
    let mut earlier = 0;
    for (drift, lines) in drifts.iter().zip(lines) {
        assert_eq!(drift.line, earlier);
        assert!(drift.is_near() || !proved, "{drift:?}");
        earlier += lines;
    }
}

fn all_of_a_plan(request: &Request, bank: Bank, buffer: &mut Buffer) -> Verdict {
    let mut after = bank;
    let plan = buffer.plan(request, &mut after);
    let mut stepped = bank;
    for (entry, tiles) in plan.steps(bank).take(2_000) {
        stepped.apply(&entry);
        assert_eq!(stepped, tiles);
        assert!(entry.to_string().len() > 30);
        let mode = Mode::of(request.opcode).expect("a plan with entries");
        assert_eq!(Entry::from_words(&entry.to_words(), mode), Ok(entry));
        if let Entry::Rect(rect) = entry {
            let Pixels { x, y } = rect.pixels();
            assert!(x.start >= 0 && y.start >= 0 && x.end <= 1_024 && y.end <= 1_024);
        }
    }
    assert_eq!(
        plan.result().err().map(|r: Refusal| r.end()),
        plan.result().err().map(|_| plan.end)
    );
    assert!(
        plan.entries().rev().take(9).count() <= 9
            && (&plan).into_iter().len() == plan.entries().len()
    );
    some_steps(request, bank, &plan);
    for room in [0, 1, 500] {
        measured(request, &plan, room);
    }
    let (limited, end) = (plan.end.verdict == Verdict::Full, plan.end);
    assert!(limited || count(request) == end);
    end.verdict
}

#[test]
fn requests_of_every_kind() {
    let mut r = Random(3);
    let mut met = [0; 11];
    let mut buffer = Buffer::with_limit(2_000);
    for _ in 0..60_000 {
        let object = r.object();
        let request = r.request(&object);
        let mut bank = Bank::default();
        bank.tiles[r.next() as usize % 8].lrs = r.next() as u16;
        met[all_of_a_plan(&request, bank, &mut buffer).number() as usize] += 1;
        let mut words = vec![7; r.next() as usize % 60];
        let end = run(&request, &mut bank, &mut words).end;
        let written = end.entries as usize * ENTRY_WORDS;
        assert!(words[written..].iter().all(|word| *word == 7));
        buffer.shrink_to(r.next() as usize % 1_000);
    }
    println!("verdicts met: {met:?}");
    assert!(met.iter().all(|count| *count > 0), "{met:?}");
}

#[test]
fn bytes_of_every_length() {
    let mut r = Random(4);
    for length in (0..=130).chain([1_000]) {
        let mut bytes = vec![0; length];
        r.fill(&mut bytes);
        for mode in MODES {
            let wanted = mode.object_bytes();
            let decoded = Object::decode(&bytes, mode);
            let short = WrongLength {
                wanted,
                found: length,
            };
            assert_eq!(decoded.is_ok(), length >= wanted);
            assert!(decoded.is_ok() || decoded == Err(short));
        }
        let record = Record::try_from(&bytes[..]);
        let wrong = WrongLength {
            wanted: Record::BYTES,
            found: length,
        };
        assert_eq!(record.err(), (length != Record::BYTES).then_some(wrong));
        assert!(wrong.to_string().contains("61 bytes"));
    }
    let mut bytes = [0; Record::BYTES];
    r.fill(&mut bytes);
    assert_eq!(Record::from(bytes).as_bytes(), &bytes);
    let _ = count(&Record::from(bytes).request());
}

#[test]
fn words_of_every_kind() {
    let mut r = Random(5);
    let (mut taken, mut refused) = (0, 0);
    for _ in 0..400_000 {
        let mut words = [0; ENTRY_WORDS];
        words[0] = if r.once_in(9) {
            r.next()
        } else {
            r.from(0, 6) as u64
        };
        let bits = [1, 8, 16, 31, 64][r.next() as usize % 5];
        for word in &mut words[1..] {
            *word = if r.once_in(2) {
                0
            } else {
                r.next() >> (64 - bits)
            };
        }
        for mode in MODES {
            match Entry::from_words(&words, mode) {
                Ok(entry) => {
                    assert_eq!(entry.to_words(), words);
                    Bank::default().apply(&entry);
                    taken += 1;
                }
                Err(no) => {
                    assert!(no.place < ENTRY_WORDS && no.word == words[no.place]);
                    assert!(!no.to_string().is_empty());
                    refused += 1;
                }
            }
        }
    }
    assert!(taken > 10_000 && refused > 10_000, "{taken} {refused}");
}

/// An entry of the kind 2 to 4 sets its tile alone; one of a tile that is not there sets nothing.
#[test]
fn applied_entries() {
    let mut r = Random(6);
    for _ in 0..100_000 {
        let mut words = [0; ENTRY_WORDS];
        words[0] = r.from(1, 5) as u64;
        words[1] = r.from(0, 9) as u64;
        let bits = if words[0] == 3 || words[0] == 4 {
            16
        } else {
            8
        };
        for word in &mut words[2..6] {
            *word = r.next() >> (64 - bits);
        }
        if words[0] == 1 {
            words[5] = 0;
        }
        let Ok(entry) = Entry::from_words(&words, Mode::Copy) else {
            continue;
        };
        let mut before = Bank::default();
        before.tiles.fill_with(|| Tile {
            uls: r.next() as u16,
            shifts: 3,
            ..Tile::default()
        });
        let mut after = before;
        after.apply(&entry);
        let index = words[1] as usize;
        for (n, (old, new)) in before.tiles.iter().zip(&after.tiles).enumerate() {
            let sets = n == index && (2..=4).contains(&words[0]);
            assert!(sets || old == new, "{words:?}");
            let kept = if words[0] == 2 {
                new.uls == old.uls && new.shifts == 0
            } else {
                new.shifts == 3
            };
            assert!(!sets || kept, "{words:?}");
        }
    }
}

#[test]
fn extreme_numbers() {
    for number in [i32::MIN, -1, 0, 1, i32::MAX] {
        let _ = (Quarters(number).whole(), ThirtySeconds(number).whole());
        assert!(
            f64::from(Quarters(number)).is_finite() && f64::from(ThirtySeconds(number)).is_finite()
        );
    }
    assert!(f64::from(Scale(u16::MAX)) < 64.0);
    assert!((0..=255).filter_map(Mode::of).count() == 2);
    assert!(Verdict::try_from(u64::MAX).is_err() && version()[0] < 256);
    let zero = Object::decode(&[0; 40], Mode::Scaled).expect("40 bytes");
    assert!(matches!(
        zero.kind,
        Kind::Scaled {
            scale_w: Scale(1),
            scale_h: Scale(1),
            ..
        }
    ));
}

/// A field of two bytes, by hand.
fn half(bytes: &[u8], at: usize) -> i32 {
    i32::from(bytes[at]) * 256 + i32::from(bytes[at + 1])
}

fn common_fields(bytes: &[u8]) {
    let half = |at: usize| half(bytes, at);
    let signed = |at: usize| (half(at) + 32_768) % 65_536 - 32_768;
    let o = Object::decode(bytes, Mode::Copy).expect("40 bytes");
    let lengths = [o.image_w, o.frame_w, o.image_h, o.frame_h].map(|q| q.0);
    assert_eq!(lengths, [2, 6, 10, 14].map(half));
    assert_eq!([o.frame_x, o.frame_y].map(|q| q.0), [4, 12].map(signed));
    assert_eq!([o.image_x, o.image_y].map(|q| q.0), [0, 8].map(half));
    let numbers = [o.image_load, o.image_pal, o.image_flip].map(i32::from);
    assert_eq!(numbers, [20, 24, 26].map(half));
    assert_eq!([o.image_fmt, o.image_siz], [bytes[22], bytes[23]]);
    assert_eq!(o.image_ptr.to_be_bytes(), bytes[16..20]);
}

fn own_fields(bytes: &[u8]) {
    let half = |at: usize| half(bytes, at);
    let copy = Object::decode(bytes, Mode::Copy).expect("40 bytes");
    let kind = Kind::Copy {
        tmem_w: half(28) as u16,
        tmem_h: Quarters(half(30)),
        tmem_load_sh: half(32) as u16,
        tmem_load_th: half(34) as u16,
        tmem_size_w: half(36) as u16,
        tmem_size: half(38) as u16,
    };
    assert_eq!(copy.kind, kind);
    let scaled = Object::decode(&bytes[..36], Mode::Scaled).expect("36 bytes");
    let kind = Kind::Scaled {
        scale_w: Scale(half(28).max(1) as u16),
        scale_h: Scale(half(30).max(1) as u16),
        image_y_orig: ThirtySeconds(half(32).wrapping_shl(16) | half(34)),
    };
    assert_eq!(scaled.kind, kind);
}

/// Each field has its bytes at its offset, signed or not, and no others.
#[test]
fn object_fields() {
    let mut r = Random(7);
    for _ in 0..2_000 {
        let mut bytes = [0; 40];
        r.fill(&mut bytes);
        common_fields(&bytes);
        own_fields(&bytes);
    }
}

/// The words of texture memory for one row of a picture, and for all rows at once.
fn row_and_capacity(width: u64, format: u64, size: u64) -> (u64, u64) {
    let halves = if size == 3 { 32 } else { 16 };
    let capacity = if format == 2 || size == 3 { 256 } else { 512 };
    ((width << size).div_ceil(halves), capacity)
}

/// Why a picture has no object, by the rules.
fn no_object([width, height, format, size]: [u64; 4]) -> Option<NoObject> {
    let lengths = 1..=16_383;
    if size > 3 || format > 4 {
        return Some(NoObject::Texels);
    }
    if !lengths.contains(&width) || !lengths.contains(&height) {
        return Some(NoObject::Picture);
    }
    let (row, capacity) = row_and_capacity(width, format, size);
    (row > capacity).then_some(NoObject::Picture)
}

/// Width, height, format and size, of any length in bits, at the limits and far beyond.
fn picture(r: &mut Random) -> [u64; 4] {
    let limits = [0, 1, 1_024, 1_025, 2_048, 4_097, 8_192, 16_383, 16_384];
    let mut length = || match r.next() % 8 {
        0 => limits[r.next() as usize % limits.len()],
        1 => r.next() >> r.from(0, 63),
        _ => r.next() >> r.from(50, 62),
    };
    let (width, height) = (length(), length());
    let mut number = |high| match r.once_in(20) {
        true => r.next() >> r.from(0, 63),
        false => r.from(0, high) as u64,
    };
    [width, height, number(5), number(3)]
}

/// Another frame and another start, and a flip of 0 or 1.
fn choose_anew(object: &mut [u8; 40], r: &mut Random) {
    for at in [0, 4, 6, 8, 12, 14] {
        let number = (r.next() as u16) >> r.from(0, 12);
        let number = if r.once_in(4) { !number } else { number };
        object[at..at + 2].copy_from_slice(&number.to_be_bytes());
    }
    object[27] = r.from(0, 1) as u8;
}

/// Any numbers of a picture are answered by the rules; and no later choice of frame, start, flip and
/// scissor makes a strip of an object that is too big.
#[test]
fn pictures_of_every_kind() {
    let mut r = Random(8);
    let (mut finished, mut drawn, mut refused) = (0, 0, 0);
    for _ in 0..100_000 {
        let numbers = picture(&mut r);
        let [width, height, format, size] = numbers;
        let made = copy_object(width, height, format, size, r.next() as u32);
        assert_eq!(made.err(), no_object(numbers), "{numbers:?}");
        let Ok(mut object) = made else {
            refused += 1;
            continue;
        };
        for _ in 0..4 {
            choose_anew(&mut object, &mut r);
            let mut edge = |low, high| r.from(low, high) as i32;
            let scissor = Scissor::new(edge(0, 90), edge(0, 90), edge(80, 1_023), edge(80, 1_023));
            let end = count(&Request::copy(&object, scissor, r.next() >> r.from(0, 63)));
            assert_ne!(end.verdict, Verdict::TooBig, "{object:?} {scissor:?}");
            finished += u32::from(end.verdict == Verdict::Finished);
            drawn += u32::from(end.rectangles > 0);
        }
    }
    println!("{finished} finished, {drawn} drawn, {refused} refused");
    assert!(finished > 10_000 && drawn > 10_000 && refused > 10_000);
}

/// Strips are as high as they can be: one row more is too big.
#[test]
fn one_row_more_is_too_big() {
    let mut r = Random(9);
    let mut met = 0;
    for _ in 0..100_000 {
        let [width, height] = [(); 2].map(|()| r.from(1, 1_023) as u64);
        let [format, size] = [4, 3].map(|high| r.from(0, high) as u64);
        let (row, capacity) = row_and_capacity(width, format, size);
        let rows = capacity / row;
        if height <= rows {
            continue;
        }
        let mut object = copy_object(width, height, format, size, 0).expect("an object");
        let screen = Scissor::new(0, 0, 1_023, 1_023);
        let end = count(&Request::copy(&object, screen, 0));
        assert_eq!(end.verdict, Verdict::Finished);
        assert_eq!(end.rectangles, height.div_ceil(rows));
        let taller = 4 * (rows + 1);
        let product = taller * row;
        for (at, field) in [(30, taller), (32, product), (38, product >> 16)] {
            object[at..at + 2].copy_from_slice(&(field as u16).to_be_bytes());
        }
        let end = count(&Request::copy(&object, screen, 0));
        assert_eq!((end.verdict, end.entries), (Verdict::TooBig, 1));
        met += 1;
    }
    assert!(met > 10_000, "{met}");
}

/// Whether a cell is answered as the plan's end and the object's fields allow.
fn is_answer(answer: Sample, object: &[u8], verdict: Verdict, empty: bool) -> bool {
    let refused = [
        Verdict::Short,
        Verdict::Scissor,
        Verdict::Object,
        Verdict::Copy,
    ];
    match answer {
        _ if refused.contains(&verdict) => answer == Sample::Refused(verdict),
        Sample::Refused(_) => false,
        Sample::Outside => true,
        Sample::Texel { column, row } => {
            let fields = Object::decode(object, Mode::Copy).expect("40 bytes");
            let [columns, rows] = [fields.image_w, fields.image_h].map(|q| q.whole() as u64);
            !empty && column < columns && row < rows
        }
    }
}

/// A cell inside most frames, or any.
fn cell(r: &mut Random) -> [u64; 2] {
    let far = r.once_in(4);
    [(); 2].map(|()| match far {
        true => r.next() >> r.from(0, 63),
        false => r.from(0, 200) as u64,
    })
}

/// Any cell of any object under any scissor: it is refused where a copy is, and by the same verdict;
/// else it is outside, or a texel of the image. A plan with entries has a first cell.
#[test]
fn cells_of_every_kind() {
    let mut r = Random(10);
    let (mut met, mut outside, mut texels) = ([0; 11], 0, 0);
    for _ in 0..150_000 {
        let object = r.object();
        let Request {
            scissor, address, ..
        } = r.request(&object);
        let end = count(&Request::copy(&object, scissor, address));
        met[end.verdict.number() as usize] += 1;
        let empty = end.entries == 0;
        let first = sample(&object, scissor, 0, 0);
        assert!(empty != matches!(first, Sample::Texel { .. }), "{object:?}");
        let [column, line] = cell(&mut r);
        let answer = sample(&object, scissor, column, line);
        let right = is_answer(answer, &object, end.verdict, empty);
        assert!(
            right,
            "{answer:?} of {column} {line}: {object:?} {scissor:?}"
        );
        outside += u32::from(answer == Sample::Outside);
        texels += u32::from(matches!(answer, Sample::Texel { .. }));
    }
    println!("verdicts met: {met:?}; {outside} cells outside, {texels} texels");
    let occurred = [0, 2, 3, 4, 5, 7, 9].iter().all(|n| met[*n] > 100);
    assert!(occurred && met[1] + met[6] + met[8] + met[10] == 0);
    assert!(outside > 5_000 && texels > 5_000, "{outside} {texels}");
}
