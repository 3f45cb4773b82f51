//! Planners whose words are damaged, or were never a planner's, in memory that must not be left.
//!
//!     FUZZ_SECONDS=600 cargo test --offline --release --test damaged_states -- --nocapture
//!
//! takes ten minutes; without FUZZ_SECONDS it takes one. FUZZ_SEED sets another seed than 1. Each
//! array that a call is lent ends where a page begins that nothing may touch, or begins where one
//! ends: a call that reads or writes beyond it ends the test by a signal.
//!
//! Whatever the words are, `visor_step` answers 0 or 1. At 1 nothing has changed. At 0 it has given
//! an entry or an end, the bank has what that sets, and the words that it leaves are a planner's:
//! every step from there on is taken, an end comes, and after it nothing changes.

#[allow(dead_code)]
#[path = "../src/library.rs"]
mod library;
mod random;
mod records;

use library::{BANK_WORDS, REQUEST_WORDS, STATE_WORDS, STEP_WORDS};
use random::Random;
use std::ffi::{c_int, c_void};
use std::time::{Duration, Instant};
use visorlongan::{count, Request};

// ---- memory between pages that nothing may touch

const PAGE: usize = 4096;
const NO_ACCESS: c_int = 0;
const READ_AND_WRITE: c_int = 1 | 2;
const PRIVATE_AND_ANONYMOUS: c_int = 2 | 32;

extern "C" {
    fn mmap(
        address: *mut c_void,
        bytes: usize,
        protection: c_int,
        flags: c_int,
        file: c_int,
        offset: i64,
    ) -> *mut c_void;
    fn mprotect(address: *mut c_void, bytes: usize, protection: c_int) -> c_int;
}

/// A page between two that nothing may touch. It is never given back.
struct Page(*mut u8);

impl Page {
    fn new() -> Page {
        let (flags, anywhere) = (PRIVATE_AND_ANONYMOUS, std::ptr::null_mut());
        // SAFETY: a mapping of its own, where the system has room for it.
        let pages = unsafe { mmap(anywhere, 3 * PAGE, NO_ACCESS, flags, -1, 0) };
        assert_ne!(pages as isize, -1, "no memory");
        let middle = pages.wrapping_byte_add(PAGE);
        // SAFETY: the second of the three pages.
        let status = unsafe { mprotect(middle, PAGE, READ_AND_WRITE) };
        assert_eq!(status, 0, "no access");
        Page(middle.cast())
    }

    /// A copy of an array, right after the page before or right before the page after.
    fn put<T: Copy>(&mut self, from: &[T], r: &mut Random) -> &mut [T] {
        let bytes = size_of_val(from);
        assert!(bytes <= PAGE);
        let skipped = if r.once_in(2) { 0 } else { PAGE - bytes };
        let first = self.0.wrapping_add(skipped).cast::<T>();
        // SAFETY: the array lies inside the page, which is borrowed with it, and a page begins and
        // ends where an element may.
        unsafe {
            first.copy_from_nonoverlapping(from.as_ptr(), from.len());
            std::slice::from_raw_parts_mut(first, from.len())
        }
    }
}

struct Memory {
    object: Page,
    request: Page,
    state: Page,
    bank: Page,
    out: Page,
    /// Calls that were lent it.
    calls: u64,
}

impl Memory {
    fn new() -> Memory {
        Memory {
            object: Page::new(),
            request: Page::new(),
            state: Page::new(),
            bank: Page::new(),
            out: Page::new(),
            calls: 0,
        }
    }

    /// The arrays of a step: a planner's words, and random ones in the two others.
    fn arrays(&mut self, r: &mut Random, state: &[u64], bank: usize, out: usize) -> Arrays<'_> {
        Arrays {
            state: self.state.put(state, r),
            bank: self.bank.put(&words(r, bank), r),
            out: self.out.put(&words(r, out), r),
            before: [const { Vec::new() }; 3],
            calls: &mut self.calls,
        }
    }
}

/// Random words of every width.
fn words(r: &mut Random, count: usize) -> Vec<u64> {
    let narrowest = r.from(0, 63);
    let word = |_| r.next() >> r.from(narrowest, 63);
    (0..count).map(word).collect()
}

// ---- one step

/// The kind of an end.
const END: u64 = 9;
/// The verdict of a load that is refused.
const ADDRESS: u64 = 9;
/// Where tile 7 begins in a bank.
const TILE_7: usize = 7 * 17;

struct Arrays<'a> {
    state: &'a mut [u64],
    bank: &'a mut [u64],
    out: &'a mut [u64],
    /// The three as they were before the last step.
    before: [Vec<u64>; 3],
    calls: &'a mut u64,
}

impl Arrays<'_> {
    /// One step, held to what is promised of it: whether it was taken.
    fn step(&mut self) -> bool {
        let now = [&*self.state, self.bank, self.out];
        for (before, now) in self.before.iter_mut().zip(now) {
            before.clear();
            before.extend_from_slice(now);
        }
        *self.calls += 1;
        let status = library::step(self.state, self.bank, self.out);
        match status {
            0 => self.taken(),
            1 => self.unchanged(),
            other => panic!("{other} is no answer: {:?}", self.before),
        }
        status == 0
    }

    fn unchanged(&self) {
        assert_eq!([&*self.state, self.bank, self.out], self.before);
    }

    fn taken(&self) {
        let [state, bank, out] = &self.before;
        let lengths = [state.len(), bank.len(), out.len()];
        assert_eq!(lengths, [STATE_WORDS, BANK_WORDS, STEP_WORDS]);
        let used = match self.out[0] {
            1 | END => 5,
            3 => 6,
            2 | 4 | 5 => 11,
            kind => panic!("{kind} is no kind: {state:?}"),
        };
        let unused = &self.out[used..];
        assert!(
            unused.iter().all(|word| *word == 0),
            "{unused:?}: {state:?}"
        );
        let mut after: [u64; BANK_WORDS] = bank[..].try_into().expect("136 words");
        if self.out[0] != END {
            let status = library::apply(self.out, &mut after);
            assert_eq!(status, 0, "{:?} is no entry: {state:?}", self.out);
        } else if *self.bank != after {
            assert_eq!(self.out[1], ADDRESS, "the end has set tiles: {state:?}");
            library::apply(&self.size_of_tile_7(), &mut after);
        }
        assert_eq!(*self.bank, after, "{:?}: {state:?}", self.out);
    }

    /// What a refused load has set, as an entry.
    fn size_of_tile_7(&self) -> [u64; STEP_WORDS] {
        let mut size = [3, 7, 0, 0, 0, 0, 0, 0, 0, 0, 0];
        size[2..6].copy_from_slice(&self.bank[TILE_7..TILE_7 + 4]);
        size
    }

    /// After the end the same end, and nothing else.
    fn stays(&mut self) {
        for _ in 0..2 {
            assert!(self.step(), "no planner after its end: {:?}", self.before);
            self.unchanged();
        }
    }
}

// ---- many

/// More steps than any plan has.
const ALL: u64 = 5_300_000;

/// Numbers at which ranges of the specification end.
const LIMITS: [u64; 8] = [0, 255, 512, 1_023, 1_038, 4_092, 16_383, 65_535];

/// What a planner has given: up to its end, or as far as it was followed.
#[derive(Debug, Default, PartialEq)]
struct Given {
    entries: u64,
    rectangles: u64,
    /// Of all words in their order (FNV-1a's rule, by words).
    digest: u64,
    end: Vec<u64>,
}

impl Given {
    fn add(&mut self, entry: &[u64]) {
        self.entries += 1;
        self.rectangles += u64::from(entry[0] == 5);
        let next = |digest: u64, word: &u64| (digest ^ word).wrapping_mul(0x100_0000_01b3);
        self.digest = entry.iter().fold(self.digest, next);
    }

    /// The end counts what was given, on top of what its planner had counted before.
    fn stop(&mut self, end: &[u64]) {
        let counted = end[2] >= self.entries && end[3] >= self.rectangles;
        assert!(end[1] <= 10 && counted, "{end:?} after {self:?}");
        self.end = end.to_vec();
    }
}

struct Fuzz {
    r: Random,
    memory: Memory,
    until: Instant,
    /// Words of planners, each at some place of its plan.
    planners: Vec<Vec<u64>>,
    accepted: u64,
    refused: u64,
    followed: u64,
}

impl Fuzz {
    fn new(seed: u64, seconds: u64) -> Fuzz {
        Fuzz {
            r: Random(seed),
            memory: Memory::new(),
            until: Instant::now() + Duration::from_secs(seconds),
            planners: Vec::new(),
            accepted: 0,
            refused: 0,
            followed: 0,
        }
    }

    fn over(&self) -> bool {
        Instant::now() >= self.until
    }

    /// `visor_start` with a state of so many words: what stands there afterwards.
    fn start(&mut self, object: &[u8], request: &[u64], state_words: usize) -> Vec<u64> {
        let before = words(&mut self.r, state_words);
        let object = self.memory.object.put(object, &mut self.r);
        let request = self.memory.request.put(request, &mut self.r);
        let state = self.memory.state.put(&before, &mut self.r);
        let right = request.len() == REQUEST_WORDS && state_words == STATE_WORDS;
        self.memory.calls += 1;
        assert_eq!(library::start(object, request, state), u64::from(!right));
        assert!(right || *state == before[..], "refused, and changed");
        state.to_vec()
    }

    /// A planner at some place of some plan.
    fn planner(&mut self) -> Vec<u64> {
        let (object, request) = requested(&mut self.r);
        let state = self.start(&object, &request, STATE_WORDS);
        let r = &mut self.r;
        let mut arrays = self.memory.arrays(r, &state, BANK_WORDS, STEP_WORDS);
        for _ in 0..r.from(0, 400) >> r.from(0, 8) {
            assert!(arrays.step(), "refused: {:?}", arrays.before);
        }
        arrays.state.to_vec()
    }

    /// Steps a planner from these words on; none where they are no planner's.
    fn follow(&mut self, state: &[u64], most: u64) -> Option<Given> {
        let r = &mut self.r;
        let mut arrays = self.memory.arrays(r, state, BANK_WORDS, STEP_WORDS);
        let mut given = Given::default();
        for n in 0..most {
            if !arrays.step() {
                assert_eq!(n, 0, "a step has left no planner: {state:?}");
                return None;
            }
            self.followed += 1;
            if arrays.out[0] == END {
                given.stop(arrays.out);
                arrays.stays();
                return Some(given);
            }
            given.add(arrays.out);
            if n % 64 == 63 && Instant::now() >= self.until {
                return Some(given);
            }
        }
        assert!(most < ALL, "no end comes: {state:?}");
        Some(given)
    }

    /// Any words: refused, or stepped on. A copy of them gives the same, whatever its bank holds.
    fn tried(&mut self, state: &[u64]) -> bool {
        let most = if self.r.once_in(50) { ALL } else { 2_000 };
        let Some(given) = self.follow(state, most) else {
            self.refused += 1;
            return false;
        };
        self.accepted += 1;
        let copy = self.follow(state, most);
        // Where the time is up, the two may have been cut at different places.
        if !self.over() {
            assert_eq!(copy, Some(given), "{state:?}");
        }
        true
    }

    fn any_planner(&mut self) -> Vec<u64> {
        let place = self.r.next() as usize % self.planners.len();
        self.planners[place].clone()
    }

    /// A planner's words, of which some are damaged.
    fn damaged(&mut self) -> Vec<u64> {
        let mut state = self.any_planner();
        for _ in 0..self.r.from(1, 4) {
            let other = self.any_planner();
            let r = &mut self.r;
            let [at, from] = [(); 2].map(|()| r.next() as usize % STATE_WORDS);
            match r.from(0, 7) {
                0 => state[at] ^= 1 << (r.from(0, 63) >> r.from(0, 3)),
                1 => state[at] = state[at].wrapping_add_signed(r.from(-3, 3)),
                2 => state[at] = (1u64 << r.from(0, 63)).wrapping_add_signed(r.from(-1, 1)),
                3 => state[at] = LIMITS[r.next() as usize % LIMITS.len()] + r.next() % 2,
                4 => state[at] = r.next() >> r.from(0, 63),
                5 => state.swap(at, from),
                6 => state[at] = other[at],
                _ => state[at..].copy_from_slice(&other[at..]),
            }
        }
        state
    }

    /// Arrays of any lengths: a call is taken only where all of them are right.
    fn any_lengths(&mut self) {
        let right = [STATE_WORDS, BANK_WORDS, STEP_WORDS];
        let mut state = self.any_planner();
        let r = &mut self.r;
        let lengths = right.map(|right| length(r, right));
        let (object_bytes, request_words) = (length(r, 40), length(r, REQUEST_WORDS));
        let (object, request) = (vec![0; object_bytes], words(r, request_words));
        state.resize(lengths[0], 0);
        let mut arrays = self.memory.arrays(r, &state, lengths[1], lengths[2]);
        assert_eq!(arrays.step(), lengths == right);
        self.refused += u64::from(lengths != right);
        self.start(&object, &request, lengths[0]);
    }

    /// A new planner in the place of another, and tries with those there are.
    fn round(&mut self) {
        let planner = self.planner();
        match self.planners.len() {
            0..64 => self.planners.push(planner),
            count => self.planners[self.r.next() as usize % count] = planner,
        }
        for _ in 0..16 {
            let state = if self.r.once_in(8) {
                words(&mut self.r, STATE_WORDS)
            } else {
                self.damaged()
            };
            self.tried(&state);
            self.any_lengths();
        }
        let planner = self.any_planner();
        assert!(self.tried(&planner), "refused: {planner:?}");
    }
}

/// The right length, or any other.
fn length(r: &mut Random, right: usize) -> usize {
    if r.once_in(2) {
        right
    } else {
        r.next() as usize % (2 * right + 1)
    }
}

/// An object's bytes and a request's words: mostly of a plan with entries, and now and then of the
/// longest there is.
fn requested(r: &mut Random) -> (Vec<u8>, [u64; REQUEST_WORDS]) {
    if r.once_in(500) {
        let longest = records::largest();
        let request = longest.request();
        return (request.object.to_vec(), request_words(&request));
    }
    loop {
        let object = r.object();
        let request = r.request(&object);
        let words = request_words(&request);
        if count(&request).entries > 0 || r.once_in(20) {
            return (object, words);
        }
    }
}

fn request_words(request: &Request) -> [u64; REQUEST_WORDS] {
    let s = request.scissor;
    let [ulx, uly, lrx, lry] = [s.ulx, s.uly, s.lrx, s.lry].map(|edge| i64::from(edge) as u64);
    let (opcode, mode) = (request.opcode.into(), request.render_mode.into());
    [opcode, ulx, uly, lrx, lry, mode, request.address]
}

fn number(name: &str, default: u64) -> u64 {
    let text = std::env::var(name);
    text.map_or(default, |text| text.parse().expect("a whole number"))
}

#[test]
fn damaged_states() {
    let (seed, seconds) = (number("FUZZ_SEED", 1), number("FUZZ_SECONDS", 60));
    println!("seed {seed}, for {seconds} seconds");
    let (begun, mut fuzz) = (Instant::now(), Fuzz::new(seed, seconds));
    fuzz.round();
    while !fuzz.over() {
        fuzz.round();
    }
    let (calls, accepted, refused) = (fuzz.memory.calls, fuzz.accepted, fuzz.refused);
    let (followed, seconds) = (fuzz.followed, begun.elapsed().as_secs_f64());
    println!(
        "{calls} calls, {accepted} accepted, {refused} refused, {followed} steps followed, \
         {seconds:.1} seconds"
    );
    assert!(accepted > 0 && refused > 0);
}
