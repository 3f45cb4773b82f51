//! Buffers between guard words, which no call may change.

/// Words before and after each buffer.
const GUARD: usize = 16;

/// A buffer between guard words, all filled with one mark.
pub struct Guarded {
    words: Vec<u64>,
    length: usize,
    mark: u64,
}

impl Guarded {
    pub fn new() -> Self {
        Guarded {
            words: Vec::new(),
            length: 0,
            mark: 0,
        }
    }

    pub fn fill(&mut self, length: usize, mark: u64) -> &mut [u64] {
        (self.length, self.mark) = (length, mark);
        self.words.clear();
        self.words.resize(length + 2 * GUARD, mark);
        &mut self.words[GUARD..GUARD + length]
    }

    pub fn inside(&self) -> &[u64] {
        &self.words[GUARD..GUARD + self.length]
    }

    pub fn inside_mut(&mut self) -> &mut [u64] {
        &mut self.words[GUARD..GUARD + self.length]
    }

    /// Whether all words but the first `written` inside are as they were.
    pub fn untouched_but(&self, written: usize) -> bool {
        let (before, rest) = self.words.split_at(GUARD);
        before
            .iter()
            .chain(&rest[written..])
            .all(|w| *w == self.mark)
    }
}

/// A planner's words, the bank that it steps on, and what a step gives.
pub struct StepBuffers {
    pub state: Guarded,
    pub bank: Guarded,
    pub out: Guarded,
}

impl StepBuffers {
    pub fn new() -> Self {
        StepBuffers {
            state: Guarded::new(),
            bank: Guarded::new(),
            out: Guarded::new(),
        }
    }
}

pub struct Buffers {
    pub bank: Guarded,
    pub plan: Guarded,
    pub end: Guarded,
    pub drift: Guarded,
    pub told: Guarded,
    /// Of a planner and of a second one beside it.
    pub steps: [StepBuffers; 2],
}

impl Buffers {
    pub fn new() -> Self {
        Buffers {
            bank: Guarded::new(),
            plan: Guarded::new(),
            end: Guarded::new(),
            drift: Guarded::new(),
            told: Guarded::new(),
            steps: [StepBuffers::new(), StepBuffers::new()],
        }
    }
}
