//! The C functions of the proved library (include/visorlongan.h) on slices of any length. differential/ builds this file too.

pub const REQUEST_WORDS: usize = 7;
pub const BANK_WORDS: usize = 136;
pub const END_WORDS: usize = 4;
pub const STATE_WORDS: usize = 39;
pub const STEP_WORDS: usize = 11;
pub const DRIFT_WORDS: usize = 5;
pub const TOLD_WORDS: usize = 2;
pub const SCISSOR_WORDS: usize = 4;
pub const SAMPLE_WORDS: usize = 3;

extern "C" {
    fn visor_run(
        object: *const u8,
        object_bytes: usize,
        request: *const u64,
        request_words: usize,
        bank: *mut u64,
        bank_words: usize,
        plan: *mut u64,
        plan_words: usize,
        end: *mut u64,
        end_words: usize,
    ) -> u64;
    fn visor_count(
        object: *const u8,
        object_bytes: usize,
        request: *const u64,
        request_words: usize,
        end: *mut u64,
        end_words: usize,
    ) -> u64;
    fn visor_apply(entry: *const u64, entry_words: usize, bank: *mut u64, bank_words: usize)
        -> u64;
    fn visor_start(
        object: *const u8,
        object_bytes: usize,
        request: *const u64,
        request_words: usize,
        state: *mut u64,
        state_words: usize,
    ) -> u64;
    fn visor_step(
        state: *mut u64,
        state_words: usize,
        bank: *mut u64,
        bank_words: usize,
        out: *mut u64,
        out_words: usize,
    ) -> u64;
    fn visor_drift(
        object: *const u8,
        object_bytes: usize,
        request: *const u64,
        request_words: usize,
        drift: *mut u64,
        drift_words: usize,
        told: *mut u64,
        told_words: usize,
    ) -> u64;
    fn visor_write_copy(
        width: u64,
        height: u64,
        fmt: u64,
        siz: u64,
        pointer: u32,
        out: *mut u8,
        out_bytes: usize,
    ) -> u64;
    fn visor_sample(
        object: *const u8,
        object_bytes: usize,
        scissor: *const u64,
        scissor_words: usize,
        column: u64,
        line: u64,
        sample: *mut u64,
        sample_words: usize,
    ) -> u64;
    fn visor_version() -> u64;
}

/// A whole run: 0, or 1 where request, bank or end has the wrong number of words, which changes
/// nothing.
pub fn run(
    object: &[u8],
    request: &[u64],
    bank: &mut [u64],
    plan: &mut [u64],
    end: &mut [u64],
) -> u64 {
    // SAFETY: each pointer comes with the length of the slice that it is from. The library reads
    // and writes inside these lengths only, which is proved, and it keeps no pointer. The slices
    // that it writes are borrowed for writing, so no two of them overlap.
    unsafe {
        visor_run(
            object.as_ptr(),
            object.len(),
            request.as_ptr(),
            request.len(),
            bank.as_mut_ptr(),
            bank.len(),
            plan.as_mut_ptr(),
            plan.len(),
            end.as_mut_ptr(),
            end.len(),
        )
    }
}

/// The end of the whole plan, without a buffer: 0, or 1 where request or end has the wrong number
/// of words.
pub fn count(object: &[u8], request: &[u64], end: &mut [u64]) -> u64 {
    // SAFETY: as for `run`.
    unsafe {
        visor_count(
            object.as_ptr(),
            object.len(),
            request.as_ptr(),
            request.len(),
            end.as_mut_ptr(),
            end.len(),
        )
    }
}

/// One entry done to a bank: 0, or 1 where the words are too few, too many or no entry's, which
/// changes nothing.
pub fn apply(entry: &[u64], bank: &mut [u64]) -> u64 {
    // SAFETY: as for `run`.
    unsafe { visor_apply(entry.as_ptr(), entry.len(), bank.as_mut_ptr(), bank.len()) }
}

/// A planner with the whole plan to come, in the words of `state`: 0, or 1 where request or state
/// has the wrong number of words, which changes nothing.
pub fn start(object: &[u8], request: &[u64], state: &mut [u64]) -> u64 {
    // SAFETY: as for `run`.
    unsafe {
        visor_start(
            object.as_ptr(),
            object.len(),
            request.as_ptr(),
            request.len(),
            state.as_mut_ptr(),
            state.len(),
        )
    }
}

/// One step: 0, or 1 where the words are too few or too many, or those of `state` are no planner's,
/// which changes nothing.
pub fn step(state: &mut [u64], bank: &mut [u64], out: &mut [u64]) -> u64 {
    // SAFETY: as for `run`.
    unsafe {
        visor_step(
            state.as_mut_ptr(),
            state.len(),
            bank.as_mut_ptr(),
            bank.len(),
            out.as_mut_ptr(),
            out.len(),
        )
    }
}

/// Five words for each rectangle of a scaled plan: its first line, its strip, its distance from the
/// exact position, and demand 3's limits behind and ahead; signed numbers modulo 2^64. In `told`,
/// how many rectangles these are, and 1 where demand 3 holds for them. 0, or 1 where request or told
/// has the wrong number of words, which changes nothing.
pub fn drift(object: &[u8], request: &[u64], drift: &mut [u64], told: &mut [u64]) -> u64 {
    // SAFETY: as for `run`.
    unsafe {
        visor_drift(
            object.as_ptr(),
            object.len(),
            request.as_ptr(),
            request.len(),
            drift.as_mut_ptr(),
            drift.len(),
            told.as_mut_ptr(),
            told.len(),
        )
    }
}

/// A copy object of a picture, in the first 40 bytes of `out`: 0, or the number of the refusal, 2, 4
/// or 11, which changes nothing.
pub fn write_copy(
    width: u64,
    height: u64,
    fmt: u64,
    siz: u64,
    pointer: u32,
    out: &mut [u8],
) -> u64 {
    // SAFETY: as for `run`.
    unsafe {
        visor_write_copy(
            width,
            height,
            fmt,
            siz,
            pointer,
            out.as_mut_ptr(),
            out.len(),
        )
    }
}

/// What one cell of a copy shows, by its column and line in the clipped frame, in the words of
/// `sample`: 0 with a column and a row of the image, 1 outside, or 2 with a verdict. 0, or 1 where
/// scissor or sample has the wrong number of words, which changes nothing.
pub fn sample(object: &[u8], scissor: &[u64], column: u64, line: u64, sample: &mut [u64]) -> u64 {
    // SAFETY: as for `run`.
    unsafe {
        visor_sample(
            object.as_ptr(),
            object.len(),
            scissor.as_ptr(),
            scissor.len(),
            column,
            line,
            sample.as_mut_ptr(),
            sample.len(),
        )
    }
}

/// The version of the archive: major × 65,536 + minor × 256 + patch.
pub fn version() -> u64 {
    // SAFETY: the function takes nothing and answers a constant.
    unsafe { visor_version() }
}
