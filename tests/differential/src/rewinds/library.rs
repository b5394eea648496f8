//! The calls of our library that rewind a journal, over slices.
//!
//! As everywhere, a call answers 0 and writes the words of its answer, or answers a refusal number and writes nothing.
//! The calls ask nothing of their arguments, so the wrappers are safe for any slices.

use crate::declared;
use crate::paths::library::Sources;

/// The words of a start's answer, the state that it begins.
pub const START_FIELDS: [&str; 2] = ["used", "position"];

/// How many these are.
pub const START_WORDS: usize = START_FIELDS.len();

/// The words of a step's answer: what it is, the state after it, and the path of the record's parent with the length of the
/// record's own. A step without text lacks the last, and the end has the first three.
pub const STEP_FIELDS: [&str; 8] = [
    "kind",
    "used",
    "position",
    "names",
    "end",
    "end's entry",
    "end's sequence",
    "text length",
];

/// How many words are asked for with text, and without it.
pub const PATH_STEP_WORDS: usize = STEP_FIELDS.len();
pub const CHAIN_STEP_WORDS: usize = PATH_STEP_WORDS - 1;

/// The first word of a step's answer.
pub const END: u64 = 0;
pub const RECORD: u64 = 1;

/// The words of a run's answer.
pub const RUN_FIELDS: [&str; 4] = ["steps", "stopped", "used", "position"];

/// How many these are.
pub const RUN_WORDS: usize = RUN_FIELDS.len();

/// How many slots of the forward table are used, and how many records are behind.
#[derive(Debug, Clone, Copy, PartialEq, Eq)]
pub struct State {
    pub used: usize,
    pub position: usize,
}

/// The start of a rewind over listed records, two words each: they go into the table of `slots`, which is copied to the
/// front of `forward`; `out` takes the `START_FIELDS`.
pub fn rewind_start(
    names: Sources,
    records: &[usize],
    slots: &mut [u64],
    used: usize,
    forward: &mut [u64],
    out: &mut [u64],
) -> u32 {
    // SAFETY: the slices are readable over their lengths, the mutable ones are writable, and none overlap.
    unsafe {
        declared::rewind_start(
            names.journal.as_ptr(),
            names.journal.len(),
            names.image.as_ptr(),
            names.image.len(),
            records.as_ptr(),
            records.len(),
            slots.as_mut_ptr(),
            slots.len(),
            used,
            forward.as_mut_ptr(),
            forward.len(),
            out.as_mut_ptr(),
            out.len(),
        )
    }
}

/// The next record: the places of its parent's path, where `chain` has room for all, its own path at the front of `text`;
/// `out` takes the `STEP_FIELDS`.
pub fn rewind_next(
    names: Sources,
    records: &[usize],
    state: State,
    forward: &mut [u64],
    chain: &mut [u64],
    text: &mut [u8],
    out: &mut [u64],
) -> u32 {
    // SAFETY: as above.
    unsafe {
        declared::rewind_next(
            names.journal.as_ptr(),
            names.journal.len(),
            names.image.as_ptr(),
            names.image.len(),
            records.as_ptr(),
            records.len(),
            state.used,
            state.position,
            forward.as_mut_ptr(),
            forward.len(),
            chain.as_mut_ptr(),
            chain.len(),
            text.as_mut_ptr(),
            text.len(),
            out.as_mut_ptr(),
            out.len(),
        )
    }
}

/// The same without the text; `out` takes the first `CHAIN_STEP_WORDS`.
pub fn rewind_next_chain(
    names: Sources,
    records: &[usize],
    state: State,
    forward: &mut [u64],
    chain: &mut [u64],
    out: &mut [u64],
) -> u32 {
    // SAFETY: as above.
    unsafe {
        declared::rewind_next_chain(
            names.journal.as_ptr(),
            names.journal.len(),
            names.image.as_ptr(),
            names.image.len(),
            records.as_ptr(),
            records.len(),
            state.used,
            state.position,
            forward.as_mut_ptr(),
            forward.len(),
            chain.as_mut_ptr(),
            chain.len(),
            out.as_mut_ptr(),
            out.len(),
        )
    }
}

/// The start by way of an index in the words of heads and nexts.
pub fn rewind_start_indexed(
    names: Sources,
    records: &[usize],
    slots: &mut [u64],
    used: usize,
    forward: &mut [u64],
    [heads, nexts]: [&mut [u64]; 2],
    out: &mut [u64],
) -> u32 {
    // SAFETY: as above.
    unsafe {
        declared::rewind_start_indexed(
            names.journal.as_ptr(),
            names.journal.len(),
            names.image.as_ptr(),
            names.image.len(),
            records.as_ptr(),
            records.len(),
            slots.as_mut_ptr(),
            slots.len(),
            used,
            forward.as_mut_ptr(),
            forward.len(),
            heads.as_mut_ptr(),
            heads.len(),
            nexts.as_mut_ptr(),
            nexts.len(),
            out.as_mut_ptr(),
            out.len(),
        )
    }
}

/// What a run is lent beside the records and the table.
pub struct RunLent<'a> {
    pub index: [&'a mut [u64]; 2],
    pub ends: &'a mut [u64],
    pub text: &'a mut [u8],
    pub out: &'a mut [u64],
}

/// As many steps as ends are lent, with the texts one behind the other; `out` takes the `RUN_FIELDS`.
pub fn rewind_run(names: Sources, records: &[usize], state: State, forward: &mut [u64], lent: RunLent) -> u32 {
    let [heads, nexts] = lent.index;
    // SAFETY: as above.
    unsafe {
        declared::rewind_run(
            names.journal.as_ptr(),
            names.journal.len(),
            names.image.as_ptr(),
            names.image.len(),
            records.as_ptr(),
            records.len(),
            state.used,
            state.position,
            forward.as_mut_ptr(),
            forward.len(),
            heads.as_mut_ptr(),
            heads.len(),
            nexts.as_mut_ptr(),
            nexts.len(),
            lent.ends.as_mut_ptr(),
            lent.ends.len(),
            lent.text.as_mut_ptr(),
            lent.text.len(),
            lent.out.as_mut_ptr(),
            lent.out.len(),
        )
    }
}
