//! Each of our calls beside the scope's: the answer, every word of the tables, of the chain list and of the answer, and
//! every byte of the text is compared, those behind what is lent too.

use super::library::{
    rewind_next, rewind_next_chain, rewind_start, rewind_start_indexed, State, CHAIN_STEP_WORDS, END, PATH_STEP_WORDS,
    RECORD, START_FIELDS, START_WORDS, STEP_FIELDS,
};
use super::model::{Listed, Next, Step};
use crate::difference::Finding;
use crate::lent::{beginning, untouched, BEHIND};
use crate::library::{ABOVE_DOMAIN, ACCEPTED, NO_ROOM, TEXT_TOO_SMALL};
use crate::paths::index::{sizes, Index};
use crate::paths::library::{SLOT_FIELDS, SLOT_WORDS};
use crate::paths::lists::{word_against, Lists, Room, Written};
use crate::paths::model::{above_domain, Table};
use crate::paths::pair::against;

/// A table as the scope has it, and our words, those lent and those behind them.
#[derive(Debug, Clone)]
pub struct Both {
    pub model: Table,
    ours: Vec<u64>,
}

impl Both {
    pub fn new(words: Vec<u64>) -> Self {
        let mut ours = words.clone();
        ours.extend((0..BEHIND).map(|at| untouched(words.len() + at)));
        Self {
            model: Table { words },
            ours,
        }
    }

    /// A table of so many words, as far as they go these, and nothing of a slot behind them.
    pub fn holding(front: &[u64], words: usize) -> Self {
        let word = |at: usize| front.get(at).copied().unwrap_or(untouched(at));
        Self::new((0..words).map(word).collect())
    }

    pub fn unused(words: usize) -> Self {
        Self::holding(&[], words)
    }

    /// The words that are lent.
    pub fn lent(&self) -> &[u64] {
        &self.ours[..self.model.words.len()]
    }

    pub fn lent_mut(&mut self) -> &mut [u64] {
        &mut self.ours[..self.model.words.len()]
    }

    /// The first of our words that is not the scope's.
    pub fn against(&self, name: &str) -> Option<String> {
        let (at, word) = word_against(&self.ours, &self.model.words)?;
        let (slot, field) = (at / SLOT_WORDS, SLOT_FIELDS[at % SLOT_WORDS]);
        Some(format!(
            "{field} of slot {slot} of the {name} table is {}, not {word}",
            self.ours[at]
        ))
    }
}

/// A step with its text, or without it.
#[derive(Debug, Clone, Copy, PartialEq, Eq)]
pub enum Told {
    Path,
    Chain,
}

impl Told {
    /// How many words of answer it asks for.
    pub fn words(self) -> usize {
        match self {
            Told::Path => PATH_STEP_WORDS,
            Told::Chain => CHAIN_STEP_WORDS,
        }
    }
}

/// Where the records lie, and in how many bytes, as it is printed.
pub fn shown(listed: &Listed) -> String {
    let Listed { names, words, .. } = listed;
    format!(
        "list {:?}, journal of {} and image of {} bytes",
        beginning(words),
        names.journal.len(),
        names.image.len()
    )
}

/// A start on both, with so many words lent for the answer. Gives the state, or the refusal.
pub fn start(
    listed: &Listed,
    first: &mut Both,
    used: usize,
    forward: &mut Both,
    out: usize,
) -> Result<Result<State, u32>, Finding> {
    let expected = match out < START_WORDS {
        true if above_domain(listed.names) => Err(ABOVE_DOMAIN),
        true => Err(NO_ROOM),
        false => listed.start(&mut first.model, used, &mut forward.model),
    };
    let mut answer: Vec<u64> = (0..out + BEHIND).map(untouched).collect();
    let mut by_index = (first.ours.clone(), forward.ours.clone(), answer.clone());
    let number = rewind_start(
        listed.names,
        listed.words,
        first.lent_mut(),
        used,
        forward.lent_mut(),
        &mut answer[..out],
    );
    let front: Vec<u64> = match expected {
        Ok(State { used, position }) => vec![used as u64, position as u64],
        Err(_) => Vec::new(),
    };
    let what = against(number, expected.err().unwrap_or(ACCEPTED))
        .or_else(|| {
            let (at, word) = word_against(&answer, &front)?;
            let field = START_FIELDS.get(at).unwrap_or(&"a word behind the answer");
            Some(format!("{field} is {}, not {word}", answer[at]))
        })
        .or_else(|| first.against("first"))
        .or_else(|| forward.against("forward"))
        .or_else(|| {
            // The same on copies by way of an index.
            let sizes = sizes(first.model.slots(), listed.words.len() + first.ours.len());
            let mut index = Index::of(sizes);
            let (slots, copy, words) = &mut by_index;
            let indexed = rewind_start_indexed(
                listed.names,
                listed.words,
                &mut slots[..first.model.words.len()],
                used,
                &mut copy[..forward.model.words.len()],
                index.lent(),
                &mut words[..out],
            );
            let left = expected.ok().map(|state| (&first.model, state.used));
            match (indexed, slots, copy, words) == (number, &mut first.ours, &mut forward.ours, &mut answer) {
                true => index.against(&Index::after(sizes, left)),
                false => Some("by way of an index it answers or leaves something else".to_string()),
            }
        });
    let Some(what) = what else { return Ok(expected) };
    Err(Finding {
        call: format!(
            "rewind_start, {used} used of {} slots, {} forward, {out} words of answer lent, {}",
            first.model.slots(),
            forward.model.slots(),
            shown(listed)
        ),
        what,
        rust: format!("the scope: {expected:?}"),
        ours: format!("{number}, words {answer:?}"),
    })
}

/// The words of an answer.
fn answered(next: &Next, state: State, told: Told) -> Vec<u64> {
    let words = |kind, State { used, position }: State| vec![kind, used as u64, position as u64];
    match next {
        Next::End => words(END, state),
        Next::Record(step) => {
            let mut words = words(RECORD, step.state);
            words.extend(step.chain.answer());
            if told == Told::Path {
                words.push(step.text.len() as u64);
            }
            words
        }
    }
}

/// A step on both, from a state. Gives what the scope answers; where it is a record, the forward table goes on with it.
pub fn next(
    listed: &Listed,
    forward: &mut Both,
    state: State,
    told: Told,
    room: Room,
) -> Result<Result<Next, u32>, Finding> {
    let expected = match listed.next(&forward.model, state) {
        Err(ABOVE_DOMAIN) => Err(ABOVE_DOMAIN),
        _ if room.out < told.words() => Err(NO_ROOM),
        Ok(Next::Record(step)) if told == Told::Path && step.text.len() > room.text => Err(TEXT_TOO_SMALL),
        other => other,
    };
    let mut lists = Lists::of(room);
    let number = call(listed, forward.lent_mut(), state, told, room, &mut lists);
    let step: Option<&Step> = match &expected {
        Ok(Next::Record(step)) => Some(step),
        _ => None,
    };
    if let Some(step) = step {
        forward.model = step.table.clone();
    }
    let refusal = expected.as_ref().err().copied().unwrap_or(ACCEPTED);
    // A chain that has no room for all its places is not written.
    let chain = step.map_or(&[][..], |step| step.chain.words());
    let text = step.filter(|_| told == Told::Path);
    let written = Written {
        chain: if chain.len() <= room.chain { chain } else { &[] },
        text: text.map_or(&[], |step| step.text.as_bytes()),
        out: expected.as_ref().map_or(Vec::new(), |next| answered(next, state, told)),
    };
    let what = against(number, refusal)
        .or_else(|| lists.against(&STEP_FIELDS, &written))
        .or_else(|| forward.against("forward"));
    let Some(what) = what else { return Ok(expected) };
    Err(Finding {
        call: format!(
            "a step with {told:?}, {state:?}, {} slots, {room:?} lent, {}",
            forward.model.slots(),
            shown(listed)
        ),
        what,
        rust: match step {
            Some(step) => format!("the scope: {:?}, text {:?}", step.chain, step.text),
            None => format!("the scope: {expected:?}"),
        },
        ours: lists.shown(&STEP_FIELDS, number),
    })
}

fn call(listed: &Listed, forward: &mut [u64], state: State, told: Told, room: Room, lists: &mut Lists) -> u32 {
    let (chain, out) = (&mut lists.chain[..room.chain], &mut lists.out[..room.out]);
    match told {
        Told::Path => {
            let text = &mut lists.text[..room.text];
            rewind_next(listed.names, listed.words, state, forward, chain, text, out)
        }
        Told::Chain => rewind_next_chain(listed.names, listed.words, state, forward, chain, out),
    }
}
