//! Runs of many steps in one call beside the scope's single steps: the answer, every word of the table, of the index, of the ends and
//! of the answer, and every byte of the text is compared, those behind what is lent too.

use super::calls::{shown, Both};
use super::library::{rewind_run, RunLent, State, RUN_FIELDS, RUN_WORDS};
use super::model::{Listed, Next};
use super::whole::unexpected;
use crate::difference::Finding;
use crate::lent::{untouched, BEHIND};
use crate::library::{ABOVE_DOMAIN, ACCEPTED, NO_ROOM, TEXT_TOO_SMALL};
use crate::names::comparison::untouched_byte;
use crate::paths::index::{sizes, Index};
use crate::paths::lists::word_against;
use crate::paths::model::Table;
use crate::paths::pair::against;

/// How many steps a run is asked for, how many bytes of text and words of answer it is lent, and how many heads and nexts.
#[derive(Debug, Clone, Copy)]
pub struct Asked {
    pub steps: usize,
    pub text: usize,
    pub out: usize,
    pub index: [usize; 2],
}

/// What the scope's steps come to.
#[derive(Debug)]
pub struct Ran {
    pub state: State,
    /// 0, or what stopped it before the next step.
    pub stopped: u32,
    text: Vec<u8>,
    ends: Vec<u64>,
}

impl Ran {
    /// Step by step, each with the room that is left, where no test refuses. The table goes on with them.
    fn of(listed: &Listed, table: &mut Table, state: State, asked: Asked) -> Self {
        let mut ran = Self {
            state,
            stopped: 0,
            text: Vec::new(),
            ends: Vec::new(),
        };
        while ran.ends.len() < asked.steps {
            match listed.next(table, ran.state) {
                Err(refusal) => ran.stopped = refusal,
                Ok(Next::Record(step)) if ran.text.len() + step.text.len() > asked.text => ran.stopped = TEXT_TOO_SMALL,
                Ok(Next::End) => {}
                Ok(Next::Record(step)) => {
                    *table = step.table;
                    ran.state = step.state;
                    ran.text.extend_from_slice(step.text.as_bytes());
                    ran.ends.push(ran.text.len() as u64);
                    continue;
                }
            }
            break;
        }
        ran
    }

    /// The words of its answer.
    fn words(&self) -> Vec<u64> {
        let State { used, position } = self.state;
        vec![
            self.ends.len() as u64,
            self.stopped.into(),
            used as u64,
            position as u64,
        ]
    }
}

/// What a call comes to, also where no step is asked for: the words of answer are tested behind the domain and before all else.
fn called(listed: &Listed, table: &mut Table, state: State, asked: Asked) -> Result<Ran, u32> {
    match listed.tested(table, state.used).err() {
        Some(ABOVE_DOMAIN) => Err(ABOVE_DOMAIN),
        _ if asked.out < RUN_WORDS => Err(NO_ROOM),
        Some(refusal) => Err(refusal),
        None => Ok(Ran::of(listed, table, state, asked)),
    }
}

/// A run on both, from a state; the forward table goes on with it. Gives what the scope answers, or the refusal, which must leave
/// every lent word as it was.
pub fn run(listed: &Listed, forward: &mut Both, state: State, asked: Asked) -> Result<Result<Ran, u32>, Finding> {
    let expected = called(listed, &mut forward.model, state, asked);
    let left = expected.as_ref().ok().map(|ran| (&forward.model, ran.state.used));
    let index = Index::after(asked.index, left);

    let mut ours = Index::of(asked.index);
    let mut ends: Vec<u64> = (0..asked.steps + BEHIND).map(untouched).collect();
    let mut text: Vec<u8> = (0..asked.text + BEHIND).map(untouched_byte).collect();
    let mut out: Vec<u64> = (0..asked.out + BEHIND).map(untouched).collect();
    let lent = RunLent {
        index: ours.lent(),
        ends: &mut ends[..asked.steps],
        text: &mut text[..asked.text],
        out: &mut out[..asked.out],
    };
    let number = rewind_run(listed.names, listed.words, state, forward.lent_mut(), lent);

    let front = expected.as_ref().ok();
    let texts = front.map_or(&[][..], |ran| &ran.text);
    let byte = |at: usize| texts.get(at).copied().unwrap_or(untouched_byte(at));
    let what = against(number, expected.as_ref().err().copied().unwrap_or(ACCEPTED))
        .or_else(|| {
            let (at, word) = word_against(&out, &front.map_or(Vec::new(), Ran::words))?;
            let field = RUN_FIELDS.get(at).unwrap_or(&"a word behind the answer");
            Some(format!("{field} is {}, not {word}", out[at]))
        })
        .or_else(|| {
            let (at, word) = word_against(&ends, front.map_or(&[], |ran| &ran.ends))?;
            Some(format!("end {at} is {}, not {word}", ends[at]))
        })
        .or_else(|| {
            let at = (0..text.len()).find(|&at| text[at] != byte(at))?;
            Some(format!(
                "byte {at} of the text is {:02x}, not {:02x}",
                text[at],
                byte(at)
            ))
        })
        .or_else(|| forward.against("forward"))
        .or_else(|| ours.against(&index));
    let Some(what) = what else { return Ok(expected) };
    Err(Finding {
        call: format!(
            "rewind_run, {state:?}, {} slots, {asked:?}, {}",
            forward.model.slots(),
            shown(listed)
        ),
        what,
        rust: format!("the scope: {expected:?}"),
        ours: format!("{number}, words {out:?}, ends {ends:?}"),
    })
}

/// A whole rewind by runs of any sizes, from its start to the end, on a copy of the forward table. The text has room for just the next
/// path, for a byte less, for some more and for many.
pub fn whole(listed: &Listed, forward: &Both, mut state: State) -> Result<(), Finding> {
    let mut forward = forward.clone();
    let records = listed.words.len() / 2;
    let mut turn = records;
    loop {
        let next = match listed.next(&forward.model, state) {
            Ok(Next::Record(step)) => step.text.len(),
            _ => 0,
        };
        let asked = Asked {
            steps: [1, records, 0, 2, records + 3][turn % 5],
            text: [next, next.saturating_sub(1), next + 40, next + 4000][turn % 4],
            out: RUN_WORDS + [0, 0, 2][turn % 3],
            index: sizes(forward.model.slots(), turn),
        };
        let ran = match run(listed, &mut forward, state, asked)? {
            Ok(ran) => ran,
            Err(refusal) => return Err(unexpected("rewind_run", "a run", &format!("refusal {refusal}"))),
        };
        state = ran.state;
        if ran.stopped == 0 && ran.ends.len() < asked.steps {
            return Ok(());
        }
        turn += 1;
    }
}
