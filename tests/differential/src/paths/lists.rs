//! What is lent to a path: the chain, the text and the answer, and what a call left there.

use crate::lent::{beginning, untouched, BEHIND};
use crate::library::ACCEPTED;
use crate::names::comparison::{hex, untouched_byte};
use crate::records::answers::named;

/// How much a call is lent for the chain, the text and the answer.
#[derive(Debug, Clone, Copy)]
pub struct Room {
    pub chain: usize,
    pub text: usize,
    pub out: usize,
}

/// What a call writes to the fronts of these; a refused one nothing.
#[derive(Debug, Default)]
pub struct Written<'a> {
    pub chain: &'a [u64],
    pub text: &'a [u8],
    pub out: Vec<u64>,
}

/// What is lent to a path, all the words and bytes, those behind too.
pub struct Lists {
    pub chain: Vec<u64>,
    pub text: Vec<u8>,
    pub out: Vec<u64>,
}

impl Lists {
    pub fn of(room: Room) -> Self {
        Self {
            chain: (0..room.chain + BEHIND).map(untouched).collect(),
            text: (0..room.text + BEHIND).map(untouched_byte).collect(),
            out: (0..room.out + BEHIND).map(untouched).collect(),
        }
    }

    /// The first word or byte that is not that written in front, or behind it not untouched. The answer has these fields.
    pub fn against(&self, fields: &[&str], written: &Written) -> Option<String> {
        let Written { chain, text, out } = written;
        if let Some((at, word)) = word_against(&self.out, out) {
            let field = fields.get(at).unwrap_or(&"a word behind the answer");
            return Some(format!("{field} is {}, not {word}", self.out[at]));
        }
        if let Some((at, word)) = word_against(&self.chain, chain) {
            return Some(format!("word {at} of the chain is {}, not {word}", self.chain[at]));
        }
        let expected = |at: usize| text.get(at).copied().unwrap_or(untouched_byte(at));
        let at = (0..self.text.len()).find(|&at| self.text[at] != expected(at))?;
        let (ours, expected) = (self.text[at], expected(at));
        Some(format!("byte {at} of the text is {ours:02x}, not {expected:02x}"))
    }

    pub fn shown(&self, fields: &[&str], number: u32) -> String {
        let (chain, text) = (beginning(&self.chain), hex(beginning(&self.text)));
        match number {
            ACCEPTED => format!("{}, chain {chain:?}, text {text}", named(fields, &self.out)),
            refusal => format!("refusal {refusal}"),
        }
    }
}

/// The first word that is not that of `front`, or behind these not untouched, with what it should be.
pub fn word_against(words: &[u64], front: &[u64]) -> Option<(usize, u64)> {
    let expected = |at: usize| front.get(at).copied().unwrap_or(untouched(at));
    let at = (0..words.len()).find(|&at| words[at] != expected(at))?;
    Some((at, expected(at)))
}
