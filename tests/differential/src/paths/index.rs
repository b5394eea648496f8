//! The index that is lent to a call beside a table: any words before it, and after it what docs/DECISIONS.md says.

use super::library::Key;
use super::model::{key, Table};
use crate::lent::{untouched, BEHIND};

/// The words lent for heads and nexts, with those behind them.
#[derive(Debug, Clone, PartialEq, Eq)]
pub struct Index {
    heads: Vec<u64>,
    nexts: Vec<u64>,
}

/// How many heads and nexts are lent for a table of so many slots: enough of them, few heads, none, and too few nexts, one after
/// the other.
pub fn sizes(slots: usize, turn: usize) -> [usize; 2] {
    let all = [
        [slots.max(1), slots],
        [1, slots],
        [slots + 3, slots + 2],
        [0, slots],
        [slots, slots.saturating_sub(1)],
        [3, slots],
    ];
    all[turn % all.len()]
}

impl Index {
    /// So many heads and nexts, and nothing of an index in them.
    pub fn of([heads, nexts]: [usize; 2]) -> Self {
        let words = |count| (0..count + BEHIND).map(untouched).collect();
        Self {
            heads: words(heads),
            nexts: words(nexts),
        }
    }

    /// The words that are lent.
    pub fn lent(&mut self) -> [&mut [u64]; 2] {
        let [heads, nexts] = [self.heads.len(), self.nexts.len()].map(|words| words - BEHIND);
        [&mut self.heads[..heads], &mut self.nexts[..nexts]]
    }

    /// What so many words hold after a call that leaves a table with so many used slots: its index, where there is a head and a
    /// next for each slot. Untouched where the call is refused.
    pub fn after(sizes: [usize; 2], left: Option<(&Table, usize)>) -> Self {
        let mut index = Self::of(sizes);
        let [heads, nexts] = index.lent();
        let Some((table, used)) = left.filter(|(table, _)| !heads.is_empty() && table.slots() <= nexts.len()) else {
            return index;
        };
        let hashes: Vec<usize> = (0..used).map(|at| hash(key(&table.slot(at)), heads.len())).collect();
        let link = |from: usize, hash: usize| {
            let at = (from..used).find(|&at| hashes[at] == hash);
            at.map_or(0, |at| at as u64 + 1)
        };
        for (hash, head) in heads.iter_mut().enumerate() {
            *head = link(0, hash);
        }
        for (at, next) in nexts.iter_mut().enumerate() {
            *next = hashes.get(at).map_or(0, |&hash| link(at + 1, hash));
        }
        index
    }

    /// The first of our words that is not the other's.
    pub fn against(&self, expected: &Self) -> Option<String> {
        let both = [
            ("head", &self.heads, &expected.heads),
            ("next", &self.nexts, &expected.nexts),
        ];
        both.into_iter().find_map(|(name, ours, words)| {
            let at = (0..words.len()).find(|&at| ours[at] != words[at])?;
            Some(format!("{name} {at} is {}, not {}", ours[at], words[at]))
        })
    }
}

/// The hash of a key, below `heads`.
fn hash([entry, sequence]: Key, heads: usize) -> usize {
    ((entry % (1 << 32) + sequence % (1 << 16) * 2_654_435_761) % heads as u64) as usize
}
