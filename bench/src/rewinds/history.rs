//! A volume's history: the journal of what happened to its files and folders, and an image with the MFT entries of some of them.

use super::tree::{Node, Tree};
use crate::image::{entry_of, File};
use crate::layout::{DIRECTORY, ENTRY, IN_USE};
use crate::library::DOMAIN;
use crate::names::short_name;
use crate::paths::library::Sources;
use crate::random::Random;
use crate::record_layout::{Fields, V2};

/// No record passes a page's end, and a gap behind a run of records has whole pages.
const PAGE: usize = 4096;

/// The pages of a run of records and of a gap, the fewest and the most.
const RUN: [usize; 2] = [4, 64];
const GAP: [usize; 2] = [1, 4];

/// The first time of a record, in 2020, and the most by which each is later than the one before it.
const TIME: u64 = 132_223_104_000_000_000;
const LATER: usize = 1_000_000;

// The reasons of a change.
const OVERWRITE: u32 = 0x1;
const EXTEND: u32 = 0x2;
const CREATE: u32 = 0x100;
const DELETE: u32 = 0x200;
const OLD_NAME: u32 = 0x1000;
const NEW_NAME: u32 = 0x2000;
const CLOSE: u32 = 0x8000_0000;

/// The image has every entry of the oldest files and folders, one in so many, among which are the upper folders.
const OLDEST: usize = 8;

pub struct History {
    pub journal: Vec<u8>,
    pub image: Vec<u8>,
    pub records: usize,
    pub entries: usize,
}

impl History {
    /// A journal of so many records, and an image of as many entries as far as one of the longest has room, by the seed alone. The
    /// image is taken after the last record. It has entries of that many files and folders out of all that there are and were.
    pub fn generated(seed: u64, records: usize) -> Self {
        let mut random = Random::of_case(seed, 3, records as u64);
        let entries = records.min(DOMAIN / ENTRY);
        let mut tree = Tree::new(&mut random, entries);
        let journal = Journal::new(&mut random, records).filled(&mut tree);
        let image = image(&mut random, &tree, entries);
        Self {
            journal,
            image,
            records,
            entries,
        }
    }

    /// The bytes that names lie in.
    pub fn names(&self) -> Sources<'_> {
        Sources {
            journal: &self.journal,
            image: &self.image,
        }
    }
}

/// A journal while it is written.
struct Journal<'a> {
    random: &'a mut Random,
    bytes: Vec<u8>,
    /// How many records are to come.
    left: usize,
    /// Where the run of records ends.
    run_end: usize,
    time: u64,
}

impl<'a> Journal<'a> {
    fn new(random: &'a mut Random, records: usize) -> Self {
        Self {
            run_end: PAGE * random.between(RUN[0], RUN[1]),
            random,
            bytes: Vec::new(),
            left: records,
            time: TIME,
        }
    }

    /// The journal of changes of the tree.
    fn filled(mut self, tree: &mut Tree) -> Vec<u8> {
        while self.left > 0 {
            self.change(tree);
        }
        assert!(self.bytes.len() <= DOMAIN, "the journal is one that is read");
        self.bytes
    }

    /// A change of the tree, and the records that tell of it.
    fn change(&mut self, tree: &mut Tree) {
        match self.random.below(16) {
            0..=3 => {
                let node = tree.create(self.random);
                self.tell(tree, &node, &[CREATE, CREATE | EXTEND, CREATE | EXTEND | CLOSE]);
            }
            4..=6 => {
                if let Some(node) = tree.delete(self.random) {
                    self.tell(tree, &node, &[DELETE | CLOSE]);
                }
            }
            7..=9 => {
                if let Some([old, new]) = tree.rename(self.random) {
                    self.tell(tree, &old, &[OLD_NAME]);
                    self.tell(tree, &new, &[NEW_NAME, NEW_NAME | CLOSE]);
                }
            }
            _ => {
                if let Some(node) = tree.written(self.random) {
                    let reason = self.random.pick(&[EXTEND, OVERWRITE]);
                    self.tell(tree, &node, &[reason, reason | CLOSE]);
                }
            }
        }
    }

    /// Writes a record of a node for each reason, as long as records are to come.
    fn tell(&mut self, tree: &Tree, node: &Node, reasons: &[u32]) {
        let parent = tree.nodes[node.parent].reference();
        let name = name(node);
        for &reason in reasons.iter().take(self.left) {
            self.record(node, parent, &name, reason);
        }
        self.left -= reasons.len().min(self.left);
    }

    fn record(&mut self, node: &Node, parent: u64, name: &[u16], reason: u32) {
        let length = (V2.fixed + 2 * name.len()).next_multiple_of(8);
        self.make_room(length);
        self.time += self.random.below(LATER) as u64;
        let start = self.bytes.len();
        let fields = Fields {
            record_length: length as u32,
            file_reference: [node.reference(), 0],
            parent_reference: [parent, 0],
            usn: start as u64,
            filetime: self.time,
            reason,
            file_attributes: if node.folder.is_some() { 0x10 } else { 0x20 },
            ..Fields::example(&V2, name.len())
        };
        fields.append(&V2, &mut self.bytes);
        self.bytes.extend(name.iter().flat_map(|unit| unit.to_le_bytes()));
        self.bytes.resize(start + length, 0);
    }

    /// Passes the rest of a page that has no room for so many bytes, and a gap behind a run.
    fn make_room(&mut self, length: usize) {
        let page_end = self.bytes.len().next_multiple_of(PAGE);
        if self.bytes.len() + length <= page_end || self.bytes.len() == page_end && page_end < self.run_end {
            return;
        }
        let mut next = page_end;
        if next >= self.run_end {
            next += PAGE * self.random.between(GAP[0], GAP[1]);
            self.run_end = next + PAGE * self.random.between(RUN[0], RUN[1]);
        }
        self.bytes.resize(next, 0);
    }
}

/// The name of a node.
fn name(node: &Node) -> Vec<u16> {
    short_name(&mut Random::of_case(node.name, 0, 0))
}

/// The image of so many entries in the order of their numbers: the oldest nodes, and any of the others. Those that are not in use are
/// as they were last.
fn image(random: &mut Random, tree: &Tree, entries: usize) -> Vec<u8> {
    let mut image = Vec::with_capacity(ENTRY * entries);
    let nodes = &tree.nodes[1..];
    let mut wanted = entries;
    for (at, node) in nodes.iter().enumerate() {
        // Each of the others with the chance by which as many as are wanted come together.
        if at >= entries / OLDEST && random.below(nodes.len() - at) >= wanted {
            continue;
        }
        wanted -= 1;
        let directory = if node.folder.is_some() { DIRECTORY } else { 0 };
        let file = File {
            number: node.entry,
            sequence: node.sequence.into(),
            flags: directory | if node.in_use { IN_USE } else { 0 },
            parent: tree.nodes[node.parent].reference(),
        };
        image.extend(entry_of(random, &file, |_| name(node)).ended());
    }
    image
}
