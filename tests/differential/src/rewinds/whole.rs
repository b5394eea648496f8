//! A whole rewind: ours, the scope's and the Rust's, from the start to the end, over one list of records.

use super::calls::{next, start, Both, Told};
use super::library::{State, START_WORDS};
use super::model::{Listed, Next, Step};
use super::runs;
use crate::difference::Finding;
use crate::library::{ACCEPTED, TEXT_TOO_SMALL};
use crate::names::comparison::hex;
use crate::paths::library::{path_resolve, Key, Slots, Sources, PATH_FIELDS, SLOT_WORDS};
use crate::paths::lists::Room;
use crate::paths::model::{key, parent, restored, End, Table};
use crate::paths::pair::{rust_key, Pair};
use crate::rewind::RewindEngine;
use crate::usn::UsnRecord;
use std::collections::HashSet;
use std::fmt;

/// The numbers of refusals are below this.
pub const REFUSALS: usize = 13;

/// What the rewinds had: the records by the end of their parent's path, the names of these paths that were decoded as others
/// than the bytes that are stored, the steps with text, those that 8 refused, and the calls beside the rewinds, those accepted
/// and those refused by their number.
#[derive(Default)]
pub struct Made {
    pub root: u64,
    pub unknown: u64,
    pub unresolved: u64,
    pub restored: u64,
    pub texts: u64,
    pub short_texts: u64,
    pub beside: u64,
    pub refused: [u64; REFUSALS],
}

impl fmt::Display for Made {
    fn fmt(&self, f: &mut fmt::Formatter<'_>) -> fmt::Result {
        write!(
            f,
            "records: {} to the root, {} unknown, {} unresolved, {} names of their paths changed by restoring, {} with \
             text, {} of them first a byte short, beside them {} calls accepted, refused",
            self.root, self.unknown, self.unresolved, self.restored, self.texts, self.short_texts, self.beside
        )?;
        let met = self.refused.iter().enumerate().filter(|(_, &count)| count > 0);
        let shown: Vec<String> = met.map(|(number, count)| format!(" {count} by {number}")).collect();
        f.write_str(&shown.join(","))
    }
}

/// The table before a rewind: its used slots, and the Rust's with as many keys, less those that a lower slot hides.
pub struct Before {
    pub words: Vec<u64>,
    pub used: usize,
    pub hidden: usize,
    pub rust: RewindEngine,
}

impl Before {
    pub fn empty() -> Self {
        Self {
            words: Vec::new(),
            used: 0,
            hidden: 0,
            rust: RewindEngine::new(),
        }
    }

    /// The used slots of a table that ours, the scope's and the Rust's agree on, if its keys are such as the Rust has.
    pub fn of(pair: Pair) -> Option<Self> {
        let (mut words, used, hidden, rust) = pair.into_parts();
        words.truncate(SLOT_WORDS * used);
        Some(Self {
            words,
            used,
            hidden,
            rust: rust?,
        })
    }

    /// How many slots a start needs in either table, or its refusal.
    pub fn needed(&self, listed: &Listed) -> Result<usize, u32> {
        let words = self.words.clone();
        listed.needed(&Table { words }, self.used)
    }
}

/// Who decides how the calls of a rewind are made.
pub trait Caller<'a> {
    /// Other calls, on copies, between those that the rewind needs.
    fn between(&mut self, rewound: &Rewound<'a, '_>) -> Result<(), Finding>;

    /// Whether the next step has text, and whether it is first tried with a text that is a byte short.
    fn told(&mut self) -> (Told, bool);

    /// What is lent to a step that asks for so much.
    fn room(&mut self, full: Room) -> Room;
}

/// A rewind under way: the records, the forward table and the state.
pub struct Rewound<'a, 'b> {
    pub listed: &'b Listed<'a>,
    pub forward: Both,
    pub state: State,
}

/// Rewinds on all three. The tables have so many words; the Rust's records are those listed.
pub fn rewind<'a>(
    listed: &Listed<'a>,
    records: &[UsnRecord],
    mut before: Before,
    words: [usize; 2],
    caller: &mut impl Caller<'a>,
    made: &mut Made,
) -> Result<(), Finding> {
    let mut first = Both::holding(&before.words, words[0]);
    let mut forward = Both::unused(words[1]);
    let state = match start(listed, &mut first, before.used, &mut forward, START_WORDS)? {
        Ok(state) => state,
        Err(refusal) => return Err(unexpected("rewind_start", "a state", &format!("refusal {refusal}"))),
    };
    let resolved = before.rust.rewind(records);
    let keys = state.used - before.hidden;
    if before.rust.lookup_len() != keys {
        return Err(Finding {
            call: "rewind".to_string(),
            what: "the Rust's table has another number of keys".to_string(),
            rust: before.rust.lookup_len().to_string(),
            ours: keys.to_string(),
        });
    }
    runs::whole(listed, &forward, state)?;
    let mut rewound = Rewound { listed, forward, state };
    for record in &resolved {
        caller.between(&rewound)?;
        let step = rewound.step(caller, made)?;
        compare_step(listed, &rewound, &step, [&record.full_path, &record.parent_path])?;
        let changed = step.chain.places.iter().filter(|&&place| restored(listed.names, place));
        made.restored += changed.count() as u64;
        *match step.chain.end {
            End::Root => &mut made.root,
            End::Unknown(_) => &mut made.unknown,
            End::Unresolved(_) => &mut made.unresolved,
        } += 1;
    }
    caller.between(&rewound)?;
    rewound.end(caller)?;
    compare_first(listed.names, &first, state.used, &before.rust)
}

impl<'a> Rewound<'a, '_> {
    /// The next record, which there must be; a step that 8 refuses is repeated with enough.
    fn step(&mut self, caller: &mut impl Caller<'a>, made: &mut Made) -> Result<Step, Finding> {
        let step = match self.listed.next(&self.forward.model, self.state) {
            Ok(Next::Record(step)) => step,
            other => return Err(unexpected("a step", "a record", &format!("{other:?}"))),
        };
        let (told, short) = caller.told();
        let full = Room {
            chain: step.chain.words().len(),
            text: step.text.len(),
            out: told.words(),
        };
        if told == Told::Path {
            made.texts += 1;
            if short {
                made.short_texts += 1;
                let room = Room {
                    text: full.text - 1,
                    ..caller.room(full)
                };
                match next(self.listed, &mut self.forward, self.state, told, room)? {
                    Err(TEXT_TOO_SMALL) => {}
                    other => return Err(unexpected("a step", "refusal 8", &format!("{other:?}"))),
                }
            }
        }
        let room = caller.room(full);
        match next(self.listed, &mut self.forward, self.state, told, room)? {
            Ok(Next::Record(step)) => {
                self.state = step.state;
                Ok(*step)
            }
            other => Err(unexpected("a step", "a record", &format!("{other:?}"))),
        }
    }

    /// The end, by both calls, with room and with none but for the answer.
    fn end(&mut self, caller: &mut impl Caller<'a>) -> Result<(), Finding> {
        for told in [Told::Path, Told::Chain] {
            let full = Room {
                chain: 0,
                text: 0,
                out: told.words(),
            };
            for room in [full, caller.room(full)] {
                match next(self.listed, &mut self.forward, self.state, told, room)? {
                    Ok(Next::End) => {}
                    other => return Err(unexpected("a step", "the end", &format!("{other:?}"))),
                }
            }
        }
        Ok(())
    }
}

/// The scope's texts of a step, which ours was held to, against the Rust's, and our path of the parent in the forward table.
fn compare_step(listed: &Listed, rewound: &Rewound, step: &Step, [full, parent]: [&String; 2]) -> Result<(), Finding> {
    let path = step.chain.text(listed.names);
    for (what, rust, ours) in [("path", full, &step.text), ("parent's path", parent, &path)] {
        if rust != ours {
            return Err(Finding {
                call: format!("the step to {:?}", step.state),
                what: format!("the record's {what} is another"),
                rust: format!("{rust:?}"),
                ours: format!("{ours:?}, list {:?}", listed.words),
            });
        }
    }
    compare_path(
        listed.names,
        &rewound.forward,
        rewound.state.used,
        step.parent,
        parent,
        "forward",
    )
}

/// Our path of a key in a table against the Rust's text.
fn compare_path(names: Sources, table: &Both, used: usize, asked: Key, rust: &str, which: &str) -> Result<(), Finding> {
    let mut text = vec![0; rust.len()];
    let mut out = [0; PATH_FIELDS.len()];
    let slots = Slots {
        words: table.lent(),
        used,
    };
    let number = path_resolve(names, slots, asked, &mut [], &mut text, &mut out);
    if number == ACCEPTED && text == rust.as_bytes() && out[4] == rust.len() as u64 {
        return Ok(());
    }
    Err(Finding {
        call: format!("path_resolve of {asked:?} in the {which} table"),
        what: "the path is not the Rust's".to_string(),
        rust: format!("{rust:?}"),
        ours: format!("{number}, words {out:?}, text {}", hex(&text)),
    })
}

/// Every key of the first table and every parent against the Rust's.
fn compare_first(names: Sources, first: &Both, used: usize, rust: &RewindEngine) -> Result<(), Finding> {
    let slots = (0..used).map(|at| first.model.slot(at));
    let keys: HashSet<Key> = slots.flat_map(|slot| [key(&slot), parent(&slot)]).collect();
    for asked in keys {
        let path = rust.resolve_path(&rust_key(asked).expect("the Rust has the keys"));
        compare_path(names, first, used, asked, &path, "first")?;
    }
    Ok(())
}

/// An answer in which ours and the scope's agree, where another one must stand.
pub fn unexpected(call: &str, expected: &str, answered: &str) -> Finding {
    Finding {
        call: call.to_string(),
        what: format!("the answer must be {expected}"),
        rust: format!("the scope: {answered}"),
        ours: "the same".to_string(),
    }
}
