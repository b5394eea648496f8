//! Records: `usn/record.rs` of the original against the library's record calls. The subjects are `parsers`, the two
//! parsers on a slice, and `listed`, a record of an extract taken by its offset.

mod listed_edges;

pub mod answers;
pub mod cases;
pub mod edges;
pub mod layout;
pub mod listed;
pub mod parsers;
pub mod sample;

use crate::random::Random;
use answers::{LENT, ROOM};

/// How many words a random case lends: mostly those that a record takes, else any number.
fn lent(random: &mut Random) -> usize {
    match random.below(8) {
        0 => random.below(ROOM + 1),
        _ => random.pick(&LENT[2..]),
    }
}
