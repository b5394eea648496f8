//! What is printed when the Rust and our library differ.

use std::fmt::{self, Write};

/// What one call did otherwise than expected.
#[derive(Debug)]
pub struct Finding {
    /// The call's name and its arguments beside the bytes.
    pub call: String,
    /// The first thing that differs.
    pub what: String,
    pub rust: String,
    pub ours: String,
}

/// The input of a case, and where it comes from.
#[derive(Debug, Clone, Copy)]
pub struct Case<'a> {
    pub subject: &'static str,
    /// The seed of a random case; an exhaustive one has none.
    pub seed: Option<u64>,
    pub number: u64,
    pub kind: &'static str,
    pub bytes: &'a [u8],
}

/// A finding with the case that shows it.
#[derive(Debug)]
pub struct Difference(String);

pub type Outcome = Result<(), Difference>;

impl Difference {
    /// A run that met nothing of what it must show.
    pub fn not_met(subject: &str, what: &str) -> Self {
        Self(format!("{subject}: FAILED, no case had {what}"))
    }
}

/// Inputs below this many bytes are printed whole.
const WHOLE: usize = 4096;

/// How much is printed of any other.
const BEGINNING: usize = 256;

/// An input above this many bytes is not made smaller.
const SMALL: usize = 1 << 20;

/// How often a smaller input is tried at most.
const TRIES: usize = 20_000;

impl Case<'_> {
    /// The case with the smallest input that was found to show a difference too. `again` compares another input.
    pub fn smallest(&self, finding: Finding, again: impl Fn(&[u8]) -> Option<Finding>) -> Difference {
        if self.bytes.len() > SMALL {
            return self.differs(finding);
        }
        let (bytes, finding) = smaller(self.bytes, finding, again);
        let Difference(shown) = Case { bytes: &bytes, ..*self }.differs(finding);
        Difference(format!("{shown}\nmade smaller from {} bytes", self.bytes.len()))
    }

    /// The case with what was found in it.
    pub fn differs(&self, finding: Finding) -> Difference {
        let shown = if self.bytes.len() < WHOLE {
            self.bytes
        } else {
            &self.bytes[..BEGINNING]
        };
        let mut hex = String::new();
        for byte in shown {
            write!(hex, "{byte:02x}").expect("a String takes any text");
        }
        let seed = self
            .seed
            .map_or("none, an exhaustive case".to_string(), |seed| seed.to_string());
        let rest = if shown.len() < self.bytes.len() { ".." } else { "" };
        Difference(format!(
            "{}: DIFFERENCE\nseed: {seed}\ncase: {}\nkind: {}\ncall: {}\nwhat: {}\nRust: {}\nours: {}\n\
             {} bytes: {hex}{rest}",
            self.subject,
            self.number,
            self.kind,
            finding.call,
            finding.what,
            finding.rust,
            finding.ours,
            self.bytes.len(),
        ))
    }
}

/// Cuts out parts, from half of the input down to a byte, and then clears bytes, as long as there is a difference.
fn smaller(bytes: &[u8], mut finding: Finding, again: impl Fn(&[u8]) -> Option<Finding>) -> (Vec<u8>, Finding) {
    let mut best = bytes.to_vec();
    let mut tries = TRIES;
    let mut differs = |bytes: &[u8]| {
        tries = tries.checked_sub(1)?;
        again(bytes)
    };
    let mut part = best.len().div_ceil(2);
    while part > 0 {
        let mut at = 0;
        while at < best.len() {
            let end = best.len().min(at + part);
            let cut = [&best[..at], &best[end..]].concat();
            match differs(&cut) {
                Some(found) => (best, finding) = (cut, found),
                None => at = end,
            }
        }
        part /= 2;
    }
    for at in 0..best.len() {
        let byte = std::mem::replace(&mut best[at], 0);
        match differs(&best) {
            Some(found) => finding = found,
            None => best[at] = byte,
        }
    }
    (best, finding)
}

impl fmt::Display for Difference {
    fn fmt(&self, f: &mut fmt::Formatter<'_>) -> fmt::Result {
        f.write_str(&self.0)
    }
}
