//! Texts in lent memory.

use std::iter;

/// Texts one after another, and where each of them ends.
pub struct Texts {
    text: Vec<u8>,
    ends: Vec<usize>,
}

impl Texts {
    /// Room for so many texts of so many bytes together, in memory that the system has not given pages to.
    pub fn fresh(texts: usize, bytes: usize) -> Self {
        Self {
            text: vec![0; bytes],
            ends: vec![0; texts],
        }
    }

    pub fn clear(&mut self) {
        self.text.fill(0);
        self.ends.fill(0);
    }

    /// Writes a text for each thing, by a function that writes it to the front of what it is lent and gives its length.
    pub fn write<T>(&mut self, of: impl Iterator<Item = T>, mut write: impl FnMut(T, &mut [u8]) -> usize) {
        let mut at = 0;
        for (thing, end) in of.zip(&mut self.ends) {
            at += write(thing, &mut self.text[at..]);
            *end = at;
        }
    }

    pub fn iter(&self) -> impl Iterator<Item = &[u8]> {
        let starts = iter::once(0).chain(self.ends.iter().copied());
        starts.zip(&self.ends).map(|(start, &end)| &self.text[start..end])
    }
}
