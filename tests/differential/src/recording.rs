//! The recording: inputs and the Rust's answers to them, for a test that has no Rust. It is the same byte for byte in
//! every run.
//!
//! `stdin` is the inputs one after another: a byte, the kind, four bytes, the length, little endian, and the bytes.
//! `stdout` has the answers, in lines. Each subject adds its own.

use crate::names::comparison::hex;
use std::path::Path;
use std::{fs, io};

/// The largest `stdin`: what the program that replays it has room for.
const LONGEST_STDIN: usize = 524_288;

/// What an input is, by its number in `stdin`. A journal begins a program, with an empty table, and the program's image
/// is next; the calls that follow are made on these.
#[derive(Clone, Copy)]
pub enum Kind {
    V2 = 1,
    V3 = 2,
    Scan = 3,
    Carve = 4,
    Window = 5,
    Entries = 6,
    Name = 7,
    Journal = 8,
    Image = 9,
    Insert = 10,
    InsertIfAbsent = 11,
    Seed = 12,
    Path = 13,
    StoredName = 14,
    Rewind = 15,
}

#[derive(Default)]
pub struct Recording {
    pub inputs: usize,
    stdin: Vec<u8>,
    stdout: String,
}

impl Recording {
    /// Adds an input.
    pub fn input(&mut self, kind: Kind, bytes: &[u8]) {
        self.inputs += 1;
        self.stdin.push(kind as u8);
        self.stdin.extend_from_slice(&(bytes.len() as u32).to_le_bytes());
        self.stdin.extend_from_slice(bytes);
    }

    /// Adds an input of words of eight bytes, little endian.
    pub fn words(&mut self, kind: Kind, words: &[u64]) {
        let bytes: Vec<u8> = words.iter().flat_map(|word| word.to_le_bytes()).collect();
        self.input(kind, &bytes);
    }

    /// Adds a line to the answers.
    pub fn line(&mut self, line: &str) {
        self.stdout += line;
        self.stdout.push('\n');
    }

    /// Adds a line with a text in hexadecimal, `-` if it is empty.
    pub fn text(&mut self, text: &str) {
        match text {
            "" => self.line("-"),
            text => self.line(&hex(text.as_bytes())),
        }
    }

    /// Writes the two files to a folder, which is made where it is missing, unless the inputs are too large.
    pub fn write(&self, folder: &Path) -> io::Result<()> {
        if self.stdin.len() > LONGEST_STDIN {
            return Err(io::Error::other(format!(
                "the inputs have {} bytes, above {LONGEST_STDIN}",
                self.stdin.len()
            )));
        }
        fs::create_dir_all(folder)?;
        fs::write(folder.join("stdin"), &self.stdin)?;
        fs::write(folder.join("stdout"), &self.stdout)
    }
}
