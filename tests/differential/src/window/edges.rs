//! The exhaustive journals of the window beside those of all readers: what lies across the place where it is refilled
//! first, and where the journal ends.

use crate::journals::edges::{header, laid, Input};
use crate::library::BUF_SIZE;
use crate::records::edges::example;
use crate::records::layout::{put, LARGEST, MAJOR_VERSION, V2, V3};

/// The journals around the end of the first window.
pub fn inputs() -> Vec<Input> {
    let mut inputs = Vec::new();
    for filler in [[].as_slice(), &example(&V2)] {
        for at in (BUF_SIZE - 96..=BUF_SIZE + 8).step_by(8) {
            let before = filled(filler, at);
            for piece in pieces() {
                ends(&before, &piece, &mut inputs);
            }
        }
    }
    cuts(&mut inputs);
    totals(&mut inputs);
    inputs
}

/// So many bytes: zeros, and then as many of the records as fit.
fn filled(record: &[u8], length: usize) -> Vec<u8> {
    let records = record.repeat(length.checked_div(record.len()).unwrap_or(0));
    let mut bytes = vec![0; length - records.len()];
    bytes.extend(records);
    bytes
}

/// What lies across the edge: records of both versions and of others, short ones, and headers whose length reaches
/// around the next window's end.
fn pieces() -> Vec<Vec<u8>> {
    let mut range = example(&V3);
    put(&mut range, MAJOR_VERSION, 2, 4);
    let mut short = example(&V2);
    put(&mut short, 0, 4, 60);
    let mut pieces = vec![example(&V2), example(&V3), range, short, vec![0; 24]];
    for (length, version) in [(8, 2), (48, 9), (59, 2), (75, 3), (120, 2), (LARGEST + 1, 2)] {
        pieces.push(header(length, version).to_vec());
    }
    for length in [LARGEST - 8, LARGEST - 1, LARGEST] {
        pieces.push(laid(&header(length, 2), &example(&V2), 64));
    }
    pieces
}

/// The piece behind what comes before it, and E behind it; the journal ends around the edge, behind E, or so far away
/// that the largest record lies inside.
fn ends(before: &[u8], piece: &[u8], inputs: &mut Vec<Input>) {
    let mut bytes = [before, piece].concat();
    bytes.resize(bytes.len().next_multiple_of(8), 0);
    bytes.extend(example(&V2));
    let whole = bytes.len();
    let length = piece.first_chunk().map_or(0, |field| u32::from_le_bytes(*field)) as usize;
    bytes.resize(whole.max(before.len() + length.min(LARGEST)), 0);
    bytes.extend(example(&V3));
    let around = [0, 1, 7, 8, 9].map(|more| BUF_SIZE + more);
    for end in around.into_iter().chain([whole, bytes.len() - 81, bytes.len()]) {
        if before.len() < end && end <= bytes.len() {
            inputs.push(Input {
                kind: "window's end",
                bytes: bytes[..end].to_vec(),
            });
        }
    }
}

/// Two records across the edge, the journal cut at every byte around it.
fn cuts(inputs: &mut Vec<Input>) {
    let before = filled(&[], BUF_SIZE - 40);
    let whole = [before, example(&V3), example(&V2)].concat();
    for end in BUF_SIZE - 48..=whole.len() {
        inputs.push(Input {
            kind: "cut at the window's end",
            bytes: whole[..end].to_vec(),
        });
    }
}

/// Zeros over one to three windows that end around a window's end, alone and with E before the end, across it or behind
/// it.
fn totals(inputs: &mut Vec<Input>) {
    for edge in [1, 2, 3].map(|windows| windows * BUF_SIZE) {
        for total in edge - 9..=edge + 17 {
            for at in [edge - 128, edge - 64, edge - 56, edge - 8, edge] {
                let mut bytes = laid(&[], &example(&V2), at);
                bytes.resize(total, 0);
                inputs.push(Input {
                    kind: "total around a window's end",
                    bytes,
                });
            }
        }
    }
}
