//! Inputs from a fuzzer that is guided by the coverage of the Rust and of this program: the first byte says which subject reads
//! the rest. `tests/differential/fuzz` builds and runs it.
//!
//! The fuzzer is libFuzzer, whose driver calls back with each input. A difference is printed and ends the program, and
//! libFuzzer then writes the input to a file.

use crate::difference::Outcome;
use crate::random::Random;
use crate::{image, journals, names, records, rewinds, window};
use std::ffi::{c_char, c_int, CString};
use std::process::{abort, ExitCode};
use std::{env, ptr, slice, thread};

/// The kind of every input.
pub const FUZZED: &str = "fuzzed";

/// Keeps the numbers of fuzzed inputs apart from those of random cases.
const STREAM: u64 = 11;

/// The Rust's window calls itself for each word that is no record, so that rubbish takes a stack of its length.
const STACK: usize = 1 << 30;

type Subject = fn(&[u8], &mut Random) -> Outcome;

const SUBJECTS: [Subject; 7] = [
    records::parsers::fuzzed,
    journals::scan::fuzzed,
    journals::carver::fuzzed,
    window::fuzzed,
    names::fuzzed,
    image::fuzzed,
    rewinds::fuzzed,
];

extern "C" {
    fn LLVMFuzzerRunDriver(
        argc: *mut c_int,
        argv: *mut *mut *mut c_char,
        callback: extern "C" fn(*const u8, usize) -> c_int,
    ) -> c_int;
}

extern "C" fn callback(data: *const u8, size: usize) -> c_int {
    // SAFETY: libFuzzer lends the bytes for the call; it may hand over no pointer with a size of 0.
    let data = if size == 0 {
        &[]
    } else {
        unsafe { slice::from_raw_parts(data, size) }
    };
    if let Err(difference) = compare(data) {
        println!("{difference}");
        abort();
    }
    0
}

/// The subject that the first byte names, on the rest. What is lent depends on the input alone.
fn compare(data: &[u8]) -> Outcome {
    let Some((&subject, rest)) = data.split_first() else {
        return Ok(());
    };
    let sum = rest
        .iter()
        .fold(0, |sum: u64, &byte| sum.rotate_left(5) ^ u64::from(byte));
    let mut random = Random::of_case(sum, STREAM, rest.len() as u64);
    SUBJECTS[usize::from(subject) % SUBJECTS.len()](rest, &mut random)
}

/// Hands the command line to libFuzzer, which runs until it is told to stop or the first difference.
pub fn run() -> ExitCode {
    let driver = thread::Builder::new().stack_size(STACK).spawn(|| {
        let words: Vec<CString> = env::args()
            .map(|word| CString::new(word).expect("no zero byte"))
            .collect();
        let mut pointers: Vec<*mut c_char> = words.iter().map(|word| word.as_ptr().cast_mut()).collect();
        let mut count = pointers.len() as c_int;
        pointers.push(ptr::null_mut());
        let mut first = pointers.as_mut_ptr();
        // SAFETY: the words and the pointers to them, with a null pointer at the end, live until the driver is done.
        unsafe { LLVMFuzzerRunDriver(&mut count, &mut first, callback) }
    });
    let status = driver
        .expect("there is room for a stack")
        .join()
        .expect("the driver does not panic");
    ExitCode::from(u8::try_from(status).unwrap_or(1))
}
