//! An image in a file, a volume's for instance, carved by ours and, restored, by the Rust.

use super::comparison::{compare, every_lent, Met};
use super::exhaustive_case;
use std::fs;

/// Compares the two on the file, and says what was carved. An image without a candidate shows nothing, so that it fails
/// too.
pub fn run(path: &str) -> Result<(), String> {
    let bytes = fs::read(path).map_err(|error| format!("{path}: {error}"))?;
    let (walk, met) = compare(&bytes, |entries| every_lent(bytes.len(), entries))
        .map_err(|finding| format!("{path}: {}", exhaustive_case(0, "a file", &bytes).differs(finding)))?;
    let [scanned, candidates, carved, rejected] = walk.counters;
    if candidates == 0 {
        return Err(format!("{path}: {scanned} bytes, nothing begins FILE"));
    }
    let Met { unsound, names, .. } = met;
    println!(
        "{path}: {scanned} bytes, {candidates} candidates, {carved} carved, {names} of them with another name than is \
         stored, {rejected} rejected, {unsound} with an array that fails a test, no difference"
    );
    Ok(())
}
