//! Lists a change journal as the program usnlist does, a line for each record with its numbers and the path that its file had when
//! the record was written, for a file of any size up to the library's domain.
//!
//! At the repository's root, after `tools/build-libraries`:
//!
//!     cargo run --release --offline --manifest-path examples/rust/Cargo.toml samples/journal.bin

use std::error::Error;
use std::io::{self, BufWriter, Write};
use std::process::ExitCode;
use std::{env, fs};

use volume_history::{list_usn_journal, RewindEngine, UsnRecord};

/// The longest path that is shown, in bytes.
const LONGEST_PATH: usize = 65536;

fn main() -> ExitCode {
    let arguments: Vec<_> = env::args_os().skip(1).collect();
    let [name] = &arguments[..] else {
        eprintln!("usage: list JOURNAL");
        return ExitCode::from(2);
    };
    let listed = fs::read(name).map_err(Into::into).and_then(|journal| list(&journal));
    match listed {
        Ok(()) => ExitCode::SUCCESS,
        Err(error) => {
            eprintln!("list: {error}");
            ExitCode::FAILURE
        }
    }
}

/// Writes the header, the lines of a journal's records, and the last line, which counts them.
fn list(journal: &[u8]) -> Result<(), Box<dyn Error>> {
    let (offsets, records): (Vec<usize>, Vec<UsnRecord>) = list_usn_journal(journal)?
        .into_iter()
        .map(|listed| (listed.offset, listed.record))
        .unzip();
    let mut output = BufWriter::new(io::stdout().lock());
    writeln!(
        output,
        "offset version entry sequence parent parent-sequence usn seconds nanoseconds reason path"
    )?;
    for (offset, resolved) in offsets.iter().zip(RewindEngine::new().rewind(&records)) {
        let r = &resolved.record;
        write!(
            output,
            "{offset} {} {} {} ",
            r.major_version, r.mft_entry, r.mft_sequence
        )?;
        write!(output, "{} {} {} ", r.parent_mft_entry, r.parent_mft_sequence, r.usn)?;
        write!(
            output,
            "{} {} {:08x} ",
            r.timestamp.seconds,
            r.timestamp.nanoseconds,
            r.reason.bits()
        )?;
        writeln!(output, "{}", shown(&resolved.full_path))?;
    }
    writeln!(output, "records {}", records.len())?;
    output.flush()?;
    Ok(())
}

/// A path as it is shown: control characters as question marks, and a path that is too long as one.
fn shown(path: &str) -> String {
    if path.len() > LONGEST_PATH {
        return "?".to_owned();
    }
    path.replace(|c| c < ' ', "?")
}
