//! Times our calls beside those of the Rust library that they replace, on the same bytes and for the same result.
//! README.md says how to run it.
//!
//! The original's files, the stand-ins for what they lack and the calls of our library are those of the differential
//! test, the declarations those of the Rust crate.

mod allocation;
mod cost;
mod grid;
mod image;
mod journal;
mod ladders;
mod names;
mod options;
mod ours;
mod rewinds;
mod rust;
mod sharing;
mod sum;
mod table;
mod texts;

#[path = "../../bindings/rust/src/declared.rs"]
mod declared;
#[allow(dead_code)] // the differential test uses more of these files
#[path = "../../tests/differential/src/error.rs"]
mod error;
#[allow(dead_code)]
#[path = "../../tests/differential/src/image/layout.rs"]
mod layout;
#[allow(dead_code)]
#[path = "../../tests/differential/src/library.rs"]
mod library;
#[allow(dead_code)]
#[path = "../../tests/differential/src/random.rs"]
mod random;
#[allow(dead_code)]
#[path = "../../tests/differential/src/records/layout.rs"]
mod record_layout;
#[allow(dead_code)]
#[path = "../../tests/differential/src/image/restored.rs"]
mod restored;
#[allow(dead_code)]
#[path = "../../tests/differential/src/rewinds/library.rs"]
mod rewind_library;
#[path = "../../tests/differential/src/usn/mod.rs"]
mod usn;

/// The calls on tables and paths, where those on rewinds look for them.
#[path = "../../tests/differential/src/paths"]
mod paths {
    #[allow(dead_code)]
    pub mod library;
}

include!(concat!(env!("OUT_DIR"), "/original.rs"));

use cost::Cost;
use image::Kind;
use names::Names;
use options::{Options, Subject, USAGE};
use ours::{ImageRoom, Room, CARVER, SCAN};
use sharing::Schedule;
use std::process::ExitCode;
use std::thread;
use sum::Sum;
use table::{Table, Task, Unit};

/// How many names are decoded.
const NAMES: usize = 1_000_000;

/// The Rust's reader calls itself for words that are no record, so that it may take a large stack.
const STACK: usize = 1 << 30;

fn main() -> ExitCode {
    let Some(options) = Options::of(std::env::args().skip(1)) else {
        eprintln!("{USAGE}");
        return ExitCode::from(2);
    };
    let measuring = thread::Builder::new()
        .stack_size(STACK)
        .spawn(move || measure(&options));
    let measured = measuring.expect("there is room for a stack").join();
    match measured.expect("the measuring does not panic") {
        Ok(()) => ExitCode::SUCCESS,
        Err(why) => {
            println!("{why}");
            ExitCode::FAILURE
        }
    }
}

/// Times the readers on a journal, the carver on an image, the decoder on names, paths of deep folders, and seeding and rewinding on
/// histories, and prints a table of each.
fn measure(options: &Options) -> Result<(), String> {
    let before = Schedule::now();
    if options.has(Subject::Journal) {
        measure_journal(options)?;
    }
    if options.has(Subject::Image) {
        measure_image(options)?;
    }
    if options.has(Subject::Names) {
        measure_names(options.seed)?;
    }
    if options.has(Subject::Paths) {
        ladders::measure(options)?;
    }
    if options.has(Subject::Rewinds) {
        rewinds::measure(options)?;
    }
    Schedule::print_since(before);
    Ok(())
}

/// The task of reading these bytes, which are lent to both, for a result.
fn reading(bytes: &[u8], expected: Sum) -> Task {
    Task {
        size: bytes.len(),
        expected,
        lent: [bytes.len(); 2],
    }
}

/// Times every reader and prints the table. Every timing must give what the Rust's scan gives.
fn measure_journal(options: &Options) -> Result<(), String> {
    let (seed, longest_name) = (options.seed, options.longest_name);
    let journal = &journal::generated(seed, options.mebibytes << 20, longest_name)[..];
    println!(
        "journal: {} bytes, seed {seed}, longest name {longest_name}",
        journal.len()
    );
    let (_, expected) = rust::scan(journal);
    let zeros = journal::zero_words(journal);
    println!(
        "{} records; {:.1}% zero words",
        expected.records,
        800.0 * zeros as f64 / journal.len() as f64
    );
    let room = Room {
        journal: journal.len(),
        records: expected.records,
    };
    let task = reading(journal, expected);
    let mut table = Table::new(Unit::Bytes);
    for (name, lister, rust) in [
        ("scan", SCAN, rust::scan as fn(&[u8]) -> (Cost, Sum)),
        ("carver", CARVER, rust::carve),
    ] {
        let rust = || rust(journal);
        let fields = || lister.list_and_fields(journal, room.cleared());
        let uncleared = || lister.list_and_fields(journal, room.fresh());
        let list = || lister.list(journal, room.list_only().cleared());
        let just_full = || lister.list(journal, room.just_full().list_only().cleared());
        let what = |rest: &str| format!("{name}, {rest}");
        table.add(&what("list and fields"), &task, Some(&fields), Some(&rust))?;
        table.add(
            &what("list and fields, uncleared"),
            &task,
            Some(&uncleared),
            Some(&rust),
        )?;
        table.add(&what("list only"), &task, Some(&list), None)?;
        table.add(&what("list only, just full"), &task, Some(&just_full), None)?;
    }
    // The window's source is read by a buffer at a time, and is lent to neither.
    let task = Task { lent: [0; 2], ..task };
    for (what, delivery) in [("all that is wanted", usize::MAX), ("4096 bytes at a time", 4096)] {
        let ours = || ours::window(journal, delivery);
        let rust = || rust::window(journal, delivery);
        table.add(&format!("window, {what}"), &task, Some(&ours), Some(&rust))?;
    }
    table.print();
    Ok(())
}

/// Times the carver of MFT entries on an image of each kind and prints the table. Every timing must give what the Rust gives for
/// the image's restored copy.
fn measure_image(options: &Options) -> Result<(), String> {
    let mut table = Table::new(Unit::Bytes);
    for kind in Kind::ALL {
        let image = &image::generated(options.seed, options.image_mebibytes << 20, kind)[..];
        let copy = &restored::restored(image).bytes[..];
        let what = |rest: &str| format!("{}, {rest}", kind.name());
        println!("{}: {} bytes, seed {}", kind.name(), image.len(), options.seed);
        let (_, expected) = rust::image(copy);
        println!("{} entries are carved", expected.records);
        let room = ImageRoom {
            kind,
            image: image.len(),
            entries: expected.records,
        };
        let task = reading(image, expected);
        let rust = || rust::image(copy);
        let text = || ours::image_list_and_text(image, room.cleared());
        let uncleared = || ours::image_list_and_text(image, room.fresh());
        let list = || ours::image_list(image, room.list_only().cleared());
        let just_full = || ours::image_list(image, room.just_full().list_only().cleared());
        table.add(&what("list and text"), &task, Some(&text), Some(&rust))?;
        table.add(&what("list and text, uncleared"), &task, Some(&uncleared), Some(&rust))?;
        table.add(&what("list only"), &task, Some(&list), None)?;
        table.add(&what("list only, just full"), &task, Some(&just_full), None)?;
    }
    table.print();
    Ok(())
}

/// Times the decoder and prints the table. Every timing must give what the Rust gives.
fn measure_names(seed: u64) -> Result<(), String> {
    let names: &Names = &names::generated(seed, NAMES);
    println!("names: {} bytes, seed {seed}", names.bytes.len());
    let (_, expected) = rust::names(names);
    println!("{} names", expected.records);
    let task = reading(&names.bytes, expected);
    let mut table = Table::new(Unit::Bytes);
    let ours = || ours::names(names);
    let rust = || rust::names(names);
    table.add("names, all texts kept", &task, Some(&ours), Some(&rust))?;
    let ours = || ours::names_one_by_one(names);
    let rust = || rust::names_one_by_one(names);
    table.add("names, one text at a time", &task, Some(&ours), Some(&rust))?;
    table.print();
    Ok(())
}
