//! The command line.

pub const USAGE: &str = "usage: bench [--seed N] [--mebibytes N] [--longest-name UNITS] [--image-mebibytes N] \
[--rewind-records N,N,..] [--plain-records N] [--only journal|image|names|paths|rewinds]";

/// The most records of a rewind: more do not lie in a journal of the longest that is read.
const MOST_RECORDS: usize = 10_000_000;

/// What is measured, each with a table of its own.
#[derive(Debug, Clone, Copy, PartialEq, Eq)]
pub enum Subject {
    Journal,
    Image,
    Names,
    Paths,
    Rewinds,
}

/// What a run is made from.
pub struct Options {
    pub seed: u64,
    pub mebibytes: usize,
    pub longest_name: usize,
    pub image_mebibytes: usize,
    /// The records of each rewind.
    pub rewind_records: Vec<usize>,
    /// Above so many records our calls are left out whose time grows with the square of the records.
    pub plain_records: usize,
    /// The one subject that is measured, if it is one.
    pub only: Option<Subject>,
}

impl Options {
    /// The options; nothing where the command line is not understood.
    pub fn of(mut words: impl Iterator<Item = String>) -> Option<Self> {
        let mut options = Self {
            seed: 1,
            mebibytes: 256,
            longest_name: 40,
            image_mebibytes: 64,
            rewind_records: vec![1_000, 10_000, 100_000],
            plain_records: 100_000,
            only: None,
        };
        while let Some(word) = words.next() {
            let value = words.next()?;
            match word.as_str() {
                "--seed" => options.seed = value.parse().ok()?,
                "--mebibytes" => options.mebibytes = number(&value, 1024)?,
                "--longest-name" => options.longest_name = number(&value, 255)?,
                "--image-mebibytes" => options.image_mebibytes = number(&value, 1024)?,
                "--rewind-records" => {
                    let numbers = value.split(',').map(|word| number(word, MOST_RECORDS));
                    options.rewind_records = numbers.collect::<Option<_>>()?;
                }
                "--plain-records" => options.plain_records = value.parse().ok()?,
                "--only" => options.only = Some(subject(&value)?),
                _ => return None,
            }
        }
        Some(options)
    }

    /// Whether a subject is measured.
    pub fn has(&self, subject: Subject) -> bool {
        self.only.is_none_or(|only| only == subject)
    }
}

/// A number from 1 to the most.
fn number(word: &str, most: usize) -> Option<usize> {
    word.parse().ok().filter(|number| (1..=most).contains(number))
}

fn subject(word: &str) -> Option<Subject> {
    match word {
        "journal" => Some(Subject::Journal),
        "image" => Some(Subject::Image),
        "names" => Some(Subject::Names),
        "paths" => Some(Subject::Paths),
        "rewinds" => Some(Subject::Rewinds),
        _ => None,
    }
}
