//! Which path each file had when a record was written.

use std::fmt;

use crate::carve::CarvedMftEntry;
use crate::table::Table;
use crate::usn::UsnRecord;

/// The key of a file or folder: its MFT entry number and its sequence number.
#[derive(Debug, Clone, Copy, PartialEq, Eq, Hash)]
pub struct EntryKey {
    pub entry: u64,
    pub sequence: u16,
}

impl EntryKey {
    pub fn new(entry: u64, sequence: u16) -> Self {
        Self { entry, sequence }
    }

    /// The volume's root folder.
    pub fn root() -> Self {
        Self::new(5, 5)
    }

    /// Whether this is entry 5, of any sequence.
    pub fn is_root(&self) -> bool {
        self.entry == 5
    }
}

/// What is known of a key.
#[derive(Debug, Clone, PartialEq, Eq)]
pub struct EntryInfo {
    /// The name, without the folder.
    pub name: String,
    /// The parent folder's key.
    pub parent: EntryKey,
}

/// Where a resolved record comes from.
#[derive(Debug, Clone, Copy, PartialEq, Eq)]
pub enum RecordSource {
    /// The journal.
    Allocated,
    /// Space that is not allocated.
    Carved,
    /// A record that was inferred.
    Ghost,
}

impl RecordSource {
    /// Its label.
    pub fn as_str(&self) -> &'static str {
        match self {
            RecordSource::Allocated => "allocated",
            RecordSource::Carved => "entry-carved",
            RecordSource::Ghost => "ghost",
        }
    }
}

/// A record with its paths.
#[derive(Debug, Clone, PartialEq, Eq)]
pub struct ResolvedRecord {
    pub record: UsnRecord,
    /// The path of the record's file, for instance `.\Claims\Open\letter.docx`.
    pub full_path: String,
    /// The path of its folder.
    pub parent_path: String,
    /// [`RecordSource::Allocated`] for every record that [`RewindEngine::rewind`] gives.
    pub source: RecordSource,
}

/// A lookup table from keys to names and parents, which a rewind fills and by which paths are resolved.
///
/// # What it costs
///
/// The table is the library's: a list of slots, 56 bytes a key beside its name in UTF-16. [`RewindEngine::seed_from_carved`],
/// [`RewindEngine::from_mft`] and [`RewindEngine::rewind`] build an index of it, of 16 bytes a slot, and take time in proportion to
/// the entries or records and to the names in a path. [`RewindEngine::insert`] and [`RewindEngine::resolve_path`] go through the
/// slots at each call.
///
/// # Panics
///
/// A call that adds names panics where all names of the table, in UTF-16, take more than [`MAX_SLICE`](crate::MAX_SLICE) bytes.
#[derive(Clone, Default)]
pub struct RewindEngine {
    table: Table,
}

impl RewindEngine {
    /// An engine that knows no key.
    pub fn new() -> Self {
        Self::default()
    }

    /// An engine that knows these entries: entry number, sequence, name, the parent's entry number and sequence. Of equal keys
    /// the last counts.
    pub fn from_mft<I>(mft_entries: I) -> Self
    where
        I: IntoIterator<Item = (u64, u16, String, u64, u16)>,
    {
        let entries: Vec<_> = mft_entries
            .into_iter()
            .map(|(entry, sequence, name, parent_entry, parent_sequence)| {
                let parent = EntryKey::new(parent_entry, parent_sequence);
                (EntryKey::new(entry, sequence), name, parent)
            })
            .collect();
        let mut engine = Self::new();
        engine.table.fill(&entries);
        engine
    }

    /// How many keys it knows.
    pub fn lookup_len(&self) -> usize {
        self.table.len()
    }

    /// Adds carved entries, in order, each where its key is not known yet.
    pub fn seed_from_carved(&mut self, entries: &[CarvedMftEntry]) {
        self.table.seed(entries);
    }

    /// Adds an entry, in place of what is known of its key.
    pub fn insert(&mut self, key: EntryKey, info: EntryInfo) {
        self.table.insert(key, &info.name, info.parent);
    }

    /// The path of a key: `.` for the root, else its parent's, a backslash and its name; `UNKNOWN(entry:sequence)` for a key that
    /// is not known, and `UNRESOLVED(entry:sequence)` for one that is 257 names up.
    pub fn resolve_path(&self, key: &EntryKey) -> String {
        self.table.path(*key)
    }

    /// The paths that the files of these records, the oldest first, had when each was written.
    ///
    /// The table learns the names that were there before the first record, and keeps them. The paths come from a copy that moves
    /// on with the records.
    ///
    /// # How it is done
    ///
    /// The library rewinds the records of a journal. So these records are written back as version 2 records, 60 bytes and the
    /// name each, into a journal of our own, which is dropped at the end, and the library goes over that. What a rewind does not
    /// use, such as the time, is not written. A version 2 record has no room for an entry number of more than 48 bits nor for a
    /// name above 65476 bytes. Where a record has one, the same is done by one insertion and one path after another, and then
    /// which reasons replace an entry is decided here and not by the library. No parser gives such a number, and such a name only
    /// where it begins inside the record's fixed part or passes the record.
    ///
    /// # Panics
    ///
    /// Where the names of the table and the records so written take more than [`MAX_SLICE`](crate::MAX_SLICE) bytes.
    pub fn rewind(&mut self, records: &[UsnRecord]) -> Vec<ResolvedRecord> {
        let paths = self.table.rewind(records);
        records
            .iter()
            .zip(paths)
            .map(|(record, paths)| ResolvedRecord {
                record: record.clone(),
                full_path: paths.full_path,
                parent_path: paths.parent_path,
                source: RecordSource::Allocated,
            })
            .collect()
    }
}

impl fmt::Debug for RewindEngine {
    fn fmt(&self, f: &mut fmt::Formatter<'_>) -> fmt::Result {
        f.debug_struct("RewindEngine")
            .field("lookup_len", &self.lookup_len())
            .finish_non_exhaustive()
    }
}
