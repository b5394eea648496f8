//! What a call gave, as numbers that are to be equal for both.

/// How many records, entries, names or paths, the bytes of their texts, and a sum over some fields of each and over every byte of
/// text, in their order.
#[derive(Debug, Clone, Copy, PartialEq, Eq, Default)]
pub struct Sum {
    pub records: usize,
    pub text: usize,
    pub fields: u64,
}

impl Sum {
    /// Adds a record's entry, USN, seconds and reason.
    pub fn add(&mut self, fields: [u64; 4]) {
        self.records += 1;
        self.add_all(fields);
    }

    /// Adds an entry's number, sequence and parent, and its name's text.
    pub fn add_entry(&mut self, fields: [u64; 3], text: &[u8]) {
        self.add_all(fields);
        self.add_text(text);
    }

    /// Adds the text of a name or of a path.
    pub fn add_text(&mut self, text: &[u8]) {
        self.records += 1;
        self.text += text.len();
        self.add_all(text.iter().map(|&byte| byte.into()));
    }

    /// Adds how many keys a table has.
    pub fn add_keys(&mut self, keys: usize) {
        self.add_all([keys as u64]);
    }

    fn add_all(&mut self, fields: impl IntoIterator<Item = u64>) {
        for field in fields {
            self.fields = self.fields.rotate_left(1).wrapping_add(field);
        }
    }
}
