//! What is lent to a call that gives a list and an answer, and what shows that it was left alone.

/// How many words a call is lent for the list and for the answer.
#[derive(Debug, Clone, Copy)]
pub struct Lent {
    pub list: usize,
    pub out: usize,
}

/// The words or bytes behind those lent, which no call may write.
pub const BEHIND: usize = 4;

/// What a word of a list or of an answer holds before a call, each another value.
pub fn untouched(at: usize) -> u64 {
    0xa55a_c33c_9669_0000 + at as u64
}

/// As much of a list as is printed.
pub fn beginning<T>(list: &[T]) -> &[T] {
    &list[..list.len().min(40)]
}
