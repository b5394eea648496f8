//! What a call costs.

use crate::allocation;
use std::time::{Duration, Instant};

/// How long a call takes, and how many bytes are allocated at once while it runs, what was lent to it among them; 0 where they are
/// not counted.
#[derive(Debug, Clone, Copy)]
pub struct Cost {
    pub time: Duration,
    pub memory: usize,
}

/// What a call costs, and what it gives.
pub fn clock<T>(call: impl FnOnce() -> T) -> (Cost, T) {
    allocation::mark();
    let start = Instant::now();
    let given = call();
    let time = start.elapsed();
    let memory = allocation::most();
    (Cost { time, memory }, given)
}
