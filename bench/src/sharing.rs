//! How long the measuring waited for a core that others used. On a busy machine the rates are off, and the ratios too.

use std::fs;

/// The share of waiting above which rates and ratios say nothing.
const QUIET: f64 = 0.01;

/// How long this thread ran and how long it waited for a core, in nanoseconds, where the system tells it.
#[derive(Clone, Copy)]
pub struct Schedule {
    ran: u64,
    waited: u64,
}

impl Schedule {
    pub fn now() -> Option<Self> {
        let told = fs::read_to_string("/proc/thread-self/schedstat").ok()?;
        let mut numbers = told.split_whitespace().map(|word| word.parse().ok());
        Some(Self {
            ran: numbers.next()??,
            waited: numbers.next()??,
        })
    }

    /// Says what share of the time since then was waited.
    pub fn print_since(before: Option<Self>) {
        let (Some(before), Some(now)) = (before, Self::now()) else {
            println!("The system does not tell whether the machine was busy.");
            return;
        };
        let (ran, waited) = (now.ran - before.ran, now.waited - before.waited);
        let share = waited as f64 / (ran + waited) as f64;
        print!("Waited for a core {:.1}% of the time", 100.0 * share);
        match share > QUIET {
            true => println!(": THE MACHINE WAS BUSY, and no rate or ratio above may be quoted."),
            false => println!("."),
        }
    }
}
