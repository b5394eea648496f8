//! The wrapper held to the scope, docs/SCOPE.md at the repository's root: its known cases P1 to P10, its record E, and what its
//! sentences say of each call, as far as that shows from outside. Every expected value is written down from that document; those of
//! `volumes` come from other tools.

mod carving;
mod images;
mod journals;
mod layout;
mod paths;
mod reading;
mod records;
mod rewinds;
mod volumes;
