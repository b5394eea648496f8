//! The original's files and our static library are found as the differential test finds them, from its folder.

#[allow(dead_code)] // its own main
#[path = "../tests/differential/build.rs"]
mod differential;

use std::env;
use std::path::Path;

fn main() {
    let project = env::var_os("CARGO_MANIFEST_DIR").expect("cargo sets CARGO_MANIFEST_DIR");
    differential::build(&Path::new(&project).join("../tests/differential"));
}
