//! Says where `libvolume_history.a` lies: in `target/lib` of the repository, where `tools/build-libraries` leaves it, or in the
//! folder that the environment variable `RATTLE_STATICLIB` names. A relative one counts from this crate's folder.

use std::env;
use std::path::Path;

fn main() {
    println!("cargo:rerun-if-changed=build.rs");
    println!("cargo:rerun-if-env-changed=RATTLE_STATICLIB");
    let project = env::var_os("CARGO_MANIFEST_DIR").expect("cargo sets CARGO_MANIFEST_DIR");
    let named = env::var_os("RATTLE_STATICLIB").unwrap_or_else(|| "../../target/lib".into());
    let folder = Path::new(&project).join(named);
    let archive = folder.join("libvolume_history.a");
    assert!(
        archive.is_file(),
        "{} is missing; tools/build-libraries at the repository's root writes it",
        archive.display()
    );
    println!("cargo:rerun-if-changed={}", archive.display());
    println!("cargo:rustc-link-search=native={}", folder.display());
    println!("cargo:rustc-link-lib=static=volume_history");
}
