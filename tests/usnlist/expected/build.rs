//! Says where the original's files lie. They are compiled from there, unchanged: this writes the module declarations that
//! point to them, one list for the crate root and one for `usn`.

use std::path::{Path, PathBuf};
use std::{env, fs};

fn main() {
    println!("cargo:rerun-if-changed=build.rs");
    println!("cargo:rerun-if-env-changed=NTFS_FORENSIC_SRC");
    let project = PathBuf::from(env::var_os("CARGO_MANIFEST_DIR").expect("cargo sets CARGO_MANIFEST_DIR"));
    let named = env::var_os("NTFS_FORENSIC_SRC").unwrap_or_else(|| "../../../../shared/docs/src".into());
    let source = project.join(named).join("core/src");
    declare("original.rs", &source, &["bytes", "carve", "rewind"]);
    declare("original_usn.rs", &source.join("usn"), &["record"]);
}

/// Writes a file of module declarations. The original's warnings are its own, so they are not shown.
fn declare(file: &str, folder: &Path, modules: &[&str]) {
    let mut text = String::new();
    for module in modules {
        let path = folder.join(format!("{module}.rs"));
        assert!(path.is_file(), "{} is missing; see NTFS_FORENSIC_SRC", path.display());
        println!("cargo:rerun-if-changed={}", path.display());
        let quoted = path.to_str().expect("the path is UTF-8");
        text += &format!("#[allow(warnings)]\n#[path = {quoted:?}]\npub mod {module};\n");
    }
    let out = env::var_os("OUT_DIR").expect("cargo sets OUT_DIR");
    fs::write(Path::new(&out).join(file), text).expect("OUT_DIR takes a file");
}
