//! Says where the original's files and our static library lie. The original is compiled from where it is, unchanged:
//! this writes the module declarations that point to its files, one list for the crate root and one for `usn`.

use std::path::{Path, PathBuf};
use std::{env, fs};

/// The original's files that stand at the crate root, by module name.
const ROOT: [&str; 4] = ["bytes", "carve", "refs", "rewind"];

/// The original's files of the module `usn`.
const USN: [&str; 3] = ["carver", "reader", "record"];

/// Our static library, with all calls.
const LIBRARY: &str = "volume_history";

fn main() {
    let project = env::var_os("CARGO_MANIFEST_DIR").expect("cargo sets CARGO_MANIFEST_DIR");
    build(Path::new(&project));
}

/// The build of this project, whose folder is `project`, and of any other that has this file as a module.
pub fn build(project: &Path) {
    println!("cargo:rerun-if-changed=build.rs");
    let source = folder(project, "NTFS_FORENSIC_SRC", "../../../shared/docs/src").join("core/src");
    declare("original.rs", &source, &ROOT);
    declare("original_usn.rs", &source.join("usn"), &USN);

    let archive = folder(project, "RATTLE_STATICLIB", "../../target/lib");
    println!("cargo:rustc-link-search=native={}", archive.display());
    present(
        &archive.join(format!("lib{LIBRARY}.a")),
        "tools/build-libraries at the repository's root writes it",
    );
    println!("cargo:rustc-link-lib=static={LIBRARY}");
}

/// The folder that the environment variable names, or the default; a relative one counts from this project's folder.
fn folder(project: &Path, variable: &str, default: &str) -> PathBuf {
    println!("cargo:rerun-if-env-changed={variable}");
    project.join(env::var_os(variable).unwrap_or_else(|| default.into()))
}

/// Writes a file of module declarations. The original's warnings are its own, so they are not shown.
fn declare(file: &str, folder: &Path, modules: &[&str]) {
    let mut text = String::new();
    for module in modules {
        let path = folder.join(format!("{module}.rs"));
        present(&path, "see NTFS_FORENSIC_SRC");
        let quoted = path.to_str().expect("the path is UTF-8");
        text += &format!("#[allow(warnings)]\n#[path = {quoted:?}]\npub mod {module};\n");
    }
    let out = env::var_os("OUT_DIR").expect("cargo sets OUT_DIR");
    fs::write(Path::new(&out).join(file), text).expect("OUT_DIR takes a file");
}

/// Stops the build where a file is missing, and has it repeated when the file changes.
fn present(path: &Path, hint: &str) {
    assert!(path.is_file(), "{} is missing; {hint}", path.display());
    println!("cargo:rerun-if-changed={}", path.display());
}
