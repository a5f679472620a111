//! Finds the engine's static library; the repository's own is proved and built first where it is
//! missing or older than the sources.

use std::env;
use std::path::{Path, PathBuf};
use std::process::Command;

const ARCHIVE: &str = "libcolwythar.a";

fn main() {
    println!("cargo:rerun-if-env-changed=COLWYTHAR_LIB_DIR");
    println!("cargo:rerun-if-changed=build.rs");
    let folder = match env::var_os("COLWYTHAR_LIB_DIR") {
        Some(folder) => given_folder(folder.into()),
        None => repository_folder(),
    };
    println!("cargo:rerun-if-changed={}", folder.join(ARCHIVE).display());
    println!("cargo:rustc-link-search=native={}", folder.display());
    println!("cargo:rustc-link-lib=static=colwythar");
}

/// The folder that the user named. Checking the sources needs no archive, so it may be missing.
fn given_folder(folder: PathBuf) -> PathBuf {
    if !folder.join(ARCHIVE).is_file() {
        println!("cargo:warning=COLWYTHAR_LIB_DIR has no {ARCHIVE}; nothing can be linked yet");
    }
    folder
}

/// The repository's own folder, brought up to date.
fn repository_folder() -> PathBuf {
    let manifest = env::var("CARGO_MANIFEST_DIR").expect("cargo sets the manifest's folder");
    let root = Path::new(&manifest).join("../..");
    for source in ["crates", "crates.txt", "bin/archive"] {
        println!("cargo:rerun-if-changed={}", root.join(source).display());
    }
    bring_up_to_date(&root);
    root.join("target/staticlib")
}

/// Has the archive proved and built, which takes some minutes, unless it is that of the sources.
fn bring_up_to_date(root: &Path) {
    let done = Command::new(root.join("bin/archive")).status();
    let reason = match done {
        Ok(status) if status.success() => return,
        Ok(status) => status.to_string(),
        Err(error) => error.to_string(),
    };
    panic!(
        "`bin/archive` failed ({reason}): run it in the repository's root and see why, \
         or set COLWYTHAR_LIB_DIR to a folder that has {ARCHIVE}"
    );
}
