//! Finds the archive of the engine and tells cargo to link it.
//!
//! In this order: the folder that FBS_LIB_DIR names; target/staticlib of the repository; and where neither has it,
//! `bin/archive` of the repository is run, which proves the crates of C entry points and writes it there.

use std::env;
use std::path::{Path, PathBuf};
use std::process::{exit, Command};

const ARCHIVE: &str = "libexports.a";

fn main() {
    println!("cargo:rerun-if-env-changed=FBS_LIB_DIR");
    println!("cargo:rerun-if-changed=build.rs");
    let folder = archive_folder();
    println!("cargo:rerun-if-changed={}", folder.join(ARCHIVE).display());
    println!("cargo:rustc-link-search=native={}", folder.display());
    println!("cargo:rustc-link-lib=static=exports");
}

fn archive_folder() -> PathBuf {
    if let Some(named) = env::var_os("FBS_LIB_DIR") {
        let folder = PathBuf::from(named);
        if !folder.join(ARCHIVE).is_file() {
            stop(&format!("FBS_LIB_DIR is {}, and there is no {ARCHIVE}", folder.display()));
        }
        return folder;
    }
    let root = repository();
    let folder = root.join("target").join("staticlib");
    if !folder.join(ARCHIVE).is_file() {
        build_archive(&root);
    }
    if !folder.join(ARCHIVE).is_file() {
        stop("bin/archive wrote no archive");
    }
    folder
}

/// The repository is two folders above this crate.
fn repository() -> PathBuf {
    let here = PathBuf::from(env::var_os("CARGO_MANIFEST_DIR").expect("cargo names the crate's folder"));
    here.join("..").join("..").canonicalize().expect("the crate is in bindings/rust of the repository")
}

fn build_archive(root: &Path) {
    match Command::new(root.join("bin").join("archive")).status() {
        Ok(status) if status.success() => {}
        Ok(status) => stop(&format!("bin/archive failed with {status}")),
        Err(error) => {
            stop(&format!("no {ARCHIVE} in target/staticlib, and bin/archive could not be run ({error}); set FBS_LIB_DIR to the archive's folder"))
        }
    }
}

fn stop(message: &str) -> ! {
    eprintln!("{message}");
    exit(1);
}
