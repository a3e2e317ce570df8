//! Builds the reference: copies its three files unchanged, adds the one that is missing, and compiles them as the crate `fixedbitset`.
//!
//! The files are read from the folder that FIXEDBITSET_SRC names, by default ../shared/docs/src beside the repository.

use std::env;
use std::fs;
use std::path::{Path, PathBuf};
use std::process::{exit, Command};

const UNCHANGED: [&str; 3] = ["src/lib.rs", "src/range.rs", "src/block/default.rs"];

fn main() {
    println!("cargo:rerun-if-env-changed=FIXEDBITSET_SRC");
    println!("cargo:rerun-if-changed=build.rs");
    println!("cargo:rerun-if-changed=reference/block_mod.rs");
    let here = folder("CARGO_MANIFEST_DIR");
    let source = match env::var_os("FIXEDBITSET_SRC") {
        Some(named) => PathBuf::from(named),
        None => here.join("..").join("..").join("shared").join("docs").join("src"),
    };
    let copy = folder("OUT_DIR").join("fixedbitset");
    fs::create_dir_all(copy.join("src").join("block")).expect("a folder for the copy");
    for name in UNCHANGED {
        let from = source.join(name);
        println!("cargo:rerun-if-changed={}", from.display());
        if let Err(error) = fs::copy(&from, copy.join(name)) {
            stop(&format!("the reference lacks {} ({error}); FIXEDBITSET_SRC names its folder", from.display()));
        }
    }
    fs::copy(here.join("reference").join("block_mod.rs"), copy.join("src").join("block").join("mod.rs")).expect("our own file");
    compile(&copy);
    println!("cargo:rustc-link-search={}", copy.display());
}

/// As a release build of the crate would be: optimised, with no check of overflow.
fn compile(copy: &Path) {
    let rustc = env::var_os("RUSTC").unwrap_or_else(|| "rustc".into());
    let status = Command::new(rustc)
        .args(["--crate-name", "fixedbitset", "--crate-type", "rlib", "--edition", "2021", "-C", "opt-level=3", "--cap-lints", "allow"])
        .arg(copy.join("src").join("lib.rs"))
        .arg("--out-dir")
        .arg(copy)
        .status();
    match status {
        Ok(status) if status.success() => {}
        Ok(status) => stop(&format!("the reference did not compile ({status})")),
        Err(error) => stop(&format!("rustc could not be run ({error})")),
    }
}

fn folder(name: &str) -> PathBuf {
    PathBuf::from(env::var_os(name).expect("cargo names its folders"))
}

fn stop(message: &str) -> ! {
    eprintln!("{message}");
    exit(1);
}
