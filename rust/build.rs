//! Links the proved archive libcapi.a: the one that the environment variable HUSKCANYON_ARCHIVE names (a path from the root, or from this package's folder),
//! or the one that `rt lib` made in the repository's folder crates/capi.

use std::path::{Path, PathBuf};
use std::{env, fs, process};

const VARIABLE: &str = "HUSKCANYON_ARCHIVE";

fn main() {
    println!("cargo:rerun-if-changed=build.rs");
    println!("cargo:rerun-if-env-changed={VARIABLE}");
    let target = |part: &str| env::var(format!("CARGO_CFG_TARGET_{part}")).unwrap_or_default();
    if target("ARCH") != "x86_64" || target("OS") != "linux" {
        refuse("the archive is for x86-64 Linux");
    }
    let package = PathBuf::from(env::var_os("CARGO_MANIFEST_DIR").expect("cargo sets CARGO_MANIFEST_DIR"));
    let archive = match env::var_os(VARIABLE) {
        Some(path) if !path.is_empty() => package.join(path),
        _ => package.join("../crates/capi/out/libcapi.a"),
    };
    // A path that is not there yet counts as changed, so the build is tried again once the archive has been made.
    println!("cargo:rerun-if-changed={}", archive.display());
    if !archive.is_file() {
        refuse(&format!(
            "there is no archive {}\nhuskcanyon: make it in the repository's folder crates/capi with `rt lib`, or name another by {VARIABLE}",
            archive.display()
        ));
    }
    // A copy of a known name: the archive may have any, and the tests link a C program with the same bytes.
    let out = PathBuf::from(env::var_os("OUT_DIR").expect("cargo sets OUT_DIR"));
    let copy = out.join("libhuskcanyon_capi.a");
    if let Err(error) = replace(&archive, &copy) {
        refuse(&format!("{} cannot be copied: {error}", archive.display()));
    }
    println!("cargo:rustc-link-search=native={}", out.display());
    println!("cargo:rustc-link-lib=static=huskcanyon_capi");
    println!("cargo:rustc-env=HUSKCANYON_LINKED_ARCHIVE={}", copy.display());
}

/// The copy takes over the archive's permissions, so an old one that may only be read is removed first.
fn replace(archive: &Path, copy: &Path) -> std::io::Result<()> {
    if copy.exists() {
        fs::remove_file(copy)?;
    }
    fs::copy(archive, copy).map(|_| ())
}

fn refuse(why: &str) -> ! {
    eprintln!("huskcanyon: {why}");
    process::exit(1);
}
