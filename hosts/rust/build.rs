//! Links libcordbasin.a for this machine. Where it is missing, tools/native
//! proves the library and writes it.

use std::path::{Path, PathBuf};
use std::process::{exit, Command};

const ARCHIVE: &str = "target/native/libcordbasin.a";

fn main() {
    let root = PathBuf::from(variable("CARGO_MANIFEST_DIR")).join("../..");
    let archive = root.join(ARCHIVE);
    println!("cargo:rerun-if-changed={}", archive.display());
    if variable("HOST") != variable("TARGET") && !archive.is_file() {
        fail("target/native/libcordbasin.a is missing: tools/native writes it for this machine, not for another");
    }
    if !archive.is_file() {
        write(&root);
    }
    if let Some(folder) = archive.parent() {
        println!("cargo:rustc-link-search=native={}", folder.display());
    }
    println!("cargo:rustc-link-lib=static=cordbasin");
}

fn write(root: &Path) {
    let tool = root.join("tools/native");
    let done = Command::new(tool).arg("cordbasin").status();
    if !done.is_ok_and(|status| status.success()) {
        fail("target/native/libcordbasin.a is missing: run `tools/native cordbasin`, which needs the Rattle kit");
    }
}

fn variable(name: &str) -> String {
    std::env::var(name).unwrap_or_default()
}

fn fail(message: &str) -> ! {
    eprintln!("cordbasin: {message}");
    exit(1)
}
