//! Links the proved archives. That of crates/sheet is for this machine, and so
//! is that of crates/cordbasin, which comes with the crate of hosts/rust. That
//! of crates/compared is x86-64 code; on another machine it goes into a small
//! program that the kit's emulator runs, with the x86-64 code of crates/cordbasin.

use std::path::{Path, PathBuf};
use std::process::{exit, Command};

const COMPARED: &str = "../../target/native/libcompared.a";
const CORDBASIN: &str = "../../target/native/libcordbasin.a";
const NATIVE: [&str; 1] = ["sheet"];
const BRIDGE: &str = "bridge/bridge.c";

fn main() {
    let root = PathBuf::from(variable("CARGO_MANIFEST_DIR"));
    for file in [COMPARED, CORDBASIN, BRIDGE] {
        println!("cargo:rerun-if-changed={file}");
    }
    let compared = root.join(COMPARED);
    if !compared.is_file() {
        fail("target/native/libcompared.a is missing: run `tools/native compared` first");
    }
    if variable("CARGO_CFG_TARGET_ARCH") == "x86_64" {
        link(&compared, "compared");
    } else {
        let cordbasin = root.join(CORDBASIN);
        if !cordbasin.is_file() {
            fail("target/native/libcordbasin.a is missing: run `tools/native cordbasin` first");
        }
        bridge(&root.join(BRIDGE), &[&compared, &cordbasin]);
    }
    for name in NATIVE {
        let file = format!("../../target/native/lib{name}.a");
        println!("cargo:rerun-if-changed={file}");
        if !root.join(&file).is_file() {
            fail(&format!(
                "target/native/lib{name}.a is missing: run `tools/native {name}` first"
            ));
        }
        link(&root.join(&file), name);
    }
}

fn link(archive: &Path, name: &str) {
    if let Some(folder) = archive.parent() {
        println!("cargo:rustc-link-search=native={}", folder.display());
    }
    println!("cargo:rustc-link-lib=static={name}");
}

fn bridge(source: &Path, archives: &[&Path]) {
    let tools = tools();
    let program = PathBuf::from(variable("OUT_DIR")).join("bridge");
    let done = Command::new(tools.join("clang"))
        .args([
            "--target=x86_64-unknown-linux-gnu",
            "-O2",
            "-Wall",
            "-Werror",
        ])
        .args(["-ffreestanding", "-fno-stack-protector", "-fno-pic"])
        .args(["-nostdlib", "-static", "-fuse-ld=lld", "-o"])
        .args([&program, source])
        .args(archives)
        .status();
    if !done.is_ok_and(|status| status.success()) {
        fail("the kit's clang did not make the bridge");
    }
    println!("cargo:rustc-env=BRIDGE={}", program.display());
    let emulator = tools.join("qemu-x86_64");
    println!("cargo:rustc-env=EMULATOR={}", emulator.display());
}

/// The folder of the kit's compiler and emulator for this machine.
fn tools() -> PathBuf {
    let output = Command::new("rt").arg("doc").output();
    let Ok(output) = output else {
        fail("rt, the command of the Rattle kit, is not there");
    };
    let guide = String::from_utf8_lossy(&output.stdout).trim().to_string();
    let Some(kit) = Path::new(&guide).ancestors().nth(2) else {
        fail("rt doc does not say where the kit is");
    };
    let machine = variable("CARGO_CFG_TARGET_ARCH");
    kit.join("on").join(machine).join("toolchain/bin")
}

fn variable(name: &str) -> String {
    std::env::var(name).unwrap_or_default()
}

fn fail(message: &str) -> ! {
    eprintln!("compare: {message}");
    exit(1)
}
