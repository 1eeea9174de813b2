//! Finds the archive that holds the proved calls, and has it linked.

use std::env;
use std::fs;
use std::path::{Path, PathBuf};
use std::process;

/// Where `bash host/archive rim` puts the archive, seen from this crate.
const MADE_HERE: &str = "../../../target/staticlib/librim.a";

fn main() {
    println!("cargo:rerun-if-changed=build.rs");
    println!("cargo:rerun-if-env-changed=LENTILRAFT_ARCHIVE");
    demand_target();
    link(&archive());
}

/// The archive holds x86-64 code for Linux, and nothing else can be linked with it.
fn demand_target() {
    let machine = variable("CARGO_CFG_TARGET_ARCH");
    let system = variable("CARGO_CFG_TARGET_OS");
    if machine != "x86_64" || system != "linux" {
        give_up(&format!(
            "the archive is for x86-64 Linux, and this build is for {} {}.\n\
             Build for the target x86_64-unknown-linux-gnu: `. host/tools` sets a machine up for that.",
            machine, system
        ));
    }
}

/// The archive's path: the one asked for, else where this repository makes it. One that does not
/// begin with `/` is meant from this crate's folder.
fn archive() -> PathBuf {
    let asked = env::var_os("LENTILRAFT_ARCHIVE").unwrap_or_else(|| MADE_HERE.into());
    let path = Path::new(&variable("CARGO_MANIFEST_DIR")).join(asked);
    if !path.is_file() {
        give_up(&format!(
            "there is no archive at {}.\n\
             Make it with `bash host/archive rim`, or say in LENTILRAFT_ARCHIVE where librim.a is.",
            path.display()
        ));
    }
    path
}

/// Links a copy, so that an archive may have any name.
fn link(archive: &Path) {
    let folder = variable("OUT_DIR");
    let copy = Path::new(&folder).join("librim.a");
    if let Err(error) = fs::copy(archive, &copy) {
        give_up(&format!("{}: {}", archive.display(), error));
    }
    println!("cargo:rerun-if-changed={}", archive.display());
    println!("cargo:rustc-link-search=native={}", folder);
    println!("cargo:rustc-link-lib=static=rim");
}

/// A variable that cargo sets for every build script.
fn variable(name: &str) -> String {
    env::var(name).unwrap_or_else(|_| give_up(&format!("cargo has not set {}", name)))
}

fn give_up(reason: &str) -> ! {
    eprintln!("lentilraft: {}", reason);
    process::exit(1);
}
