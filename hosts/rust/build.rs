//! Finds the library of the rules. That is, in this order:
//!
//! 1. the static library `libkrl.a` in the folder `KRL_LIBRARY`;
//! 2. on Linux on x86-64 or AArch64 the committed library in `rules`, as assembly, which
//!    `src/proved/rules.rs` takes in. In the repository it has to be of the sources in `crates`;
//! 3. otherwise a library that pkg-config finds.
use std::env;
use std::path::{Path, PathBuf};
use std::process::{Command, exit};

/// The script that compares the committed library with the sources of the repository.
const COMPARE: &str = "../packaging/library";

fn main() {
    println!("cargo:rustc-check-cfg=cfg(krl_rules)");
    println!("cargo:rerun-if-env-changed=KRL_LIBRARY");
    if let Some(folder) = env::var_os("KRL_LIBRARY") {
        link(Path::new(&folder));
    } else if has_committed() {
        refuse_other_sources();
        println!("cargo:rustc-cfg=krl_rules");
    } else {
        link(&installed());
    }
}

/// Whether `rules` has a library for the processor and the system that is built for.
fn has_committed() -> bool {
    let is = |name, value| env::var(format!("CARGO_CFG_TARGET_{name}")).is_ok_and(|it| it == value);
    let is_processor = is("ARCH", "x86_64") || is("ARCH", "aarch64") && is("ENDIAN", "little");
    is_processor && is("OS", "linux") && is("POINTER_WIDTH", "64")
}

/// Ends the build if the committed library was made of other sources than those of the repository.
/// A packaged crate has no sources of the proof.
fn refuse_other_sources() {
    println!("cargo:rerun-if-changed=rules");
    let (compare, list) = (Path::new(COMPARE), "../../crates.txt");
    if !compare.exists() || !Path::new(list).exists() {
        return;
    }
    println!("cargo:rerun-if-changed={list}");
    for name in run(compare, "crates").lines() {
        for part in ["src", "specs", "proofs"] {
            let folder = format!("../../crates/{name}/{part}");
            // A folder that is not there counts as changed.
            if Path::new(&folder).exists() {
                println!("cargo:rerun-if-changed={folder}");
            }
        }
    }
    run(compare, "fits");
}

/// What the script prints. If it fails, the build ends with what it reports.
fn run(script: &Path, word: &str) -> String {
    let ran = Command::new(script).arg(word).output();
    let ran = ran.unwrap_or_else(|why| stop(&format!("{}: {why}", script.display())));
    if !ran.status.success() {
        stop(&format!(
            "{}krl: './krl --prove serve' proves and makes it again, with 'rt' of the Rattle kit; \
             KRL_LIBRARY names the folder of another libkrl.a",
            String::from_utf8_lossy(&ran.stderr),
        ));
    }
    String::from_utf8_lossy(&ran.stdout).into_owned()
}

fn stop(why: &str) -> ! {
    eprintln!("{why}");
    exit(1)
}

/// Links `libkrl.a` of this folder. A check links nothing: so a library that is not there is no
/// error yet.
fn link(folder: &Path) {
    let library = folder.join("libkrl.a");
    println!("cargo:rerun-if-changed={}", library.display());
    if library.exists() {
        println!("cargo:rustc-link-search=native={}", folder.display());
    } else {
        println!(
            "cargo:warning=there is no {}: install krl so that pkg-config finds it, or name the \
             folder of libkrl.a by KRL_LIBRARY",
            library.display()
        );
    }
    println!("cargo:rustc-link-lib=static=krl");
}

/// The folder of the library that is installed, if pkg-config finds one; otherwise an empty path.
fn installed() -> PathBuf {
    println!("cargo:rerun-if-env-changed=PKG_CONFIG_PATH");
    let asked = Command::new("pkg-config").args(["--variable=libdir", "krl"]).output();
    let found = asked.ok().filter(|it| it.status.success());
    let folder = found.and_then(|it| String::from_utf8(it.stdout).ok()).unwrap_or_default();
    PathBuf::from(folder.trim())
}
