//! Takes hiredis if it is installed: `pkg-config` finds it.
use std::process::Command;

fn main() {
    println!("cargo::rerun-if-changed=build.rs");
    println!("cargo::rustc-check-cfg=cfg(hiredis, hiredis_1)");
    let has = |version: &[&str]| {
        let found = Command::new("pkg-config").args(version).arg("hiredis").status();
        found.is_ok_and(|status| status.success())
    };
    if has(&["--atleast-version=0.14"]) {
        println!("cargo::rustc-cfg=hiredis");
        if has(&["--atleast-version=1.0"]) {
            println!("cargo::rustc-cfg=hiredis_1");
        }
    }
}
