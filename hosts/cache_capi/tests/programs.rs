//! Programs in C and C++ over the shared library, with the sanitizers of the compiler too. They read
//! tables of a server of PostgreSQL, which has functions in SQL in place of the extension.
#[path = "../../cache/tests/site/mod.rs"]
mod site;

use krl_testing::c_programs::{
    Library, MEMORY, THREADS, blocks, checked, compilers, folder_of, run,
};
use site::Site;
use std::fs;
use std::io::BufReader;
use std::path::Path;
use std::process::Stdio;

const PACKAGE: &str = env!("CARGO_MANIFEST_DIR");

const LIBRARY: Library =
    Library { package: PACKAGE, file: "libkrl_cache_c.so", soname: "libkrl_cache.so.0" };

/// Builds a program with these words of the compiler and runs it, if there is PostgreSQL.
fn runs(name: &str, compiler: &str, source: &str, words: &[&str]) {
    let Some(mut site) = Site::start() else { return };
    site.sql.run(site::OTHER_TABLES);
    let folder = folder_of("cache-capi", name);
    let source = Path::new(PACKAGE).join(source);
    let mut program = checked(&LIBRARY.build(compiler, &source, words, &folder))
        .arg(site.database.address::<String>())
        .arg(folder.join("locks"))
        .stdin(Stdio::piped())
        .stdout(Stdio::piped())
        .spawn()
        .unwrap();
    let (asked, answers) = (program.stdout.take().unwrap(), program.stdin.take().unwrap());
    site.serve(BufReader::new(asked), answers);
    assert!(program.wait().unwrap().success(), "the program has printed why");
    // It has given everything back: the server has no leases, and would wait for it.
    site.take_back(site::keys_of_item(0..16));
    fs::remove_dir_all(folder).unwrap();
}

#[test]
fn each_call_answers_as_the_header_states() {
    runs("calls", "cc", "tests/programs/calls.c", &[]);
}

#[test]
fn a_process_that_returns_from_main_gives_back() {
    runs("exits", "cc", "tests/programs/exits.c", &[]);
}

#[test]
fn each_call_with_sanitizers_of_memory() {
    runs("calls-memory", "cc", "tests/programs/calls.c", MEMORY);
}

#[test]
fn calls_that_none_should_make_are_refused() {
    runs("hostile", "cc", "tests/programs/hostile.c", MEMORY);
}

#[test]
fn many_threads_read_a_table() {
    runs("threads", "cc", "tests/programs/threads.c", MEMORY);
}

#[test]
fn many_threads_with_the_sanitizer_of_threads() {
    runs("threads-threads", "cc", "tests/programs/threads.c", THREADS);
}

#[test]
fn the_classes_for_cpp() {
    for compiler in compilers(&[]) {
        runs(compiler, compiler, "tests/programs/classes.cpp", &[]);
    }
}

#[test]
fn the_classes_for_cpp_with_sanitizers_of_memory() {
    for compiler in compilers(MEMORY).into_iter().take(1) {
        runs("cpp-memory", compiler, "tests/programs/classes.cpp", MEMORY);
    }
}

const README: &str = include_str!("../README.md");

/// Runs the lines of the README in this language, as the body of a program with these headers.
fn run_page(site: &Site, language: &str, compiler: &str, headers: &[&str]) -> String {
    let folder = folder_of("cache-capi", &format!("page-{compiler}"));
    let lines = blocks(README, language, 2);
    let lines = lines.replace("postgres://shop@127.0.0.1/shop", &site.database.address::<String>());
    let lines = lines.replace("/var/lib/shop/krl", folder.join("locks").to_str().unwrap());
    let headers: Vec<String> = headers.iter().map(|name| format!("#include <{name}>\n")).collect();
    let source = folder.join(format!("page.{language}"));
    fs::write(&source, format!("{}int main() {{\n{lines}}}\n", headers.concat())).unwrap();
    let printed = run(&mut checked(&LIBRARY.build(compiler, &source, &[], &folder)));
    fs::remove_dir_all(folder).unwrap();
    printed
}

#[test]
fn the_lines_of_the_page() {
    let Some(site) = Site::start() else { return };
    let prices: Vec<String> = (10..20).map(|key| format!("{}\n", 10 * key)).collect();
    let expected = format!("item 15\n{}", prices.concat());
    let printed = run_page(&site, "c", "cc", &["krl_cache.h", "err.h", "stdio.h"]);
    assert_eq!(printed, expected);
    for compiler in compilers(&[]) {
        let printed = run_page(&site, "cpp", compiler, &["krl_cache.hpp", "iostream"]);
        assert_eq!(printed, expected);
    }
}

/// A copy of the hosts has no such page.
#[test]
fn the_lines_of_the_page_on_caches_are_those_of_this_one() {
    let page = Path::new(PACKAGE).join("../../docs/CACHE.md");
    let page = fs::read_to_string(page).unwrap_or_default();
    let shown = blocks(&page, "cpp", 1);
    assert!(page.is_empty() || !shown.is_empty());
    assert!(README.contains(&shown), "{shown}");
}
