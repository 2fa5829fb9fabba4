//! Compares `include/krl_cache.h` with the calls, the structs and the codes of this library.
use crate::calls::{NO_COLUMN, krlcache_version};
use crate::code::Code;
use crate::fault::{ErrorRoom, MAX_SENTENCE_BYTES};
use crate::key::GivenValue;
use crate::options::Options;
use crate::statistics::Statistics;
use krl_testing::header::{self, compiles, without_comments};
use krl_testing::layout;
use std::collections::{BTreeMap, BTreeSet};
use std::fmt::Write as _;

const HEADER: &str = include_str!("../include/krl_cache.h");

const SOURCES: [&str; 3] =
    [include_str!("calls.rs"), include_str!("calls/reads.rs"), include_str!("calls/rows.rs")];

/// What each type of a call is in C.
const TYPES: [(&str, &str); 22] = [
    ("bool", "bool"),
    ("u32", "uint32_t"),
    ("i64", "int64_t"),
    ("usize", "size_t"),
    ("*const c_char", "const char *"),
    ("*const c_void", "const void *"),
    ("*mut *const c_char", "const char **"),
    ("*mut *const c_void", "const void **"),
    ("*mut usize", "size_t *"),
    ("*mut i64", "int64_t *"),
    ("*mut f64", "double *"),
    ("*mut bool", "bool *"),
    ("*const Options", "const krlcache_options *"),
    ("*mut ErrorRoom", "krlcache_error *"),
    ("*mut Statistics", "krlcache_statistics *"),
    ("*const GivenValue", "const krlcache_value *"),
    ("*mut Cache", "krlcache_cache *"),
    ("*mut *mut Cache", "krlcache_cache **"),
    ("*mut Table", "krlcache_table *"),
    ("*mut *mut Table", "krlcache_table **"),
    ("*mut Rows", "krlcache_rows *"),
    ("*const Rows", "const krlcache_rows *"),
];

fn exports() -> BTreeMap<String, String> {
    header::exports(&SOURCES.concat(), &TYPES)
}

/// A program in C that compiles if this header has the same as the library.
fn program(header: &str) -> String {
    let codes = Code::ALL.iter().map(|code| (code.name().to_str().unwrap(), *code as i128));
    let numbers = [
        ("KRLCACHE_VERSION", i128::from(krlcache_version())),
        ("KRLCACHE_MAX_SENTENCE_BYTES", MAX_SENTENCE_BYTES as i128),
        ("KRLCACHE_NO_COLUMN", NO_COLUMN as i128),
        ("KRLCACHE_INTEGER", 0),
        ("KRLCACHE_TEXT", 1),
        ("KRLCACHE_UUID", 2),
    ];
    let numbers: Vec<_> = codes.chain(numbers).collect();
    let mut program = header::program(header, &exports(), &numbers);
    layout!(program, GivenValue, "krlcache_value", kind integer bytes length);
    layout!(program, ErrorRoom, "krlcache_error", code sentence sqlstate);
    layout!(program, Statistics, "krlcache_statistics", hits misses loads kept unkept away evictions
        keys bytes);
    layout!(program, Options, "krlcache_options", size database user password lock_folder
        first_number end_number memory timeout_ms tls_authority tls_certificate tls_key tls_table);
    program
}

#[test]
fn the_header_declares_what_the_library_exports() {
    let exported: BTreeSet<String> = exports().into_keys().collect();
    assert_eq!(exported, header::declared(HEADER, &["krlcache_"]));
    assert!(exported.len() > 25, "{exported:?}");
    assert!(compiles(&program(HEADER), true), "the compiler shows what differs");
}

#[test]
fn the_header_has_each_code_and_no_other() {
    let code = without_comments(HEADER);
    let listed = code.split_once("typedef enum krlcache_code {").unwrap().1;
    // One more: the greatest code of an answer.
    let listed = listed.split_once('}').unwrap().0.matches("KRLCACHE_").count();
    assert_eq!(listed, Code::ALL.len() + 1);
    assert_eq!(Code::ALL.iter().filter(|code| **code as u32 <= 15).count(), 4);
}

#[test]
fn a_header_that_differs_is_found() {
    for (old, new) in [
        ("krlcache_table *table, int64_t first", "krlcache_table *table, int first"),
        ("    size_t length;", "    uint32_t length;"),
        ("KRLCACHE_MISS = 5", "KRLCACHE_MISS = 9"),
        ("#define KRLCACHE_VERSION_MINOR 1", "#define KRLCACHE_VERSION_MINOR 2"),
        ("void krlcache_rows_free(krlcache_rows *rows);", ""),
        ("    uint32_t first_number;", "    uint64_t first_number;"),
    ] {
        let other = HEADER.replacen(old, new, 1);
        assert_ne!(other, HEADER, "{old}");
        assert!(!compiles(&program(&other), false), "{new}");
    }
}
