//! Compares `include/krl_client.h` with the calls, the structs and the codes of this library: a C
//! compiler compares what the header declares with what is here.
use crate::calls::krlc_version;
use crate::code::Code;
use crate::fault::{ErrorRoom, MAX_SENTENCE_BYTES};
use crate::input::GivenRow;
use crate::options::{NUMBERS, Options};
use crate::reason::{self, NO_REASON};
use crate::status::Status;
use crate::writes::GivenWrite;
use krl::ErrorKind;
use krl::error::Refusal;
use krl::store::ClientSet;
use krl_testing::header::{self, compiles, without_comments};
use krl_testing::layout;
use std::collections::{BTreeMap, BTreeSet};
use std::fmt::Write as _;

const HEADER: &str = include_str!("../include/krl_client.h");

const SOURCES: [&str; 4] = [
    include_str!("calls.rs"),
    include_str!("calls/pins.rs"),
    include_str!("calls/readers.rs"),
    include_str!("calls/room.rs"),
];

/// What each type of a call is in C.
const TYPES: [(&str, &str); 23] = [
    ("bool", "bool"),
    ("u32", "uint32_t"),
    ("u64", "uint64_t"),
    ("usize", "size_t"),
    ("*const c_char", "const char *"),
    ("*const c_void", "const void *"),
    ("*mut usize", "size_t *"),
    ("*mut u64", "uint64_t *"),
    ("*const Options", "const krlc_options *"),
    ("*mut ErrorRoom", "krlc_error *"),
    ("*mut Status", "krlc_status *"),
    ("*mut Client", "krlc_client *"),
    ("*mut *mut Client", "krlc_client **"),
    ("*mut Pin", "krlc_pin *"),
    ("*mut *mut Pin", "krlc_pin **"),
    ("*mut Reader", "krlc_reader *"),
    ("*mut *mut Reader", "krlc_reader **"),
    ("*mut Rows", "krlc_rows *"),
    ("*const Rows", "const krlc_rows *"),
    ("*mut Row", "krlc_row *"),
    ("*const Row", "const krlc_row *"),
    ("*const GivenRow", "const krlc_row *"),
    ("*mut GivenWrite", "krlc_write *"),
];

/// The calls that are exported, with the pointer type of each in C.
fn exports() -> BTreeMap<String, String> {
    header::exports(&SOURCES.concat(), &TYPES)
}

fn declared(header: &str) -> BTreeSet<String> {
    header::declared(header, &["krlc_"])
}

/// A program in C that compiles if this header has the same as the library.
fn program(header: &str) -> String {
    let codes = Code::ALL.iter().map(|code| (code.name().to_str().unwrap(), *code as i128));
    let reasons = [
        ("KRLC_REASON_VERSION", Refusal::Version { read: 1 }),
        ("KRLC_REASON_CLIENT_NUMBER", Refusal::ClientNumber { number: 64 }),
        ("KRLC_REASON_INCARNATION", Refusal::Incarnation { client: 1, registered: 2 }),
        ("KRLC_REASON_FULL", Refusal::Full { connections: 1 }),
        ("KRLC_REASON_MISSING", Refusal::Missing(ClientSet::default())),
        ("KRLC_REASON_LEASE_RUNS", Refusal::LeaseRuns { client: 1, registered: 2 }),
        ("KRLC_REASON_DENIED", Refusal::Denied),
        ("KRLC_REASON_OTHER_SHARD", Refusal::OtherShard(None)),
        ("KRLC_REASON_FAR_AHEAD", Refusal::FarAhead { client: 1, latest: 2 }),
        ("KRLC_REASON_OTHER_STORE", Refusal::OtherStore),
    ];
    let reason = |refusal| i128::from(reason::of_call(&ErrorKind::Unserved(refusal)));
    let reasons = reasons.into_iter().map(|(name, refusal)| (name, reason(refusal)));
    let numbers = [
        ("KRLC_NO_REASON", i128::from(NO_REASON)),
        ("KRLC_VERSION", krlc_version().into()),
        ("KRLC_END", krl::END.into()),
        ("KRLC_TOP", (krl::END + 1).into()),
        ("KRLC_MAX_VALUE_BYTES", krl::MAX_VALUE_BYTES as i128),
        ("KRLC_MAX_SENTENCE_BYTES", MAX_SENTENCE_BYTES as i128),
        ("KRLC_FOR_EVER", u64::MAX.into()),
        ("KRLC_NUMBERS", NUMBERS.into()),
        ("KRLC_INSERT", 0),
        ("KRLC_PUT", 1),
        ("KRLC_SET", 2),
        ("KRLC_DELETE", 3),
    ];
    let numbers: Vec<_> = codes.chain(reasons).chain(numbers).collect();
    let mut program = header::program(header, &exports(), &numbers);
    layout!(program, GivenRow, "krlc_row", key length bytes);
    layout!(program, GivenWrite, "krlc_write", kind outcome row);
    layout!(program, ErrorRoom, "krlc_error", code shard reason sentence);
    layout!(program, Status, "krlc_status", shard epoch incarnation lease_left_ms is_connected);
    layout!(program, Options, "krlc_options", size servers map lock_file number numbers timeout_ms
        wait_if_in_use_ms tls_authority tls_certificate tls_key table lo hi);
    program
}

#[test]
fn the_header_declares_what_the_library_exports() {
    let exported: BTreeSet<String> = exports().into_keys().collect();
    assert_eq!(exported, declared(HEADER));
    assert!(exported.len() > 40, "{exported:?}");
    assert!(compiles(&program(HEADER), true), "the compiler shows what differs");
}

#[test]
fn the_header_has_each_code_and_no_other() {
    let code = without_comments(HEADER);
    let listed = code.split_once("typedef enum krlc_code {").unwrap().1.split_once('}').unwrap().0;
    // One more: the greatest code of an answer.
    assert_eq!(listed.matches("KRLC_").count(), Code::ALL.len() + 1);
    let answers = Code::ALL.iter().filter(|code| **code as u32 <= 15);
    assert!(answers.clone().all(|code| !code.is_unknown_outcome()));
    assert_eq!(answers.count(), 8);
}

#[test]
fn a_header_that_differs_is_found() {
    for (old, new) in [
        (
            "krlc_delete(krlc_client *client, uint64_t key",
            "krlc_delete(krlc_client *client, int key",
        ),
        ("uint64_t length;", "uint32_t length;"),
        ("KRLC_MISS = 5", "KRLC_MISS = 9"),
        ("KRLC_REASON_FULL = 3", "KRLC_REASON_FULL = 4"),
        ("#define KRLC_VERSION_MINOR 1", "#define KRLC_VERSION_MINOR 2"),
        ("void krlc_rows_free(krlc_rows *rows);", ""),
    ] {
        let other = HEADER.replacen(old, new, 1);
        assert_ne!(other, HEADER, "{old}");
        assert!(!compiles(&program(&other), false), "{new}");
    }
}
