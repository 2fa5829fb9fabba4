//! The tests that every store has to pass, of stores in memory.
mod shared_store;

use krl::MemoryStore;
use krl::store::store_tests;
use shared_store::SharedStore;

#[test]
fn a_store_in_memory_keeps_what_is_committed() {
    let kept = SharedStore::default();
    store_tests::keeps_what_is_committed(|| kept.clone());
}

#[test]
#[should_panic(expected = "before Registered")]
fn a_store_that_keeps_nothing_is_found() {
    store_tests::keeps_what_is_committed(MemoryStore::default);
}

#[test]
#[should_panic(expected = "it was loaded before the insert")]
fn a_store_without_a_fence_is_found() {
    let kept = SharedStore::default();
    store_tests::deposes_an_older_value(|| kept.clone());
}
