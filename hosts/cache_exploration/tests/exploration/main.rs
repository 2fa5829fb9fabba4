//! Explores the protocol of cached tables (`docs/CACHE_PROTOCOL.md`) in small worlds: all orders of
//! the steps of transactions, workers, readers and operators, with leases that end, crashes,
//! prepared transactions, suspensions and a promotion. In each state, what a reader would return
//! from memory is the committed table.
//!
//! It is an exploration of a model of the extension, and no proof. krl is taken as its theorem has
//! it. Each rule of the protocol is left out once, and then some read is stale.
mod database;
mod explore;
mod krl;
mod reader;
mod world;

use explore::{Explored, explore};
use world::{Events, Key, Keys, Rule, State, World};

fn world(transactions: &[Key], readers: usize, keys: &[Key], events: Events) -> World {
    let (transactions, keys) = (transactions.to_vec(), Keys::of(keys));
    World { transactions, readers, keys, events, left_out: None }
}

/// Two transactions change rows of one stripe, next to two readers.
fn stripe() -> World {
    let events = Events { ended_leases: 1, ..Events::default() };
    world(&[Key::Stripe; 2], 2, &[Key::Stripe], events)
}

/// Three transactions change rows of one stripe, of which some may skip it.
fn counts() -> World {
    let events = Events { ended_leases: 1, ..Events::default() };
    world(&[Key::Stripe; 3], 1, &[Key::Stripe], events)
}

/// A transaction changes many rows of a table, and one a row.
fn marks_of_tables() -> World {
    let events = Events { ended_leases: 1, ..Events::default() };
    world(&[Key::Stripe, Key::Table], 1, &[Key::Stripe, Key::Table], events)
}

/// A transaction revokes rights from all tables, one changes many rows of a table, and one a row.
fn marks() -> World {
    let all = [Key::Stripe, Key::Table, Key::Cluster];
    world(&all, 1, &all, Events::default())
}

/// The database crashes, also while a transaction is prepared.
fn crashes() -> World {
    let events = Events { ended_leases: 1, crashes: 2, prepares: 1, ..Events::default() };
    world(&[Key::Stripe; 2], 1, &[Key::Stripe, Key::Cluster], events)
}

fn suspensions() -> World {
    let events = Events { ended_leases: 1, suspensions: 2, ..Events::default() };
    world(&[Key::Stripe; 2], 1, &[Key::Stripe, Key::Cluster], events)
}

/// The cluster crashes while it is suspended.
fn crashes_while_suspended() -> World {
    let events = Events { crashes: 1, suspensions: 1, ..Events::default() };
    world(&[Key::Stripe; 2], 1, &[Key::Stripe, Key::Cluster], events)
}

/// A replica is promoted, and readers still ask the former primary.
fn promotions() -> World {
    let events = Events { ended_leases: 1, promotions: 1, prepares: 1, ..Events::default() };
    world(&[Key::Stripe; 2], 1, &[Key::Stripe, Key::Cluster], events)
}

/// Everything but a promotion happens.
fn all_at_once() -> World {
    let events = Events { ended_leases: 1, crashes: 1, suspensions: 1, prepares: 1, promotions: 0 };
    world(&[Key::Stripe, Key::Table], 1, &[Key::Stripe, Key::Table, Key::Cluster], events)
}

fn shown(way: &[State]) -> String {
    let states: Vec<String> = way.iter().map(|state| format!("{state:?}")).collect();
    states.join("\n")
}

fn assert_never_stale(world: &World) {
    let Explored { states, stale } = explore(world);
    eprintln!("{states} states");
    assert!(stale.is_none(), "a read is stale after\n{}", shown(&stale.unwrap_or_default()));
}

#[test]
fn a_stripe_is_never_stale() {
    assert_never_stale(&stripe());
}

#[test]
fn a_stripe_that_is_skipped_is_never_stale() {
    assert_never_stale(&counts());
}

#[test]
fn a_table_that_is_taken_by_its_mark_is_never_stale() {
    assert_never_stale(&marks_of_tables());
}

#[test]
fn a_table_that_is_taken_by_any_mark_is_never_stale() {
    assert_never_stale(&marks());
}

#[test]
fn a_table_is_never_stale_over_crashes() {
    assert_never_stale(&crashes());
}

#[test]
fn a_table_is_never_stale_over_suspensions() {
    assert_never_stale(&suspensions());
    assert_never_stale(&crashes_while_suspended());
}

#[test]
fn a_table_is_never_stale_over_a_promotion() {
    assert_never_stale(&promotions());
}

#[test]
fn a_table_is_never_stale_whatever_happens() {
    assert_never_stale(&all_at_once());
}

/// The rules, each with a world that needs it.
fn rules() -> Vec<(Rule, World)> {
    vec![
        (Rule::GivesNotice, stripe()),
        (Rule::GivesNoticeBeforeTheRecall, stripe()),
        (Rule::KeepsNoticeUntilVisible, stripe()),
        (Rule::KeepsNoticeOfPrepared, crashes()),
        (Rule::Recalls, stripe()),
        (Rule::RecallsWithinItsLease, stripe()),
        (Rule::RaisesTheCountAfterTheRecall, stripe()),
        (Rule::SkipsOnlyWithTheNonce, crashes()),
        (Rule::RecallsOnlyWithTheNonce, promotions()),
        (Rule::TakesTheMark, crashes()),
        (Rule::HoldsBeforeTheQuestion, stripe()),
        (Rule::ReadsTheNonceAfterTheTenures, promotions()),
        (Rule::AsksWhetherItIsQuiet, stripe()),
        (Rule::ComparesTheNonce, promotions()),
        (Rule::CountsAsKept(Key::Stripe), marks()),
        (Rule::CountsAsKept(Key::Table), marks()),
        (Rule::CountsAsKept(Key::Cluster), marks()),
        (Rule::CountsBeforeTheLook, stripe()),
        (Rule::LooksForNoticesOf(Key::Stripe), marks()),
        (Rule::LooksForNoticesOf(Key::Table), marks()),
        (Rule::LooksForNoticesOf(Key::Cluster), marks()),
        (Rule::ComparesCounts, stripe()),
        (Rule::ComparesWholeCounts, stripe()),
        (Rule::SelectsAfterTheQuestion, stripe()),
        (Rule::ComparesTheTenureOf(Key::Stripe), marks()),
        (Rule::ComparesTheTenureOf(Key::Table), marks()),
        (Rule::ComparesTheTenureOf(Key::Cluster), marks()),
        (Rule::WaitsForTheLeases, suspensions()),
        (Rule::ClosesWhileSuspended, suspensions()),
        (Rule::WaitsForKrlBeforeItOpens, suspensions()),
    ]
}

#[test]
fn each_rule_is_needed() {
    for (rule, world) in rules() {
        let Explored { states, stale } = explore(&world.without(rule));
        let way = stale.unwrap_or_else(|| panic!("no read is stale without {rule:?}"));
        eprintln!("without {rule:?}: stale after {} steps, {states} states", way.len() - 1);
    }
}

/// `krl.resume` takes the cluster's mark to find out whether krl works: no read would be stale
/// otherwise.
#[test]
fn a_table_is_never_stale_after_a_resumption_without_the_mark() {
    assert_never_stale(&suspensions().without(Rule::TakesTheMarkToResume));
}
