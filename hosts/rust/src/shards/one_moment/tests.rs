use super::*;
use crate::client::state::world::{World, row};
use crate::model::change::{Outcome, Write};
use crate::proved::client_handle::Cache;
use std::thread;
use std::time::{Duration, Instant};

const LEFT: Range<u64> = 0..15;
const RIGHT: Range<u64> = 15..30;
const READER: usize = 0;
const WRITER: usize = 1;

/// Two servers: one has the row 10 and the other one the row 20. The writer gives both the next
/// number, the left one first. So at each moment the left number is the right one, or one more.
struct Shards {
    left: World,
    right: World,
}

impl Shards {
    fn new() -> Shards {
        let mut shards = Shards { left: World::new(), right: World::new() };
        assert_eq!(shards.left.write(WRITER, Write::Insert(row(10, 1))), Outcome::Applied);
        assert_eq!(shards.right.write(WRITER, Write::Insert(row(20, 1))), Outcome::Applied);
        shards.left.read(READER, LEFT);
        shards
    }

    fn caches(&self) -> [Cache; 2] {
        [&self.left, &self.right].map(|world| world.clients[READER].cache())
    }

    /// Both rows get another number, and the reader is granted the right one.
    fn write_both_and_grant(&mut self, number: u64) {
        assert_eq!(self.left.write(WRITER, Write::Put(row(10, number))), Outcome::Applied);
        assert_eq!(self.right.write(WRITER, Write::Put(row(20, number))), Outcome::Applied);
        self.right.read(READER, RIGHT);
    }
}

fn is_so_soon(is_so: impl Fn() -> bool) -> bool {
    const LONG: Duration = Duration::from_secs(60);
    let begun = Instant::now();
    while !is_so() {
        if begun.elapsed() > LONG {
            return false;
        }
        thread::sleep(Duration::from_millis(1));
    }
    true
}

/// Scans both rows. Between the two scans the grant comes, if nothing keeps it back. Returns the
/// rows, if both are known.
fn scan_with_a_grant_between(shards: &mut Shards, number: u64) -> Option<Vec<Row>> {
    let [left, right] = shards.caches();
    let known = [Known { cache: &left, keys: LEFT }, Known { cache: &right, keys: RIGHT }];
    let mut rows = Vec::new();
    thread::scope(|scope| {
        let mut shards = Some(shards);
        let is_known = scan_and_do(&known, &mut rows, || {
            let shards = shards.take().unwrap();
            let others = scope.spawn(move || shards.write_both_and_grant(number));
            assert!(is_so_soon(|| others.is_finished() || left.keeps_a_call_waiting()));
        });
        is_known.then_some(rows)
    })
}

#[test]
fn a_grant_between_two_scans_makes_no_rows_of_two_moments() {
    let mut shards = Shards::new();
    // The reader knows only the left row.
    assert_eq!(scan_with_a_grant_between(&mut shards, 2), None);
    // And then both.
    shards.left.read(READER, LEFT);
    let rows = scan_with_a_grant_between(&mut shards, 3);
    assert_eq!(rows, Some(vec![row(10, 2), row(20, 2)]));
}

#[test]
fn rows_come_in_order_if_all_are_known() {
    let mut shards = Shards::new();
    let [left, right] = shards.caches();
    let known = [Known { cache: &left, keys: LEFT }, Known { cache: &right, keys: RIGHT }];
    assert!(!scan(&known, &mut Vec::new()));
    shards.right.read(READER, RIGHT);
    let mut rows = Vec::new();
    assert!(scan(&known, &mut rows));
    assert_eq!(rows, [row(10, 1), row(20, 1)]);
    assert!(scan(&[], &mut Vec::new()));
}
