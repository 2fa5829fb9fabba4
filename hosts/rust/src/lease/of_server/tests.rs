use super::*;

const SECOND: u64 = 1_000_000_000;

fn at(seconds: u64) -> Moment {
    Moment::of_nanoseconds(seconds * SECOND)
}

/// The last moment before it.
fn before(seconds: u64) -> Moment {
    Moment::of_nanoseconds(seconds * SECOND - 1)
}

/// Leases of ten seconds that end after twelve, by the server's clock.
fn ten() -> Leases {
    Leases::of(Duration::from_secs(10)).unwrap().with_drift(20).unwrap()
}

fn record(longest: u64, unleased: u64) -> LeaseRecord {
    LeaseRecord { longest: longest * SECOND, unleased: ClientSet::of_bits(unleased) }
}

/// Incarnation 7 of clients 3 and 5, and client 4, which has left.
fn clients() -> Vec<Record> {
    let record = |client, left| Record { client, incarnation: 7, last: None, left };
    vec![record(3, false), record(4, true), record(5, false)]
}

fn table(kept: LeaseRecord, leases: Option<Leases>) -> LeaseTable {
    LeaseTable::opened(kept, &clients(), leases, at(0))
}

fn sign(client: u8, incarnation: u64, length: u64) -> Sign {
    let stamp = Moment::of_nanoseconds(99);
    Sign { client, incarnation, stamp, length, older: Older::Unknown }
}

/// The terms that leave after a commit, each with its connection.
fn terms_after_commit(table: &mut LeaseTable) -> Vec<(u64, u64)> {
    let commit = table.commit().unwrap();
    table.committed(commit).unwrap();
    table.take_terms().iter().map(|(to, grant)| (*to, grant.incarnation)).collect()
}

#[test]
fn a_server_that_starts_stores_what_its_leases_need() {
    let at_start =
        |kept: LeaseRecord, leases| LeaseTable::over(kept, &clients(), leases).unwrap().record();
    assert_eq!(at_start(record(2, 0), Some(ten())), record(10, 0));
    assert_eq!(at_start(record(60, 6), Some(ten())), record(60, 6));
    assert_eq!(at_start(record(10, 0), None), record(10, u64::MAX));
}

#[test]
fn a_server_begins_after_its_first_commit() {
    let mut table = LeaseTable::over(record(10, 0), &clients(), Some(ten())).unwrap();
    assert_eq!(table.open(at(0)), Err(Code::Closed));
    let first = table.commit().unwrap();
    assert_eq!(table.open(at(0)), Err(Code::Closed));
    assert_eq!(table.committed(first + 1), Err(Code::NotReported));
    table.committed(first).unwrap();
    assert_eq!(table.open(at(0)), Ok(()));
    assert_eq!(table.open(at(0)), Err(Code::OpenAlready));
}

#[test]
fn a_server_that_starts_waits_for_the_longest_lease() {
    let mut table = table(record(60, 1 << 5), Some(ten()));
    assert_eq!(table.evict(3, before(72)), Ok(None));
    assert_eq!(table.evict(4, at(9999)), Ok(None), "it has left");
    assert_eq!(table.evict(5, at(9999)), Ok(None), "it may answer forever");
    assert_eq!((table.evict(3, at(72)), table.unleased()), (Ok(Some(8)), vec![5]));
    table.revise(before(72)).unwrap();
    assert_eq!(table.record(), record(60, 1 << 5));
    table.revise(at(72)).unwrap();
    assert_eq!(table.record(), record(10, 1 << 5));
}

#[test]
fn what_is_left_of_a_lease_grows_with_each_sign() {
    let ends = |seconds| LeaseLeft::Ends(Duration::from_secs(seconds));
    let mut table = table(record(10, 1 << 5), Some(ten()));
    assert_eq!(table.left(at(2)), [(3, ends(10)), (5, LeaseLeft::Unending)]);
    table.sign(1, sign(9, 1, 0), at(4)).unwrap();
    table.register(9, 1, at(5)).unwrap();
    assert_eq!(table.left(at(6))[2], (9, ends(11)));
    table.sign(1, sign(9, 1, 10 * SECOND), at(7)).unwrap();
    assert_eq!(table.left(at(8))[2], (9, ends(11)));
    assert_eq!(table.left(at(99))[2], (9, ends(0)));
    table.leave(9).unwrap();
    assert_eq!(table.left(at(9)).len(), 2);
}

#[test]
fn an_evicted_client_is_granted_nothing() {
    let mut table = table(record(10, 0), Some(ten()));
    table.sign(1, sign(3, 7, 10 * SECOND), at(0)).unwrap();
    assert_eq!(table.evict(3, at(12)), Ok(Some(8)));
    assert_eq!(terms_after_commit(&mut table), [], "not even for an earlier sign");
    table.succeed(3, 8).unwrap();
    assert_eq!(table.record(), record(10, 0), "nobody answers as the successor");
    table.leave(3).unwrap();
    assert_eq!(table.evict(3, at(99)), Ok(None));
    for incarnation in [7, 8] {
        let ended = table.sign(1, sign(3, incarnation, 10 * SECOND), at(12));
        assert_eq!(ended, Err(Code::Gone));
    }
    assert_eq!(table.sign(1, sign(64, 9, 0), at(12)), Err(Code::BadClient));
    assert_eq!(table.sign(1, sign(3, 9, 0), at(12)), Ok(()));
    assert_eq!(terms_after_commit(&mut table), [(1, 9)]);
}

#[test]
fn terms_leave_on_the_connection_on_which_their_sign_came() {
    let mut table = table(record(10, 0), Some(ten()));
    table.sign(1, sign(3, 7, 10 * SECOND), at(1)).unwrap();
    // Another process of client 3, which waits for the end of the first one's lease.
    table.sign(2, sign(3, 8, 0), at(1)).unwrap();
    table.sign(4, sign(5, 7, 10 * SECOND), at(1)).unwrap();
    assert!(table.owes_terms());
    assert_eq!(terms_after_commit(&mut table), [(1, 7), (4, 7)]);
    assert!(!table.owes_terms());
    assert_eq!(terms_after_commit(&mut table), [], "they leave once");
}

#[test]
fn terms_leave_after_a_commit_that_began_after_the_sign() {
    let mut table = table(record(10, 0), Some(ten()));
    let earlier = table.commit().unwrap();
    table.sign(1, sign(3, 7, 10 * SECOND), at(1)).unwrap();
    table.committed(earlier).unwrap();
    assert_eq!(table.take_terms().len(), 0);
}

#[test]
fn a_host_that_signs_nothing_is_not_evicted() {
    let mut table = table(record(10, 0), Some(ten()));
    table.register(9, 1, at(1)).unwrap();
    assert_eq!((table.record(), table.unleased()), (record(10, 1 << 9), vec![9]));
    assert_eq!(table.evict(9, at(9999)), Ok(None));
}

#[test]
fn a_server_without_leases_evicts_nobody_and_leaves_the_longest() {
    let mut table = table(record(10, 0), None);
    table.sign(1, sign(9, 1, 0), at(1)).unwrap();
    table.register(9, 1, at(1)).unwrap();
    assert_eq!(table.evict(9, at(9999)), Ok(None));
    table.revise(at(9999)).unwrap();
    assert_eq!(table.record(), record(10, u64::MAX));
}

/// Whether the client's `incarnation`, whose host has signed with this word, may send Hello.
fn admits(kept: LeaseRecord, client: u8, incarnation: u64, older: Older, now: Moment) -> bool {
    let mut table = table(kept, Some(ten()));
    table.sign(1, Sign { older, ..sign(client, incarnation, 0) }, at(0)).unwrap();
    table.admit(client, incarnation, now).unwrap()
}

#[test]
fn a_second_process_waits_until_the_first_has_ended() {
    use Older::{IsOver, Unknown, Vouched};
    let kept = record(10, 1 << 5);
    assert!(admits(kept, 4, 8, Unknown, at(1)), "it has left");
    assert!(!admits(kept, 3, 8, Unknown, before(12)));
    assert!(!admits(kept, 3, 8, Vouched, before(12)), "its lease ends by itself");
    assert!(admits(kept, 3, 8, Unknown, at(12)), "its lease has ended");
    assert!(admits(kept, 3, 8, IsOver(7), at(1)), "it had the lock file");
    assert!(!admits(kept, 3, 9, IsOver(8), at(1)), "a later start that failed");
    assert!(!admits(kept, 5, 8, Unknown, at(9999)), "it answers forever");
    assert!(admits(kept, 5, 8, Vouched, at(1)), "nothing else ends it");
}

#[test]
fn who_makes_room_answers_nothing_any_more() {
    let mut table = table(record(10, 0), Some(ten()));
    assert_eq!(table.register(3, 8, at(1)), Err(Code::StillAnswers));
    assert_eq!(table.admit(3, 7, at(1)), Ok(true), "its own Hello again");
    assert_eq!((table.left(at(1)).len(), table.admit(3, 8, at(12))), (2, Ok(true)));
    assert_eq!(table.sign(1, sign(3, 7, 10 * SECOND), at(12)), Err(Code::Gone));
    assert_eq!(table.register(3, 7, at(12)), Err(Code::BadIncarnation));
    assert_eq!(table.register(3, 8, at(12)), Ok(()));
    assert_eq!(table.admit(64, 1, at(12)), Ok(true), "the library takes no such number");
}

#[test]
fn who_is_over_is_evicted_before_its_lease_ends() {
    let mut table = table(record(10, 1 << 5), Some(ten()));
    for client in [3, 5] {
        assert_eq!(table.evict(client, at(1)), Ok(None));
        table.is_over(client, at(1)).unwrap();
        assert_eq!(table.evict(client, at(1)), Ok(Some(8)));
        assert_eq!(table.sign(1, sign(client, 7, 10 * SECOND), at(1)), Err(Code::Gone));
        table.succeed(client, 8).unwrap();
        table.leave(client).unwrap();
    }
    assert_eq!(table.left(at(1)), []);
    assert_eq!(terms_after_commit(&mut table), [], "nobody asked for terms");
    table.is_over(4, at(1)).unwrap();
    assert_eq!(table.evict(4, at(1)), Ok(None), "it has left");
    assert_eq!(table.is_over(64, at(1)), Ok(()), "no client has this number");
}

#[test]
fn the_lease_decides_if_a_greater_incarnation_waits_that_knows_nothing() {
    let mut table = table(record(10, 1 << 5), Some(ten()));
    for client in [3, 5] {
        table.sign(1, sign(client, 9, 0), at(1)).unwrap();
        table.is_over(client, at(1)).unwrap();
    }
    assert_eq!(terms_after_commit(&mut table), [(1, 9), (1, 9)], "both get their terms");
    assert_eq!(table.evict(3, before(12)), Ok(None));
    assert_eq!(table.evict(3, at(12)), Ok(Some(8)));
    assert_eq!(table.evict(5, at(1)), Ok(Some(8)), "it had no lease that ends");
}

#[test]
fn a_client_without_signs_replaces_an_unsigned_one() {
    let mut table = table(record(10, 0), Some(ten()));
    assert!(table.replaces_unsigned(3, 8));
    assert!(!table.replaces_unsigned(3, 7), "it is the registered one");
    assert!(!table.replaces_unsigned(4, 8), "that client has left");
    assert!(!table.replaces_unsigned(9, 1), "nobody has been that client");
    table.sign(1, sign(3, 8, 0), at(1)).unwrap();
    assert!(!table.replaces_unsigned(3, 8), "its lease decides");
    assert!(table.replaces_unsigned(3, 9));
}
