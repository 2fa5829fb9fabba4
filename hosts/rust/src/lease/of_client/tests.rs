use super::*;

const OTHER: u64 = 6;
const OWN: u64 = 7;

fn lease() -> Lease {
    Lease::new(3, OWN, Older::IsOver(OTHER))
}

fn at(nanoseconds: u64) -> Moment {
    Moment::of_nanoseconds(nanoseconds)
}

fn grant(sign: Sign, length: u64) -> Grant {
    Grant { incarnation: sign.incarnation, stamp: sign.stamp, length }
}

/// A lease of 600 from moment 1,000 on.
fn leased() -> Lease {
    let mut lease = lease();
    let sign = lease.greet(at(1000)).unwrap();
    assert!(lease.take(grant(sign, 600), at(1001)));
    lease
}

fn allows(lease: &Lease, now: u64) -> bool {
    lease.end().allows(|| Ok(at(now)))
}

#[test]
fn it_runs_from_the_moment_of_the_sign() {
    let mut lease = lease();
    let sign = lease.greet(at(1000)).unwrap();
    let older = Older::IsOver(OTHER);
    assert_eq!(sign, Sign { client: 3, incarnation: OWN, stamp: at(1000), length: 0, older });
    assert!(lease.take(grant(sign, 600), at(1500)));
    assert!(lease.holds(at(1599)) && !lease.holds(at(1600)));
    assert!(allows(&lease, 1599) && !allows(&lease, 1600));
}

#[test]
fn what_has_ended_stays_ended() {
    let mut lease = leased();
    let late = lease.sign_due(at(1590), Piggyback::OnMessages).unwrap();
    assert_eq!(late.length, 600);
    assert!(!lease.take(grant(late, 600), at(1600)), "one nanosecond too late");
    assert!(!lease.holds(at(1600)) && !allows(&lease, 1600));
}

#[test]
fn terms_renew_it_in_time() {
    let mut lease = leased();
    let next = lease.sign_due(at(1590), Piggyback::OnMessages).unwrap();
    assert!(lease.take(grant(next, 600), at(1599)));
    assert!(allows(&lease, 2189) && !allows(&lease, 2190));
}

#[test]
fn terms_of_others_count_nothing() {
    let mut lease = lease();
    let sign = lease.greet(at(1000)).unwrap();
    assert!(!lease.take(Grant { incarnation: OTHER, ..grant(sign, 9) }, at(1001)));
    assert!(!lease.take(Grant { stamp: at(1001), ..grant(sign, 9) }, at(1002)), "never sent");
    assert!(!lease.take(Grant { stamp: at(999), ..grant(sign, 9) }, at(1002)), "never sent");
    assert!(allows(&lease, u64::MAX - 1), "no terms were taken");
}

#[test]
fn older_terms_count_nothing() {
    let mut lease = leased();
    let first = Grant { incarnation: OWN, stamp: at(1000), length: 9000 };
    let second = lease.sign_due(at(1300), Piggyback::OnMessages).unwrap();
    assert!(lease.take(grant(second, 600), at(1301)));
    assert!(!lease.take(first, at(1302)));
    assert!(!allows(&lease, 1900));
}

#[test]
fn terms_of_an_older_connection_count_nothing() {
    let mut lease = leased();
    let old = lease.sign_due(at(1500), Piggyback::OnMessages).unwrap();
    lease.disconnect();
    assert!(!lease.take(grant(old, 9000), at(1505)), "no connection");
    lease.greet(at(1510)).unwrap();
    assert!(!lease.take(grant(old, 9000), at(1511)));
    assert!(!allows(&lease, 1600));
}

#[test]
fn another_server_has_another_length() {
    let mut lease = leased();
    let sign = lease.greet(at(1100)).unwrap();
    assert_eq!(sign.length, 600, "the new server has to know by what the client lives");
    assert!(lease.take(grant(sign, 100), at(1101)));
    assert!(allows(&lease, 1199) && !allows(&lease, 1200));
    let sign = lease.greet(at(1150)).unwrap();
    assert!(lease.take(grant(sign, FOR_EVER), at(1151)));
    assert!(allows(&lease, u64::MAX - 1));
    assert_eq!(lease.greet(at(3000)).unwrap().length, FOR_EVER);
}

#[test]
fn a_lease_that_ends_needs_a_clock() {
    let no_clock = || Err(io::ErrorKind::Unsupported.into());
    assert!(!leased().end().allows(no_clock));
    assert!(lease().end().allows(no_clock), "it does not end");
}

#[test]
fn signs_ride_or_go_by_themselves() {
    let mut lease = lease();
    assert_eq!(lease.sign_due(at(u64::MAX - 1), Piggyback::OnMessages), None, "no terms yet");
    let mut lease = leased();
    assert_eq!(lease.sign_due(at(1099), Piggyback::OnMessages), None);
    assert_eq!(lease.sign_due(at(1100), Piggyback::Alone), None);
    assert!(lease.sign_due(at(1100), Piggyback::OnMessages).is_some());
    assert_eq!(lease.sign_due(at(1299), Piggyback::Alone), None);
    assert!(lease.sign_due(at(1300), Piggyback::Alone).is_some());
}

#[test]
fn no_two_signs_have_one_stamp() {
    let mut lease = leased();
    assert_eq!(lease.greet(at(1000)), None, "the clock stands still");
    assert!(lease.greet(at(1001)).is_some());
}
