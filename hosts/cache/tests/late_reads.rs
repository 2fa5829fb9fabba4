//! Reads that the database refuses, answers late or does not answer.
#[path = "site/mod.rs"]
mod site;

use krl_cache::tokio_postgres::error::SqlState;
use krl_cache::{ReadError, Table};
use site::{Site, from_memory, keys_of_item, name_of, wait_until};
use std::collections::BTreeSet;
use std::process::Command;
use std::thread;
use std::time::{Duration, Instant};

const TIMEOUT: Duration = Duration::from_secs(2);

/// This many threads read at once.
const THREADS: i32 = 8;

/// The loader asks too, and a connection that ends may not have left yet.
const OTHERS: usize = 2;

/// How many statements of readers wait for a lock.
const WAITING: &str =
    "SELECT count(*) FROM pg_stat_activity WHERE usename = 'app' AND wait_event_type = 'Lock'";

fn sqlstate_of(read: Result<Option<krl_cache::Row>, ReadError>) -> Option<SqlState> {
    match read.unwrap_err() {
        ReadError::Database { sqlstate, .. } => sqlstate,
        other => panic!("{other}"),
    }
}

/// Each of the threads reads a row, and fails.
fn read_in_vain(items: &Table) {
    thread::scope(|scope| {
        for key in 0..THREADS {
            scope.spawn(move || assert_eq!(sqlstate_of(items.get(100 + key)), None));
        }
    });
}

fn signal(name: &str, processes: &BTreeSet<i32>) {
    let processes = processes.iter().map(i32::to_string);
    assert!(Command::new("kill").arg(name).args(processes).status().unwrap().success());
}

#[test]
fn what_the_database_refuses_is_asked_once_and_keeps_the_connections() {
    let Some(site) = Site::start() else { return };
    let cache = site.cache_of_role("app", TIMEOUT * 30);
    site.sql.run(
        "CREATE TABLE secret (id bigint PRIMARY KEY, name text);
         INSERT INTO krl.cached VALUES ('secret', '{id}', 119, 16, true);",
    );
    let (items, secrets) = (cache.table("item").unwrap(), cache.table("secret").unwrap());
    from_memory(&items, |items| items.get(3).unwrap());
    let mut processes = BTreeSet::new();
    for key in 0..20 {
        let refused = secrets.get(key).unwrap_err();
        assert_eq!(refused.sqlstate(), Some("42501"), "{refused}");
        items.get(100 + key).unwrap();
        processes.append(&mut site.processes_of("app"));
    }
    let refused = sqlstate_of(secrets.get(1));
    assert_eq!(refused, Some(SqlState::INSUFFICIENT_PRIVILEGE));
    assert!(processes.len() <= 1 + OTHERS, "{processes:?}");
    cache.close();
}

#[test]
fn a_late_read_is_made_once_and_leaves_nothing_in_the_database() {
    let Some(site) = Site::start() else { return };
    let cache = site.cache_of_role("app", TIMEOUT);
    let items = cache.table("item").unwrap();
    from_memory(&items, |items| items.get(3).unwrap());
    let locks = site.database.connect();
    locks.run("BEGIN; LOCK TABLE item IN ACCESS EXCLUSIVE MODE");
    let begun = Instant::now();
    assert_eq!(sqlstate_of(items.get(100)), None);
    assert!(begun.elapsed() < TIMEOUT * 2, "{:?}", begun.elapsed());
    for _ in 0..3 {
        read_in_vain(&items);
        let processes = site.processes_of("app").len();
        assert!(processes <= THREADS as usize + OTHERS, "{processes}");
    }
    site.sql.wait_until(WAITING, |waiting| waiting == 0);
    locks.run("COMMIT");
    assert_eq!(name_of(&items, 4).unwrap(), "item 4");
    cache.close();
}

/// Of two statements that were sent together the first one waits, and then the second one does.
#[test]
fn a_late_load_leaves_nothing_in_the_database() {
    let Some(site) = Site::start() else { return };
    let cache = site.cache_of_role("app", TIMEOUT);
    let items = cache.table("item").unwrap();
    from_memory(&items, |items| items.get(3).unwrap());
    site.sql.run("UPDATE krl.state SET touches = 'SELECT FROM public.item'");
    let locks = site.database.connect();
    locks.run("BEGIN; LOCK TABLE item IN ACCESS EXCLUSIVE MODE");
    // Of a stripe that is held.
    assert_eq!(sqlstate_of(items.get(19)), None);
    site.sql.wait_until(WAITING, |waiting| waiting == 0);
    locks.run("COMMIT");
    assert_eq!(name_of(&items, 19).unwrap(), "item 19");
    cache.close();
}

#[test]
fn no_connection_is_made_next_to_those_that_the_database_does_not_end() {
    let Some(site) = Site::start() else { return };
    let cache = site.cache_of_role("app", TIMEOUT);
    let items = cache.table("item").unwrap();
    let locks = site.database.connect();
    locks.run("BEGIN; LOCK TABLE item IN ACCESS EXCLUSIVE MODE");
    let stopped = thread::scope(|scope| {
        let reading = scope.spawn(|| read_in_vain(&items));
        site.sql.wait_until(WAITING, |waiting| waiting >= THREADS.into());
        let stopped = site.processes_of("app");
        signal("-STOP", &stopped);
        reading.join().unwrap();
        stopped
    });
    let mut most = 0;
    thread::scope(|scope| {
        let reading = scope.spawn(|| (0..2).for_each(|_| read_in_vain(&items)));
        while !reading.is_finished() {
            most = most.max(site.processes_of("app").len());
            thread::sleep(Duration::from_millis(10));
        }
    });
    signal("-CONT", &stopped);
    assert!(most <= THREADS as usize + OTHERS, "{most}");
    locks.run("COMMIT");
    wait_until("the database answers", || items.get(4).is_ok());
    wait_until("the others are closed", || site.processes_of("app").len() <= OTHERS);
    cache.close();
}

#[test]
fn the_stripes_of_a_load_are_asked_for_at_once() {
    let Some(site) = Site::start() else { return };
    site.sql.run(
        "CREATE TABLE krl.calls (count bigint); INSERT INTO krl.calls VALUES (0);
         UPDATE krl.state SET touches = 'UPDATE krl.calls SET count = count + 1'",
    );
    let cache = site.cache();
    let items = cache.table("item").unwrap();
    let all = |items: &Table| items.range(0..16).unwrap().len();
    let calls = || site.sql.query("SELECT count FROM krl.calls")[0].get::<_, i64>(0);
    from_memory(&items, all);
    let (calls_before, loads_before) = (calls(), items.statistics().loads);
    site.take_back(keys_of_item(0..16));
    from_memory(&items, all);
    // A load is counted just after its rows are kept.
    thread::sleep(Duration::from_millis(100));
    let (calls, loads) = (calls() - calls_before, items.statistics().loads - loads_before);
    assert!(calls <= i64::try_from(loads).unwrap(), "{calls} calls for {loads} loads");

    // One of them is about to change: the others are kept.
    site.sql.run(&format!("INSERT INTO krl.notices VALUES ({})", keys_of_item(3..4).start));
    site.take_back(keys_of_item(0..16));
    let others = |items: &Table| items.get_many([2, 4, 5]).unwrap().len();
    wait_until("a load is not kept", || {
        all(&items);
        items.statistics().unkept > 0
    });
    from_memory(&items, others);
    assert_eq!(items.cached([3]).unwrap(), None);
    cache.close();
}
