//! What a role keeps that the database no longer admits.
#[path = "site/mod.rs"]
mod site;

use krl_cache::Table;
use site::{LONG, Site, from_memory};
use std::thread;
use std::time::{Duration, Instant};

/// A role keeps nothing this long after the database admits it no more, on a busy machine too.
const SOON: Duration = Duration::from_secs(25);

const END_SESSIONS: &str =
    "SELECT pg_terminate_backend(pid) FROM pg_stat_activity WHERE usename = ";

#[test]
fn a_role_that_may_not_connect_keeps_nothing_and_one_that_may_keeps_all() {
    let Some(mut site) = Site::start() else { return };
    let roles = ["without_login", "ended", "without_connect", "other"];
    let caches = roles.map(|role| site.cache_of_role(role, LONG));
    let tables = caches.each_ref().map(|cache| cache.table("item").unwrap());
    for table in &tables {
        from_memory(table, |table| table.get(3).unwrap());
    }
    let keeps = |table: &Table| table.cached([3]).unwrap().is_some();
    site.sql.run(&format!(
        "ALTER ROLE without_login NOLOGIN; ALTER ROLE ended NOLOGIN; {END_SESSIONS} 'ended';
         REVOKE CONNECT ON DATABASE postgres FROM PUBLIC;
         GRANT CONNECT ON DATABASE postgres TO without_login, ended, other"
    ));
    let begun = Instant::now();
    while tables[..3].iter().any(keeps) {
        assert!(begun.elapsed() < SOON, "something is kept");
        thread::sleep(Duration::from_millis(10));
    }
    for (cache, expected) in caches.iter().zip(["no longer connect", "ended", "no longer connect"])
    {
        let fault = cache.fault().unwrap();
        assert!(fault.contains(expected), "{fault}");
    }
    // A session lives on, and is answered by the database. It keeps nothing again.
    for _ in 0..20 {
        assert!(tables[0].get(3).unwrap().is_some());
        assert!(!keeps(&tables[0]));
        thread::sleep(Duration::from_millis(50));
    }
    assert_eq!(tables[1].get(3).unwrap_err().sqlstate(), Some("28000"));

    // A database that is away refuses nobody.
    assert!(keeps(&tables[3]));
    site.database.stop();
    let end = Instant::now() + SOON / 2;
    while Instant::now() < end {
        assert!(keeps(&tables[3]));
        thread::sleep(Duration::from_millis(50));
    }
    site.database.start_again();
    site.database.wait_for_answers();
    assert!(keeps(&tables[3]));
    from_memory(&tables[3], |table| table.get(4).unwrap());
}
