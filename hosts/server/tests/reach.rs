//! A server whose grants take a number of slots that its operator names.
mod common;

use common::{Serving, errors, program, run};
use krl::store::Snapshot;
use krl::{Client, Row, SqliteStore, Value};
use std::path::Path;
use std::time::Duration;

/// No wait of a test is longer.
const LONG: Duration = Duration::from_secs(60);

const ROWS: u64 = 100;

/// A server without leases: a client keeps what it holds while no server is there.
fn serve(store: &Path, reach: u64, listen: &str) -> Serving {
    let mut command = program();
    command.arg("serve").arg("--store").arg(store).args(["--listen", listen, "--lease", "off"]);
    Serving::start_by(command.args(["--reach", &reach.to_string()]))
}

/// How many lock requests the server has granted.
fn granted(serving: &Serving) -> u64 {
    let count = serving.get("/metrics").1;
    let line = count.lines().find_map(|line| line.strip_prefix("krl_grant_seconds_count "));
    line.expect(&count).parse().unwrap()
}

fn join(serving: &Serving, lock_file: &Path) -> Client {
    let client = Client::builder(&serving.address, 3, lock_file);
    client.timeout(LONG).join().unwrap()
}

fn rows() -> impl Iterator<Item = (u64, Value)> {
    (0..ROWS).map(|key| (key, Value::from(key)))
}

fn shows(serving: &Serving, reach: u64) {
    let (status, page) = serving.get("/status.json");
    assert_eq!(status, 200, "{page}");
    let page: serde_json::Value = serde_json::from_str(&page).unwrap();
    assert_eq!(page["reach"].as_u64(), Some(reach));
    assert!(serving.get("/status").1.contains(&format!("\ngrants: {reach} slots at most\n")));
    assert!(serving.get("/metrics").1.contains(&format!("\nkrl_reach_slots {reach}\n")));
    assert!(serving.get("/").1.contains(&format!("<dd>{reach} slots</dd>")));
}

/// Each start has the reach that it is given, over the same store, and no start is bound by the one
/// before. A client that continues over a restart holds what it was granted before.
#[test]
fn each_start_has_its_own_reach() {
    let folder = tempfile::tempdir().unwrap();
    let (store, lock) = (folder.path().join("krl.db"), folder.path().join("3.lock"));
    let snapshot = Snapshot { epoch: 1, rows: rows().collect(), ..Snapshot::default() };
    SqliteStore::create(&store, &snapshot).unwrap();
    let expected: Vec<Row> = rows().map(|(key, value)| Row { key, value }).collect();
    let serving = serve(&store, 8, "127.0.0.1:0");
    let (address, client) = (serving.address.to_string(), join(&serving, &lock));
    let mut serving = Some(serving);
    for (reach, grants) in [(8, 13), (128, 1), (1, ROWS), (100, 1), (99, 2)] {
        let serves = serving.take().unwrap_or_else(|| serve(&store, reach, &address));
        shows(&serves, reach);
        client.forget(0..ROWS).unwrap();
        let before = granted(&serves);
        assert_eq!(client.read(0..ROWS).unwrap(), expected, "reach {reach}");
        assert_eq!(granted(&serves) - before, grants, "reach {reach}");
        serves.signal(&["KILL"]);
        serves.ended();
        assert_eq!(client.cached(0..ROWS), Ok(Some(expected.clone())), "it is held on");
    }
}

#[test]
fn a_reach_of_no_slot_or_too_many_is_refused() {
    for reach in ["0", "129", "many", "-1"] {
        let flag = format!("--reach={reach}");
        for words in [["config", &flag], ["serve", &flag]] {
            let refused = run(&words);
            assert_eq!(refused.status.code(), Some(2), "{words:?}");
            let message = errors(&refused);
            let expected = format!(
                "reach is '{reach}' (from the flag --reach), and has to be the most slots of one \
                 grant, from 1 to 128"
            );
            assert!(message.contains(&expected), "{message}");
        }
    }
}
