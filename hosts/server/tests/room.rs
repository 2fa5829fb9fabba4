//! A server with room for a number of rows that its operator names.
mod common;

use common::{Ended, Serving, errors, program, run, text, until};
use krl::{Client, Outcome, Value};
use std::io::{BufRead, BufReader};
use std::path::Path;
use std::process::Stdio;
use std::time::Duration;

/// No wait of a test is longer.
const LONG: Duration = Duration::from_secs(60);

fn serve(store: &Path, room: &str) -> Serving {
    Serving::start_by(program().arg("serve").arg("--store").arg(store).args(["--room", room]))
}

fn join(serving: &Serving, lock_file: &Path) -> Client {
    let client = Client::builder(&serving.address, 3, lock_file);
    client.timeout(LONG).join().unwrap()
}

#[test]
fn a_table_takes_as_many_rows_as_its_server_has_room_for() {
    let folder = tempfile::tempdir().unwrap();
    let (store, lock) = (folder.path().join("krl.db"), folder.path().join("3.lock"));
    let serving = serve(&store, "3");
    let client = join(&serving, &lock);
    for (key, outcome) in
        [(1, Outcome::Applied), (2, Outcome::Applied), (3, Outcome::Applied), (4, Outcome::Full)]
    {
        assert_eq!(client.insert(key, Value::from(key)), Ok(outcome), "{key}");
    }
    client.leave().unwrap();
    drop(serving);

    let words = ["serve", "--room", "2", "--status", "off", "--listen", "127.0.0.1:0"];
    let ended = run(&[&words[..], &["--store", store.to_str().unwrap()]].concat());
    assert_eq!(ended.status.code(), Some(1));
    let printed = [errors(&ended), text(&ended)].concat();
    let message = "the store has 3 rows, and the server room for 2: give it room for 3 or more";
    assert!(printed.contains(message), "{printed}");

    let serving = serve(&store, "100000");
    let client = join(&serving, &lock);
    assert_eq!(client.insert(4, Value::from(4)), Ok(Outcome::Applied));
    client.leave().unwrap();
}

/// The room that a server shows.
fn shown(serving: &Serving) -> usize {
    let (status, page) = serving.get("/status.json");
    assert_eq!(status, 200, "{page}");
    let page: serde_json::Value = serde_json::from_str(&page).unwrap();
    page["room"].as_u64().unwrap().try_into().unwrap()
}

/// The room that a server shows, which then shuts down cleanly, and what it has logged.
fn shown_to_the_end(serving: Serving) -> (usize, Ended) {
    let room = shown(&serving);
    serving.signal(&["TERM"]);
    (room, serving.ended())
}

/// A server counts the rows of its table, also of one that it finds in its store.
#[test]
fn the_rows_of_the_table_are_shown() {
    let folder = tempfile::tempdir().unwrap();
    let (store, lock) = (folder.path().join("krl.db"), folder.path().join("client.lock"));
    let serving = serve(&store, "100");
    let shows = |serving: &Serving, rows: u64| {
        let line = format!("\nkrl_rows {rows}\n");
        until(&format!("{rows} rows"), || serving.get("/metrics").1.contains(&line));
    };
    let client = join(&serving, &lock);
    for key in 0..5 {
        assert_eq!(client.insert(key, Value::from(key)), Ok(Outcome::Applied));
    }
    assert_eq!(client.insert(4, Value::from(9)), Ok(Outcome::Exists));
    assert_eq!(client.put(4, Value::from(9)), Ok(Outcome::Applied));
    assert_eq!(client.delete(2), Ok(Outcome::Applied));
    assert_eq!(client.delete(2), Ok(Outcome::Absent));
    shows(&serving, 4);
    client.leave().unwrap();
    serving.signal(&["TERM"]);
    serving.ended();
    let serving = serve(&store, "100");
    shows(&serving, 4);
    let page = serving.get("/status.json").1;
    assert!(page.contains("\"rows\": 4"), "{page}");
    assert!(serving.get("/status").1.contains("4 rows of 100\n"));
}

fn checked(store: &Path) -> String {
    text(&run(&["check", store.to_str().unwrap()]))
}

#[test]
fn a_forgotten_flag_changes_no_room() {
    let folder = tempfile::tempdir().unwrap();
    let [small, great] = ["small.db", "great.db"].map(|name| folder.path().join(name));
    for (store, room) in [(&small, "3"), (&great, "1000000")] {
        drop(serve(store, room));
        assert_eq!(shown_to_the_end(Serving::start(store)).0.to_string(), room);
        let check = checked(store);
        assert!(check.lines().any(|line| line == format!("room: {room}")), "{check}");
    }
    let serving = Serving::start(&small);
    let client = join(&serving, &folder.path().join("3.lock"));
    let outcomes = (0..4).map(|key| client.insert(key, Value::from(key)).unwrap());
    let full = [Outcome::Applied, Outcome::Applied, Outcome::Applied, Outcome::Full];
    assert_eq!(outcomes.collect::<Vec<_>>(), full);
    client.leave().unwrap();
}

/// What the log of a server of this room has until it serves.
fn log_of_start(store: &Path, room: &str) -> Vec<String> {
    let mut serve = program();
    serve.args(["serve", "--room", room, "--listen", "127.0.0.1:0", "--status", "off", "--store"]);
    let mut process = serve.arg(store).stderr(Stdio::piped()).spawn().unwrap();
    let lines = BufReader::new(process.stderr.take().unwrap()).lines().map(Result::unwrap);
    let log = lines.take_while(|line| !line.contains(" ready ")).collect();
    process.kill().unwrap();
    process.wait().unwrap();
    log
}

#[test]
fn a_server_over_a_full_table_logs_it() {
    let folder = tempfile::tempdir().unwrap();
    let store = folder.path().join("krl.db");
    let serving = serve(&store, "3");
    let client = join(&serving, &folder.path().join("3.lock"));
    (1..=3).for_each(|key| _ = client.insert(key, Value::from(key)).unwrap());
    client.leave().unwrap();
    drop(serving);
    let full = "the table is full, so every insert fails: give the server more room room=3";
    let log = log_of_start(&store, "3");
    assert!(log.iter().any(|line| line.contains(full)), "{log:?}");
    let log = log_of_start(&store, "4");
    assert!(!log.iter().any(|line| line.contains("is full")), "{log:?}");
}

#[test]
fn a_server_with_less_room_than_before_serves_and_logs_it() {
    let folder = tempfile::tempdir().unwrap();
    let store = folder.path().join("krl.db");
    assert_eq!(shown_to_the_end(Serving::start(&store)).0, 65_536);
    let log = log_of_start(&store, "3");
    let less = "the server has less room than one had before it room=3 greatest=65536";
    assert!(log.iter().any(|line| line.contains(less)), "{log:?}");
    let check = checked(&store);
    assert!(check.contains("room: 65536\n"), "{check}");
    assert_eq!(shown_to_the_end(Serving::start(&store)).0, 65_536);
}

#[test]
fn a_backup_and_what_is_restored_of_it_keep_the_room() {
    let folder = tempfile::tempdir().unwrap();
    let path = |name: &str| folder.path().join(name).to_str().unwrap().to_string();
    let [store, backup, restored] = ["krl.db", "backup.db", "restored.db"].map(path);
    let serving = serve(Path::new(&store), "70000");
    let made = run(&["backup", &serving.status, &backup]);
    assert_eq!(made.status.code(), Some(0), "{}", errors(&made));
    let made = run(&["restore", &backup, "--store", &restored, "--clients-are-stopped"]);
    assert_eq!(made.status.code(), Some(0), "{}", errors(&made));
    for file in [backup, restored] {
        let check = checked(Path::new(&file));
        assert!(check.contains("room: 70000\n"), "{check}");
    }
}

#[test]
fn a_room_for_none_or_too_many_is_reported() {
    for room in ["0", "1048577", "many"] {
        let refused = run(&["config", "--room", room]);
        assert_eq!(refused.status.code(), Some(2), "{room}");
        let printed = errors(&refused);
        assert!(printed.contains("the most rows of the table, from 1 to 1048576"), "{printed}");
    }
}
