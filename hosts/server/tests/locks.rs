//! Who holds what in a server that runs, by its status port and by the program.
mod common;

use common::{Serving, errors, run, text, until};
use krl::store::Snapshot;
use krl::{Client, END, Outcome, SqliteStore, Value};
use serde_json::{Value as Json, json};
use std::path::Path;
use std::process::Output;
use std::sync::atomic::{AtomicBool, Ordering};
use std::thread;
use std::time::{Duration, Instant};

const TOP: u64 = END + 1;

/// A server over a table of these keys.
fn serve(folder: &Path, keys: impl Iterator<Item = u64>) -> Serving {
    let store = folder.join("krl.db");
    let rows = keys.map(|key| (key, Value::from(key))).collect();
    SqliteStore::create(&store, &Snapshot { rows, ..Snapshot::default() }).unwrap();
    Serving::start(&store)
}

fn locks(serving: &Serving, words: &[&str]) -> Output {
    run(&[&["locks", "--status", &serving.status], words].concat())
}

fn locks_as_json(serving: &Serving, words: &[&str]) -> Json {
    let output = locks(serving, &[&["--format", "json"], words].concat());
    assert_eq!(output.status.code(), Some(0), "{}", errors(&output));
    serde_json::from_str(&text(&output)).unwrap()
}

#[test]
fn two_hold_and_one_waits() {
    let folder = tempfile::tempdir().unwrap();
    let serving = serve(folder.path(), [10, 20].into_iter());
    let join = |number| serving.join(folder.path(), number);
    let (first, second, third) = (join(1), join(2), join(3));
    let (_, pin) = first.pin_for_read(0..15).unwrap();
    second.read(11..).unwrap();
    let output = text(&locks(&serving, &["0", "15"]));
    let words: Vec<Vec<_>> = output.lines().map(|it| it.split_whitespace().collect()).collect();
    assert_eq!(
        words,
        [
            ["from", "below", "mode", "client"],
            ["0", "11", "RangeS-S", "1"],
            ["11", "21", "RangeS-S", "1"],
            ["11", "21", "RangeS-S", "2"],
        ]
    );
    thread::scope(|scope| {
        let put = scope.spawn(|| third.put(10, Value::from(7)));
        until("client 3 waits for 1", || {
            let waits = &locks_as_json(&serving, &["10", "11"])["waits"];
            waits[0]["client"] == 3 && waits[0]["waits_for"] == json!([1])
        });
        let (status, page) = serving.get("/locks?lo=0&hi=11");
        assert_eq!(status, 200);
        assert!(page.contains("\nclient 3 waits for 1: "), "{page}");
        assert!(page.contains(" from 10 below 11, for "), "{page}");
        assert_eq!(locks_as_json(&serving, &["11", "20"])["waits"], json!([]));
        drop(pin);
        assert_eq!(put.join().unwrap(), Ok(Outcome::Applied));
    });
    let all = locks_as_json(&serving, &[]);
    assert_eq!((&all["lo"], &all["hi"], &all["next"]), (&json!(0), &Json::Null, &Json::Null));
    let last = all["locks"].as_array().unwrap().last().unwrap();
    assert_eq!(last, &json!({ "lo": 21, "hi": null, "mode": "RangeS-S", "client": 2 }));
}

#[test]
fn words_that_are_no_question_are_reported() {
    let folder = tempfile::tempdir().unwrap();
    let serving = serve(folder.path(), 0..3);
    for (words, expected) in [
        (vec!["20", "10"], "begin below its end"),
        (vec!["10", "10"], "begin below its end"),
        (vec!["0", "9223372036854775809"], "9223372036854775808 at most"),
        (vec!["10"], "required"),
        (vec!["ten", "20"], "ten"),
        (vec!["--limit", "5"], "it has to be 64 to 10000"),
        (vec!["--format", "xml"], "possible values: text, json"),
    ] {
        let output = locks(&serving, &words);
        assert_eq!((output.status.code(), text(&output).as_str()), (Some(2), ""), "{words:?}");
        assert!(errors(&output).contains(expected), "{words:?}: {}", errors(&output));
    }
    for (path, expected) in [
        ("/locks?lo=20&hi=10", "begin below its end"),
        ("/locks?lo=ten", "lo is 'ten'"),
        ("/locks?client=3", "'client' is unknown"),
    ] {
        let (status, page) = serving.get(path);
        assert!(status == 400 && page.contains(expected), "{path}: {status}, {page}");
    }
    assert_eq!(serving.ask("POST /locks HTTP/1.1\r\nHost: localhost\r\n\r\n").0, 405);
    let address = serving.status.clone();
    serving.signal(&["TERM"]);
    serving.ended();
    let output = run(&["locks", "--status", &address]);
    assert_eq!(output.status.code(), Some(1));
    assert!(errors(&output).contains(&address), "{}", errors(&output));
}

/// All slots of a client, page by page, as each page links to the next.
fn all_slots(serving: &Serving, client: u8) -> Vec<(u64, u64)> {
    let (mut slots, mut lo) = (Vec::new(), Some(0));
    while let Some(from) = lo {
        let request = format!(
            "GET /locks?lo={from}&limit=10000 HTTP/1.1\r\nHost: localhost\r\n\
             Accept: application/json\r\n\r\n"
        );
        let (status, page) = serving.ask(&request);
        let page: Json = serde_json::from_str(&page).unwrap();
        let held = page["locks"].as_array().unwrap();
        assert!(status == 200 && held.len() <= 10_000);
        let held = held.iter().filter(|slot| slot["client"] == client);
        slots.extend(held.map(|it| (it["lo"].as_u64().unwrap(), it["hi"].as_u64().unwrap_or(TOP))));
        lo = page["next"].as_u64();
    }
    slots
}

/// Has a client read again and again from the server, and returns how long each read took.
fn read_times(client: &Client, ends: &AtomicBool) -> Vec<Duration> {
    let mut times = Vec::new();
    while !ends.load(Ordering::Relaxed) {
        client.forget(7..8).unwrap();
        let began = Instant::now();
        client.read(7..8).unwrap();
        times.push(began.elapsed());
    }
    times.sort_unstable();
    times
}

#[test]
fn a_large_table_is_shown_in_pages_and_nobody_waits_for_that() {
    const ROWS: u64 = 25_000;
    let folder = tempfile::tempdir().unwrap();
    let serving = serve(folder.path(), 0..ROWS);
    let (holder, other) = (serving.join(folder.path(), 1), serving.join(folder.path(), 2));
    holder.set_timeout(Duration::from_secs(600));
    assert_eq!(holder.read(..).map(|rows| rows.len() as u64), Ok(ROWS));
    let ends = AtomicBool::new(false);
    let (slots, times) = thread::scope(|scope| {
        let reads = scope.spawn(|| read_times(&other, &ends));
        let slots = all_slots(&serving, 1);
        ends.store(true, Ordering::Relaxed);
        (slots, reads.join().unwrap())
    });
    assert_eq!(slots.len() as u64, ROWS + 1);
    let expected = (0..ROWS).map(|key| (key, key + 1)).chain([(ROWS, TOP)]);
    assert!(slots.into_iter().eq(expected));
    // A machine that is busy with something else may hold up half of them.
    let time = times[times.len() / 2];
    assert!(time < Duration::from_millis(100), "{} reads, one in two {time:?}", times.len());
    let output = text(&locks(&serving, &["0", "200", "--limit", "100"]));
    let note = output.lines().last().unwrap();
    let begin = note.strip_prefix("there are more from ").expect(note);
    let (begin, rest) = begin.split_once(" on: ask for ").expect(note);
    assert_eq!(rest, format!("{begin} to 200"));
    assert!(matches!(begin, "99" | "100"), "{note}");
}
