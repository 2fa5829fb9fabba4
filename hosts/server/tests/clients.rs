//! Which clients are there in a server that runs, by its status port and by the program.
mod common;

use common::{Serving, errors, run, text, until};
use krl::{Outcome, Value};
use serde_json::{Value as Json, json};
use std::thread;

fn clients(serving: &Serving) -> Vec<Json> {
    let output = run(&["clients", &serving.status, "--json"]);
    assert_eq!(output.status.code(), Some(0), "{}", errors(&output));
    let page: Json = serde_json::from_str(&text(&output)).unwrap();
    page["clients"].as_array().unwrap().clone()
}

#[test]
fn each_client_is_listed_with_its_peer_its_lease_and_its_wait() {
    let folder = tempfile::tempdir().unwrap();
    let serving = Serving::start(&folder.path().join("krl.db"));
    let (holder, writer) = (serving.join(folder.path(), 3), serving.join(folder.path(), 5));
    assert_eq!(holder.insert(10, Value::from(1)), Ok(Outcome::Applied));
    let (_, pin) = holder.pin_for_read(0..20).unwrap();
    thread::scope(|scope| {
        let put = scope.spawn(|| writer.put(10, Value::from(7)));
        until("client 5 waits for 3", || {
            clients(&serving).iter().any(|it| it["wait"]["waits_for"] == json!([3]))
        });
        let list = clients(&serving);
        assert_eq!(list.len(), 2);
        for (client, number) in list.iter().zip([3, 5]) {
            assert_eq!((&client["client"], &client["is_missing"]), (&json!(number), &json!(false)));
            assert!(client["peer"].as_str().unwrap().starts_with("127.0.0.1:"), "{client}");
            let figure = |name: &str| client[name].as_f64().unwrap();
            assert!(figure("connected_seconds") >= figure("silent_seconds"), "{client}");
            assert!((0.0..=12.5).contains(&figure("lease_left_seconds")), "{client}");
        }
        assert!(list[0]["slots"].as_u64().unwrap() > 0 && list[0]["wait"].is_null(), "{list:?}");
        assert_eq!(list[1]["wait"]["client"], 5);
        let output = text(&run(&["clients", &serving.status]));
        assert!(output.starts_with("number  peer "), "{output}");
        assert!(
            output.lines().nth(2).unwrap().contains("  3: X from 10 below 11, for "),
            "{output}"
        );
        assert_eq!(serving.get("/clients").1.lines().count(), 3);
        let status = || -> Json { serde_json::from_str(&serving.get("/status.json").1).unwrap() };
        until("the wait has a length", || {
            status()["waits"][0]["waited_seconds"].as_f64().unwrap() > 0.0
        });
        let status = status();
        assert_eq!(status["clients"][1]["wait"]["waits_for"], json!([3]));
        assert_eq!(status["waits"][0]["waits_for"], json!([3]));
        assert_eq!(status["holdings"][0]["client"], 3);
        assert_eq!((&status["phase"], &status["shard"]), (&json!("serving"), &Json::Null));
        assert_eq!((&status["rows"], &status["room"]), (&json!(1), &json!(65_536)));
        assert_eq!((&status["unleased"], &status["evicted_total"]), (&json!([]), &json!(0)));
        assert!(status["commits_total"].as_u64().unwrap() > 0);
        drop(pin);
        assert_eq!(put.join().unwrap(), Ok(Outcome::Applied));
    });
    writer.leave().unwrap();
    until("client 5 has left", || clients(&serving).len() == 1);
}

#[test]
fn a_client_that_has_to_report_is_listed_without_a_connection() {
    let folder = tempfile::tempdir().unwrap();
    let store = folder.path().join("krl.db");
    let serving = Serving::start(&store).killed_beside(9, folder.path(), &store);
    until("client 9 is listed", || clients(&serving).len() == 1);
    let list = clients(&serving);
    assert_eq!((&list[0]["client"], &list[0]["is_missing"]), (&json!(9), &json!(true)));
    for name in ["peer", "connected_seconds", "silent_seconds", "wait"] {
        assert!(list[0][name].is_null(), "{list:?}");
    }
    assert!(list[0]["lease_left_seconds"].as_f64().is_some(), "{list:?}");
    assert!(text(&run(&["clients", &serving.status])).ends_with("  has to report\n"));
}

#[test]
fn rates_are_shown() {
    let folder = tempfile::tempdir().unwrap();
    let serving = Serving::start(&folder.path().join("krl.db"));
    let client = serving.join(folder.path(), 3);
    let mut key = 0;
    until("there are rates", || {
        key += 1;
        // If the machine stalls meanwhile, the lease ends, which does not matter here.
        let _ = client.insert(key, Value::from(1));
        let status: Json = serde_json::from_str(&serving.get("/status.json").1).unwrap();
        status["rates"]["commits"].as_f64().is_some_and(|rate| rate > 0.0)
    });
}
