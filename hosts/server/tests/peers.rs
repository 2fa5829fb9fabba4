//! Who connects to a server, and why it is closed: in the log and in the metrics.
mod common;

use common::{Serving, program, run, until};
use krl::{Outcome, Value};
use serde_json::Value as Json;
use std::io::{Read, Write};
use std::net::TcpStream;
use std::time::Duration;

/// The first event of this message.
fn event<'l>(log: &'l [Json], message: &str) -> &'l Json {
    let found = log.iter().find(|event| event["message"] == message);
    found.unwrap_or_else(|| panic!("{message} is not in {log:?}"))
}

fn closed_for(serving: &Serving, reason: &str) -> f64 {
    serving.sample(&format!("krl_connections_closed_total{{reason=\"{reason}\"}}"))
}

#[test]
fn the_log_has_the_address_of_each_peer() {
    let folder = tempfile::tempdir().unwrap();
    let mut command = program();
    command.arg("serve").arg("--store").arg(folder.path().join("krl.db"));
    let serving = Serving::start_by(command.args(["--log-level", "debug"]));
    let client = serving.join(folder.path(), 3);
    assert_eq!(client.insert(1, Value::from(1)), Ok(Outcome::Applied));
    client.leave().unwrap();
    let mut probe = TcpStream::connect(serving.address.to_string()).unwrap();
    probe.set_read_timeout(Some(Duration::from_secs(60))).unwrap();
    probe.write_all(b"GET / HTTP/1.1\r\n\r\n").unwrap();
    // It is closed, perhaps by a reset.
    let _ = probe.read_to_end(&mut Vec::new());
    until("it is counted", || closed_for(&serving, "frame_too_long") > 0.0);
    let refused = run(&["backup", &serving.status, "/nowhere/at/all.db"]);
    assert_eq!(refused.status.code(), Some(1));
    serving.signal(&["TERM"]);
    let log = serving.ended().log;
    let peer = probe.local_addr().unwrap().to_string();
    let joined = event(&log, "a client has joined");
    assert!(joined["peer"].as_str().unwrap().starts_with("127.0.0.1:"), "{joined}");
    let closed =
        event(&log, "a connection is closed: it began a frame that is longer than it may be");
    assert_eq!(closed["peer"], peer.as_str());
    for message in ["a connection is open", "a connection is closed"] {
        let of_probe =
            log.iter().any(|event| event["message"] == message && event["peer"] == peer.as_str());
        assert!(of_probe, "{message}: {log:?}");
    }
    let failed = event(&log, "a backup has failed");
    assert_eq!(failed["file"], "/nowhere/at/all.db");
}
