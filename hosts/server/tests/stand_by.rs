//! Servers over a cluster: one serves, and another takes its place. They start a node of etcd.
mod common;

use common::{ServiceManager, Serving, errors, lock_file, output_unless_it_serves, program, until};
use krl::{Client, ErrorKind, Outcome, Servers, Value};
use krl_testing::cluster::Cluster;
use krl_testing::ports::free_address;
use std::io::{BufRead, BufReader};
use std::net::TcpListener;
use std::process::{Command, Stdio};
use std::time::Duration;

/// How long a server may be silent.
const LEASE: Duration = Duration::from_secs(2);

/// A lease that no test waits for.
const LONG_LEASE: Duration = Duration::from_secs(60);

/// The words of a server over this table.
fn over(cluster: &Cluster, table: &str) -> Command {
    over_with(cluster, table, LEASE)
}

fn over_with(cluster: &Cluster, table: &str, lease: Duration) -> Command {
    let mut command = program();
    command.args(["serve", "--store", &cluster.address::<String>(table)]);
    command.args(["--election-lease", &lease.as_secs().to_string()]);
    command
}

#[test]
fn another_server_takes_the_place_of_one_that_is_killed() {
    let Some(cluster) = Cluster::start() else { return };
    let folder = tempfile::tempdir().unwrap();
    let first = Serving::start_by(&mut over(&cluster, "killed"));
    let mut command = over(&cluster, "killed");
    let second = Serving::start_until(command.args(["--others", &first.status]), "stands by");
    // It advertises the address at which it was set to listen.
    let stands_by = "role: stands by: the server at 127.0.0.1:0 serves\n".to_string();
    assert_eq!(second.get("/status"), (200, stands_by.clone()));
    assert_eq!(second.get("/readyz"), (503, stands_by));
    assert_eq!(second.get("/healthz").0, 200);
    assert!(second.get("/").1.contains("<p>This process stands by: the server at "));
    until("the page has the server that serves", || {
        let link = format!("<a href=\"http://{}/\">", first.status);
        [&link, "<td class=\"serving\">serving</td><td>all</td><td>1</td>"]
            .iter()
            .all(|it| second.get("/").1.contains(*it))
    });
    for path in ["/clients", "/locks", "/locks.svg"] {
        assert_eq!(second.get(path).0, 503, "{path}");
    }
    assert_eq!((first.sample("krl_leader"), second.sample("krl_leader")), (1.0, 0.0));
    let client = first.join(folder.path(), 3);
    assert_eq!(client.insert(1, Value::from(1)), Ok(Outcome::Applied));
    client.leave().unwrap();
    first.signal(&["KILL"]);
    until("the second one serves", || second.get("/readyz").0 == 200);
    let log = second.get("/status.json").1;
    assert!(log.contains("\"epoch\": 2") && log.contains("\"role\": \"serves\""), "{log}");
}

/// A client that only reads finds the server that serves, whatever happened to the one before.
#[test]
fn a_client_finds_the_server_that_serves() {
    for signal in ["KILL", "STOP"] {
        let Some(cluster) = Cluster::start() else { return };
        let (folder, addresses) =
            (tempfile::tempdir().unwrap(), [(); 2].map(|()| free_address().unwrap().to_string()));
        let serve = |place: usize, event| {
            let mut command = over(&cluster, "found");
            Serving::start_until(command.args(["--listen", &addresses[place]]), event)
        };
        let (first, second) = (serve(0, "ready"), serve(1, "stands by"));
        let servers: Servers = addresses.join(",").parse().unwrap();
        let client = Client::join(servers, 3, lock_file(folder.path(), 3)).unwrap();
        assert_eq!(client.insert(1, Value::from(1)), Ok(Outcome::Applied));
        assert_eq!(client.read(0..10).unwrap().len(), 1);
        first.signal(&[signal]);
        until("the second one serves", || second.get("/readyz").0 == 200);
        assert_eq!(
            client.cached(0..10).unwrap().map(|rows| rows.len()),
            Some(1),
            "it has reported it"
        );
        assert_eq!(client.insert(2, Value::from(2)), Ok(Outcome::Applied));
        client.leave().unwrap();
    }
}

#[test]
fn a_server_that_stops_in_order_gives_its_place_at_once() {
    let Some(cluster) = Cluster::start() else { return };
    let over = || over_with(&cluster, "stops", LONG_LEASE);
    let first = Serving::start_by(&mut over());
    let second = Serving::start_until(&mut over(), "stands by");
    first.signal(&["TERM"]);
    assert_eq!(first.ended().status.code(), Some(0));
    // That is half of the lease at most.
    until("the second one serves", || second.get("/readyz").0 == 200);
}

/// A service manager ends a service that does not report in time that it has started.
#[test]
fn a_service_manager_is_notified_that_a_server_stands_by() {
    let Some(cluster) = Cluster::start() else { return };
    let folder = tempfile::tempdir().unwrap();
    let manager = ServiceManager::new(folder.path());
    let first = Serving::start_by(&mut over_with(&cluster, "managed", LONG_LEASE));
    let mut command = over_with(&cluster, "managed", LONG_LEASE);
    let second = Serving::start_until(manager.runs(&mut command), "stands by");
    let stands_by = "STATUS=stands by: the server at 127.0.0.1:0 serves";
    assert_eq!(manager.next(), ["READY=1", stands_by]);
    first.signal(&["TERM"]);
    let notices = manager.next();
    assert_eq!(notices[0], "READY=1");
    assert!(notices[1].starts_with("STATUS=serves at 127.0.0.1:"), "{notices:?}");
    second.signal(&["TERM"]);
    assert_eq!(manager.next(), ["STOPPING=1"]);
}

#[test]
fn a_server_that_wakes_up_after_another_one_started_serves_no_more() {
    let Some(cluster) = Cluster::start() else { return };
    let folder = tempfile::tempdir().unwrap();
    let first = Serving::start_by(&mut over(&cluster, "wakes"));
    let client = first.join(folder.path(), 3);
    client.set_timeout(Duration::from_secs(1));
    assert_eq!(client.insert(1, Value::from(1)), Ok(Outcome::Applied));
    let second = Serving::start_until(&mut over(&cluster, "wakes"), "stands by");
    first.signal(&["STOP"]);
    until("the second one starts", || second.get("/status").1.contains("epoch"));
    first.signal(&["CONT"]);
    let refused = client.insert(2, Value::from(2));
    // It is sent before the first one has found that, or not.
    assert!(matches!(refused.unwrap_err().kind, ErrorKind::TimedOut | ErrorKind::NotSent(_)));
    until("the first one stands by", || first.get("/status").1.contains("stands by"));
    assert_eq!(second.get("/readyz").0, 503, "the client that it misses has not found it");
}

#[test]
fn an_empty_place_is_served_only_if_it_is_asked_for() {
    let Some(cluster) = Cluster::start() else { return };
    let mut command = over(&cluster, "empty");
    let words = ["--status", "off", "--listen", "127.0.0.1:0"];
    let output = output_unless_it_serves(command.args(words));
    assert_eq!(output.status.code(), Some(1));
    assert!(errors(&output).contains(" holds nothing. "), "{}", errors(&output));
    drop(Serving::start_by(&mut over(&cluster, "empty")));
    drop(Serving::start_by(over(&cluster, "empty").arg("--create=no")));
}

#[test]
fn an_address_that_is_taken_ends_a_server_that_would_serve() {
    let Some(cluster) = Cluster::start() else { return };
    let taken = TcpListener::bind("127.0.0.1:0").unwrap();
    let address = taken.local_addr().unwrap().to_string();
    let mut command = over(&cluster, "taken");
    let output = command.args(["--status", "off", "--listen", &address]).output().unwrap();
    assert_eq!(output.status.code(), Some(1));
    assert!(errors(&output).contains("in use"), "{}", errors(&output));
}

/// The moment of a line of the log, in seconds of its day.
fn moment(event: &serde_json::Value) -> f64 {
    let time = event["timestamp"].as_str().unwrap().trim_end_matches('Z');
    let parts = time.split_once('T').unwrap().1.split(':');
    parts.fold(0.0, |seconds, part| seconds * 60.0 + part.parse::<f64>().unwrap())
}

/// The cluster is asked ten times a second.
#[test]
fn a_store_that_does_not_answer_is_logged_once_a_second() {
    const DAY: f64 = 24.0 * 3600.0;
    let store = format!("etcd://{}/none", free_address().unwrap());
    let words = ["serve", "--store", &store, "--listen", "127.0.0.1:0", "--status", "off"];
    let mut command = program();
    command.args(words).args(["--log-format", "json"]).stderr(Stdio::piped());
    let mut process = command.spawn().unwrap();
    let lines = BufReader::new(process.stderr.take().unwrap()).lines();
    let events = lines.map(|line| serde_json::from_str(&line.unwrap()).unwrap());
    let unanswered: Vec<serde_json::Value> = events
        .filter(|event: &serde_json::Value| event["message"] == "the store does not answer")
        .take(3)
        .collect();
    process.kill().unwrap();
    process.wait().unwrap();
    assert_eq!(unanswered.len(), 3);
    for pair in unanswered.windows(2) {
        let between = (moment(&pair[1]) - moment(&pair[0])).rem_euclid(DAY);
        assert!(between > 0.9, "{pair:?}");
    }
}
