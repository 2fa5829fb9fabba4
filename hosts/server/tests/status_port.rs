//! The status port next to peers that are slow, silent or many.
mod common;

use common::{Serving, errors, program, run};
use krl::{Address, Client};
use std::io::{ErrorKind, Read, Write};
use std::net::TcpStream;
use std::process::Command;
use std::time::{Duration, Instant};

/// More than the port takes at once, from one address.
const MANY: usize = 100;

/// How long a test waits for what has to come.
const PATIENCE: Duration = Duration::from_secs(60);

fn serve(folder: &tempfile::TempDir) -> Serving {
    Serving::start(&folder.path().join("krl.db"))
}

/// Connections that have sent this, and continue to wait.
fn strangers(at: &str, sent: &str) -> Vec<TcpStream> {
    let stranger = |_| {
        let mut stream = TcpStream::connect(at).unwrap();
        stream.set_read_timeout(Some(PATIENCE)).unwrap();
        // One that is closed at once for another has been seen.
        let _ = stream.write_all(sent.as_bytes());
        stream
    };
    (0..MANY).map(stranger).collect()
}

/// What comes on the connection until it ends.
fn rest(stream: &mut TcpStream) -> String {
    let mut text = Vec::new();
    match stream.read_to_end(&mut text) {
        Ok(_) => {}
        Err(error) => assert_eq!(error.kind(), ErrorKind::ConnectionReset, "{error}"),
    }
    String::from_utf8(text).unwrap()
}

fn is_healthy(words: &mut Command) {
    let output = words.output().unwrap();
    assert_eq!(output.status.code(), Some(0), "{}", errors(&output));
}

#[test]
fn a_probe_is_answered_next_to_silent_strangers() {
    let folder = tempfile::tempdir().unwrap();
    let serving = serve(&folder);
    let silent = strangers(&serving.status, "");
    let half = strangers(&serving.status, "GET /healthz HTTP/1.1\r\nHost: lo");
    is_healthy(program().args(["health", &serving.status]));
    drop((silent, half));
}

#[test]
fn a_client_that_takes_the_status_port_for_the_server_learns_it_at_once() {
    let folder = tempfile::tempdir().unwrap();
    let serving = serve(&folder);
    let status: Address = serving.status.parse().unwrap();
    let builder = Client::builder(&status, 1, folder.path().join("client-1.lock"));
    let begun = Instant::now();
    let error = builder.timeout(PATIENCE).join().unwrap_err();
    assert!(begun.elapsed() < PATIENCE / 2, "{:?}", begun.elapsed());
    let message = error.to_string();
    let sentence = format!("what answers at {status} is not a krl server (is it the status port");
    assert!(message.starts_with(&sentence), "{message}");
}

#[test]
fn a_probe_is_answered_by_tls_next_to_silent_strangers() {
    let folder = tempfile::tempdir().unwrap();
    let script = concat!(env!("CARGO_MANIFEST_DIR"), "/../packaging/certificates");
    let made = Command::new(script).arg(folder.path()).args(["server", "operator"]).output();
    assert!(made.unwrap().status.success());
    let shows = |holder: &str| {
        let file = |name: &str| folder.path().join(name).into_os_string();
        let names = ["authority.crt".into(), format!("{holder}.crt"), format!("{holder}.key")];
        let flags = ["--tls-authority", "--tls-certificate", "--tls-key"];
        flags.into_iter().zip(names).flat_map(move |(flag, name)| [flag.into(), file(&name)])
    };
    let mut command = program();
    command.arg("serve").arg("--store").arg(folder.path().join("krl.db")).args(shows("server"));
    let serving = Serving::start_by(command.args(["--status", "tls:127.0.0.1:0"]));
    let at = serving.status.strip_prefix("tls:").unwrap();
    let silent = strangers(at, "");
    is_healthy(program().args(["health", &serving.status]).args(shows("operator")));
    drop(silent);
}

#[test]
fn orders_that_never_come_keep_no_place() {
    let folder = tempfile::tempdir().unwrap();
    let serving = serve(&folder);
    let head = "POST /backup HTTP/1.1\r\nHost: localhost\r\nContent-Type: application/json\r\n\
                Content-Length: 20\r\n\r\n";
    let mut orders = strangers(&serving.status, head);
    is_healthy(program().args(["health", &serving.status]));
    let answers: Vec<String> = orders.iter_mut().map(rest).collect();
    // The others were closed for each other.
    let (late, closed): (Vec<_>, Vec<_>) =
        answers.into_iter().partition(|answer| !answer.is_empty());
    assert!((1..=32).contains(&late.len()) && late.len() + closed.len() == MANY, "{late:?}");
    for answer in late {
        assert!(answer.starts_with("HTTP/1.1 408 "), "{answer}");
        assert!(answer.ends_with("within 5s after its head\n"), "{answer}");
    }
}

#[test]
fn a_head_has_a_whole_deadline() {
    let folder = tempfile::tempdir().unwrap();
    let serving = serve(&folder);
    let mut stream = TcpStream::connect(&serving.status).unwrap();
    stream.set_read_timeout(Some(Duration::from_millis(200))).unwrap();
    stream.write_all(b"GET /healthz HTTP/1.1\r\n").unwrap();
    let end = Instant::now() + PATIENCE;
    let mut room = [0; 100];
    loop {
        assert!(Instant::now() < end, "it is open after a minute");
        // A header every now and then gains no further time.
        let _ = stream.write_all(b"A: b\r\n");
        match stream.read(&mut room) {
            Ok(0) => break,
            Err(error) if error.kind() == ErrorKind::ConnectionReset => break,
            Err(error) => assert_eq!(error.kind(), ErrorKind::WouldBlock, "{error}"),
            Ok(_) => panic!("it is answered"),
        }
    }
}

#[test]
fn a_head_is_bounded() {
    let folder = tempfile::tempdir().unwrap();
    let serving = serve(&folder);
    let mut stream = TcpStream::connect(&serving.status).unwrap();
    stream.set_read_timeout(Some(PATIENCE)).unwrap();
    let long = format!("GET /healthz HTTP/1.1\r\nA: {}\r\n", "a".repeat(1 << 16));
    // It may be closed before all is sent.
    let _ = stream.write_all(long.as_bytes());
    let answer = rest(&mut stream);
    assert!(answer.is_empty() || answer.starts_with("HTTP/1.1 431 "), "{answer}");
    assert_eq!(run(&["health", &serving.status]).status.code(), Some(0));
}

#[test]
fn a_web_page_of_another_site_reads_and_orders_nothing() {
    let folder = tempfile::tempdir().unwrap();
    let serving = serve(&folder);
    let copy = folder.path().join("copy.db");
    let order = format!("{{\"file\": \"{}\"}}", copy.display());
    let length = order.len();
    let at = &serving.status;
    let ask = |host: &str, more: &str, path: &str| {
        serving.ask(&format!("GET {path} HTTP/1.1\r\nHost: {host}\r\n{more}\r\n")).0
    };
    let orders = |host: &str, more: &str| {
        let head = format!("POST /backup HTTP/1.1\r\nHost: {host}\r\nContent-Length: {length}\r\n");
        let kind = "Content-Type: application/json\r\n";
        serving.ask(&format!("{head}{kind}{more}\r\n{order}")).0
    };
    for path in ["/", "/locks.svg", "/clients", "/status", "/locks", "/metrics", "/healthz"] {
        assert_eq!(ask("evil.example", "", path), 403, "{path}");
        assert_eq!(ask(at, "Origin: http://evil.example\r\n", path), 403, "{path}");
        assert_eq!(ask(at, "", path), 200, "{path}");
        assert_eq!(ask("localhost:7401", "", path), 200, "{path}");
    }
    assert_eq!(orders("evil.example", ""), 403);
    assert_eq!(orders(at, "Origin: http://evil.example\r\n"), 403);
    assert!(!copy.exists());
    assert_eq!(orders(at, ""), 201);
    assert!(copy.exists());
}

#[test]
fn the_port_of_clients_is_no_status_port_and_the_status_port_is_taken_from_the_environment() {
    let folder = tempfile::tempdir().unwrap();
    let serving = serve(&folder);
    let output = run(&["status", &serving.address.to_string()]);
    assert_eq!(output.status.code(), Some(1));
    assert!(errors(&output).contains("is it the port of clients"), "{}", errors(&output));
    for words in [&["status", "--json"][..], &["health"], &["locks", "--json"]] {
        let output = program().args(words).env("KRL_STATUS", &serving.status).output().unwrap();
        assert_eq!(output.status.code(), Some(0), "{words:?}: {}", errors(&output));
        let printed = String::from_utf8(output.stdout).unwrap();
        assert_eq!(printed.starts_with('{'), words.len() > 1, "{words:?}: {printed}");
    }
}
