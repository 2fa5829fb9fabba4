//! A server and its operator over TLS, with the certificates that the packaged script makes.
mod common;

use common::{Serving, errors, lock_file, output_unless_it_serves, program, run, text, until};
use krl::{Client, JoinError, JoinErrorKind, Outcome, Servers, TlsConfig, Value};
use std::fs::File;
use std::io::{Read, Write};
use std::net::TcpStream;
use std::path::{Path, PathBuf};
use std::process::{Child, Command, ExitStatus, Output, Stdio};
use std::thread;
use std::time::{Duration, Instant};

/// A folder of certificates, and of everything else that a test has.
struct Setup {
    folder: tempfile::TempDir,
}

impl Setup {
    fn new(holders: &[&str]) -> Setup {
        let folder = tempfile::tempdir().unwrap();
        let setup = Setup { folder };
        setup.certify(holders);
        setup
    }

    fn certify(&self, holders: &[&str]) {
        self.certify_for("365", holders);
    }

    /// Makes certificates that are valid for this many days.
    fn certify_for(&self, days: &str, holders: &[&str]) {
        let script = concat!(env!("CARGO_MANIFEST_DIR"), "/../packaging/certificates");
        let mut command = Command::new(script);
        let made = command.env("KRL_DAYS", days).arg(self.path()).args(holders).output().unwrap();
        assert!(made.status.success(), "{}", errors(&made));
    }

    /// Gives what a holder shows another name.
    fn rename(&self, holder: &str, name: &str) {
        for kind in ["crt", "key"] {
            let [from, to] = [holder, name].map(|name| self.file(&format!("{name}.{kind}")));
            std::fs::rename(from, to).unwrap();
        }
    }

    /// Has the server show what another holder shows from the next SIGHUP on.
    fn show_as_server(&self, holder: &str) {
        for kind in ["crt", "key"] {
            self.copy(&format!("{holder}.{kind}"), &format!("server.{kind}"));
        }
    }

    fn path(&self) -> &Path {
        self.folder.path()
    }

    fn file(&self, name: &str) -> PathBuf {
        self.path().join(name)
    }

    /// The three options of what this holder shows.
    fn shows(&self, holder: &str) -> Vec<String> {
        let path = |name: &str| self.file(name).to_str().unwrap().to_string();
        let options = [
            ("--tls-authority", path("authority.crt")),
            ("--tls-certificate", path(&format!("{holder}.crt"))),
            ("--tls-key", path(&format!("{holder}.key"))),
        ];
        options.into_iter().flat_map(|(flag, file)| [flag.to_string(), file]).collect()
    }

    fn serve(&self) -> Serving {
        self.serve_with(&[])
    }

    fn serve_with(&self, words: &[&str]) -> Serving {
        self.serve_at("tls:127.0.0.1:0", words)
    }

    fn serve_at(&self, listen: &str, words: &[&str]) -> Serving {
        let mut command = self.command_at(listen);
        command.args(words);
        if !words.contains(&"--status") {
            command.args(["--status", "tls:127.0.0.1:0"]);
        }
        Serving::start_by(&mut command)
    }

    /// The command of a server that listens there.
    fn command_at(&self, listen: &str) -> Command {
        let mut command = program();
        command.arg("serve").arg("--store").arg(self.file("krl.db")).args(self.shows("server"));
        command.args(["--listen", listen]);
        command
    }

    fn copy(&self, from: &str, to: &str) {
        std::fs::copy(self.file(from), self.file(to)).unwrap();
    }

    fn join(&self, serving: &Serving, number: u8) -> Result<Client, JoinError> {
        let [certificate, key] =
            ["crt", "key"].map(|kind| self.file(&format!("client-{number}.{kind}")));
        let config = TlsConfig::from_files(self.file("authority.crt"), certificate, key).unwrap();
        let servers = Servers::from(&serving.address).with_tls(config);
        Client::join(servers, number, lock_file(self.path(), number))
    }

    /// Runs the program with these words, and what the holder shows after them.
    fn run_as(&self, holder: &str, words: &[&str]) -> Output {
        program().args(words).args(self.shows(holder)).output().unwrap()
    }
}

#[test]
fn only_operators_see_the_status_and_order_backups() {
    let setup = Setup::new(&["server", "operator", "client-3"]);
    let serving = setup.serve();
    let client = setup.join(&serving, 3).unwrap();
    assert_eq!(client.insert(1, Value::from(1)), Ok(Outcome::Applied));
    let at = serving.status.as_str();
    assert!(at.starts_with("tls:127.0.0.1:"), "{at}");
    let shown = setup.run_as("operator", &["status", at]);
    assert!(text(&shown).contains("connected: 3"), "{}", errors(&shown));
    let locks = setup.run_as("operator", &["locks", "--status", at]);
    assert!(locks.status.success(), "{}", errors(&locks));
    let backup = setup.file("backup.db");
    let ordered = setup.run_as("operator", &["backup", at, backup.to_str().unwrap()]);
    assert!(ordered.status.success() && backup.exists(), "{}", errors(&ordered));
    for words in [&["status", at][..], &["locks", "--status", at], &["backup", at, "no.db"]] {
        let refused = setup.run_as("client-3", words);
        assert_eq!(refused.status.code(), Some(1), "{}", errors(&refused));
        let message = "for operators only, and this certificate is of the client 3";
        assert!(errors(&refused).contains(message), "{words:?}: {}", errors(&refused));
    }
    let refused = run(&["status", at]);
    assert_eq!(refused.status.code(), Some(2));
    assert!(errors(&refused).contains("needs --tls-authority"), "{}", errors(&refused));
    // A peer without TLS gets no HTTP.
    let plain = run(&["status", at.strip_prefix("tls:").unwrap()]);
    assert_eq!(plain.status.code(), Some(1));
}

#[test]
fn a_server_that_is_an_operator_shows_the_others_of_its_table() {
    let setup = Setup::new(&["server", "server-operator"]);
    let other = setup.serve();
    let page_of = |holder: &str, wanted: &str| {
        let mut command = program();
        command.arg("serve").arg("--store").arg(setup.file(&format!("{holder}.db")));
        command.args(["--others", &other.status]).args(setup.shows(holder));
        let serving = Serving::start_by(&mut command);
        until(wanted, || serving.get("/").1.contains(wanted));
        serving.get("/").1
    };
    // The other one closes a connection that shows no name of an operator.
    page_of("server", &format!("the status port {} gave no answer", other.status));
    let page =
        page_of("server-operator", "<td class=\"serving\">serving</td><td>all</td><td>1</td>");
    assert!(page.contains(&format!("https://{}/", &other.status["tls:".len()..])), "{page}");
}

#[test]
fn strangers_at_the_status_port_do_not_flood_the_log() {
    let setup = Setup::new(&["server"]);
    let serving = setup.serve();
    let at = serving.status.strip_prefix("tls:").unwrap();
    let began = Instant::now();
    for _ in 0..50 {
        let mut stranger = TcpStream::connect(at).unwrap();
        stranger.write_all(b"GET /status HTTP/1.1\r\n\r\n").unwrap();
        // It is closed, perhaps with a reason.
        let _ = stranger.read_to_end(&mut Vec::new());
    }
    let took = began.elapsed().as_secs();
    serving.signal(&["TERM"]);
    let log = serving.ended().log;
    let is_refusal =
        |event: &&serde_json::Value| event["message"] == "the status port refused a connection";
    let count = log.iter().filter(is_refusal).count() as u64;
    assert!((1..=took + 2).contains(&count), "{count} times in {took} seconds: {log:?}");
}

#[test]
fn an_operator_evicts_and_a_client_does_not() {
    let setup = Setup::new(&["server", "operator", "client-3", "client-4"]);
    // With a lease the operator's eviction would have to wait for its end.
    let serving = setup.serve_with(&["--lease", "off"]);
    // A client that is gone without a Bye.
    std::mem::forget(setup.join(&serving, 3).unwrap());
    let at = serving.address.to_string();
    let lock = setup.file("elsewhere.lock");
    let words = ["evict", &at, "3", lock.to_str().unwrap()];
    let refused = setup.run_as("client-4", &words);
    assert_eq!(refused.status.code(), Some(1));
    assert!(errors(&refused).contains("was turned away"), "{}", errors(&refused));
    let evicted = setup.run_as("operator", &words);
    assert!(evicted.status.success(), "{}", errors(&evicted));
    until("the eviction is counted", || {
        let shown = setup.run_as("operator", &["status", "--json", &serving.status]);
        let shown: serde_json::Value = serde_json::from_str(&text(&shown)).unwrap();
        shown["denied_total"].as_u64().unwrap() > 0
    });
}

#[test]
fn a_hangup_has_the_certificates_read_again() {
    let setup = Setup::new(&["server", "operator", "client-1", "client-2"]);
    let serving = setup.serve();
    let client = setup.join(&serving, 1).unwrap();
    std::fs::write(setup.file("server.crt"), "no certificate").unwrap();
    serving.signal(&["HUP"]);
    drop(setup.join(&serving, 2).expect("the old ones stay"));
    // Another authority has certified what the server shows next, and it is believed by the server.
    let other = Setup::new(&["server"]);
    for file in ["server.crt", "server.key", "authority.crt"] {
        std::fs::copy(other.file(file), setup.file(file)).unwrap();
    }
    serving.signal(&["HUP"]);
    until("the new one is shown", || {
        setup
            .join(&serving, 2)
            .is_err_and(|error| matches!(error.kind, JoinErrorKind::TurnedAway(_)))
    });
    assert_eq!(client.insert(1, Value::from(1)), Ok(Outcome::Applied), "open connections continue");
    client.leave().unwrap();
    serving.signal(&["TERM"]);
    let log = serving.ended().log;
    let has = |message: &str| log.iter().any(|event| event["message"] == message);
    assert!(has("the certificates can't be used: the old ones stay"), "{log:?}");
    assert!(has("the certificates are read again"), "{log:?}");
}

#[test]
fn a_server_over_an_older_store_reports_it_once_and_ends_with_status_3() {
    let setup = Setup::new(&["server", "client-3"]);
    // Nothing else takes a port of this address between two servers.
    let [low, high, ..] = std::process::id().to_le_bytes();
    let serving = setup.serve_at(&format!("tls:127.73.{high}.{low}:0"), &[]);
    let at = serving.address.to_string();
    let client = setup.join(&serving, 3).unwrap();
    assert_eq!(client.insert(1, Value::from(1)), Ok(Outcome::Applied));
    serving.signal(&["TERM"]);
    assert_eq!(serving.ended().status.code(), Some(0));
    setup.copy("krl.db", "copy.db");
    let serving = setup.serve_at(&at, &[]);
    assert_eq!(client.put(1, Value::from(2)), Ok(Outcome::Applied));
    serving.signal(&["TERM"]);
    assert_eq!(serving.ended().status.code(), Some(0));
    setup.copy("copy.db", "krl.db");
    let mut command = setup.command_at(&at);
    let log = File::create(setup.file("log")).unwrap();
    let mut process = command.args(["--status", "off"]).stderr(log).spawn().unwrap();
    let ended = ended_within_a_minute(&mut process);
    // One that has ended needs no end.
    let _ = process.kill();
    let log = std::fs::read_to_string(setup.file("log")).unwrap();
    assert_eq!(ended.and_then(|status| status.code()), Some(3), "{log}");
    let message = "the store lacks what the holder of the identity 3 has seen of it";
    assert_eq!(log.matches(message).count(), 1, "{log}");
    until("the client has dropped its cache", || client.cached(1..2).unwrap().is_none());
    let serving = setup.serve_at(&at, &[]);
    assert_eq!(client.put(1, Value::from(3)), Ok(Outcome::Applied), "it has joined again");
    drop(serving);
}

#[test]
fn a_certificate_that_no_client_believes_is_refused_at_the_start() {
    let setup = Setup::new(&["client-3"]);
    setup.certify_for("-1", &["server"]);
    setup.rename("server", "expired");
    setup.certify(&["server"]);
    let locks = ["pkcs8", "-topk8", "-passout", "pass:phrase", "-in", "server.key", "-out"];
    let mut openssl = Command::new("openssl");
    openssl.current_dir(setup.path()).args(locks).arg("locked.key");
    assert!(openssl.status().unwrap().success());
    setup.copy("server.crt", "locked.crt");
    setup.copy("server.crt", "missing.crt");
    let other = Setup::new(&["server"]);
    for kind in ["crt", "key"] {
        let [from, to] = [other.file("server"), setup.file("strange")];
        std::fs::copy(from.with_extension(kind), to.with_extension(kind)).unwrap();
    }
    for (holder, why) in [
        ("strange", "strange.crt (CN=krl server) is not certified by the authority "),
        ("expired", "expired.crt (CN=krl server) expired at "),
        (
            "client-3",
            "(CN=krl client-3) does not have the name krl:server, but these: krl:client:3",
        ),
        ("locked", "locked.key has a pass phrase"),
        ("missing", "missing.key can't be read: No such file"),
    ] {
        for words in [&["config"][..], &["serve", "--status", "off"]] {
            let mut command = program();
            command.args(words).args(setup.shows(holder)).arg("--store").arg(setup.file("krl.db"));
            let output = output_unless_it_serves(command.args(["--listen", "tls:127.0.0.1:0"]));
            assert_eq!(output.status.code(), Some(2), "{holder}: {}", errors(&output));
            assert!(errors(&output).contains(why), "{holder}: {}", errors(&output));
        }
    }
    let named = setup.run_as("server", &["config", "--table", "orders"]);
    assert!(errors(&named).contains("the name krl:server@orders"), "{}", errors(&named));
}

#[test]
fn a_hangup_keeps_a_good_certificate_and_refuses_a_bad_one() {
    let setup = Setup::new(&["operator", "client-1", "client-2"]);
    setup.certify_for("-1", &["server"]);
    setup.rename("server", "expired");
    setup.certify(&["server"]);
    let serving = setup.serve_with(&["--status", "127.0.0.1:0"]);
    let left = serving.sample("krl_certificate_expires_seconds");
    assert!((360.0..366.0).contains(&(left / 86_400.0)), "{left}");
    for (holder, refused) in [("expired", 1.0), ("client-1", 2.0)] {
        setup.show_as_server(holder);
        serving.signal(&["HUP"]);
        until("the reload is refused", || {
            serving.sample("krl_certificate_reloads_refused_total") >= refused
        });
    }
    drop(setup.join(&serving, 2).expect("the good one stays"));
    serving.signal(&["TERM"]);
    let log = serving.ended().log;
    let why = |what: &str| {
        let events = log.iter().filter(|event| {
            event["message"] == "the certificates can't be used: the old ones stay"
        });
        let mut whys = events.filter_map(|event| event["why"].as_str());
        whys.any(|why| why.contains(what))
    };
    assert!(why("expired at"), "{log:?}");
    assert!(why("does not have the name krl:server"), "{log:?}");
}

#[test]
fn a_certificate_that_is_refused_is_logged_with_its_subject() {
    let setup = Setup::new(&["server"]);
    setup.certify_for("-1", &["client-3"]);
    let serving = setup.serve_with(&["--status", "127.0.0.1:0"]);
    let file = |name: &str| setup.file(name).into_os_string();
    let mut shakes = Command::new("openssl");
    shakes.args(["s_client", "-connect", &serving.address.to_string()["tls:".len()..], "-cert"]);
    shakes.arg(file("client-3.crt")).arg("-key").arg(file("client-3.key"));
    // It is refused, before or after it has ended its side.
    drop(shakes.stdin(Stdio::null()).output().unwrap());
    let failed = "krl_connections_closed_total{reason=\"handshake_failed\"}";
    until("it is counted", || serving.sample(failed) > 0.0);
    serving.signal(&["TERM"]);
    let log = serving.ended().log;
    let message = "a connection is closed: the handshake of TLS failed";
    let event = log.iter().find(|event| event["message"] == message).expect(message);
    let why = event["why"].as_str().unwrap();
    assert!(why.contains("(CN=krl client-3) is not accepted: certificate has expired"), "{why}");
    assert!(event["peer"].as_str().unwrap().starts_with("127.0.0.1:"), "{event}");
}

fn ended_within_a_minute(process: &mut Child) -> Option<ExitStatus> {
    let end = Instant::now() + Duration::from_secs(60);
    while Instant::now() < end {
        if let Some(status) = process.try_wait().unwrap() {
            return Some(status);
        }
        thread::sleep(Duration::from_millis(10));
    }
    None
}

#[test]
fn what_is_dangerous_or_half_given_is_refused() {
    let setup = Setup::new(&["server"]);
    let shows = setup.shows("server");
    let refused = |words: &[&str], message: &str| {
        let output = run(words);
        assert_eq!(output.status.code(), Some(2), "{words:?}: {}", errors(&output));
        assert!(errors(&output).contains(message), "{words:?}: {}", errors(&output));
    };
    refused(&["config", "--listen", "10.0.0.5:7400"], "tls:10.0.0.1:7400");
    refused(&["config", "--listen", "plain:10.0.0.5:7400"], "give --plain-beyond-loopback");
    refused(&["config", "--status", "plain:0.0.0.0:7401"], "give --plain-beyond-loopback");
    refused(&["config", "--users", "1001"], "users and what each may send");
    refused(&["config", "--table", "a table"], "1 to 64 letters");
    let listen = ["serve", "--listen", "tls:127.0.0.1:0", "--status", "off", "--store"];
    let store = setup.file("other.db");
    let words = [&listen[..], &[store.to_str().unwrap()]].concat();
    refused(&words, "listen is 'tls:127.0.0.1:0', and TLS needs all of --tls-authority");
    refused(&["config", "--status", "tls:127.0.0.1:0"], "status is 'tls:127.0.0.1:0', and TLS");
    let half = [&words[..], &[&shows[0], &shows[1]]].concat();
    assert!(errors(&run(&half)).contains("TLS needs all of"), "{}", errors(&run(&half)));
    let users = ["--users", "1001=3,4 1002=operator", "--plain-beyond-loopback"];
    let words = [&["config", "--listen", "plain:10.0.0.5:7400"][..], &users].concat();
    refused(&words, "users counts only if listen is an address that begins with unix:");
    let words = [&["config", "--listen", "unix:/run/krl/krl.sock"][..], &users].concat();
    let printed = text(&run(&words));
    for line in [
        "listen = \"unix:/run/krl/krl.sock\" # from the flag --listen",
        "users = \"1001=3,4 1002=operator\" # from the flag --users",
        "plain-beyond-loopback = \"yes\" # from the flag --plain-beyond-loopback",
    ] {
        assert!(printed.lines().any(|it| it == line), "{line} is not in {printed}");
    }
}
