//! The commands over TLS, with certificates that the packaged script makes.
mod support;

use krl::{Access, Client, Listener, MemoryStore, Outcome, Server, Servers, TlsConfig, Value};
use std::io::{BufRead, BufReader};
use std::path::Path;
use std::process::Command;
use support::{Ended, World};

/// What a holder of a certificate shows, and its files in the order of the client's flags.
struct Shown {
    authority: String,
    certificate: String,
    key: String,
}

impl Shown {
    fn of(folder: &Path, holder: &str) -> Shown {
        let file = |name: String| folder.join(name).to_str().unwrap().to_string();
        let [certificate, key] = ["crt", "key"].map(|kind| file(format!("{holder}.{kind}")));
        Shown { authority: file("authority.crt".into()), certificate, key }
    }

    fn config(&self) -> TlsConfig {
        TlsConfig::from_files(&self.authority, &self.certificate, &self.key).unwrap()
    }

    fn words(&self) -> [&str; 6] {
        let Shown { authority, certificate, key } = self;
        let flags = ["--tls-authority", "--tls-certificate", "--tls-key"];
        [flags[0], authority, flags[1], certificate, flags[2], key]
    }
}

/// A server that wants certificates, and what clients 3 and 4 show to it.
struct Certified {
    world: World,
    three: Shown,
    four: Shown,
    operator: Shown,
}

impl Certified {
    fn new(name: &str) -> Certified {
        let folder = World::folder_of(name);
        let script = concat!(env!("CARGO_MANIFEST_DIR"), "/../packaging/certificates");
        let holders = ["server", "client-3", "client-4", "operator", "reader"];
        let made = Command::new(script).arg(&folder).args(holders).output().unwrap();
        assert!(made.status.success(), "{made:?}");
        let access = Access::new().tls(Shown::of(&folder, "server").config());
        let listener = Listener::bind(&"tls:127.0.0.1:0".parse().unwrap()).unwrap();
        let server = Server::builder(listener, MemoryStore::default()).access(access);
        let [three, four, operator] =
            ["client-3", "client-4", "operator"].map(|holder| Shown::of(&folder, holder));
        let world = World { server: server.start().unwrap(), folder };
        Certified { world, three, four, operator }
    }

    /// The program as client 3, with these words.
    fn words<'w>(&'w self, words: &[&'w str]) -> Vec<&'w str> {
        [&self.three.words()[..], &["--number", "3"], words].concat()
    }

    fn prints(&self, words: &[&str]) -> String {
        self.world.prints(&self.words(words))
    }
}

#[test]
fn each_command_shows_its_own_certificate() {
    let certified = Certified::new("tls-commands");
    assert_eq!(certified.prints(&["insert", "15", "one"]), "applied\n");
    assert_eq!(certified.prints(&["get", "15"]), "15=one\n");
    assert_eq!(certified.prints(&["scan", "0", "100"]), "15=one\n");
    assert_eq!(certified.prints(&["hold", "10", "20", "--", "echo", "held"]), "held\n");
    let status = certified.world.server.status();
    assert_eq!(status.denied, 0, "{status}");
}

#[test]
fn a_watch_over_tls_sees_the_change_of_another_client() {
    let certified = Certified::new("tls-watch");
    let world = &certified.world;
    let other = Servers::from(world.server.address().clone());
    let lock_file = world.folder.join("own-4.lock");
    let other = Client::join(other.with_tls(certified.four.config()), 4, lock_file).unwrap();
    assert_eq!(other.insert(15, Value::from(1)), Ok(Outcome::Applied));
    let words = certified.words(&["watch", "10", "20", "--count", "1"]);
    let mut program = world.spawn(&words);
    let mut lines = BufReader::new(program.stdout.take().unwrap()).lines().map(Result::unwrap);
    assert_eq!(
        [lines.next(), lines.next()].map(Option::unwrap),
        ["# change 0, rows 1", "15=u64:1"]
    );
    assert_eq!(other.put(15, Value::from(2)), Ok(Outcome::Applied));
    assert_eq!(
        [lines.next(), lines.next()].map(Option::unwrap),
        ["# change 1, rows 1", "15=u64:2"]
    );
    assert!(program.wait().unwrap().success());
}

#[test]
fn a_certificate_of_another_number_is_reported_in_a_sentence() {
    let certified = Certified::new("tls-other");
    let words = [&certified.four.words()[..], &["--number", "3", "get", "15"]].concat();
    let Ended { status, out, errors } = certified.world.run(&words);
    assert_eq!((status, out.as_str()), (4, ""), "{errors}");
    assert!(errors.contains("no right to the client's number"), "{errors}");
    assert!(errors.contains("has another number, give that by --number"), "{errors}");
    assert_eq!(errors.lines().count(), 1, "{errors}");
}

#[test]
fn the_number_is_that_of_the_certificate_if_none_is_given() {
    let certified = Certified::new("tls-number");
    let words = [&certified.four.words()[..], &["insert", "15", "one"]].concat();
    assert_eq!(certified.world.prints(&words), "applied\n");
    let status = certified.world.server.status();
    assert_eq!(status.denied, 0, "{status}");
}

#[test]
fn an_operator_has_no_right_to_rows() {
    let certified = Certified::new("tls-operator");
    for command in [["get", "15"].as_slice(), &["insert", "15", "a"]] {
        let words = [&certified.operator.words()[..], &["--number", "3"], command].concat();
        let Ended { status, out, errors } = certified.world.run(&words);
        assert_eq!((status, out.as_str()), (4, ""), "{errors}");
        assert!(errors.contains("gives no right to the client"), "{errors}");
    }
}

#[test]
fn a_reader_reads_by_its_certificate_and_does_no_more() {
    let certified = Certified::new("tls-reader");
    assert_eq!(certified.prints(&["insert", "15", "one"]), "applied\n");
    let run = |shown: &Shown, words: &[&str]| {
        certified.world.run(&[&shown.words()[..], &["--timeout", "60s"], words].concat())
    };
    let reader = Shown::of(&certified.world.folder, "reader");
    let got = run(&reader, &["get", "15"]);
    assert_eq!((got.status, got.out.as_str()), (0, "15=one\n"), "{got:?}");
    let put = run(&reader, &["--number", "3", "put", "15", "two"]);
    assert_eq!((put.status, put.out.as_str()), (4, ""), "{put:?}");
    let denied = run(&certified.operator, &["get", "15"]);
    assert_eq!((denied.status, denied.out.as_str()), (4, ""), "{denied:?}");
    assert!(denied.errors.contains("names no client and no reader"), "{denied:?}");
}

#[test]
fn a_client_without_a_certificate_learns_what_it_needs() {
    let certified = Certified::new("tls-none");
    let Ended { status, out, errors } = certified.world.run(&["--number", "3", "get", "15"]);
    assert_eq!((status, out.as_str()), (4, ""), "{errors}");
    assert!(errors.contains("the client needs a certificate"), "{errors}");
    assert_eq!(errors.lines().count(), 1, "{errors}");
}
