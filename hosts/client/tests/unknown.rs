//! Writes whose outcome is not known, and what has no right: their exit statuses and sentences.
mod support;

use krl::Address;
use krl_testing::relay::Relay;
use std::io::{BufRead, BufReader, Write};
use std::process::Stdio;
use std::time::Duration;
use support::{Ended, World};

/// Puts b to the key 4 through a relay that loses what the server answers, and gives what the
/// program came to.
fn loses_the_answer(world: &World, words: &[&str]) -> Ended {
    let Address::Tcp(server) = *world.server.address() else { panic!("it listens elsewhere") };
    let relay = Relay::to(server);
    let at = relay.at().to_string();
    let words = [&["--server", &at], words].concat();
    let mut program = world.command(&words).stdin(Stdio::piped()).spawn().unwrap();
    let mut lines = program.stdin.take().unwrap();
    // The client holds the row then, and a write of it is sent at once.
    lines.write_all(b"insert 4 a\nput 4 a\n").unwrap();
    let answers = BufReader::new(program.stdout.as_mut().unwrap()).lines().take(2);
    assert!(answers.map(Result::unwrap).eq(["applied", "applied"]));
    relay.lose_answers();
    lines.write_all(b"put 4 b\n").unwrap();
    drop(lines);
    program.wait_with_output().unwrap().into()
}

#[test]
fn a_write_whose_lease_ends_may_have_been_applied() {
    let world = World::leased("unknown-lease", Duration::from_secs(1));
    let words = ["--timeout", "30s"];
    let Ended { status, errors, .. } = loses_the_answer(&world, &words);
    assert_eq!(status, 3, "{errors}");
    assert!(errors.contains("the client's lease has ended"), "{errors}");
    assert!(
        errors.contains("the write may have been applied: read the key 4 with --number "),
        "{errors}"
    );
    assert_eq!(world.prints(&["get", "4"]), "4=b\n", "it was applied");
}

#[test]
fn a_write_that_is_not_answered_in_time_may_have_been_applied() {
    let world = World::new("unknown-time");
    let words = ["--timeout", "2s"];
    let Ended { status, errors, .. } = loses_the_answer(&world, &words);
    assert_eq!(status, 3, "{errors}");
    assert!(
        errors.contains("the write may have been applied: read the key 4 with --number "),
        "{errors}"
    );
}
