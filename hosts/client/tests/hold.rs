//! Holding a range while a command runs.
mod support;

use krl::{Outcome, Value};
use nix::sys::signal::Signal;
use std::net::TcpListener;
use std::path::Path;
use std::thread;
use std::time::Duration;
use support::{Ended, LONG, World, signal, wait_for};

#[test]
fn the_status_is_the_commands() {
    let world = World::new("status");
    let status = |words: &[&str]| {
        let ended = world.run(&[&["hold", "1", "9", "--"], words].concat());
        (ended.status, ended.errors)
    };
    assert_eq!(status(&["true"]), (0, String::new()));
    assert_eq!(status(&["sh", "-c", "exit 7"]), (7, String::new()));
    assert_eq!(status(&["sh", "-c", "kill -TERM $$"]), (143, String::new()));
    let (code, errors) = status(&["there-is-no-such-command"]);
    assert_eq!(code, 127, "{errors}");
    assert!(errors.contains("there-is-no-such-command can't be run"), "{errors}");
    assert_eq!(status(&["/dev/null"]).0, 126);
    let ended = world.run(&["hold", "1..9", "--update", "--", "echo", "--update", "-x"]);
    assert_eq!((ended.status, ended.out.as_str()), (0, "--update -x\n"));
}

#[test]
fn a_start_in_vain_does_not_make_the_next_one_wait_for_the_lease() {
    let world = World::leased("vain", 4 * LONG);
    let mut killed = world.spawn(&["hold", "0", "100", "--", "sleep", "60"]);
    world.wait_until_held(63);
    signal(&killed, Signal::SIGKILL);
    killed.wait().unwrap();
    let nobody = TcpListener::bind("127.0.0.1:0").unwrap().local_addr().unwrap().to_string();
    let vain = world.run(&["--server", &nobody, "--timeout", "300ms", "get", "15"]);
    assert_eq!(vain.status, 3, "{vain:?}");
    let ended = world.run(&["--timeout", "30s", "insert", "15", "a"]);
    assert_eq!((ended.status, ended.out.as_str()), (0, "applied\n"), "{ended:?}");
}

#[test]
fn readers_read_and_writers_wait_while_a_command_runs() {
    for update in [&[][..], &["--update"]] {
        let world = World::new(if update.is_empty() { "shared" } else { "update" });
        let (reader, writer) = (world.client(1), world.client(2));
        assert_eq!(writer.insert(15, Value::from(1)), Ok(Outcome::Applied));
        let [started, ends] = ["started", "ends"].map(|name| world.folder.join(name));
        let script = format!(
            "touch {}; while [ ! -e {} ]; do sleep 0.05; done",
            started.display(),
            ends.display()
        );
        let words = [&["hold", "10", "20"], update, &["--", "sh", "-c", &script]].concat();
        let mut program = world.spawn(&words);
        wait_for("the command runs", || started.exists());
        assert_eq!(reader.read(10..20).unwrap().len(), 1, "a reader does not wait");
        thread::scope(|scope| {
            let put = scope.spawn(|| writer.put(15, Value::from(2)));
            thread::sleep(Duration::from_secs(1));
            assert!(!put.is_finished(), "a writer waits");
            std::fs::write(&ends, "").unwrap();
            assert_eq!(put.join().unwrap(), Ok(Outcome::Applied));
        });
        assert!(program.wait().unwrap().success());
    }
}

#[test]
fn a_held_range_takes_no_new_rows_and_its_neighbors_do() {
    let world = World::new("gaps");
    let writer = world.client(2);
    for key in [5, 25] {
        assert_eq!(writer.insert(key, Value::from(1)), Ok(Outcome::Applied));
    }
    let mut program = world.spawn(&["hold", "10", "20", "--", "sleep", "60"]);
    world.wait_until_held(63);
    writer.set_timeout(Duration::from_millis(500));
    assert!(writer.insert(15, Value::from(1)).is_err(), "the gap is held");
    assert_eq!(writer.put(5, Value::from(2)), Ok(Outcome::Applied));
    signal(&program, Signal::SIGTERM);
    assert_eq!(program.wait().unwrap().code(), Some(143));
}

/// Runs holders at once, and returns the most commands that ran at the same time.
fn most_at_once(world: &World, words: &[&str]) -> usize {
    let log = world.folder.join("log");
    std::fs::write(&log, "").unwrap();
    let script = format!("echo + >> {0}; sleep 0.2; echo - >> {0}", log.display());
    let holders: Vec<_> =
        (0..4).map(|_| world.spawn(&[words, &["--", "sh", "-c", &script]].concat())).collect();
    for mut holder in holders {
        assert!(holder.wait().unwrap().success());
    }
    most_open(&log)
}

fn most_open(log: &Path) -> usize {
    let (mut open, mut most) = (0usize, 0);
    for line in std::fs::read_to_string(log).unwrap().lines() {
        open = if line == "+" { open + 1 } else { open - 1 };
        most = most.max(open);
    }
    most
}

#[test]
fn one_at_a_time_holds_a_range_for_update() {
    let world = World::new("once");
    assert_eq!(world.client(1).insert(15, Value::from(1)), Ok(Outcome::Applied));
    assert_eq!(most_at_once(&world, &["hold", "10", "20", "--update"]), 1);
    assert_eq!(most_at_once(&world, &["hold", "16", "18", "--update"]), 1, "no row is there");
    assert!(most_at_once(&world, &["hold", "10", "20"]) > 1, "without --update it is shared");
}

/// The command stops the program that holds the range for it, until the server has evicted that.
#[test]
fn a_range_that_is_lost_while_the_command_runs_is_reported() {
    let world = World::leased("lost", Duration::from_secs(2));
    let [started, ends] = ["started", "ends"].map(|name| world.folder.join(name));
    let script = format!(
        "kill -STOP $PPID; touch {}; while [ -d {} -a ! -e {} ]; do sleep 0.05; done; \
         kill -CONT $PPID",
        started.display(),
        world.folder.display(),
        ends.display()
    );
    let program = world.spawn(&["hold", "10", "20", "--", "sh", "-c", &script]);
    wait_for("the command runs", || started.exists());
    wait_for("its client is evicted", || world.server.status().evicted == 1);
    std::fs::write(&ends, "").unwrap();
    let ended = Ended::from(program.wait_with_output().unwrap());
    assert_eq!(ended.status, 125, "{ended:?}");
    assert!(ended.errors.contains("was not held until the command had ended"), "{ended:?}");
    assert!(ended.errors.contains("exit status: 0"), "{ended:?}");
    assert_eq!(world.run(&["hold", "10", "20", "--", "sh", "-c", "exit 7"]).status, 7);
}

#[test]
fn signals_go_to_the_command() {
    let world = World::new("signals");
    let started = world.folder.join("started");
    let script = "trap 'exit 9' TERM; trap 'exit 8' INT; trap 'exit 6' USR1; touch \"$0\"; \
                  while :; do sleep 0.02; done";
    for (sent, status) in [(Signal::SIGTERM, 9), (Signal::SIGINT, 8), (Signal::SIGUSR1, 6)] {
        let _ = std::fs::remove_file(&started);
        let path = started.to_str().unwrap();
        let mut program = world.spawn(&["hold", "1", "9", "--", "sh", "-c", script, path]);
        wait_for("the command runs", || started.exists());
        signal(&program, sent);
        assert_eq!(program.wait().unwrap().code(), Some(status));
    }
}

#[test]
fn a_signal_while_it_waits_for_the_range_ends_it_and_its_client_leaves() {
    let world = World::new("waits");
    let client = world.client(1);
    assert_eq!(client.insert(15, Value::from(1)), Ok(Outcome::Applied));
    let (_, pin) = client.pin_for_update(10..20).unwrap();
    let mut program = world.spawn(&["hold", "10", "20", "--update", "--", "true"]);
    wait_for("it waits", || world.server.status().waits.iter().any(|wait| wait.client == 63));
    signal(&program, Signal::SIGINT);
    assert_eq!(program.wait().unwrap().code(), Some(130));
    wait_for("nobody waits", || world.server.status().waits.is_empty());
    drop(pin);
    thread::sleep(Duration::from_millis(10));
    assert_eq!(world.run(&["hold", "10", "20", "--update", "--", "true"]).status, 0);
}
