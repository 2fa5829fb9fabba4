//! Whether a server is well, asked by a command.
mod common;

use common::{Serving, errors, lock_file, run, text, until};

/// The exit status of the question, and what it prints.
fn ask(serving: &Serving, words: &[&str]) -> (Option<i32>, String) {
    let output = run(&[&["health", serving.status.as_str()], words].concat());
    (output.status.code(), text(&output))
}

#[test]
fn a_server_that_waits_for_reports_is_alive_and_not_ready() {
    let folder = tempfile::tempdir().unwrap();
    let store = folder.path().join("krl.db");
    let serving = Serving::start(&store);
    assert_eq!(ask(&serving, &[]), (Some(0), "ok\n".to_string()));
    until("it is ready", || ask(&serving, &["--ready"]) == (Some(0), "serving\n".to_string()));
    let serving = serving.killed_beside(3, folder.path(), &store);
    until("it reports who is missing", || {
        let (status, printed) = ask(&serving, &["--ready"]);
        status == Some(1) && printed.starts_with("recovering: the clients 3 ")
    });
    assert_eq!(ask(&serving, &[]), (Some(0), "ok\n".to_string()));
    let lock = lock_file(folder.path(), 3);
    run(&["evict", &serving.address.to_string(), "3", lock.to_str().unwrap()]);
    until("it is ready", || ask(&serving, &["--ready"]).0 == Some(0));
}

#[test]
fn who_does_not_answer_is_not_alive() {
    let folder = tempfile::tempdir().unwrap();
    let serving = Serving::start(&folder.path().join("krl.db"));
    let address = serving.status.clone();
    serving.signal(&["TERM"]);
    serving.ended();
    let output = run(&["health", &address]);
    assert_eq!((output.status.code(), text(&output).as_str()), (Some(1), ""));
    assert!(errors(&output).contains(&address), "{}", errors(&output));
    let output = run(&["health", "nowhere"]);
    assert_eq!(output.status.code(), Some(2), "that is no address");
}
