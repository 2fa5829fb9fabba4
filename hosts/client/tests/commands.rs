//! The commands that ask once: what they print, and their exit statuses.
mod support;

use krl::{Outcome, Value};
use nix::sys::signal::Signal;
use std::io::Read;
use std::process::Stdio;
use std::time::{Duration, Instant};
use support::{Ended, LONG, World, signal, wait_for};

fn ended(status: i32, out: &str, errors: &str) -> Ended {
    Ended { status, out: out.into(), errors: errors.into() }
}

#[test]
fn rows_are_made_read_changed_and_deleted() {
    let world = World::new("rows");
    assert_eq!(world.run(&["insert", "15", "one"]), ended(0, "applied\n", ""));
    assert_eq!(world.run(&["insert", "20=two words"]), ended(0, "applied\n", ""));
    let exists = "krl-client: there is a row of key 15 already\n";
    assert_eq!(world.run(&["insert", "15", "two"]), ended(1, "", exists));
    assert_eq!(world.prints(&["get", "15"]), "15=one\n");
    assert_eq!(world.prints(&["scan", "0", "100"]), "15=one\n20=two words\n");
    assert_eq!(world.prints(&["scan", "0..20"]), "15=one\n");
    assert_eq!(world.prints(&["scan", "16", "20"]), "");
    assert_eq!(world.prints(&["put", "15", "1"]), "applied\n");
    assert_eq!(world.prints(&["get", "15"]), "15=1\n");
    let absent = "krl-client: there is no row of key 16\n";
    assert_eq!(world.run(&["put", "16", "a"]), ended(1, "", absent));
    assert_eq!(world.run(&["get", "16"]), ended(1, "", absent));
    assert_eq!(world.run(&["delete", "16"]), ended(1, "", absent));
    assert_eq!(world.prints(&["delete", "15"]), "applied\n");
    assert_eq!(world.prints(&["scan", ".."]), "20=two words\n");
}

#[test]
fn a_client_that_has_ended_holds_nothing() {
    let world = World::new("leaves");
    world.prints(&["insert", "15", "one"]);
    world.prints(&["--number", "63", "scan", "0", "END"]);
    let client = world.client(1);
    let begun = Instant::now();
    assert_eq!(client.put(15, Value::from(2)), Ok(Outcome::Applied));
    assert!(begun.elapsed() < Duration::from_secs(5), "nobody had to be waited for");
    assert!(world.server.status().holdings.iter().all(|it| it.client != 63 || it.slots == 0));
}

/// There is no folder for lock files.
#[test]
fn a_get_and_a_short_scan_take_no_number() {
    let world = World::new("no-number");
    let client = world.client(1);
    for key in 0..200 {
        assert_eq!(client.insert(key, Value::from(key)), Ok(Outcome::Applied));
    }
    let run = |words: &[&str]| -> Ended {
        let words = [&["--timeout", "60s"], words].concat();
        world.command(&words).env("XDG_STATE_HOME", "/dev/null").output().unwrap().into()
    };
    assert_eq!(run(&["get", "7"]), ended(0, "7=u64:7\n", ""));
    assert_eq!(run(&["get", "200"]), ended(1, "", "krl-client: there is no row of key 200\n"));
    assert_eq!(run(&["scan", "72.."]).out.lines().count(), 128);
    for needs_a_client in [&["scan", "71.."][..], &["--number", "62", "get", "7"]] {
        let ended = run(needs_a_client);
        assert_eq!((ended.status, ended.out.as_str()), (4, ""), "{ended:?}");
    }
    assert_eq!(world.prints(&["scan", ".."]).lines().count(), 200);
    client.leave().unwrap();
}

#[test]
fn values_are_text_digits_or_numbers() {
    let world = World::new("values");
    world.prints(&["insert", "1", "text:u64:5"]);
    world.prints(&["insert", "2", "u64:5"]);
    world.prints(&["insert", "3", "hex:cafe"]);
    world.prints(&["insert", "4", "beef", "--hex"]);
    world.prints(&["--number-values", "insert", "5", "258"]);
    world.prints(&["--number-values", "insert", "6", "xff"]);
    let text = "1=text:u64:5\n2=u64:5\n3=hex:cafe\n4=hex:beef\n5=u64:258\n6=hex:ff\n";
    assert_eq!(world.prints(&["scan", "..",]), text);
    let numbers = "1=x7536343a35\n2=5\n3=xcafe\n4=xbeef\n5=258\n6=xff\n";
    assert_eq!(world.prints(&["scan", "..", "--number-values"]), numbers);
    let digits = "2=0000000000000005\n3=cafe\n";
    assert_eq!(world.prints(&["scan", "2", "4", "--hex"]), digits);
}

#[test]
fn what_is_printed_reads_back() {
    let world = World::new("back");
    for word in ["1=one", "2=u64:5", "3=hex:00ff", "4=", "5=text:hex:", "6=\u{e4}"] {
        world.prints(&["insert", word]);
    }
    for form in [&[][..], &["--hex"], &["--number-values"]] {
        let printed = world.prints(&[&["scan", ".."], form].concat());
        let lines = printed.replace('\n', "'\n");
        let lines = lines.lines().fold(String::new(), |all, row| all + "put '" + row + "\n");
        let read = world.run_lines(form, &lines);
        assert_eq!((read.status, read.out.lines().count()), (0, 6), "{read:?}");
        assert_eq!(world.prints(&[&["scan", ".."], form].concat()), printed);
    }
}

#[test]
fn answers_as_json() {
    let world = World::new("json");
    let json = |words: &[&str]| -> (i32, serde_json::Value) {
        let ended = world.run(&[words, &["--format", "json"]].concat());
        (ended.status, serde_json::from_str(&ended.out).unwrap())
    };
    assert_eq!(json(&["insert", "15", "one"]), (0, serde_json::json!({ "outcome": "applied" })));
    assert_eq!(json(&["insert", "15", "one"]), (1, serde_json::json!({ "outcome": "exists" })));
    assert_eq!(json(&["delete", "16"]), (1, serde_json::json!({ "outcome": "absent" })));
    let row = serde_json::json!({ "key": 15, "value": "one", "hex": "6f6e65" });
    assert_eq!(json(&["get", "15"]), (0, serde_json::json!({ "rows": [row] })));
    assert_eq!(json(&["get", "16"]), (1, serde_json::json!({ "rows": [] })));
    let (status, ping) = json(&["ping"]);
    assert_eq!((status, &ping["epoch"], &ping["client"]), (0, &1.into(), &63.into()));
    assert!(ping["round_trip_seconds"].as_f64().unwrap() > 0.0);
}

#[test]
fn ping_prints_the_server_and_the_epoch() {
    let world = World::new("ping");
    let printed = world.prints(&["ping"]);
    let head = format!("{} answered in ", world.server.address());
    assert!(printed.starts_with(&head) && printed.ends_with(", epoch 1\n"), "{printed}");
}

#[test]
fn words_that_cannot_be_understood_are_status_2() {
    let world = World::new("words");
    for (words, message) in [
        (&["get", "ten"][..], "'ten' is not a key: a number from 0 to 2^63 - 2 is expected"),
        (&["get", "9223372036854775807"], "is not a key"),
        (&["scan", "20", "10"], "'20 10' is not a range: LO HI or LO..HI is expected"),
        (&["scan", "10"], "'10' is not a range"),
        (&["insert", "15"], "'15' has no value: KEY VALUE is expected"),
        (&["insert", "15", "hex:abc"], "an even number of hexadecimal digits is expected"),
        (&["put", "15", &"a".repeat(33)], "a value has at most 32 bytes"),
        (&["put", "15", "x", "--number-values", "--hex"], "cannot be used with"),
        (&["fetch", "15"], "fetch"),
        (&["get"], "<KEY>"),
        (&["--server", "nowhere", "get", "1"], "--server"),
        (
            &["--number", "64", "get", "1"],
            "a number from 0 to 63, a range such as 56-63, or auto is expected",
        ),
        (&["--timeout", "soon", "get", "1"], "--timeout"),
        (&["--lock-file", "file", "get", "1"], "--lock-file needs a --number that is one number"),
        (&["bench", "--mix", "90,5"], "two numbers whose sum is 100 are expected"),
        (&["bench", "--keys", "5", "--rows", "6"], "a read of 6 rows needs as many keys"),
        (&["bench", "--first-key", "9223372036854775800"], "give a lower --first-key"),
        (&["hold", "1", "2"], "COMMAND"),
        (&["hold", "2", "1", "--", "true"], "is not a range"),
        (&["watch", "1", "1"], "is not a range"),
    ] {
        let ended = world.run(words);
        assert_eq!((ended.status, ended.out.as_str()), (2, ""), "{words:?}: {ended:?}");
        assert!(ended.errors.contains(message), "{words:?}: {}", ended.errors);
    }
}

#[test]
fn an_option_that_a_variable_sets_is_not_shown_as_missing() {
    let world = World::new("missing");
    for (words, missing, usage) in [
        (&["get"][..], "<KEY>", "krl-client get [OPTIONS] <KEY>\n"),
        (
            &["hold", "1"],
            "<COMMAND>...",
            "krl-client hold [OPTIONS] <LO..HI|LO HI> -- <COMMAND>...\n",
        ),
    ] {
        let ended = world.run(words);
        assert!(ended.errors.contains(&format!("not provided:\n  {missing}\n")), "{ended:?}");
        assert!(ended.errors.contains(&format!("Usage: {usage}")), "{ended:?}");
        assert!(!ended.errors.contains("--server"), "KRL_SERVER is set: {ended:?}");
    }
}

#[test]
fn help_lists_the_statuses_and_the_forms() {
    let world = World::new("help");
    let help = world.prints(&["--help"]);
    for word in ["Exit status:", "hex:cafe", "KEY=VALUE", "56", "KRL_SERVER", "Examples:"] {
        assert!(help.contains(word), "{word}: {help}");
    }
    let page = include_str!("../README.md");
    for status in [0, 1, 2, 3, 4, 125, 126, 127, 130, 141] {
        let begins = format!("  {status:<5}");
        assert!(help.lines().any(|line| line.starts_with(&begins)), "{status}: {help}");
        assert!(page.contains(&format!("\n| {status} | ")), "{status} in README.md");
    }
    assert!(help.lines().all(|line| line.len() <= 100), "{help}");
    assert!(world.prints(&["hold", "--help"]).contains("--update"));
    assert!(world.prints(&["--version"]).starts_with("krl-client "));
}

#[test]
fn a_server_that_does_not_answer_is_status_3() {
    let world = World::new("nobody");
    let ended = world.run(&["--server", "127.0.0.1:1", "--timeout", "300ms", "get", "1"]);
    assert_eq!(ended.status, 3, "{ended:?}");
    assert!(
        ended.errors.contains("the server at 127.0.0.1:1 can't be reached: Connection refused"),
        "{ended:?}"
    );
    let ended = world.run(&["--server", "127.0.0.1:1", "--timeout", "60s", "get", "1"]);
    assert_eq!(ended.status, 3, "{ended:?}");
    assert!(
        ended.errors.contains("nothing listens at 127.0.0.1:1: Connection refused"),
        "{ended:?}"
    );
    let client = world.client(1);
    assert_eq!(client.insert(15, Value::from(1)), Ok(Outcome::Applied));
    let (_, pin) = client.pin_for_read(10..20).unwrap();
    // The client has to join within the time, for which a busy machine may need longer.
    let put = |time| world.run(&["--timeout", time, "put", "15", "a"]);
    let has_joined = |ended: &Ended| ended.errors.contains("the write was not made");
    let ended = ["300ms", "5s", "60s"].into_iter().map(put).find(has_joined).unwrap();
    assert_eq!((ended.status, ended.out.as_str()), (3, ""), "{ended:?}");
    assert!(ended.errors.contains("another client holds what it needs"), "{ended:?}");
    assert!(!ended.errors.contains("may have been applied"), "{ended:?}");
    drop(pin);
    assert_eq!(world.prints(&["put", "15", "a"]), "applied\n");
}

#[test]
fn a_client_that_cannot_join_is_status_4() {
    let world = World::new("join");
    let file = world.folder.join("own-5.lock");
    let lock_file = file.to_str().unwrap();
    let client = world.client(5);
    let words = ["--number", "5", "--lock-file", lock_file, "get", "1"];
    let ended = world.run(&words);
    assert_eq!(ended.status, 4, "{ended:?}");
    assert!(ended.errors.contains("another process is the client of number 5"), "{ended:?}");
    client.leave().unwrap();
    // A process that another test starts just now has the file open too, for a moment.
    wait_for("the lock file is free", || world.run(&words).status == 1);
    std::fs::write(&file, "mine").unwrap();
    let ended = world.run(&words);
    assert_eq!(ended.status, 4, "{ended:?}");
    assert!(ended.errors.contains("not the lock file of this client number"), "{ended:?}");
    let blocked = world.command(&["delete", "1"]).env("XDG_STATE_HOME", &file).output().unwrap();
    let blocked = Ended::from(blocked);
    assert_eq!(blocked.status, 4, "{blocked:?}");
    assert!(blocked.errors.contains("can't be made"), "{blocked:?}");
}

#[test]
fn the_greatest_free_number_is_taken() {
    let world = World::new("numbers");
    let number = |range: &str| -> (i32, String) {
        let ended = world.run(&["--number", range, "--format", "json", "ping"]);
        let printed: serde_json::Value = serde_json::from_str(&ended.out).unwrap_or_default();
        (ended.status, printed["client"].to_string())
    };
    // What is held ends here.
    world.prints(&["insert", "3=a"]);
    let mut first = world.spawn(&["hold", "1", "2", "--", "sleep", "60"]);
    world.wait_until_held(63);
    assert_eq!(number("56-63"), (0, "62".into()));
    assert_eq!(number("40-47"), (0, "47".into()));
    assert_eq!(number("7"), (0, "7".into()));
    let ended = world.run(&["--number", "63-63", "ping"]);
    assert_eq!(ended.status, 4, "{ended:?}");
    let rows = world.folder.join("rows.csv");
    std::fs::write(&rows, "key,value\n5,a\n6,b\n").unwrap();
    let words = ["--number", "61-63", "import", rows.to_str().unwrap(), "--clients", "2"];
    assert_eq!(world.prints(&words), "imported 2 rows\n");
    let ended = world.run(&["--number", "62-63", "bench", "--clients", "2"]);
    assert_eq!(ended.status, 4, "{ended:?}");
    assert!(ended.errors.contains("too few of the client numbers 62 to 63 are free"), "{ended:?}");
    support::signal(&first, nix::sys::signal::Signal::SIGTERM);
    first.wait().unwrap();
    assert_eq!(number("56-63"), (0, "63".into()));
}

#[test]
fn a_number_that_another_user_has_is_reported_and_the_next_one_is_tried() {
    let world = World::leased("users", 4 * LONG);
    let mut hold = world.spawn(&["hold", "10", "20", "--", "sleep", "60"]);
    world.wait_until_held(63);
    let other = World::folder_of("other-user");
    let run = |words: &[&str]| -> Ended {
        world.command(words).env("XDG_STATE_HOME", &other).output().unwrap().into()
    };
    let pinged = run(&["--format", "json", "--timeout", "25s", "ping"]);
    assert_eq!(pinged.status, 0, "{pinged:?}");
    assert!(pinged.out.contains(r#""client":62"#), "{pinged:?}");
    let ended = run(&["--number", "63", "--timeout", "2s", "get", "1"]);
    assert_eq!(ended.status, 3, "{ended:?}");
    assert!(ended.errors.starts_with("krl-client: number 63 is in use: give another"), "{ended:?}");
    signal(&hold, Signal::SIGTERM);
    hold.wait().unwrap();
    std::fs::remove_dir_all(other).unwrap();
}

/// The lock file of a number keeps what a wrong clock has left in it.
#[test]
fn a_number_whose_clock_was_wrong_is_left_for_the_next_one() {
    let world = World::new("ahead");
    let file = world.folder.join("krl/client-63.lock");
    std::fs::create_dir(world.folder.join("krl")).unwrap();
    // Of the year 2046.
    std::fs::write(&file, "krl client 63 incarnation 02426388266503144698\n").unwrap();
    let pinged = world.run(&["--format", "json", "ping"]);
    assert!(pinged.status == 0 && pinged.out.contains(r#""client":62"#), "{pinged:?}");
    let ended = world.run(&["--number", "63", "ping"]);
    assert_eq!(ended.status, 3, "{ended:?}");
    let file = format!("Its lock file is {}", file.display());
    for why in ["more than a day ahead of the server's clock", &file] {
        assert!(ended.errors.contains(why), "{why}: {ended:?}");
    }
}

#[test]
fn lines_of_a_pipe_run_until_one_fails() {
    let world = World::new("lines");
    let lines = "# rows\ninsert 1 'a b'\ninsert 2 c\n\nscan 0..9\n";
    let ended = world.run_lines(&[], lines);
    assert_eq!((ended.status, ended.errors.as_str()), (0, ""), "{ended:?}");
    assert_eq!(ended.out, "applied\napplied\n1=a b\n2=c\n");
    let ended = world.run_lines(&[], "put 1 d\nput 3 d\nput 2 d\n");
    assert_eq!((ended.status, ended.out.as_str()), (1, "applied\n"), "{ended:?}");
    assert!(ended.errors.contains("line 2 ended with status 1: put 3 d"), "{ended:?}");
    assert_eq!(world.prints(&["scan", "0..9"]), "1=d\n2=c\n");
    let ended = world.run_lines(&[], "put 1 'd\n");
    assert_eq!(ended.status, 2, "{ended:?}");
    assert!(ended.errors.contains("a quote is not closed"), "{ended:?}");
    let ended = world.run_lines(&[], "hold 0 9 -- sh -c 'exit 7'\nput 1 e\n");
    assert_eq!((ended.status, ended.out.as_str()), (7, ""), "{ended:?}");
}

#[test]
fn an_output_that_nobody_reads_ends_it_quietly() {
    let world = World::new("pipe");
    for key in 0..9 {
        world.prints(&["insert", &key.to_string(), "a"]);
    }
    let mut program = world.command(&[]).stdin(Stdio::piped()).spawn().unwrap();
    drop(program.stdout.take());
    let input = program.stdin.take().unwrap();
    std::io::Write::write_all(&mut &input, b"scan ..\nscan ..\n").unwrap();
    drop(input);
    let mut errors = String::new();
    program.stderr.take().unwrap().read_to_string(&mut errors).unwrap();
    assert_eq!(program.wait().unwrap().code(), Some(141));
    assert!(!errors.contains("output") && !errors.contains("panicked"), "{errors}");
}
