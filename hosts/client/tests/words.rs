//! Words that users of other stores look for: `set`, the deletion of a range, files of rows,
//! suggestions and completion.
mod support;

use krl::{Outcome, Value};
use std::path::{Path, PathBuf};
use std::thread;
use std::time::Duration;
use support::{Ended, World};

/// A file of the world with this text.
fn file(world: &World, name: &str, text: &str) -> PathBuf {
    let path = world.folder.join(name);
    std::fs::write(&path, text).unwrap();
    path
}

fn import(world: &World, path: &Path, words: &[&str]) -> Ended {
    world.run(&[&["import", path.to_str().unwrap()], words].concat())
}

#[test]
fn a_key_is_set_whether_or_not_it_has_a_row() {
    let world = World::new("set");
    for (row, expected) in [("15=one", "15=one\n"), ("15=two", "15=two\n"), ("15=", "15=\n")] {
        assert_eq!(world.prints(&["set", row]), "applied\n");
        assert_eq!(world.prints(&["get", "15"]), expected);
    }
    let json = world.prints(&["--json", "set", "16", "hex:cafe"]);
    assert_eq!(json, "{\"outcome\":\"applied\"}\n");
    assert_eq!(world.prints(&["scan", ".."]), "15=\n16=hex:cafe\n");
    let lines = world.run_lines(&[], "set 17 a\nset 17 b\ndel 15\nget 17\n");
    assert_eq!((lines.status, lines.out.as_str()), (0, "applied\napplied\napplied\n17=b\n"));
    assert_eq!(world.run(&["set", "15"]).status, 2);
}

#[test]
fn the_rows_of_a_range_are_deleted() {
    let world = World::new("del");
    for key in 10..20 {
        world.prints(&["insert", &key.to_string(), "a"]);
    }
    assert_eq!(world.prints(&["del", "12..15"]), "deleted 3 rows\n");
    assert_eq!(world.prints(&["delete", "10", "12"]), "deleted 2 rows\n");
    assert_eq!(world.prints(&["--json", "delete", "0", "15"]), "{\"deleted\":0}\n");
    assert_eq!(world.prints(&["del", "15"]), "applied\n");
    assert_eq!(world.prints(&["del", "19.."]), "deleted 1 row\n");
    assert_eq!(world.prints(&["scan", ".."]), "16=a\n17=a\n18=a\n");
    let client = world.client(1);
    let (_, pin) = client.pin_for_read(18..19).unwrap();
    let ended = world.run(&["--timeout", "5s", "del", "16..19"]);
    assert_eq!((ended.status, ended.out.as_str()), (3, ""), "{ended:?}");
    assert!(ended.errors.ends_with("; rows deleted before: 1\n"), "{ended:?}");
    drop(pin);
    world.prints(&["del", ".."]);
    assert_eq!(world.prints(&["scan", ".."]), "");
}

#[test]
fn what_is_exported_is_imported() {
    let world = World::new("export");
    for row in ["1=one", "2=u64:5", "3=hex:00ff", "4=", "5=text:hex:", "6=a,\"b\"", "7=\u{e4}"] {
        world.prints(&["set", row]);
    }
    let printed = world.prints(&["scan", ".."]);
    for form in [&[][..], &["--hex"], &["--number-values"]] {
        for (name, json) in [("rows.csv", &[][..]), ("rows.jsonl", &["--json"])] {
            let text = world.prints(&[&["export"], form, json].concat());
            assert_eq!(text.lines().count(), if json.is_empty() { 8 } else { 7 }, "{text}");
            let path = file(&world, name, &text);
            assert_eq!(world.prints(&["del", ".."]), "deleted 7 rows\n");
            let ended = import(&world, &path, form);
            assert_eq!((ended.status, ended.out.as_str()), (0, "imported 7 rows\n"), "{ended:?}");
            assert_eq!(world.prints(&["scan", ".."]), printed, "{name} {form:?}");
        }
    }
    assert_eq!(world.prints(&["export", "1..3"]), "key,value\n1,one\n2,u64:5\n");
    assert_eq!(world.prints(&["export", "9", "20"]), "key,value\n");
}

#[test]
fn standard_input_is_imported() {
    let world = World::new("import-input");
    let mut command = world.command(&["import", "-"]);
    let path = file(&world, "rows", "1,one\n2,two\n");
    let ended = Ended::from(command.stdin(std::fs::File::open(path).unwrap()).output().unwrap());
    assert_eq!((ended.status, ended.out.as_str()), (0, "imported 2 rows\n"), "{ended:?}");
    assert_eq!(world.prints(&["scan", ".."]), "1=one\n2=two\n");
    let path = file(&world, "bad", "1,\"one\n2,two\n");
    let mut command = world.command(&["import", "-", "--existing", "replace"]);
    let ended = Ended::from(command.stdin(std::fs::File::open(path).unwrap()).output().unwrap());
    let message = "standard input, line 1 can't be read: it opens a quote that is never closed";
    assert!(ended.status == 2 && ended.errors.contains(message), "{ended:?}");
}

#[test]
fn an_export_that_nobody_reads_ends_quietly() {
    let world = World::new("unread");
    world.prints(&["set", "15", "one"]);
    for words in [&["export"][..], &["export", "--json"]] {
        let (reader, writer) = std::io::pipe().unwrap();
        drop(reader);
        let ended = Ended::from(world.command(words).stdout(writer).output().unwrap());
        assert_eq!((ended.status, ended.errors.as_str()), (141, ""), "{words:?}");
    }
}

#[test]
fn rows_that_are_there_are_refused_kept_or_replaced() {
    let world = World::new("existing");
    world.prints(&["set", "5", "old"]);
    let path = file(&world, "rows.csv", "key,value\n4,a\n5,b\n6,c\n");
    let ended = import(&world, &path, &[]);
    assert_eq!((ended.status, ended.out.as_str()), (1, ""), "{ended:?}");
    for why in [
        "line 3: there is a row of key 5 already: --existing keep leaves such rows as they are",
        "; rows written before: 1, and --existing keep writes the rest\n",
    ] {
        assert!(ended.errors.contains(why), "{ended:?}");
    }
    assert_eq!(world.prints(&["scan", ".."]), "4=a\n5=old\n");
    let kept = import(&world, &path, &["--existing", "keep"]);
    assert_eq!(kept.out, "imported 1 row, kept 2 that were there\n");
    assert_eq!(world.prints(&["scan", ".."]), "4=a\n5=old\n6=c\n");
    let replaced = import(&world, &path, &["--existing", "replace", "--clients", "3"]);
    assert_eq!((replaced.status, replaced.out.as_str()), (0, "imported 3 rows\n"), "{replaced:?}");
    assert_eq!(world.prints(&["scan", ".."]), "4=a\n5=b\n6=c\n");
    let lines = file(&world, "rows", "{\"key\":4,\"value\":\"d\"}\n");
    let json = import(&world, &lines, &["--json", "--existing", "replace"]);
    assert_eq!(json.out, "{\"imported\":1,\"kept\":0}\n", "{json:?}");
}

#[test]
fn a_bad_file_is_reported_and_nothing_is_written() {
    let world = World::new("bad-file");
    for (text, message) in [
        ("1,a\nx,b\n", "line 2: 'x' is not a key"),
        ("1,a\n2\n", "line 2: it has 1 columns, and two are expected: key,value"),
        ("1,a\n2,b\n1,c\n", "line 3: the key 1 has a row in line 1 already"),
        ("1,a\n2,aaaaaaaaaaaaaaaaaaaaaaaaaaaaaaaaa\n", "line 2: a value has at most 32 bytes"),
    ] {
        let ended = import(&world, &file(&world, "rows.csv", text), &[]);
        assert_eq!((ended.status, ended.out.as_str()), (2, ""), "{ended:?}");
        assert!(ended.errors.contains(message), "{ended:?}");
    }
    for (path, why) in [("/nowhere.csv", "can't be read"), ("/dev/zero", "more than 4096 bytes")] {
        let ended = import(&world, Path::new(path), &[]);
        assert_eq!(ended.status, 2, "{ended:?}");
        assert!(ended.errors.contains(why), "{ended:?}");
    }
    assert_eq!(world.prints(&["scan", ".."]), "");
}

#[test]
fn several_clients_import_at_once() {
    let world = World::new("clients");
    let text = (0..500).map(|key| format!("{},v{key}\n", 7 * key)).collect::<Vec<_>>().concat();
    let path = file(&world, "rows.csv", &text);
    let ended = import(&world, &path, &["--clients", "4"]);
    assert_eq!((ended.status, ended.out.as_str()), (0, "imported 500 rows\n"), "{ended:?}");
    let exported = world.prints(&["export"]);
    assert_eq!(exported, format!("key,value\n{text}"));
    let few = import(&world, &path, &["--clients", "2", "--number", "5"]);
    assert_eq!(few.status, 4, "{few:?}");
}

#[test]
fn the_command_of_a_hold_knows_the_incarnation() {
    let world = World::new("incarnation");
    let printed = || {
        let words = ["hold", "1", "9", "--", "sh", "-c", "echo $KRL_INCARNATION"];
        world.prints(&words).trim_end().parse::<u64>().unwrap()
    };
    let (first, second) = (printed(), printed());
    assert!(first > 0 && second > first, "{first} {second}");
}

#[test]
fn any_free_number_is_taken() {
    let world = World::new("auto");
    let clients: Vec<_> = ["auto"; 3]
        .map(|number| world.spawn(&["--number", number, "hold", "1", "2", "--", "sleep", "60"]))
        .into();
    for number in [61, 62, 63] {
        world.wait_until_held(number);
    }
    let words = ["--number", "auto", "--json", "ping"];
    assert!(world.prints(&words).contains("\"client\":60"));
    for mut client in clients {
        support::signal(&client, nix::sys::signal::Signal::SIGTERM);
        client.wait().unwrap();
    }
}

#[test]
fn a_wrong_word_gets_a_suggestion() {
    let world = World::new("suggestion");
    for (word, meant) in [("isnert", "insert"), ("dlete", "delete"), ("imprt", "import")] {
        let ended = world.run(&[word, "15"]);
        assert_eq!(ended.status, 2, "{ended:?}");
        assert!(ended.errors.contains(&format!("'{meant}'")), "{ended:?}");
    }
    let ended = world.run(&["gte", "15"]);
    assert_eq!((ended.status, ended.out.as_str()), (2, ""));
    assert!(ended.errors.ends_with("krl-client: did you mean 'get'?\n"), "{ended:?}");
    let ended = world.run_lines(&[], "gte 15\n");
    assert!(ended.errors.contains("did you mean 'get'?"), "{ended:?}");
    let ended = world.run(&["get", "15", "--jsn"]);
    assert!(ended.errors.contains("--json"), "{ended:?}");
    let ended = world.run_lines(&[], "isnert 15\n");
    assert!(ended.errors.contains("'insert'"), "{ended:?}");
}

#[test]
fn shells_complete_its_words() {
    let world = World::new("completion");
    for shell in ["bash", "zsh", "fish", "elvish", "powershell"] {
        let script = world.prints(&["completion", shell]);
        for word in ["krl-client", "import", "existing"] {
            assert!(script.contains(word), "{shell}: {word}");
        }
    }
    let script = file(&world, "krl-client.bash", &world.prints(&["completion", "bash"]));
    let complete = format!(
        ". {}; COMP_WORDS=(krl-client exp); COMP_CWORD=1; _krl-client krl-client exp krl-client; \
         echo ${{COMPREPLY[@]}}",
        script.display()
    );
    let bash = std::process::Command::new("bash").args(["-c", &complete]).output();
    if let Ok(bash) = bash {
        assert_eq!(String::from_utf8_lossy(&bash.stdout), "export\n", "{bash:?}");
    }
    assert_eq!(world.run(&["completion", "tcsh"]).status, 2);
}

#[test]
fn others_write_while_a_range_is_deleted_and_a_file_is_imported() {
    let world = World::new("others");
    let client = world.client(1);
    let text = (0..300).map(|key| format!("{key},a\n")).collect::<Vec<_>>().concat();
    let path = file(&world, "rows.csv", &text);
    thread::scope(|scope| {
        let writes = scope.spawn(|| {
            for number in 0..100u64 {
                let set = client.set(number * 3, Value::from(number));
                assert_eq!(set, Ok(Outcome::Applied));
                thread::sleep(Duration::from_millis(1));
            }
        });
        let ended = import(&world, &path, &["--existing", "replace"]);
        assert_eq!((ended.status, ended.out.as_str()), (0, "imported 300 rows\n"), "{ended:?}");
        writes.join().unwrap();
    });
    assert_eq!(client.read(..).unwrap().len(), 300);
    client.leave().unwrap();
    assert_eq!(world.prints(&["del", ".."]), "deleted 300 rows\n");
}
