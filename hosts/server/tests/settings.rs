//! Settings by flags, by the environment and by a file, and those that can't be used.
mod common;

use common::{errors, program, run, text};
use std::path::Path;
use std::process::{Command, Output};

const DEFAULTS: &str = "\
listen = \"127.0.0.1:7400\" # by default
store = \"krl.db\" # by default
store-writes = \"joined\" # by default
reach = 128 # by default
status = \"127.0.0.1:7401\" # by default
log-level = \"info\" # by default
log-format = \"text\" # by default
lease = \"10s\" # by default
drift = 25 # by default
";

fn file(folder: &Path, text: &str) -> String {
    let path = folder.join("krl.toml");
    std::fs::write(&path, text).unwrap();
    path.to_str().unwrap().to_string()
}

/// The status is 2, nothing is printed, and the sentence has all of these words.
fn is_refused(output: &Output, words: &[&str]) {
    let message = errors(output);
    assert_eq!(output.status.code(), Some(2), "{message}");
    assert_eq!(text(output), "");
    assert!(words.iter().all(|word| message.contains(word)), "{words:?} are not in: {message}");
}

#[test]
fn defaults() {
    let output = run(&["config"]);
    assert_eq!((text(&output).as_str(), output.status.code()), (DEFAULTS, Some(0)));
}

#[test]
fn help_fits_into_a_page_and_has_each_exit_status() {
    for words in [&["--help"][..], &["serve", "--help"], &["status", "-h"]] {
        let help = text(&run(words));
        // Wrapped at 100, and an [env: ..] may pass that.
        let widest = help.lines().map(|line| line.chars().count()).max();
        assert!(widest.is_some_and(|widest| widest <= 110), "{words:?}: {widest:?}");
    }
    let help = text(&run(&["--help"]));
    for status in 0..=3 {
        assert!(help.contains(&format!("\n  {status}  ")), "{status}: {help}");
    }
}

#[test]
fn a_flag_comes_before_the_environment_and_that_before_the_file() {
    let folder = tempfile::tempdir().unwrap();
    let path = file(
        folder.path(),
        "listen = \"127.0.0.1:1\"\n\
         store = \"1.db\"\n\
         store-writes = \"single\"\n\
         room = 100\n\
         reach = 64\n\
         status = \"127.0.0.1:1\"\n\
         others = \"127.0.0.1:4 127.0.0.1:5\"\n\
         log-level = \"warn\"\n\
         lease = \"500ms\"\n\
         drift = 7\n",
    );
    let mut command = program();
    command
        .env("KRL_DRIFT", "30")
        .env("KRL_REACH", "8")
        .env("KRL_LISTEN", "127.0.0.1:2")
        .env("KRL_STORE", "2.db")
        .env("KRL_STATUS", "off");
    command.args(["config", "--config", &path, "--listen", "unix:/run/krl", "--status", "[::1]:3"]);
    let output = command.output().unwrap();
    let expected = format!(
        "listen = \"unix:/run/krl\" # from the flag --listen\n\
         store = \"2.db\" # from the environment, KRL_STORE\n\
         store-writes = \"single\" # from the file {path}\n\
         room = 100 # from the file {path}\n\
         reach = 8 # from the environment, KRL_REACH\n\
         status = \"[::1]:3\" # from the flag --status\n\
         others = \"127.0.0.1:4 127.0.0.1:5\" # from the file {path}\n\
         log-level = \"warn\" # from the file {path}\n\
         log-format = \"text\" # by default\n\
         lease = \"500ms\" # from the file {path}\n\
         drift = 30 # from the environment, KRL_DRIFT\n"
    );
    assert_eq!((text(&output), output.status.code()), (expected, Some(0)));
}

#[test]
fn what_is_printed_is_a_file_with_the_same_settings() {
    let folder = tempfile::tempdir().unwrap();
    let words = ["config", "--store", "a \"b\" # c.db", "--log-format", "json", "--status", "off"];
    let printed = text(&run(&words));
    let path = file(folder.path(), &printed);
    let again = text(&run(&["config", "--config", &path]));
    let values = |text: &str| -> Vec<String> {
        let value = |line: &str| line.rsplit_once(" # ").unwrap().0.to_string();
        text.lines().map(value).collect()
    };
    assert_eq!(values(&printed), values(&again));
    assert!(again.lines().all(|line| line.ends_with(&path)), "{again}");
}

#[test]
fn a_bad_value_is_reported_with_its_key_and_what_is_expected() {
    let folder = tempfile::tempdir().unwrap();
    for (key, value, expected) in [
        ("listen", "here", "an address such as 127.0.0.1:7400"),
        ("store", "", "the path of a file"),
        ("store-writes", "double", "joined or single"),
        ("status", "127.0.0.1", "127.0.0.1:7401, or off"),
        ("others", &"127.0.0.1:1 ".repeat(64), "at most 63"),
        ("log-level", "loud", "error, warn, info, debug or trace"),
        ("log-format", "xml", "text or json"),
        ("lease", "10", "such as 10s or 500ms"),
    ] {
        let found = format!("{key} is '{value}'");
        let flag = format!("--{key}");
        is_refused(&run(&["serve", &flag, value]), &[&found, expected, &flag]);
        let variable = format!("KRL_{}", key.replace('-', "_").to_uppercase());
        let output = program().arg("config").env(&variable, value).output().unwrap();
        is_refused(&output, &[&found, expected, &variable]);
        let path = file(folder.path(), &format!("{key} = \"{value}\"\n"));
        is_refused(&run(&["serve", "--config", &path]), &[&found, expected, &path]);
    }
}

/// The settings of the file that a package installs, also those that it has as comments.
#[test]
fn each_setting_of_the_installed_file_is_accepted() {
    let folder = tempfile::tempdir().unwrap();
    let script = concat!(env!("CARGO_MANIFEST_DIR"), "/../packaging/certificates");
    let made = Command::new(script).arg(folder.path()).arg("server").output().unwrap();
    assert!(made.status.success(), "{}", errors(&made));
    let installed = include_str!("../../packaging/krl.toml");
    let installed = installed.replace("/etc/krl", folder.path().to_str().unwrap());
    let is_setting = |line: &str| {
        let key = line.trim_start_matches("# ").split_once(" = ").map(|(key, _)| key);
        key.is_some_and(|key| key.bytes().all(|it| it == b'-' || it.is_ascii_lowercase()))
    };
    let settings: Vec<_> = installed.lines().filter(|line| is_setting(line)).collect();
    assert_eq!(settings.len(), installed.matches(" = ").count(), "{installed}");
    let settings: Vec<_> = settings.iter().map(|line| line.trim_start_matches("# ")).collect();
    let text = settings.join("\n");
    let path = file(folder.path(), &text);
    let printed = run(&["config", "--config", &path]);
    assert_eq!(printed.status.code(), Some(0), "{}", errors(&printed));
    for setting in text.lines() {
        assert!(common::text(&printed).contains(setting), "{setting} is not in force");
    }
}

#[test]
fn a_bad_file_is_reported() {
    let folder = tempfile::tempdir().unwrap();
    let path = file(folder.path(), "lisen = \"127.0.0.1:1\"\n");
    let words = ["lisen", "expected one of", "listen", "line 1", &path];
    is_refused(&run(&["serve", "--config", &path]), &words);
    let path = file(folder.path(), "store = 5\n");
    is_refused(&run(&["config", "--config", &path]), &["integer `5`", "a string", "store", &path]);
    let path = file(folder.path(), "store\n");
    is_refused(&run(&["config", "--config", &path]), &["line 1", &path]);
    let path = folder.path().join("none.toml");
    let path = path.to_str().unwrap();
    is_refused(&run(&["serve", "--config", path]), &["No such file", path]);
}

#[test]
fn the_packaged_file_sets_each_key() {
    let path = concat!(env!("CARGO_MANIFEST_DIR"), "/../packaging/krl.toml");
    let output = run(&["config", "--config", path]);
    let end = format!("# from the file {path}");
    let printed = text(&output);
    assert_eq!(
        (printed.lines().count(), output.status.code()),
        (9, Some(0)),
        "{}",
        errors(&output)
    );
    assert!(printed.lines().all(|line| line.ends_with(&end)), "{printed}");
}

#[test]
fn bad_words_are_reported() {
    for words in [&[][..], &["serv"], &["serve", "x"], &["serve", "--speed", "3"], &["evict"]] {
        let output = run(words);
        assert_eq!(output.status.code(), Some(2), "{words:?}");
        assert!(errors(&output).contains("Usage: krl-server"), "{words:?}");
    }
    is_refused(&run(&["evict", "127.0.0.1:1", "64", "x.lock"]), &["64", "0..64"]);
    is_refused(&run(&["evict", "nowhere", "3", "x.lock"]), &["nowhere", "127.0.0.1:7400"]);
}

#[test]
fn help_and_version() {
    let help = run(&["--help"]);
    assert_eq!(help.status.code(), Some(0));
    let help = text(&help);
    for word in
        ["serve", "config", "status", "evict", "backup", "check", "Exit statuses", "Examples"]
    {
        assert!(help.contains(word), "no {word} in {help}");
    }
    let version = run(&["--version"]);
    assert_eq!(text(&version), format!("krl-server {}\n", env!("CARGO_PKG_VERSION")));
}
