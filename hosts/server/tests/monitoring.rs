//! The alert rules and the dashboard: each figure that they name is one that a server shows.
mod common;

use common::{Serving, errors, program};
use serde_json::Value;
use std::collections::BTreeSet;
use std::path::PathBuf;
use std::process::Command;

fn file(name: &str) -> PathBuf {
    [env!("CARGO_MANIFEST_DIR"), "../packaging/monitoring", name].iter().collect()
}

fn read(name: &str) -> String {
    std::fs::read_to_string(file(name)).unwrap()
}

/// The figures that a text names.
fn named(text: &str) -> BTreeSet<String> {
    let is_part = |it: char| it.is_ascii_alphanumeric() || it == '_';
    let words = text.split(|it| !is_part(it)).filter(|word| word.starts_with("krl_"));
    words.map(of_histogram).collect()
}

/// The figure of a sample's name: a histogram has several.
fn of_histogram(name: &str) -> String {
    let ends = ["_bucket", "_sum", "_count"];
    ends.iter().find_map(|end| name.strip_suffix(end)).unwrap_or(name).to_string()
}

/// The figures that a server with a certificate shows.
fn shown() -> BTreeSet<String> {
    let folder = tempfile::tempdir().unwrap();
    let script = concat!(env!("CARGO_MANIFEST_DIR"), "/../packaging/certificates");
    let made = Command::new(script).arg(folder.path()).arg("server").output().unwrap();
    assert!(made.status.success(), "{}", errors(&made));
    let mut command = program();
    command.arg("serve").arg("--store").arg(folder.path().join("krl.db"));
    command.args(["--listen", "tls:127.0.0.1:0"]);
    for (flag, name) in
        [("authority", "authority.crt"), ("certificate", "server.crt"), ("key", "server.key")]
    {
        command.arg(format!("--tls-{flag}")).arg(folder.path().join(name));
    }
    let (status, page) = Serving::start_by(&mut command).get("/metrics");
    assert_eq!(status, 200);
    let types = page.lines().filter_map(|line| line.strip_prefix("# TYPE "));
    types.map(|line| line.split(' ').next().unwrap().to_string()).collect()
}

#[test]
fn each_figure_of_the_rules_and_of_the_dashboard_is_shown() {
    let shown = shown();
    for name in ["krl.rules.yml", "dashboard.json"] {
        let named: Vec<_> = named(&read(name)).into_iter().collect();
        let unknown: Vec<_> = named.iter().filter(|it| !shown.contains(*it)).collect();
        assert!(unknown.is_empty(), "{name}: {unknown:?} is not one of {shown:?}");
        assert!(named.len() > 10, "{name}: {named:?}");
    }
}

#[test]
fn the_panels_of_the_dashboard_lie_side_by_side() {
    let dashboard: Value = serde_json::from_str(&read("dashboard.json")).unwrap();
    let mut places = BTreeSet::new();
    for panel in dashboard["panels"].as_array().unwrap() {
        let number = |name: &str| panel["gridPos"][name].as_u64().unwrap();
        assert!(number("x") + number("w") <= 24, "{panel}");
        let (x, y) =
            (number("x")..number("x") + number("w"), number("y")..number("y") + number("h"));
        for place in x.flat_map(|x| y.clone().map(move |y| (x, y))) {
            assert!(places.insert(place), "{panel}");
        }
        let targets = panel["targets"].as_array().unwrap();
        assert!(!targets.is_empty() && targets.iter().all(|it| it["expr"].is_string()), "{panel}");
    }
}

/// Runs promtool with these words. It is not run where there is none.
fn promtool(words: &[&str], name: &str) {
    let mut command = Command::new("promtool");
    let Ok(ended) = command.args(words).arg(file(name)).output() else {
        let has_to_run = std::env::var_os("KRL_ALL").is_some_and(|all| !all.is_empty());
        assert!(!has_to_run, "there is no promtool");
        eprintln!("NOT RUN: there is no promtool");
        return;
    };
    let printed = String::from_utf8_lossy(&ended.stdout);
    assert!(ended.status.success(), "{name}: {printed}{}", errors(&ended));
}

#[test]
fn prometheus_takes_the_rules_and_they_alert() {
    promtool(&["check", "rules"], "krl.rules.yml");
    promtool(&["test", "rules"], "krl.rules.test.yml");
    promtool(&["check", "config", "--syntax-only"], "scrape.yml");
}
