//! The script that makes backups with dates, and the one that rehearses a restore.
mod common;

use common::{Serving, errors, text};
use krl::{Outcome, Value};
use std::path::{Path, PathBuf};
use std::process::{Command, Output};
use std::time::Duration;

/// A script of the folder of backups, which finds the program.
fn script(name: &str) -> Command {
    let folder = concat!(env!("CARGO_MANIFEST_DIR"), "/../packaging/backup");
    let program = Path::new(env!("CARGO_BIN_EXE_krl-server")).parent().unwrap();
    let path = std::env::var("PATH").unwrap();
    let mut command = Command::new(Path::new(folder).join(name));
    command.env("PATH", format!("{}:{path}", program.display()));
    command
}

fn back_up(serving: &Serving, folder: &Path, words: &[&str]) -> Output {
    let mut command = script("krl-backup");
    command.env("KRL_STATUS", &serving.status).arg(folder).args(words).output().unwrap()
}

fn rehearse(place: &Path) -> Output {
    script("krl-rehearse-restore").arg(place).output().unwrap()
}

fn backups(folder: &Path) -> Vec<PathBuf> {
    let files = std::fs::read_dir(folder).unwrap().map(|it| it.unwrap().path());
    let mut files: Vec<_> = files.filter(|it| it.extension().unwrap() == "db").collect();
    files.sort();
    files
}

#[test]
fn a_backup_has_a_date_and_is_restored_in_a_rehearsal() {
    let folder = tempfile::tempdir().unwrap();
    let backups_at = folder.path().join("backups");
    std::fs::create_dir(&backups_at).unwrap();
    let serving = Serving::start(&folder.path().join("krl.db"));
    let client = serving.join(folder.path(), 3);
    for key in 0..50 {
        assert_eq!(client.insert(key, Value::from(key)), Ok(Outcome::Applied));
    }
    let made = back_up(&serving, &backups_at, &[]);
    assert!(made.status.success(), "{}", errors(&made));
    let [backup] = &backups(&backups_at)[..] else { panic!("one backup") };
    let name = backup.file_name().unwrap().to_str().unwrap();
    assert!(name.starts_with("krl-20") && name.ends_with("Z.db"), "{name}");
    // The newest one is the last by its name.
    std::fs::write(backups_at.join("krl-2001-01-01T00-00-00Z.db"), "an older one").unwrap();
    let rehearsed = rehearse(&backups_at);
    assert!(rehearsed.status.success(), "{}", errors(&rehearsed));
    let message = format!("{}: a server has served its 50 rows, after ", backup.display());
    assert!(text(&rehearsed).starts_with(&message), "{}", text(&rehearsed));
    assert_eq!(client.read(..).unwrap().len(), 50, "the server that runs is not touched");

    let mut bytes = std::fs::read(backup).unwrap();
    let at = bytes.windows(8).position(|part| part == [0, 0, 0, 0, 0, 0, 0, 49]).unwrap();
    bytes[at + 7] = 48;
    std::fs::write(backup, bytes).unwrap();
    let refused = rehearse(&backups_at);
    assert_eq!(refused.status.code(), Some(1));
    assert!(errors(&refused).contains("is not a good backup"), "{}", errors(&refused));
    assert!(errors(&refused).contains("it does not match"), "{}", errors(&refused));
}

#[test]
fn old_backups_go_when_there_is_a_new_one() {
    let folder = tempfile::tempdir().unwrap();
    let serving = Serving::start(&folder.path().join("krl.db"));
    let at = folder.path().join("backups");
    let missing = back_up(&serving, &at, &[]);
    assert_eq!(missing.status.code(), Some(1), "{}", errors(&missing));
    std::fs::create_dir(&at).unwrap();
    let old = std::time::SystemTime::now() - Duration::from_secs(5 * 24 * 3600);
    for (name, is_old) in [
        ("krl-2001-01-01T00-00-00Z.db", true),
        ("krl-2001-01-02T00-00-00Z.db", false),
        ("mine.db", true),
    ] {
        let file = std::fs::File::create(at.join(name)).unwrap();
        if is_old {
            file.set_modified(old).unwrap();
        }
    }
    assert!(back_up(&serving, &at, &["3"]).status.success());
    let names = backups(&at);
    let names: Vec<_> = names.iter().map(|it| it.file_name().unwrap().to_str().unwrap()).collect();
    assert_eq!((names.len(), names[0]), (3, "krl-2001-01-02T00-00-00Z.db"), "{names:?}");
    assert!(names.contains(&"mine.db"), "{names:?}");
    for words in [&["x"][..], &["1", "2"]] {
        assert_eq!(back_up(&serving, &at, words).status.code(), Some(2));
    }
    let empty = folder.path().join("empty");
    std::fs::create_dir(&empty).unwrap();
    let refused = rehearse(&empty);
    assert!(errors(&refused).contains("there is no backup in"), "{}", errors(&refused));
}
