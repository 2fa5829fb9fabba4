//! What would make a change fail that can be seen before it begins.
use super::change::NewStore;
use super::stores;
use super::words::LiveOptions;
use crate::process::Done;
use crate::settings::StorePlace;
use krl::operate::beside;
use std::fs::{self, File};
use std::path::Path;
use std::process::{Command, Stdio};

/// Refuses a change whose commands are not there, or whose new store can't be made.
pub fn refuse(live: &LiveOptions, new: &NewStore<'_, StorePlace>) -> Done {
    let commands = [
        ("--stop", Some(&live.stop)),
        ("--start", Some(&live.start)),
        ("--start-new", Some(&live.start_new)),
        ("--publish", live.publish.as_ref()),
    ];
    for (option, command) in commands {
        if let Some(word) = command.and_then(|command| missing(command)) {
            return Err(format!("{option}: there is no command '{word}' here").into());
        }
    }
    match new.place {
        StorePlace::File(path) => refuse_place(path, new),
        StorePlace::Etcd(_) | StorePlace::Postgres(_) => Ok(()),
    }
}

/// The first word of a command, if the shell finds nothing of this name. A word that has a meaning for
/// the shell is not looked at.
fn missing(command: &str) -> Option<&str> {
    let is_plain = |byte: u8| byte.is_ascii_alphanumeric() || b"_-./+".contains(&byte);
    let word = command.split_ascii_whitespace().next()?;
    if !word.bytes().all(is_plain) {
        return None;
    }
    let mut shell = Command::new("sh");
    shell.args(["-c", "command -v -- \"$1\"", "sh", word]);
    let found = shell.stdout(Stdio::null()).stderr(Stdio::null()).status().ok()?;
    (!found.success()).then_some(word)
}

/// Refuses a place of another file, and one in which no file can be made.
fn refuse_place(path: &Path, new: &NewStore<'_, StorePlace>) -> Done {
    let NewStore { place, shard } = new;
    if path.exists() {
        let kept = stores::shard_of(place).ok().flatten();
        if kept.is_some_and(|kept| kept.is_sealed && kept.bounds.keys() == shard.keys()) {
            return Ok(());
        }
        let what = "and is not a new store of these keys that was not used";
        return Err(format!("{place} is there already, {what}: name another place").into());
    }
    let trial = beside(path, ".trial");
    let made = File::create(&trial).and_then(|_| fs::remove_file(&trial));
    made.map_err(|error| format!("no file can be made at {place}: {error}").into())
}
