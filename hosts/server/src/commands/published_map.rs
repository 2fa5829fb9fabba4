//! The file of the map that clients follow, as one command after another changes it.
//!
//! **One command at a time**: it locks a file next to the map, and notes its change there
//! ([`super::map_changes`]) before anybody gets the next map. It may be cut off anywhere, and others may
//! change other shards then:
//!
//! | Cut off after | The map in the file | What follows |
//! | --- | --- | --- |
//! | the note | lacks the change | the same words continue; others give a later map than the noted one |
//! | `--publish` | lacks it; other machines may have it | the same: they get a later map |
//! | the file, or a store | has the change | the same words continue; others of these shards are refused |
//! | the map that takes it back | lacks it | `--undo` may be repeated, or the change asked for again |
//! | the note of its end | has it | the same words change nothing; others may begin |
//!
//! A store changes only while the map has the change and the note is there: so **if the map lacks it, no
//! store has changed**, and if the map has it, the note has what continues it or takes it back. A note
//! stays while its map may still come, from another machine or from the home of the map: until the file
//! has a later one. **No two maps have one version**: each is later than the one in the file and than all
//! noted ones, and is noted before anybody gets it. `--publish` runs before the file is replaced: a home
//! that has another map refuses the next one while nothing has changed here.
use super::map_changes::{self, MapChange, MapChanges};
use super::next_map;
use crate::daemon::owner::Owner;
use crate::process::Done;
use krl::ShardMap;
use krl::operate::NextFile;
use std::io;
use std::num::NonZeroU64;
use std::path::{Path, PathBuf};
use std::process::Command;

/// The file of the map, which no other command changes until this value is gone.
pub struct MapFile {
    path: PathBuf,
    /// What is run before each change of the file.
    publish: Option<String>,
    /// What was asked for.
    words: String,
    _owner: Owner,
}

/// A change of the map in the file.
pub struct PublishedMap {
    file: MapFile,
    pub change: MapChange,
    /// The other changes that are noted.
    others: Vec<MapChange>,
    /// The greatest version of a map that somebody may have.
    last: NonZeroU64,
    /// Whether the map in the file had nothing of it when it was found.
    pub is_new: bool,
}

/// The map in the file, the changes of it, and the greatest version of a map that somebody may have.
struct Noted {
    now: ShardMap,
    changes: Vec<MapChange>,
    last: NonZeroU64,
}

impl MapFile {
    /// Locks the file of this name, or to which a link of this name leads.
    pub fn lock(path: &Path, publish: Option<&str>, words: String) -> Done<MapFile> {
        next_map::read(path)?;
        let path = path.canonicalize()?;
        let owner = Owner::of_map(&path, &format_args!("reshard {words}"))?;
        Ok(MapFile { path, publish: publish.map(str::to_string), words, _owner: owner })
    }

    /// The change that was asked for, which concerns the shards of these keys: the one that an earlier
    /// command has begun, or has ended, if the map has it or can take it yet; otherwise a new one.
    pub fn change(
        self,
        keys: &[u64],
        next_of: impl Fn(&ShardMap) -> Done<ShardMap>,
    ) -> Done<PublishedMap> {
        let Noted { now, mut changes, last } = self.noted()?;
        let is_own = |change: &MapChange| {
            change.words == self.words && (change.is_in(&now) || change.is_next(&now, last))
        };
        let change = if let Some(own) = changes.iter().position(is_own) {
            changes.remove(own)
        } else {
            let pending = || changes.iter().filter(|it| !it.has_ended && it.is_in(&now));
            self.refuse_pending(pending(), keys)?;
            let version = last.saturating_add(1);
            let next = next_of(&now)?.with_version(version);
            // It has to be a change also of the map from which a pending one is taken back.
            pending().try_for_each(|it| next_of(&it.taken_back(&now)?).map(drop))?;
            MapChange::begin(self.words.clone(), now.clone(), next, version)
        };
        Ok(self.found(&now, change, changes, last))
    }

    /// The change that was asked for, which an earlier command has begun and not ended.
    pub fn begun(self) -> Done<PublishedMap> {
        let Noted { now, mut changes, last } = self.noted()?;
        let is_own = |change: &MapChange| change.words == self.words && !change.has_ended;
        let in_map = changes.iter().position(|change| is_own(change) && change.is_in(&now));
        let own = in_map.or_else(|| changes.iter().rposition(is_own)).ok_or_else(|| {
            let words = &self.words;
            format!(
                "no change 'reshard {words}' has begun and not ended: nothing is to be taken back"
            )
        })?;
        let change = changes.remove(own);
        Ok(self.found(&now, change, changes, last))
    }

    fn found(
        self,
        now: &ShardMap,
        change: MapChange,
        others: Vec<MapChange>,
        last: NonZeroU64,
    ) -> PublishedMap {
        let is_new = !change.is_in(now);
        PublishedMap { file: self, change, others, last, is_new }
    }

    /// What is there now. A note is passed over if its change is not in the map and never will be, since
    /// the map is later than all that were given to anybody.
    fn noted(&self) -> Done<Noted> {
        let now = next_map::read(&self.path)?;
        let MapChanges { change: mut changes } = MapChanges::read(&self.path)?;
        let version = now.version().ok_or("the map has no version")?;
        let last = changes.iter().map(|change| change.last).max().unwrap_or(version).max(version);
        changes.retain(|change| change.is_in(&now) || change.last >= version);
        Ok(Noted { now, changes, last })
    }

    /// Refuses a change of shards that another change has begun to change.
    fn refuse_pending<'c>(
        &self,
        mut pending: impl Iterator<Item = &'c MapChange>,
        keys: &[u64],
    ) -> Done {
        let other = pending.find(|it| keys.iter().any(|key| it.changes(*key)));
        let Some(MapChange { words, process, .. }) = other else { return Ok(()) };
        Err(format!(
            "process {process} has begun another change of these shards, which has not ended: repeat \
             'krl-server reshard {words}' with all its options, or give it up by the same command with \
             --undo. {} has what was begun",
            map_changes::path_of(&self.path).display()
        )
        .into())
    }

    /// Puts a map in the place of this one. Whoever reads the file finds a whole map.
    fn replace(&self, now: &ShardMap, next: &ShardMap) -> Done {
        let fails =
            |error: io::Error| format!("the map {} can't be written: {error}", self.path.display());
        let file = NextFile::write(&self.path, &next.to_toml()).map_err(fails)?;
        self.run_publish(file.name())?;
        let found = next_map::read(&self.path)?;
        if found != *now && found != *next {
            let path = self.path.display();
            return Err(format!("somebody else has changed {path} meanwhile").into());
        }
        Ok(file.take_its_place().map_err(fails)?)
    }

    fn run_publish(&self, map: &Path) -> Done {
        let Some(command) = &self.publish else { return Ok(()) };
        let mut shell = shell(command);
        has_ended_well(command, shell.env("KRL_MAP", map).env("KRL_MAP_BEFORE", &self.path))
    }
}

impl PublishedMap {
    /// Notes the change, before anybody gets the next map.
    pub fn begin(&self) -> Done {
        if self.is_new { self.note(Some(&self.change)) } else { Ok(()) }
    }

    /// Puts the next map into the file, unless it is there. Returns the version of the map in the file.
    pub fn publish(&self) -> Done<NonZeroU64> {
        let now = next_map::read(&self.file.path)?;
        if self.change.is_in(&now) {
            self.file.run_publish(&self.file.path)?;
        } else {
            self.file.replace(&self.change.before, &self.change.next)?;
        }
        self.version()
    }

    /// Puts a later map into the file, which has the shards before again. No store has changed. Their
    /// servers serve on, since shards are known by the versions that they had.
    pub fn take_back(&mut self) -> Done<NonZeroU64> {
        let now = next_map::read(&self.file.path)?;
        self.last = self.last.max(self.change.last).saturating_add(1);
        self.change.last = self.last;
        self.note(Some(&self.change))?;
        let map = self.change.taken_back(&now)?.with_version(self.last);
        self.file.replace(&now, &map)?;
        Ok(self.last)
    }

    /// Removes the note of a change that was taken back.
    pub fn forget(&self) -> Done {
        self.note(None)
    }

    /// Notes that the shards are served as the next map has them. Returns the version of the map in the
    /// file.
    pub fn end(&mut self) -> Done<NonZeroU64> {
        self.change.has_ended = true;
        self.note(Some(&self.change))?;
        self.version()
    }

    fn version(&self) -> Done<NonZeroU64> {
        Ok(next_map::read(&self.file.path)?.version().ok_or("the map has no version")?)
    }

    fn note(&self, own: Option<&MapChange>) -> Done {
        let change = self.others.iter().chain(own).cloned().collect();
        MapChanges { change }.write(&self.file.path)
    }
}

/// Runs a command of the operator by the shell, and waits until it has ended well.
pub fn run(command: &str) -> Done {
    has_ended_well(command, &mut shell(command))
}

fn shell(command: &str) -> Command {
    let mut shell = Command::new("sh");
    shell.args(["-c", command]);
    shell
}

fn has_ended_well(command: &str, shell: &mut Command) -> Done {
    let status = shell.status().map_err(|error| format!("'{command}' can't be run: {error}"))?;
    if status.success() { Ok(()) } else { Err(format!("'{command}' has ended: {status}").into()) }
}

#[cfg(test)]
mod tests;
