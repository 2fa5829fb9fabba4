//! The map of a table at home in etcd or PostgreSQL: how it comes there, and into the files that
//! servers and clients follow.
use super::next_map;
use crate::daemon::map_home;
use crate::process::Done;
use crate::process::log::Unanswered;
use crate::process::output::{self, cause};
use crate::settings::{StorePlace, credentials};
use clap::Subcommand;
use krl::ShardMap;
use krl::store::{FileMap, MapHome, StoreError};
use std::fmt::Display;
use std::path::{Path, PathBuf};
use std::thread;
use std::time::Duration;

/// How long one wait for a change is.
const CHANGE_WAIT: Duration = Duration::from_secs(60);

/// The pause before a place that does not answer, or whose map can't be taken, is asked again.
const HOME_PAUSE: Duration = Duration::from_secs(1);

/// What is done with a map that is at home in a database.
#[derive(Debug, Subcommand)]
pub enum MapCommand {
    /// Put the map of a file there, if its version is greater than that of the one that stands there
    Put {
        /// A key of etcd, as <etcd://10.0.0.1:2379/krl/map>, or a database of PostgreSQL, as
        /// <postgres://krl@10.0.0.1/orders?sslmode=verify-full>
        home: StorePlace,
        /// The file
        file: PathBuf,
        /// The map that stands there, which has to be the one of this file. reshard gives the one that
        /// it replaces to its --publish, so that nobody else's map is lost
        #[arg(long, value_name = "FILE", env = "KRL_MAP_BEFORE")]
        before: Option<PathBuf>,
    },
    /// Write each later map from there to a file, which servers and clients of this machine follow,
    /// until a signal comes
    Follow {
        /// As for put
        home: StorePlace,
        /// The file. It is replaced at once by each next map
        file: PathBuf,
        /// Write what stands there now, and end
        #[arg(long)]
        once: bool,
    },
}

impl MapCommand {
    pub fn run(&self) -> Done {
        match self {
            MapCommand::Put { home, file, before } => put(home, file, before.as_deref()),
            MapCommand::Follow { home, file, once: true } => {
                let mut found = open(home)?;
                let text = found.read().map_err(|error| format!("{home}: {}", cause(&error)))?;
                take(&text.ok_or_else(|| format!("there is no map at {home}"))?, file)
            }
            MapCommand::Follow { home, file, once: false } => follow(home, file),
        }
    }
}

/// Puts the map of the file in the place of an earlier one, which may have to be that of a file.
fn put(home: &StorePlace, file: &Path, replaced: Option<&Path>) -> Done {
    let next = next_map::read(file)?;
    let mut found = open(home)?;
    let fails = |error: StoreError| format!("{home}: {}", cause(&error));
    let before = found.read().map_err(fails)?;
    let earlier = before.as_deref().map(ShardMap::from_toml).transpose()?;
    let version = version_of(&next);
    if is_next(earlier.as_ref(), &next).map_err(|why| format!("{home} {why}"))? {
        refuse_other(home, earlier.as_ref(), replaced)?;
        replace(&mut *found, home, before.as_deref(), &next, fails)?;
    }
    Ok(output::print_done(&format!("{home}: the map of version {version}\n"))?)
}

/// Refuses to replace a map that is not the one of this file.
fn refuse_other(home: &StorePlace, earlier: Option<&ShardMap>, replaced: Option<&Path>) -> Done {
    let (Some(earlier), Some(replaced)) = (earlier, replaced) else { return Ok(()) };
    let expected = next_map::read(replaced)?;
    if expected == *earlier {
        return Ok(());
    }
    let (version, file) = (version_of(earlier), replaced.display());
    let how = if earlier.version() < expected.version() {
        format!("put the one in the file there by 'krl-server map put {home} {file}'")
    } else {
        format!("take it by 'krl-server map follow {home} {file} --once'")
    };
    let why = format!("{home} has a map of version {version}, which is not the one in {file}");
    Err(format!("{why}: {how}, and repeat the command").into())
}

/// Whether a map has to take the place of an earlier one: it does not if it is the same one.
fn is_next(earlier: Option<&ShardMap>, next: &ShardMap) -> Result<bool, String> {
    match earlier {
        Some(earlier) if earlier == next => Ok(false),
        Some(earlier) if earlier.version() >= next.version() => Err(format!(
            "has a map of version {}, and this one is of version {}: the next one has a greater version",
            version_of(earlier),
            version_of(next)
        )),
        _ => Ok(true),
    }
}

/// Writes each next map to the file, as long as the process runs.
fn follow(place: &StorePlace, file: &Path) -> Done {
    let mut unanswered = Unanswered::default();
    let mut home = open(place)?;
    loop {
        let why = match home.read() {
            Ok(found) => match found.as_deref().map_or(Ok(()), |text| take(text, file)) {
                Ok(()) => {
                    home.wait(CHANGE_WAIT);
                    continue;
                }
                Err(why) => why.to_string(),
            },
            Err(error @ StoreError::Unanswered(_)) => cause(&error),
            Err(error) => return Err(format!("{place}: {}", cause(&error)).into()),
        };
        unanswered.report(&format!("{place}: {why}"));
        thread::sleep(HOME_PAUSE);
    }
}

/// Writes the map to the file, unless that has it, or a later one.
fn take(text: &str, file: &Path) -> Done {
    let (next, shown, mut home) = (ShardMap::from_toml(text)?, file.display(), FileMap::new(file));
    let fails = |error: StoreError| cause(&error);
    let before = home.read().map_err(fails)?;
    let earlier = before.as_deref().and_then(|text| ShardMap::from_toml(text).ok());
    if is_next(earlier.as_ref(), &next).map_err(|why| format!("{shown} {why}"))? {
        replace(&mut home, &shown, before.as_deref(), &next, fails)?;
        output::report(&format!("{shown}: the map of version {}", version_of(&next)));
    }
    Ok(())
}

/// Puts a map in the place of the one that was found at its home.
fn replace(
    home: &mut dyn MapHome,
    shown: &dyn Display,
    before: Option<&str>,
    next: &ShardMap,
    fails: impl Fn(StoreError) -> String,
) -> Done {
    if home.replace(before, &next.to_toml()).map_err(fails)? {
        return Ok(());
    }
    Err(format!("another map was put to {shown} meanwhile: repeat the command").into())
}

fn open(place: &StorePlace) -> Done<Box<dyn MapHome + Send>> {
    if let StorePlace::File(path) = place {
        let why = "such a map is at home in etcd or PostgreSQL";
        return Err(format!("{} is a file: {why}", path.display()).into());
    }
    map_home::open(place, &credentials::of_environment())
}

fn version_of(map: &ShardMap) -> u64 {
    map.version().map_or(0, u64::from)
}

#[cfg(test)]
mod tests {
    use super::*;

    fn map(version: u64, server: u16) -> String {
        let shard = format!("[[shard]]\nfirst = 0\nservers = \"127.0.0.1:{server}\"\n");
        format!("version = {version}\n\n{shard}")
    }

    #[test]
    fn only_a_later_map_is_next() {
        let parsed = |version, server| ShardMap::from_toml(&map(version, server)).unwrap();
        let kept = parsed(3, 1);
        assert_eq!(is_next(None, &kept), Ok(true));
        assert_eq!(is_next(Some(&kept), &parsed(4, 2)), Ok(true));
        assert_eq!(is_next(Some(&kept), &kept), Ok(false));
        for other in [parsed(3, 2), parsed(2, 1)] {
            let why = is_next(Some(&kept), &other).unwrap_err();
            assert!(why.starts_with("has a map of version 3, and this one is of "), "{why}");
        }
    }

    #[test]
    fn a_file_takes_each_later_map_and_no_other() {
        let folder = tempfile::tempdir().unwrap();
        let file = folder.path().join("map.toml");
        for (version, is_taken) in [(3, true), (3, true), (5, true), (4, false)] {
            let text = map(version, 1);
            assert_eq!(take(&text, &file).is_ok(), is_taken, "{version}");
        }
        assert!(take("no map", &file).is_err());
        assert_eq!(ShardMap::from_file(&file).unwrap().version().unwrap().get(), 5);
    }
}
