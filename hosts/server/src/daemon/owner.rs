//! Who serves a store, or changes a map, as stated in a file next to it.
use crate::process::output::cause;
use krl::operate::beside;
use krl::operate::store_file;
use std::fmt;
use std::fs::{File, OpenOptions, TryLockError};
use std::io::{self, Read, Seek, SeekFrom, Write};
use std::path::{Path, PathBuf};
use std::thread;
use std::time::{Duration, Instant};

/// The right to serve a store, or to change a map. Another process may take it when this value is
/// gone, or the process is. The file stays, and states who had it last.
#[derive(Debug)]
pub struct Owner {
    file: PathBuf,
    _lock: File,
}

/// How long a server waits for a process that only looks whether the store is served.
const LOCK_PATIENCE: Duration = Duration::from_millis(100);

/// The longest line that is read from the file.
const MAX_LINE: u64 = 1000;

impl Owner {
    /// Takes the right to serve the store, and writes the holder into the file next to it.
    pub fn take(store: &Path, address: &dyn fmt::Display) -> Result<Owner, String> {
        let named =
            |error| format!("the store {} can't be used: {}", store.display(), cause(&error));
        let what = format!("the store {} is served", store.display());
        Owner::lock(store_file(store).map_err(named)?, &what, &format_args!("at {address}"))
    }

    /// Takes the right to change the map, in the same way.
    pub fn of_map(map: &Path, change: &dyn fmt::Display) -> Result<Owner, String> {
        Owner::lock(map.into(), &format!("the map {} is changed", map.display()), change)
    }

    fn lock(file: PathBuf, what: &str, note: &dyn fmt::Display) -> Result<Owner, String> {
        let path = path_of(&file);
        let fails = |error| format!("the lock file {} can't be used: {error}", path.display());
        let mut options = OpenOptions::new();
        options.read(true).write(true).create(true).truncate(false);
        let mut lock = options.open(&path).map_err(fails)?;
        match lock_within(&lock, LOCK_PATIENCE) {
            Ok(()) => {}
            Err(TryLockError::WouldBlock) => {
                return Err(format!("{what} already, by {}", line_of(&lock)));
            }
            Err(TryLockError::Error(error)) => return Err(fails(error)),
        }
        write_note(&mut lock, note).map_err(fails)?;
        Ok(Owner { file, _lock: lock })
    }

    /// The file, by its own path: a link that has led to it may lead to another one by now.
    pub fn file(&self) -> &Path {
        &self.file
    }
}

/// Locks the file. Another process may have it for a moment: one that looks who serves.
fn lock_within(file: &File, patience: Duration) -> Result<(), TryLockError> {
    let end = Instant::now() + patience;
    loop {
        match file.try_lock() {
            Err(TryLockError::WouldBlock) if Instant::now() < end => {
                thread::sleep(patience / 20);
            }
            ended => return ended,
        }
    }
}

/// The process that serves the store now, if one does. A name that means no store of its own is
/// refused where the store is opened.
pub fn served_by(store: &Path) -> Option<String> {
    let file = File::open(path_of(&store_file(store).ok()?)).ok()?;
    match file.try_lock_shared() {
        Err(TryLockError::WouldBlock) => Some(line_of(&file)),
        _ => None,
    }
}

fn path_of(file: &Path) -> PathBuf {
    beside(file, ".lock")
}

fn write_note(file: &mut File, note: &dyn fmt::Display) -> io::Result<()> {
    file.set_len(0)?;
    file.seek(SeekFrom::Start(0))?;
    writeln!(file, "process {}, {note}", std::process::id())
}

/// The content of the file, if there is any.
fn line_of(file: &File) -> String {
    let mut text = String::new();
    // What can't be read is not reported.
    let _ = file.take(MAX_LINE).read_to_string(&mut text);
    match text.trim_end() {
        "" => "another process".to_string(),
        line => line.to_string(),
    }
}

#[cfg(test)]
mod tests {
    use super::*;

    #[test]
    fn one_owner_at_a_time() {
        let folder = tempfile::tempdir().unwrap();
        let store = folder.path().join("krl.db");
        let owner = Owner::take(&store, &"127.0.0.1:7400").unwrap();
        let refused = Owner::take(&store, &"127.0.0.1:1").unwrap_err();
        let by = format!("served already, by process {}, at 127.0.0.1:7400", std::process::id());
        assert!(refused.ends_with(&by), "{refused}");
        assert!(served_by(&store).is_some_and(|by| by.ends_with("at 127.0.0.1:7400")));
        drop(owner);
        // A process that another test has just started has the lock too, until it runs its program.
        let begun = Instant::now();
        while served_by(&store).is_some() {
            assert!(begun.elapsed() < Duration::from_secs(60), "the lock is not given back");
            thread::sleep(Duration::from_millis(1));
        }
        drop(Owner::take(&store, &"x").unwrap());
        let line = std::fs::read_to_string(path_of(&store)).unwrap();
        assert_eq!(line, format!("process {}, at x\n", std::process::id()));
        assert!(Owner::take(&folder.path().join("none/krl.db"), &"x").is_err());
    }

    #[test]
    fn who_only_looks_is_waited_for() {
        let folder = tempfile::tempdir().unwrap();
        let path = folder.path().join("krl.db.lock");
        let (file, looks) = (File::create(&path).unwrap(), File::open(&path).unwrap());
        looks.lock_shared().unwrap();
        assert!(matches!(file.try_lock(), Err(TryLockError::WouldBlock)));
        thread::scope(|scope| {
            let locked = scope.spawn(|| lock_within(&file, Duration::from_secs(60)));
            looks.unlock().unwrap();
            locked.join().unwrap().unwrap();
        });
    }
}
