//! The lock file of a client number: one process at a time, and greater incarnations.
//!
//! The file has the last incarnation that may have been sent to a server. One that reached no server
//! leaves the file as it was: the next one then knows the incarnation that a server may still know,
//! and that no process of it is left.
use crate::call::error::LockFileError;
use crate::client::incarnations::Incarnations;
use crate::lease::terms::Older;
use std::fs::{File, OpenOptions, TryLockError};
use std::io::{self, Read, Seek, SeekFrom, Write};
use std::path::Path;
use std::time::{SystemTime, UNIX_EPOCH};

/// A lock file that this process holds. Another process may take it when this value is gone, or the
/// process is.
#[derive(Debug)]
pub struct LockFile {
    file: File,
    number: u8,
    /// The current incarnation.
    incarnation: u64,
    /// The last one that may have been sent to a server, or 0. It is in the file.
    kept: u64,
    /// The last one before the current one which may have been sent to a server, or 0.
    before: u64,
}

// One line, always of the same length, so that it is written over in place: a crash leaves the old
// line or the new one.
const FORM: &str = "krl client 00 incarnation 00000000000000000000\n";

impl LockFile {
    /// Takes the file for the client of this number, makes it if there is none, and gives the
    /// client's incarnation: greater than every one that was sent before. [`LockFile::keep`] has to
    /// come before this one is sent.
    ///
    /// The incarnation is the time in nanoseconds, or one more than the last one if the clock
    /// went back. So it rises even if the file was lost.
    ///
    /// # Errors
    ///
    /// Why the file can't be used.
    pub fn take(path: &Path, number: u8) -> Result<(LockFile, u64), LockFileError> {
        let mut options = OpenOptions::new();
        let file = options.read(true).write(true).create(true).truncate(false).open(path)?;
        match file.try_lock() {
            Ok(()) => {}
            Err(TryLockError::WouldBlock) => return Err(LockFileError::Taken),
            Err(TryLockError::Error(error)) => return Err(error.into()),
        }
        let mut lock = LockFile { file, number, incarnation: 0, kept: 0, before: 0 };
        lock.kept = lock.last()?;
        lock.incarnation = lock.kept;
        sync_folder_of(path)?;
        lock.renew();
        let incarnation = lock.incarnation;
        Ok((lock, incarnation))
    }

    /// Has the client's incarnation be greater than this one too, and gives it.
    pub(crate) fn rise_above(&mut self, other: u64) -> u64 {
        self.incarnation = self.incarnation.max(other.saturating_add(1));
        self.incarnation
    }

    fn write(&mut self) -> io::Result<()> {
        self.file.seek(SeekFrom::Start(0))?;
        self.file.write_all(line(self.number, self.incarnation).as_bytes())?;
        self.file.sync_all()
    }

    /// The incarnation in the file, or 0 if it is new.
    fn last(&mut self) -> Result<u64, LockFileError> {
        let mut text = String::new();
        let mut start = (&self.file).take(FORM.len() as u64 + 1);
        start.read_to_string(&mut text).map_err(|_| LockFileError::Strange)?;
        if text.is_empty() {
            return Ok(0);
        }
        let head = format!("krl client {:02} incarnation ", self.number);
        let last = text.strip_prefix(&head).and_then(|rest| rest.strip_suffix('\n'));
        let last = last.and_then(|digits| digits.parse::<u64>().ok());
        last.filter(|last| *last < u64::MAX).ok_or(LockFileError::Strange)
    }
}

impl Incarnations for LockFile {
    fn number(&self) -> u8 {
        self.number
    }

    fn current(&self) -> u64 {
        self.incarnation
    }

    fn renew(&mut self) {
        self.before = self.kept;
        self.incarnation = now().max(self.incarnation + 1);
    }

    /// No process of the last one before is left, since only whoever has the file runs as this
    /// client. It is the one that a server knows, unless that was not reached from this machine.
    fn older(&self) -> Older {
        if self.before == 0 { Older::Unknown } else { Older::IsOver(self.before) }
    }

    fn keep(&mut self) -> io::Result<()> {
        if self.kept != self.incarnation {
            self.write().map_err(|error| {
                io::Error::new(error.kind(), format!("the lock file can't be written: {error}"))
            })?;
            self.kept = self.incarnation;
        }
        Ok(())
    }
}

fn line(number: u8, incarnation: u64) -> String {
    format!("krl client {number:02} incarnation {incarnation:020}\n")
}

fn now() -> u64 {
    let since = SystemTime::now().duration_since(UNIX_EPOCH).unwrap_or_default();
    u64::try_from(since.as_nanos()).unwrap_or(0)
}

/// A file that is new has a name on the disk only when its folder is synced.
fn sync_folder_of(path: &Path) -> io::Result<()> {
    match path.parent() {
        Some(folder) if !folder.as_os_str().is_empty() => File::open(folder)?.sync_all(),
        _ => File::open(".")?.sync_all(),
    }
}

impl Drop for LockFile {
    /// Frees the file even if a process that was forked a moment ago has it open too, until it runs
    /// its own program.
    fn drop(&mut self) {
        let _ = self.file.unlock();
    }
}

#[cfg(test)]
mod tests {
    use super::*;

    fn path(name: &str) -> std::path::PathBuf {
        std::env::temp_dir().join(format!("krl-{}-{name}.lock", std::process::id()))
    }

    fn renewed(held: &mut LockFile) -> u64 {
        held.renew();
        held.current()
    }

    #[test]
    fn one_holder_and_rising_incarnations() {
        let path = path("rising");
        let (mut held, first) = LockFile::take(&path, 3).unwrap();
        held.keep().unwrap();
        assert_eq!(held.older(), Older::Unknown);
        assert!(matches!(LockFile::take(&path, 3), Err(LockFileError::Taken)));
        drop(held);
        let (held, second) = LockFile::take(&path, 3).unwrap();
        assert!(second > first);
        assert_eq!(held.older(), Older::IsOver(first));
        drop(held);
        let far = i64::MAX as u64 - 5;
        std::fs::write(&path, line(3, far)).unwrap();
        let (mut held, first) = LockFile::take(&path, 3).unwrap();
        assert_eq!((first, held.older()), (far + 1, Older::IsOver(far)));
        held.keep().unwrap();
        assert_eq!(std::fs::read_to_string(&path).unwrap(), line(3, far + 1));
        assert_eq!([renewed(&mut held), renewed(&mut held)], [far + 2, far + 3]);
        assert_eq!(held.older(), Older::IsOver(far + 1));
        held.keep().unwrap();
        assert_eq!(std::fs::read_to_string(&path).unwrap(), line(3, far + 3));
        assert_eq!((renewed(&mut held), held.older()), (far + 4, Older::IsOver(far + 3)));
        std::fs::remove_file(&path).unwrap();
    }

    #[test]
    fn an_incarnation_that_was_never_sent_leaves_no_trace() {
        let path = path("vain");
        let (mut first_file, first) = LockFile::take(&path, 3).unwrap();
        first_file.keep().unwrap();
        drop(first_file);
        // Two starts that reach no server.
        drop(LockFile::take(&path, 3).unwrap());
        drop(LockFile::take(&path, 3).unwrap());
        let (mut held, last) = LockFile::take(&path, 3).unwrap();
        assert_eq!(held.older(), Older::IsOver(first));
        assert_eq!(std::fs::read_to_string(&path).unwrap(), line(3, first));
        held.keep().unwrap();
        assert_eq!(std::fs::read_to_string(&path).unwrap(), line(3, last));
        std::fs::remove_file(&path).unwrap();
    }

    #[test]
    fn another_file_stays_as_it_is() {
        let path = path("other");
        for text in
            ["hello\n", "krl client 04 incarnation 00000000000000000001\n", "krl client 03 "]
        {
            std::fs::write(&path, text).unwrap();
            assert!(matches!(LockFile::take(&path, 3), Err(LockFileError::Strange)));
            assert_eq!(std::fs::read_to_string(&path).unwrap(), text);
        }
        std::fs::remove_file(&path).unwrap();
    }
}
