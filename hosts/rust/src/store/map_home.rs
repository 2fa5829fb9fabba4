//! Where a map of shards stands as text, for those who follow it and those who replace it.
use crate::store::StoreError;
use crate::store::replaced_file::NextFile;
use std::fs;
use std::io::ErrorKind;
use std::path::PathBuf;
use std::thread;
use std::time::Duration;

/// How often one that waits looks whether a file has another map.
const FILE_CHECK_INTERVAL: Duration = Duration::from_millis(50);

/// The place of a map of shards as text: a file, a key of etcd, or a row of a database. Others replace the
/// map there and wait for the next one.
pub trait MapHome {
    /// The map that stands there, if one does.
    ///
    /// # Errors
    ///
    /// If the place does not answer, or refuses.
    fn read(&mut self) -> Result<Option<String>, StoreError>;

    /// Puts the next map in the place of the one before, or where there is none. Returns whether it
    /// stands there then: it does not if somebody has put another one there.
    ///
    /// # Errors
    ///
    /// If the place does not answer, or refuses. The map may have been put there by `Unanswered`.
    fn replace(&mut self, before: Option<&str>, next: &str) -> Result<bool, StoreError>;

    /// Waits until the map may be another one than was last read, and for this time at most.
    fn wait(&mut self, most: Duration);
}

/// A map of shards in a file, which each next map replaces.
#[derive(Clone, Debug, PartialEq, Eq)]
pub struct FileMap {
    file: PathBuf,
}

impl FileMap {
    /// The map in the file of this name.
    pub fn new(file: impl Into<PathBuf>) -> FileMap {
        FileMap { file: file.into() }
    }
}

impl MapHome for FileMap {
    fn read(&mut self) -> Result<Option<String>, StoreError> {
        match fs::read_to_string(&self.file) {
            Ok(text) => Ok(Some(text)),
            Err(error) if error.kind() == ErrorKind::NotFound => Ok(None),
            Err(error) => {
                let file = self.file.display();
                Err(StoreError::failed(format!("{file} can't be read: {error}")))
            }
        }
    }

    /// Whoever reads the file finds a whole map. It is compared before it is replaced, so only one
    /// process at a time may replace it.
    fn replace(&mut self, before: Option<&str>, next: &str) -> Result<bool, StoreError> {
        let found = self.read()?;
        if found.as_deref() != before {
            return Ok(found.as_deref() == Some(next));
        }
        NextFile::replace(&self.file, next).map_err(StoreError::failed)?;
        Ok(true)
    }

    fn wait(&mut self, most: Duration) {
        thread::sleep(FILE_CHECK_INTERVAL.min(most));
    }
}

#[cfg(test)]
mod tests {
    use super::*;
    use crate::store::store_tests;

    #[test]
    fn a_map_in_a_file() {
        let file = std::env::temp_dir().join(format!("krl-map-{}.toml", std::process::id()));
        let open = || FileMap::new(&file);
        store_tests::replaces_only_a_known_map(open);
        fs::remove_file(&file).unwrap();
        store_tests::waits_for_a_map(open);
        fs::remove_file(&file).unwrap();
        fs::create_dir(&file).unwrap();
        assert!(open().read().is_err());
        fs::remove_dir(&file).unwrap();
    }
}
