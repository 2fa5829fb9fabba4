//! A file that is written under a name of its own, and then takes another one.
use super::exists;
use crate::store::StoreError;
use crate::store::replaced_file::beside;
use std::fs::{DirEntry, File, Metadata, OpenOptions};
use std::hash::{BuildHasher, Hasher, RandomState};
use std::io::{self, ErrorKind};
use std::os::unix::fs::{MetadataExt, OpenOptionsExt};
use std::path::{Path, PathBuf};

/// How the name of a part ends. Between the other name and this there are digits.
const END: &str = ".part";

/// How many hexadecimal digits are in the name.
const DIGITS: usize = 16;

/// A file that is written under a name of its own. It is gone when this value is.
pub(super) struct Part {
    path: PathBuf,
    /// Locked: this shows that a process still writes.
    file: File,
}

impl Part {
    /// A new part of the file of this path. Its name is random: the number of a process is the same
    /// each time in a container.
    pub fn new(path: &Path) -> Result<Part, StoreError> {
        let drawn = RandomState::new().build_hasher().finish();
        let path = beside(path, &format!(".{drawn:0DIGITS$x}{END}"));
        let fails = |error| cannot("make", &path, &error);
        let mut options = OpenOptions::new();
        let file = options.write(true).create_new(true).mode(0o600).open(&path).map_err(fails)?;
        // Where a file can't be locked, its leftovers stay.
        let _ = file.try_lock();
        Ok(Part { path, file })
    }

    pub fn path(&self) -> &Path {
        &self.path
    }

    /// Brings the file to the disk, under this name only.
    pub fn take_name(self, name: &Path) -> Result<(), StoreError> {
        self.file.sync_all().map_err(|error| cannot("write", &self.path, &error))?;
        take_name_by(&self.path, name, |from, to| std::fs::hard_link(from, to))
    }
}

/// Gives the file another name, which no file has. A link fails if the name is taken meanwhile,
/// and a rename would replace that file. Where there are no links, a file of that name is made and
/// then replaced.
fn take_name_by(
    path: &Path,
    name: &Path,
    link: impl Fn(&Path, &Path) -> io::Result<()>,
) -> Result<(), StoreError> {
    let fails = |error: io::Error| match error.kind() {
        ErrorKind::AlreadyExists => exists(name),
        _ => cannot("make", name, &error),
    };
    match link(path, name) {
        Err(error) if error.kind() != ErrorKind::AlreadyExists => {}
        ended => return ended.map_err(fails),
    }
    OpenOptions::new().write(true).create_new(true).mode(0o600).open(name).map_err(fails)?;
    std::fs::rename(path, name).map_err(|error| {
        // It is the empty one that was just made.
        let _ = std::fs::remove_file(name);
        fails(error)
    })
}

impl Drop for Part {
    fn drop(&mut self) {
        // A file that can't be removed is an extra name, and does no harm.
        let _ = std::fs::remove_file(&self.path);
    }
}

/// Removes the parts of this file that nobody writes any more.
pub(super) fn remove_leftovers(path: &Path) {
    for part in parts_of(path) {
        remove_if_unlocked(&part);
    }
}

/// How many parts of this file are the file itself: calls that gave it its name, and were cut off
/// before they removed their own.
pub(in crate::store::sqlite) fn names_of(path: &Path, file: &Metadata) -> u64 {
    let is_same = |part: &PathBuf| {
        let part = part.symlink_metadata();
        part.is_ok_and(|part| (part.dev(), part.ino()) == (file.dev(), file.ino()))
    };
    parts_of(path).filter(is_same).map(|_| 1).sum()
}

/// The parts of this file that are there.
fn parts_of(path: &Path) -> impl Iterator<Item = PathBuf> {
    let folder = path.parent().map(Path::read_dir).and_then(Result::ok);
    let name = path.file_name().unwrap_or_default().to_os_string();
    let is_part = move |entry: &DirEntry| {
        is_part(entry.file_name().as_encoded_bytes(), name.as_encoded_bytes())
    };
    folder.into_iter().flatten().flatten().filter(is_part).map(|entry| entry.path())
}

/// Whether a name is that of a part of the file of the other name.
fn is_part(name: &[u8], of: &[u8]) -> bool {
    let digits = name.strip_prefix(of).and_then(|rest| rest.strip_prefix(b"."));
    let digits = digits.and_then(|rest| rest.strip_suffix(END.as_bytes()));
    digits.is_some_and(|digits| digits.len() == DIGITS && digits.iter().all(u8::is_ascii_hexdigit))
}

fn remove_if_unlocked(path: &Path) {
    let Ok(file) = OpenOptions::new().write(true).open(path) else { return };
    if file.try_lock().is_ok() {
        // One that can't be removed is an extra name, and does no harm.
        let _ = std::fs::remove_file(path);
    }
}

fn cannot(what: &str, path: &Path, error: &io::Error) -> StoreError {
    StoreError::failed(format!("can't {what} {}: {error}", path.display()))
}

#[cfg(test)]
mod tests {
    use super::*;
    use crate::store::sqlite::copy::tests::Folder;

    #[test]
    fn parts_that_nobody_writes_are_removed() {
        let folder = Folder::new("leftovers");
        let file = folder.0.join("copy.db");
        let written = Part::new(&file).unwrap();
        let others = ["copy.db", "other.db.0123456789abcdef.part", "copy.db.7.part"];
        for name in others.iter().chain(&["copy.db.0123456789abcdef.part"]) {
            std::fs::write(folder.0.join(name), b"x").unwrap();
        }
        remove_leftovers(&file);
        let own = written.path().file_name().unwrap().to_str().unwrap().to_string();
        let mut expected: Vec<String> = others.map(str::to_string).into();
        expected.push(own);
        expected.sort();
        assert_eq!(folder.names(), expected);
    }

    #[test]
    fn a_name_is_taken_where_there_are_no_links() {
        let folder = Folder::new("no-links");
        let [part, name] = ["part", "name"].map(|name| folder.0.join(name));
        let no_links = |_: &Path, _: &Path| Err(io::Error::from(ErrorKind::PermissionDenied));
        std::fs::write(&part, b"new").unwrap();
        take_name_by(&part, &name, no_links).unwrap();
        assert_eq!(folder.names(), ["name"]);
        std::fs::write(&part, b"newer").unwrap();
        let refused = take_name_by(&part, &name, no_links).unwrap_err().to_string();
        assert!(refused.contains("already"), "{refused}");
        assert_eq!(std::fs::read(&name).unwrap(), b"new");
    }

    #[test]
    fn a_copy_that_cannot_be_made_is_reported_by_its_path() {
        let Err(error) = Part::new(Path::new("/nowhere/copy.db")) else { panic!("it is made") };
        assert!(error.to_string().contains("/nowhere/copy.db."), "{error}");
    }
}
