//! Which file the name of a store means.
use crate::store::StoreError;
use crate::store::sqlite::copy::part;
use std::fs::Metadata;
use std::io::{self, ErrorKind};
use std::os::unix::fs::MetadataExt;
use std::path::{Path, PathBuf};

/// The file that the name of a store means, by its path from the root. Symbolic links are followed,
/// as SQLite follows them, also one to a file that is not there. So what lies next to the store, its
/// log and the lock of its server, is the same by each of its names, and no name means anything else
/// to SQLite, as `:memory:` would.
///
/// # Errors
///
/// If the file has another name that is no symbolic link: SQLite has a log for each of the names, and
/// what one of them has is not read by the other. If links lead in a circle, or a folder can't be
/// searched.
pub fn store_file(name: impl AsRef<Path>) -> Result<PathBuf, StoreError> {
    let file = followed(name.as_ref())?;
    match file.metadata() {
        Ok(found) if found.is_file() && has_other_names(&file, &found) => {
            Err(StoreError::failed(OTHER_NAME))
        }
        _ => Ok(file),
    }
}

const OTHER_NAME: &str = "the file has another name, by a hard link, and a store has one name: \
     remove the others, or copy the file";

fn followed(name: &Path) -> io::Result<PathBuf> {
    match name.canonicalize() {
        Err(error) if error.kind() == ErrorKind::NotFound => {}
        found => return found,
    }
    let folder = name.parent().filter(|folder| !folder.as_os_str().is_empty());
    let folder = folder.unwrap_or(Path::new("."));
    if let Ok(target) = name.read_link() {
        return followed(&folder.join(target));
    }
    match (folder.canonicalize(), name.file_name()) {
        (Ok(folder), Some(file)) => Ok(folder.join(file)),
        _ => std::path::absolute(name),
    }
}

/// Whether the file has names besides this one and those under which calls that were cut off have
/// written it.
fn has_other_names(file: &Path, found: &Metadata) -> bool {
    found.nlink() > 1 && found.nlink() > 1 + part::names_of(file, found)
}

#[cfg(test)]
mod tests {
    use super::*;
    use crate::store::sqlite::copy::tests::Folder;
    use std::fs;
    use std::os::unix::fs::symlink;

    #[test]
    fn links_are_followed_also_to_a_file_that_is_not_there() {
        let folder = Folder::new("names");
        let root = folder.0.canonicalize().unwrap();
        let path = |name: &str| root.join(name);
        fs::create_dir_all(path("disk/stores")).unwrap();
        for (target, link) in
            [("disk/stores", "stores"), ("stores/next", "krl.db"), ("new.db", "disk/stores/next")]
        {
            symlink(target, path(link)).unwrap();
        }
        let expected = path("disk/stores/new.db");
        for is_there in [false, true] {
            for name in ["krl.db", "stores/next", "disk/../stores/new.db"] {
                assert_eq!(store_file(path(name)).unwrap(), expected, "{name} {is_there}");
            }
            fs::write(&expected, b"").unwrap();
        }
        symlink("round", path("round")).unwrap();
        assert!(store_file(path("round")).is_err());
        assert_eq!(store_file(path("none/krl.db")).unwrap(), path("none/krl.db"));
        assert!(store_file(":memory:").unwrap().is_absolute());
    }

    #[test]
    fn a_name_that_a_call_has_left_does_not_count() {
        let folder = Folder::new("left");
        let [file, part] =
            ["krl.db", "krl.db.0123456789abcdef.part"].map(|name| folder.0.join(name));
        fs::write(&file, b"").unwrap();
        fs::hard_link(&file, &part).unwrap();
        assert!(store_file(&file).is_ok());
        fs::hard_link(&file, folder.0.join("other.db")).unwrap();
        let refused = store_file(&file).unwrap_err().to_string();
        assert!(refused.contains("a store has one name"), "{refused}");
    }
}
