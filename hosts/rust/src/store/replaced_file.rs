//! Files that are replaced at once: whoever reads one finds it whole, also after a loss of power.
use std::ffi::OsString;
use std::fs::{self, File};
use std::io::{self, Write};
use std::path::{Path, PathBuf};

/// The next content of a file, which is on the disk under a name of its own until it takes its place.
/// If it does not, it is removed.
#[derive(Debug)]
pub struct NextFile {
    path: PathBuf,
    part: PathBuf,
}

impl NextFile {
    /// Writes the next content of this file. If a link has this name, it is that of the file to which
    /// the link leads.
    ///
    /// # Errors
    ///
    /// Why it can't be written.
    pub fn write(path: &Path, text: &str) -> io::Result<NextFile> {
        let path = path.canonicalize().unwrap_or_else(|_| path.into());
        let part = beside(&path, &format!(".{}.tmp", std::process::id()));
        let next = NextFile { path, part };
        let mut file = File::create(&next.part)?;
        file.write_all(text.as_bytes())?;
        file.sync_all()?;
        Ok(next)
    }

    /// Replaces the content of a file.
    ///
    /// # Errors
    ///
    /// A sentence that names the file, if it can't be written.
    pub fn replace(path: &Path, text: &str) -> Result<(), String> {
        let replaced = NextFile::write(path, text).and_then(NextFile::take_its_place);
        replaced.map_err(|error| format!("{} can't be written: {error}", path.display()))
    }

    /// Where it is until it takes its place.
    #[must_use]
    pub fn name(&self) -> &Path {
        &self.part
    }

    /// Takes the place of the file.
    ///
    /// # Errors
    ///
    /// Why it can't.
    pub fn take_its_place(self) -> io::Result<()> {
        fs::rename(&self.part, &self.path)?;
        sync_folder_of(&self.path)
    }
}

impl Drop for NextFile {
    fn drop(&mut self) {
        // It is not there if it has taken its place.
        let _ = fs::remove_file(&self.part);
    }
}

/// Returns when the disk has the names of the files in the folder of this one.
fn sync_folder_of(path: &Path) -> io::Result<()> {
    let folder = path.parent().filter(|folder| !folder.as_os_str().is_empty());
    File::open(folder.unwrap_or(Path::new(".")))?.sync_all()
}

/// The file whose name has this end in addition.
#[must_use]
pub fn beside(path: &Path, end: &str) -> PathBuf {
    let mut name = OsString::from(path);
    name.push(end);
    name.into()
}

#[cfg(test)]
mod tests {
    use super::*;

    #[test]
    fn what_a_link_leads_to_is_replaced_and_nothing_else_stays() {
        let folder = std::env::temp_dir().join(format!("krl-replaced-{}", std::process::id()));
        fs::create_dir(&folder).unwrap();
        let [file, link] = ["file", "link"].map(|name| folder.join(name));
        fs::write(&file, "old").unwrap();
        std::os::unix::fs::symlink("file", &link).unwrap();
        drop(NextFile::write(&link, "given up").unwrap());
        assert_eq!(fs::read_to_string(&file).unwrap(), "old");
        NextFile::write(&link, "new").unwrap().take_its_place().unwrap();
        assert!(link.is_symlink());
        assert_eq!(fs::read_to_string(&file).unwrap(), "new");
        assert_eq!(fs::read_dir(&folder).unwrap().count(), 2);
        fs::remove_dir_all(folder).unwrap();
    }
}
