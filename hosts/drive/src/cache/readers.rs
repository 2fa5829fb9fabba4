//! The readers of the drive: in each language there is one, and all do the same.
use crate::clients::{command, this};
use std::error::Error;
use std::fs;
use std::os::unix::fs::symlink;
use std::path::{Path, PathBuf};
use std::process::Command;

/// The reader in C is built over this library, and the one in Python loads it. It lies next to this
/// program.
const LIBRARY: &str = "libkrl_cache_c.so";

/// The name by which programs look for it.
const SONAME: &str = "libkrl_cache.so.0";

/// Where the package for Python is, if the caller's `PYTHONPATH` has none.
const PYTHON_PACKAGE: &str = concat!(env!("CARGO_MANIFEST_DIR"), "/../python");

/// The sources: a copy of this program may run where nobody can read the tree.
const SOURCES: [(&str, &str); 3] = [
    ("krl_cache.h", include_str!("../../../cache_capi/include/krl_cache.h")),
    ("reader.c", include_str!("reader.c")),
    ("reader.py", include_str!("reader.py")),
];

/// In what a reader is written.
#[derive(Clone, Copy, Debug, PartialEq, Eq, PartialOrd, Ord)]
pub enum Language {
    Rust,
    C,
    Python,
}

impl Language {
    pub const ALL: [Language; 3] = [Language::Rust, Language::C, Language::Python];

    /// The name of the reader of this number.
    pub fn name(self, number: u64) -> String {
        format!("{self:?}-{number}")
    }

    /// The language of a reader of this name, or of a thread of it.
    pub fn of(name: &str) -> Option<Language> {
        let (language, _) = name.split_once('-')?;
        Language::ALL.into_iter().find(|it| format!("{it:?}") == language)
    }
}

/// The programs of the readers, in the folder of the drive.
pub struct Programs {
    folder: PathBuf,
    library: PathBuf,
}

impl Programs {
    /// Makes them. What is missing for that is an error.
    pub fn make(folder: &Path) -> Result<Programs, Box<dyn Error>> {
        let library = std::env::current_exe()?.with_file_name(LIBRARY);
        if !library.exists() {
            let library = library.display();
            return Err(format!(
                "there is no {library}: `cargo build -p krl-cache-c --lib` makes it, with the \
                 profile of this program"
            )
            .into());
        }
        let programs = Programs { folder: folder.canonicalize()?, library };
        for (name, text) in SOURCES {
            fs::write(programs.folder.join(name), text)?;
        }
        symlink(&programs.library, programs.folder.join(SONAME))?;
        run(&mut programs.compiler(), "the reader in C needs a C compiler")?;
        let mut import = programs.python();
        import.args(["-c", "import krl.cache"]);
        run(&mut import, "the reader in Python needs python3 and the package krl")?;
        Ok(programs)
    }

    /// What starts a reader of this name.
    pub fn command(
        &self,
        language: Language,
        name: &str,
        database: &str,
    ) -> std::io::Result<Command> {
        let words = [name, database];
        Ok(match language {
            Language::Rust => this(&["cache-reader", name, database], &self.folder)?,
            Language::C => command(self.folder.join("reader"), &words, &self.folder),
            Language::Python => {
                let mut python = self.python();
                python.arg(self.folder.join("reader.py")).args(words).arg(&self.folder);
                python
            }
        })
    }

    fn compiler(&self) -> Command {
        let mut compiler = Command::new("cc");
        compiler.current_dir(&self.folder);
        compiler.args(["-std=c11", "-O2", "-Wall", "-Wextra", "-Wpedantic", "-Werror", "-pthread"]);
        compiler.args(["reader.c", SONAME, "-o", "reader"]);
        compiler.arg(format!("-Wl,-rpath,{}", self.folder.display()));
        compiler
    }

    /// An interpreter that finds the package and the library, and leaves no files in the tree.
    fn python(&self) -> Command {
        let folders = match std::env::var("PYTHONPATH") {
            Ok(others) if !others.is_empty() => format!("{others}:{PYTHON_PACKAGE}"),
            _ => PYTHON_PACKAGE.to_string(),
        };
        let mut python = Command::new("python3");
        python.arg("-B").env("PYTHONPATH", folders);
        python.env("KRL_CACHE_LIBRARY", &self.library);
        python
    }
}

/// Runs a command that has to succeed.
fn run(command: &mut Command, what: &str) -> Result<(), Box<dyn Error>> {
    let program = command.get_program().to_string_lossy().into_owned();
    let ended = command.output().map_err(|error| format!("{what}: {program}: {error}"))?;
    if ended.status.success() {
        return Ok(());
    }
    Err(format!("{what}: {program}: {}", String::from_utf8_lossy(&ended.stderr).trim()).into())
}

#[cfg(test)]
mod tests {
    use super::*;

    #[test]
    fn names_show_the_language() {
        for language in Language::ALL {
            assert_eq!(Language::of(&language.name(7)), Some(language));
            assert_eq!(Language::of(&format!("{}-1", language.name(7))), Some(language));
        }
        assert_eq!(Language::of("writer-1"), None);
        assert_eq!(Language::of("Ruby-1"), None);
    }

    #[test]
    fn what_fails_is_reported() {
        let missing = run(&mut Command::new("no-such-compiler"), "the reader").unwrap_err();
        assert!(missing.to_string().starts_with("the reader: no-such-compiler: No such file"));
        let failed = run(Command::new("ls").arg("no such file"), "the reader").unwrap_err();
        assert!(failed.to_string().starts_with("the reader: ls: "), "{failed}");
    }
}
