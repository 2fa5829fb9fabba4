//! Where the lock files of a user's clients are.
use std::env;
use std::fs::DirBuilder;
use std::io;
use std::os::unix::fs::DirBuilderExt;
use std::path::{Path, PathBuf};

/// The user's folder of lock files of clients, which [`Client::connect`] and `krl-client` use:
/// `krl` in `$XDG_STATE_HOME`, or in `.local/state` of `$HOME`. If there is none, it is made, for the
/// user only.
///
/// # Errors
///
/// If it can't be made, or if neither variable is an absolute path.
///
/// [`Client::connect`]: crate::Client::connect
pub fn lock_folder() -> io::Result<PathBuf> {
    let unset = || {
        let what = "set HOME or XDG_STATE_HOME to an absolute path";
        io::Error::new(io::ErrorKind::NotFound, what)
    };
    let folder = folder_of(|name| env::var_os(name).map(PathBuf::from)).ok_or_else(unset)?;
    let made = DirBuilder::new().recursive(true).mode(0o700).create(&folder);
    made.map_err(|error| io::Error::new(error.kind(), not_made(&folder, &error)))?;
    Ok(folder)
}

/// The folder by these variables of the environment, if one of them names it.
fn folder_of(variable: impl Fn(&str) -> Option<PathBuf>) -> Option<PathBuf> {
    let absolute = |name| variable(name).filter(|at| at.is_absolute());
    let state = absolute("XDG_STATE_HOME")
        .or_else(|| absolute("HOME").map(|home| home.join(".local/state")));
    state.map(|state| state.join("krl"))
}

fn not_made(folder: &Path, error: &io::Error) -> String {
    format!("{} can't be made: {error}", folder.display())
}

#[cfg(test)]
mod tests {
    use super::*;

    fn of(state: Option<&str>, home: Option<&str>) -> Option<PathBuf> {
        let value = |name: &str| if name == "HOME" { home } else { state };
        folder_of(|name| value(name).map(PathBuf::from))
    }

    #[test]
    fn the_first_variable_that_is_an_absolute_path_names_it() {
        assert_eq!(of(Some("/var/s"), Some("/home/u")), Some("/var/s/krl".into()));
        assert_eq!(of(Some("s"), Some("/home/u")), Some("/home/u/.local/state/krl".into()));
        assert_eq!(of(None, Some("/home/u")), Some("/home/u/.local/state/krl".into()));
        assert_eq!(of(None, Some("u")), None);
        assert_eq!(of(None, None), None);
    }
}
