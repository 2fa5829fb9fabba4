//! What a program prints.
use clap::Command;
use clap_complete::Shell;
use std::error::Error;
use std::io::{self, Write};

/// The exit status of a program whose output nobody reads any more, as of one that SIGPIPE ended.
pub const BROKEN_PIPE: u8 = 128 + 13;

/// Prints a text to standard output, whole and at once.
///
/// # Errors
///
/// If it can't be written.
pub fn print(text: &str) -> io::Result<()> {
    let mut output = io::stdout().lock();
    output.write_all(text.as_bytes())?;
    output.flush()
}

/// Prints the script of a shell that completes the words of this program.
///
/// # Errors
///
/// If it can't be written.
pub fn print_completion(shell: Shell, mut words: Command) -> io::Result<()> {
    let (mut script, program) = (Vec::new(), words.get_name().to_string());
    clap_complete::generate(shell, &mut words, program, &mut script);
    print(&String::from_utf8_lossy(&script))
}

/// An error and what caused it, as one line. A cause that the error's own text includes is not
/// repeated.
#[must_use]
pub fn sentence(error: &dyn Error) -> String {
    let mut text = error.to_string();
    let mut cause = error.source();
    while let Some(error) = cause {
        let more = error.to_string();
        if !text.contains(&more) {
            text = format!("{text}: {more}");
        }
        cause = error.source();
    }
    text
}

#[cfg(test)]
mod tests {
    use super::*;
    use std::fmt;

    /// An error with a text and a cause.
    #[derive(Debug)]
    struct Caused(&'static str, Option<Box<Caused>>);

    impl fmt::Display for Caused {
        fn fmt(&self, f: &mut fmt::Formatter<'_>) -> fmt::Result {
            f.write_str(self.0)
        }
    }

    impl Error for Caused {
        fn source(&self) -> Option<&(dyn Error + 'static)> {
            self.1.as_ref().map(|cause| cause as _)
        }
    }

    #[test]
    fn each_cause_is_reported_once() {
        let disk = || Some(Box::new(Caused("the disk is full", None)));
        let of = |text, cause| sentence(&Caused(text, cause));
        assert_eq!(of("no backup", disk()), "no backup: the disk is full");
        assert_eq!(of("no backup: the disk is full", disk()), "no backup: the disk is full");
        let middle = Some(Box::new(Caused("no file", disk())));
        assert_eq!(of("no backup", middle), "no backup: no file: the disk is full");
    }
}
