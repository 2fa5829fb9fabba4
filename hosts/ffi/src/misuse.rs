//! Why what C gives cannot be used.
use std::fmt;

/// Why what C gives cannot be used.
#[derive(Clone, Debug, PartialEq, Eq)]
pub enum Misuse {
    /// It is not what the header requires, for this reason.
    Invalid(String),
    /// The parent of this process has made it: what of.
    Forked(&'static str),
    /// There is no memory for it.
    OutOfMemory,
}

impl fmt::Display for Misuse {
    fn fmt(&self, f: &mut fmt::Formatter<'_>) -> fmt::Result {
        match self {
            Misuse::Invalid(why) => f.write_str(why),
            Misuse::Forked(name) => write!(f, "the {name} is the parent process's"),
            Misuse::OutOfMemory => f.write_str("memory was refused"),
        }
    }
}

impl std::error::Error for Misuse {}
