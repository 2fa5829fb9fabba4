//! How many files the process may have open.
use nix::sys::resource::{Resource, getrlimit, setrlimit};

/// What a server with all its connections takes, with room for its store: 256 of clients, 1,024 of
/// readers and those of strangers.
const NEEDED: u64 = 4096;

/// Lets the process have as many files open as it may need, as far as the system allows that. Often
/// a process begins with 1,024, and then readers would keep clients out.
pub fn allow() {
    let Ok((soft, hard)) = getrlimit(Resource::RLIMIT_NOFILE) else { return };
    if soft < NEEDED.min(hard) {
        // What the system refuses, it refuses to each connection later.
        let _ = setrlimit(Resource::RLIMIT_NOFILE, NEEDED.min(hard), hard);
    }
}

#[cfg(test)]
mod tests {
    use super::*;

    #[test]
    fn a_server_may_have_as_many_files_open_as_it_needs() {
        let (soft, hard) = getrlimit(Resource::RLIMIT_NOFILE).unwrap();
        setrlimit(Resource::RLIMIT_NOFILE, soft.min(512), hard).unwrap();
        allow();
        assert_eq!(getrlimit(Resource::RLIMIT_NOFILE).unwrap(), (NEEDED.min(hard), hard));
        allow();
        setrlimit(Resource::RLIMIT_NOFILE, soft, hard).unwrap();
        allow();
        assert!(getrlimit(Resource::RLIMIT_NOFILE).unwrap().0 >= soft, "it takes nothing away");
    }
}
