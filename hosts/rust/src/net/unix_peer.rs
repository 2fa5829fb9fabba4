//! Who is at the other end of a Unix socket.
use nix::sys::socket::{getsockopt, sockopt};
use nix::unistd::Uid;
use std::fmt;
use std::io;
use std::os::fd::AsRawFd;
use std::os::unix::net::UnixStream;

/// The process at the other end of a Unix socket, as the system saw it when it connected. It shows as
/// `user=1001,process=4242`.
#[derive(Clone, Copy, Debug, PartialEq, Eq)]
#[non_exhaustive]
pub struct UnixPeer {
    /// The number of its user.
    pub user: u32,
    /// Its number, or 0 if this process does not see it, as from another container.
    pub process: i32,
}

impl UnixPeer {
    pub(crate) fn of(stream: &UnixStream) -> io::Result<UnixPeer> {
        let credentials = getsockopt(stream.as_raw_fd(), sockopt::PeerCredentials)?;
        Ok(UnixPeer { user: credentials.uid(), process: credentials.pid() })
    }
}

impl fmt::Display for UnixPeer {
    fn fmt(&self, f: &mut fmt::Formatter<'_>) -> fmt::Result {
        write!(f, "user={},process={}", self.user, self.process)
    }
}

/// The user as whom this process runs.
pub(crate) fn own_user() -> u32 {
    Uid::effective().as_raw()
}

#[cfg(test)]
mod tests {
    use super::*;

    #[test]
    fn this_process_is_at_the_other_end_of_a_pair() {
        let (one, _other) = UnixStream::pair().unwrap();
        let peer = UnixPeer::of(&one).unwrap();
        assert_eq!((peer.user, peer.process), (own_user(), std::process::id().cast_signed()));
        let shown = format!("user={},process={}", own_user(), std::process::id());
        assert_eq!(peer.to_string(), shown);
    }
}
