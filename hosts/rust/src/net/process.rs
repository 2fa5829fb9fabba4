//! The process of a client, as its host hands it to the server of this machine.
//!
//! Linux has a descriptor of a process, a *pidfd*, which never stands for another one. The host of a
//! client makes that of its own process, and a Unix socket hands it over next to the first bytes. So
//! a server that has such a descriptor knows the process that has the client's cache, in whatever
//! container that runs. A relay that copies bytes hands nothing over: who connected to the server
//! does not count, and the relay's process is never taken for the client's.
use crate::net::stream::Stream;
use nix::cmsg_space;
use nix::errno::Errno;
use nix::libc;
use nix::poll::{PollFd, PollFlags, poll};
use nix::sys::socket::{ControlMessage, ControlMessageOwned, MsgFlags, recvmsg, sendmsg};
use std::fs::read_link;
use std::io::{self, IoSlice, IoSliceMut, Read};
use std::os::fd::{AsRawFd, FromRawFd, OwnedFd, RawFd};
use std::path::Path;

/// What the system shows of a descriptor of a process.
const KIND: &str = "anon_inode:[pidfd]";

/// A process, which may have ended.
#[derive(Debug)]
pub(crate) struct Process(OwnedFd);

impl Process {
    /// This process.
    ///
    /// # Errors
    ///
    /// Those of the system, which has such descriptors from Linux 5.3 on.
    pub fn this() -> io::Result<Process> {
        // SAFETY: the call takes two numbers.
        let made = unsafe { libc::syscall(libc::SYS_pidfd_open, std::process::id(), 0) };
        let descriptor = RawFd::try_from(Errno::result(made)?).map_err(io::Error::other)?;
        // SAFETY: the system has just made it for this caller.
        Ok(Process(unsafe { OwnedFd::from_raw_fd(descriptor) }))
    }

    #[cfg(test)]
    pub fn of_descriptor(descriptor: OwnedFd) -> Process {
        Process(descriptor)
    }

    /// Whether the process has ended: none of its threads runs any more, whether or not its parent
    /// has waited for it.
    pub fn has_ended(&self) -> bool {
        let mut asked = [PollFd::new(self.0.as_raw_fd(), PollFlags::POLLIN)];
        let answered = poll(&mut asked, 0);
        let shown = asked[0].revents().unwrap_or(PollFlags::empty());
        answered.is_ok() && shown.contains(PollFlags::POLLIN)
    }
}

/// Writes what a Unix socket takes at once of the bytes, and hands this process over with them.
/// Returns how many bytes it took.
pub(crate) fn write_with_this_process(stream: &Stream, bytes: &[u8]) -> io::Result<usize> {
    let this = Process::this()?;
    let handed = [this.0.as_raw_fd()];
    let with = [ControlMessage::ScmRights(&handed)];
    let bytes = [IoSlice::new(bytes)];
    Ok(sendmsg::<()>(stream.as_raw_fd(), &bytes, &with, MsgFlags::MSG_NOSIGNAL, None)?)
}

/// Reads what a Unix socket has. Returns how many bytes came, and the process that was handed over
/// with the first of them.
pub(crate) fn read_with_process(
    stream: &mut Stream,
    bytes: &mut [u8],
) -> io::Result<(usize, Option<Process>)> {
    let (first, process) = receive(stream, bytes)?;
    // A read ends after a descriptor, and the system does not report again that there is more.
    let more = if process.is_some() { stream.read(&mut bytes[first..]).unwrap_or(0) } else { 0 };
    Ok((first + more, process))
}

fn receive(stream: &Stream, bytes: &mut [u8]) -> io::Result<(usize, Option<Process>)> {
    let mut room = cmsg_space!(RawFd);
    let mut bytes = [IoSliceMut::new(bytes)];
    let flags = MsgFlags::MSG_CMSG_CLOEXEC;
    let came = recvmsg::<()>(stream.as_raw_fd(), &mut bytes, Some(&mut room), flags)?;
    let handed: Vec<OwnedFd> = came.cmsgs().flat_map(descriptors).collect();
    let process = handed.into_iter().find(is_of_process).map(Process);
    Ok((came.bytes, process))
}

fn descriptors(message: ControlMessageOwned) -> Vec<OwnedFd> {
    let ControlMessageOwned::ScmRights(handed) = message else { return Vec::new() };
    // SAFETY: the system has just made them for this caller.
    handed.into_iter().map(|handed| unsafe { OwnedFd::from_raw_fd(handed) }).collect()
}

/// Whether the descriptor is one of a process: any other shows nothing of one.
fn is_of_process(handed: &OwnedFd) -> bool {
    let shown = read_link(format!("/proc/self/fd/{}", handed.as_raw_fd()));
    shown.is_ok_and(|shown| shown == Path::new(KIND))
}

#[cfg(test)]
mod tests {
    use super::*;
    use std::fs::File;
    use std::io::{Read, Write};
    use std::os::unix::net::UnixStream;

    fn received(mut stream: Stream) -> (Vec<u8>, Option<Process>) {
        let mut bytes = [0; 64];
        stream.never_wait().unwrap();
        let (count, process) = read_with_process(&mut stream, &mut bytes).unwrap();
        (bytes[..count].to_vec(), process)
    }

    #[test]
    fn the_own_process_comes_with_the_first_bytes() {
        let (ours, theirs) = UnixStream::pair().unwrap();
        let mut ours = Stream::from(ours);
        assert_eq!(write_with_this_process(&ours, b"hello").unwrap(), 5);
        ours.write_all(b" again").unwrap();
        let (bytes, process) = received(theirs.into());
        assert_eq!(bytes, b"hello again");
        assert!(!process.unwrap().has_ended());
    }

    #[test]
    fn what_only_copies_bytes_hands_no_process_over() {
        let (ours, relay) = UnixStream::pair().unwrap();
        let (mut beyond, theirs) = UnixStream::pair().unwrap();
        write_with_this_process(&Stream::from(ours), b"hello").unwrap();
        let mut copied = [0; 5];
        (&relay).read_exact(&mut copied).unwrap();
        beyond.write_all(&copied).unwrap();
        let (bytes, process) = received(theirs.into());
        assert_eq!(bytes, b"hello");
        assert!(process.is_none());
    }

    #[test]
    fn another_descriptor_stands_for_no_process() {
        let (ours, theirs) = UnixStream::pair().unwrap();
        let file = File::open("/dev/null").unwrap();
        let handed = [file.as_raw_fd(), ours.as_raw_fd()];
        let with = [ControlMessage::ScmRights(&handed)];
        let bytes = [IoSlice::new(b"hello")];
        sendmsg::<()>(ours.as_raw_fd(), &bytes, &with, MsgFlags::empty(), None).unwrap();
        let (bytes, process) = received(theirs.into());
        assert_eq!(bytes, b"hello");
        assert!(process.is_none());
    }
}
