//! How a client begins a connection, and under which incarnation.
//!
//! The thread of [`crate::client::link`] and the client without sockets of `sans_io`, which the
//! simulation runs, share the order:
//!
//! 1. A client that has dropped all, or whose lease has ended, takes a greater incarnation.
//! 2. The incarnation is written to the disk.
//! 3. Only then may it be sent, and the connection begins with the greeting.
//!
//! So after a crash, the next process of this number takes a greater incarnation than each one that
//! a server may know.
use crate::client::incarnations::Incarnations;
use crate::client::session::Session;
use crate::log::event_log;
use crate::proved::client_handle::ClientHandle;
use std::io;
use std::ops::DerefMut;

/// What has the session of a client. Nothing borrows the session while an incarnation is written,
/// so callers of the client do not wait for the disk.
pub(crate) trait Shell {
    /// The session at this moment.
    fn session(&mut self) -> impl DerefMut<Target = Session>;
}

impl Shell for Session {
    fn session(&mut self) -> impl DerefMut<Target = Session> {
        self
    }
}

/// Gives a client that has dropped all, or whose lease has ended, a greater incarnation, under
/// which it joins again.
///
/// # Errors
///
/// If memory is refused.
pub(crate) fn begin_again_if_due(
    shell: &mut impl Shell,
    incarnations: &mut impl Incarnations,
) -> io::Result<()> {
    if !shell.session().has_to_begin_again() {
        return Ok(());
    }
    incarnations.renew();
    let (number, incarnation) = (incarnations.number(), incarnations.current());
    let client = ClientHandle::open_after(number, incarnation, incarnations.older());
    shell.session().begin_again(client.map_err(io::Error::other)?);
    event_log::began_again(number, incarnation);
    Ok(())
}

/// Begins a connection that is made. Returns the bytes with which it begins.
///
/// # Errors
///
/// If the incarnation can't be kept, or memory is refused; and those of [`Session::connected`].
pub(crate) fn begin_connection(
    shell: &mut impl Shell,
    incarnations: &mut impl Incarnations,
) -> io::Result<Vec<u8>> {
    begin_again_if_due(shell, incarnations)?;
    incarnations.keep()?;
    shell.session().connected()
}

#[cfg(test)]
mod tests {
    use super::*;
    use crate::client::state::{Dropped, State};
    use crate::lease::clocks::Now;
    use crate::lease::terms::{Older, Sign};
    use crate::wire::frames::split;
    use std::io::ErrorKind;

    /// The incarnations of client 1, the first of which is 1.
    struct Numbers {
        current: u64,
        kept: u64,
        disk_is_full: bool,
    }

    impl Incarnations for Numbers {
        fn number(&self) -> u8 {
            1
        }

        fn current(&self) -> u64 {
            self.current
        }

        fn renew(&mut self) {
            self.current += 1;
        }

        fn older(&self) -> Older {
            Older::IsOver(self.kept)
        }

        fn keep(&mut self) -> io::Result<()> {
            if self.disk_is_full {
                return Err(ErrorKind::StorageFull.into());
            }
            self.kept = self.current;
            Ok(())
        }
    }

    fn client() -> (Session, Numbers) {
        let client = ClientHandle::open_after(1, 1, Older::Unknown).unwrap();
        let session = Session::new("unix:a".parse().unwrap(), State::new(client, Now::read()), 1);
        (session, Numbers { current: 1, kept: 0, disk_is_full: false })
    }

    fn sign_of(greeting: &[u8]) -> Sign {
        split(greeting).find_map(|(frame, _)| Sign::read(frame)).unwrap()
    }

    #[test]
    fn no_connection_begins_before_its_incarnation_is_kept() {
        let (mut session, mut numbers) = client();
        numbers.disk_is_full = true;
        let refused = begin_connection(&mut session, &mut numbers).unwrap_err();
        assert_eq!(refused.kind(), ErrorKind::StorageFull);
        assert!(!session.is_connected());
        numbers.disk_is_full = false;
        let greeting = begin_connection(&mut session, &mut numbers).unwrap();
        assert_eq!((numbers.kept, sign_of(&greeting).incarnation), (1, 1));
        assert!(session.is_connected());
    }

    #[test]
    fn a_client_that_has_dropped_all_connects_under_a_greater_incarnation_that_is_kept() {
        let (mut session, mut numbers) = client();
        numbers.keep().unwrap();
        session.state().drop_all(Dropped::StoreWentBack);
        numbers.disk_is_full = true;
        begin_connection(&mut session, &mut numbers).unwrap_err();
        begin_connection(&mut session, &mut numbers).unwrap_err();
        assert_eq!((numbers.current, numbers.kept), (2, 1), "each attempt takes the same one");
        numbers.disk_is_full = false;
        let greeting = begin_connection(&mut session, &mut numbers).unwrap();
        let Sign { incarnation, .. } = sign_of(&greeting);
        assert_eq!((numbers.kept, incarnation, session.state().incarnation()), (2, 2, 2));
    }
}
