//! Connections over TCP or over a Unix socket.
use crate::net::address::Address;
use crate::net::connect_fault::NothingListens;
use crate::net::unix_peer::UnixPeer;
use nix::sys::socket::MsgFlags;
use socket2::{Domain, SockAddr, SockRef, Socket, TcpKeepalive, Type};
use std::fmt;
use std::fs::{File, Permissions, set_permissions};
use std::io::{self, ErrorKind, Read, Write};
use std::net::{IpAddr, Shutdown, SocketAddr, TcpListener, TcpStream, ToSocketAddrs};
use std::os::fd::{AsRawFd, OwnedFd, RawFd};
use std::os::unix::fs::{FileTypeExt, PermissionsExt};
use std::os::unix::net::{UnixListener, UnixStream};
use std::path::Path;
use std::time::Duration;

/// How long a server may take to show that it listens at a Unix socket.
const PROBE: Duration = Duration::from_secs(1);

/// The mode of a Unix socket: for its user only.
const OWN: u32 = 0o600;

/// The mode if other users may connect: who they are decides what they may send.
const OTHERS_TOO: u32 = 0o666;

/// How many connections the system keeps at a Unix socket until they are taken, as the standard
/// library has it.
const BACKLOG: i32 = 128;

/// When the system asks whether the machine of a silent peer is there, and how often before it ends
/// the connection: after a minute in all.
const KEEPALIVE: TcpKeepalive = TcpKeepalive::new()
    .with_time(Duration::from_secs(30))
    .with_interval(Duration::from_secs(10))
    .with_retries(3);

/// After how long the system ends a connection on which the peer's machine acknowledges nothing, even
/// one that this process has closed. Without it the system tries for a quarter of an hour, and does
/// not ask meanwhile.
const UNACKNOWLEDGED: Duration = Duration::from_secs(60);

/// A socket that takes connections.
#[derive(Debug)]
#[non_exhaustive]
pub enum Listener {
    /// Plain TCP.
    Tcp(TcpListener),
    /// TLS over TCP.
    Tls(TcpListener),
    /// A Unix socket.
    Unix(UnixListener),
}

/// A connection that was just taken.
#[derive(Debug)]
pub(crate) struct Accepted {
    pub stream: Stream,
    pub peer: PeerAddress,
    pub is_tls: bool,
}

/// Who is at the other end of a connection. It shows as `10.0.0.9:51234`,
/// `unix:user=1001,process=4242` or `unix:`.
#[derive(Clone, Copy, Debug, PartialEq, Eq)]
#[non_exhaustive]
pub enum PeerAddress {
    /// A process that connected from this address, by TCP or TLS.
    Tcp(SocketAddr),
    /// A process of this machine, by a Unix socket, if the system knows which one.
    Unix(Option<UnixPeer>),
    /// The connection is closed already.
    Gone,
}

impl PeerAddress {
    /// The address of the peer's machine, if it is another one or may be.
    pub(crate) fn machine(self) -> Option<IpAddr> {
        match self {
            PeerAddress::Tcp(address) => Some(address.ip()),
            PeerAddress::Unix(_) | PeerAddress::Gone => None,
        }
    }
}

/// As its text.
#[cfg(feature = "serde")]
impl serde::Serialize for PeerAddress {
    fn serialize<S: serde::Serializer>(&self, serializer: S) -> Result<S::Ok, S::Error> {
        serializer.collect_str(self)
    }
}

impl fmt::Display for PeerAddress {
    fn fmt(&self, f: &mut fmt::Formatter<'_>) -> fmt::Result {
        match self {
            PeerAddress::Tcp(address) => address.fmt(f),
            PeerAddress::Unix(Some(peer)) => write!(f, "unix:{peer}"),
            PeerAddress::Unix(None) => f.write_str("unix:"),
            PeerAddress::Gone => f.write_str("gone"),
        }
    }
}

impl Listener {
    /// Listens at the address. The file of a Unix socket at which nobody listens any more is
    /// replaced. Any other file is kept, and so is a socket for which that can't be known. Only its
    /// user may connect to the new one, whose mode is 0600.
    ///
    /// # Errors
    ///
    /// Those of the system: the address is in use, or is not one of this machine, or this process
    /// has no right to it.
    pub fn bind(address: &Address) -> io::Result<Listener> {
        match address {
            Address::Tcp(address) => TcpListener::bind(address).map(Listener::Tcp),
            Address::Host(name, port) => {
                TcpListener::bind((name.as_str(), *port)).map(Listener::Tcp)
            }
            Address::Tls(address) => TcpListener::bind(address).map(Listener::Tls),
            Address::TlsHost(name, port) => {
                TcpListener::bind((name.as_str(), *port)).map(Listener::Tls)
            }
            Address::Unix(path) => {
                if is_socket(path) && is_abandoned(&connect_to_path(path, PROBE)) {
                    std::fs::remove_file(path)?;
                }
                let listener = listen_for_own(path)?;
                // The umask may have taken rights from the user too.
                set_permissions(path, Permissions::from_mode(OWN))?;
                Ok(Listener::Unix(listener))
            }
        }
    }

    /// Lets all users of the machine connect to a Unix socket.
    pub(crate) fn let_users_connect(&self) -> io::Result<()> {
        match self.address()? {
            Address::Unix(path) => set_permissions(path, Permissions::from_mode(OTHERS_TOO)),
            _ => Ok(()),
        }
    }

    /// Where it listens.
    ///
    /// # Errors
    ///
    /// Those of the system; and a Unix socket without a path has no address.
    pub fn address(&self) -> io::Result<Address> {
        match self {
            Listener::Tcp(listener) => listener.local_addr().map(Address::Tcp),
            Listener::Tls(listener) => listener.local_addr().map(Address::Tls),
            Listener::Unix(listener) => {
                let address = listener.local_addr()?;
                let path = address.as_pathname().ok_or(io::ErrorKind::AddrNotAvailable)?;
                Ok(Address::Unix(path.into()))
            }
        }
    }

    /// `accept` does not wait from now on, whatever mode the socket had before.
    pub(crate) fn never_wait(&self) -> io::Result<()> {
        match self {
            Listener::Tcp(listener) | Listener::Tls(listener) => listener.set_nonblocking(true),
            Listener::Unix(listener) => listener.set_nonblocking(true),
        }
    }

    pub(crate) fn accept(&self) -> io::Result<Accepted> {
        match self {
            Listener::Tcp(listener) => Accepted::of_tcp(listener.accept()?, false),
            Listener::Tls(listener) => Accepted::of_tcp(listener.accept()?, true),
            Listener::Unix(listener) => {
                let stream = listener.accept()?.0;
                let peer = PeerAddress::Unix(UnixPeer::of(&stream).ok());
                Ok(Accepted { stream: stream.into(), peer, is_tls: false })
            }
        }
    }
}

impl Accepted {
    fn of_tcp((stream, from): (TcpStream, SocketAddr), is_tls: bool) -> io::Result<Accepted> {
        Ok(Accepted { stream: Stream::of_tcp(stream)?, peer: PeerAddress::Tcp(from), is_tls })
    }
}

impl AsRawFd for Listener {
    fn as_raw_fd(&self) -> RawFd {
        match self {
            Listener::Tcp(listener) | Listener::Tls(listener) => listener.as_raw_fd(),
            Listener::Unix(listener) => listener.as_raw_fd(),
        }
    }
}

/// Listens at the path. From the first moment on the file grants nothing to other users, whatever the
/// umask: the system takes the mode that the socket has before.
fn listen_for_own(path: &Path) -> io::Result<UnixListener> {
    let listener = UnixListener::from(Socket::new(Domain::UNIX, Type::STREAM, None)?);
    let file = File::from(OwnedFd::from(listener.try_clone()?));
    file.set_permissions(Permissions::from_mode(OWN))?;
    let socket = SockRef::from(&listener);
    socket.bind(&SockAddr::unix(path)?)?;
    socket.listen(BACKLOG)?;
    Ok(listener)
}

fn is_socket(path: &Path) -> bool {
    path.metadata().is_ok_and(|file| file.file_type().is_socket())
}

/// Connects to a Unix socket. A server that takes no connection just now does not hold it up for
/// longer.
fn connect_to_path(path: &Path, wait: Duration) -> io::Result<UnixStream> {
    let socket = Socket::new(Domain::UNIX, Type::STREAM, None)?;
    // The system waits no longer for room in the queue of the listener than for room to write.
    socket.set_write_timeout(Some(wait))?;
    match socket.connect(&SockAddr::unix(path)?) {
        Ok(()) => Ok(socket.into()),
        Err(error) if error.kind() == ErrorKind::WouldBlock => {
            Err(io::Error::new(ErrorKind::TimedOut, "the server accepts no connection"))
        }
        Err(error) => Err(error),
    }
}

/// Whether a connect shows that nobody listens at a Unix socket any more. A missing right or a
/// server that is slow does not show it.
fn is_abandoned<T>(connected: &io::Result<T>) -> bool {
    connected.as_ref().is_err_and(is_refused)
}

/// Whether the system refused to connect, since nothing listens at a socket.
fn is_refused(error: &io::Error) -> bool {
    error.kind() == ErrorKind::ConnectionRefused
}

impl From<TcpListener> for Listener {
    /// Plain TCP.
    fn from(listener: TcpListener) -> Listener {
        Listener::Tcp(listener)
    }
}

impl From<UnixListener> for Listener {
    fn from(listener: UnixListener) -> Listener {
        Listener::Unix(listener)
    }
}

/// One connection. No write to it raises SIGPIPE, also in a program that does not ignore that.
#[derive(Debug)]
pub(crate) struct Stream(Socket);

impl From<UnixStream> for Stream {
    fn from(stream: UnixStream) -> Stream {
        Stream(stream.into())
    }
}

impl Stream {
    /// Connects. The error carries a [`NothingListens`] if the system refused it.
    pub fn connect(address: &Address, wait: Duration) -> io::Result<Stream> {
        let connected = Stream::connect_once(address, wait);
        let is_unix = matches!(address, Address::Unix(_));
        connected.map_err(|error| match error.kind() {
            _ if is_refused(&error) => NothingListens(error).into(),
            ErrorKind::NotFound if is_unix => NothingListens(error).into(),
            _ => error,
        })
    }

    fn connect_once(address: &Address, wait: Duration) -> io::Result<Stream> {
        match address {
            Address::Tcp(address) | Address::Tls(address) => {
                Stream::of_tcp(TcpStream::connect_timeout(address, wait)?)
            }
            Address::Host(name, port) | Address::TlsHost(name, port) => {
                let connected = connect_to_one((name.as_str(), *port).to_socket_addrs()?, wait);
                Stream::of_tcp(connected?)
            }
            Address::Unix(path) => connect_to_path(path, wait).map(Stream::from),
        }
    }

    fn of_tcp(stream: TcpStream) -> io::Result<Stream> {
        stream.set_nodelay(true)?;
        let socket = SockRef::from(&stream);
        socket.set_tcp_keepalive(&KEEPALIVE)?;
        socket.set_tcp_user_timeout(Some(UNACKNOWLEDGED))?;
        Ok(Stream(stream.into()))
    }

    pub fn is_unix(&self) -> bool {
        self.0.domain().is_ok_and(|domain| domain == Domain::UNIX)
    }

    pub fn try_clone(&self) -> io::Result<Stream> {
        self.0.try_clone().map(Stream)
    }

    /// No read or write waits from now on.
    pub fn never_wait(&self) -> io::Result<()> {
        self.0.set_nonblocking(true)
    }

    pub fn set_timeouts(&self, read: Duration, write: Duration) -> io::Result<()> {
        self.0.set_read_timeout(Some(read))?;
        self.0.set_write_timeout(Some(write))
    }

    /// Ends the connection for both sides, and wakes a thread that reads from it.
    pub fn shut(&self) {
        // One that the other side has ended is shut already.
        let _ = self.0.shutdown(Shutdown::Both);
    }
}

impl AsRawFd for Stream {
    fn as_raw_fd(&self) -> RawFd {
        self.0.as_raw_fd()
    }
}

/// Connects to the first address that takes it. Each may take this long. It is refused only if each
/// address refuses it.
fn connect_to_one(
    addresses: impl Iterator<Item = SocketAddr>,
    wait: Duration,
) -> io::Result<TcpStream> {
    let mut failure = io::Error::new(ErrorKind::NotFound, "the host has no address");
    let mut has_failed = false;
    for address in addresses {
        match TcpStream::connect_timeout(&address, wait) {
            Ok(stream) => return Ok(stream),
            Err(error) if is_refused(&error) && has_failed => {}
            Err(error) => (failure, has_failed) = (error, true),
        }
    }
    Err(failure)
}

impl Read for Stream {
    fn read(&mut self, bytes: &mut [u8]) -> io::Result<usize> {
        self.0.read(bytes)
    }
}

impl Write for Stream {
    fn write(&mut self, bytes: &[u8]) -> io::Result<usize> {
        self.0.send_with_flags(bytes, MsgFlags::MSG_NOSIGNAL.bits())
    }

    fn flush(&mut self) -> io::Result<()> {
        Ok(())
    }
}

#[cfg(test)]
mod tests {
    use super::*;
    use std::time::Instant;

    #[test]
    fn only_a_refused_connect_shows_that_nobody_listens() {
        let failed = |kind: ErrorKind| io::Result::<()>::Err(kind.into());
        assert!(is_abandoned(&failed(ErrorKind::ConnectionRefused)));
        assert!(!is_abandoned(&Ok(())));
        for kind in [
            ErrorKind::PermissionDenied,
            ErrorKind::TimedOut,
            ErrorKind::WouldBlock,
            ErrorKind::NotFound,
            ErrorKind::Other,
        ] {
            assert!(!is_abandoned(&failed(kind)), "{kind}");
        }
    }

    #[test]
    fn each_address_of_a_host_is_tried() {
        let living = TcpListener::bind("127.0.0.1:0").unwrap();
        let dead = TcpListener::bind("127.0.0.1:0").unwrap().local_addr().unwrap();
        let both = [dead, living.local_addr().unwrap()];
        let connected = connect_to_one(both.into_iter(), PROBE).unwrap();
        assert_eq!(connected.peer_addr().unwrap(), both[1]);
        let refused = connect_to_one([dead].into_iter(), PROBE).unwrap_err();
        assert_eq!(refused.kind(), ErrorKind::ConnectionRefused);
        // No connection is made to it, and nothing refuses one.
        let broadcast = SocketAddr::from(([255, 255, 255, 255], 1));
        let unreached = connect_to_one([broadcast, dead].into_iter(), PROBE).unwrap_err();
        assert!(!is_refused(&unreached), "{unreached}");
        let nobody = connect_to_one(std::iter::empty(), PROBE).unwrap_err();
        assert_eq!(nobody.kind(), ErrorKind::NotFound);
    }

    #[test]
    fn a_unix_server_that_takes_no_connection_holds_nobody_up() {
        let path = std::env::temp_dir().join(format!("krl-stream-full-{}", std::process::id()));
        let listener = Socket::new(Domain::UNIX, Type::STREAM, None).unwrap();
        listener.bind(&SockAddr::unix(&path).unwrap()).unwrap();
        listener.listen(0).unwrap();
        let (wait, begun) = (Duration::from_millis(50), Instant::now());
        // Some find room in the queue.
        let connect = || connect_to_path(&path, wait);
        let waiting: Vec<UnixStream> = std::iter::from_fn(|| connect().ok()).take(100).collect();
        assert!(waiting.len() < 100);
        assert_eq!(connect().unwrap_err().kind(), ErrorKind::TimedOut);
        assert!(begun.elapsed() < Duration::from_secs(10), "{:?}", begun.elapsed());
        std::fs::remove_file(path).unwrap();
    }

    #[test]
    fn the_system_ends_a_connection_to_a_machine_that_is_away() {
        let listener = TcpListener::bind("127.0.0.1:0").unwrap();
        let address = Address::Tcp(listener.local_addr().unwrap());
        let ours = Stream::connect(&address, PROBE).unwrap();
        let theirs = Listener::from(listener).accept().unwrap().stream;
        for Stream(socket) in [ours, theirs] {
            assert!(socket.keepalive().unwrap());
            assert_eq!(socket.tcp_user_timeout().unwrap(), Some(UNACKNOWLEDGED));
        }
    }

    #[test]
    fn a_unix_socket_is_only_its_users_from_the_first_moment_on() {
        let path = std::env::temp_dir().join(format!("krl-stream-mode-{}", std::process::id()));
        let listener = listen_for_own(&path).unwrap();
        let mode = path.metadata().unwrap().permissions().mode() & 0o777;
        assert_eq!(mode & !OWN, 0, "{mode:o}");
        drop(listener);
        std::fs::remove_file(path).unwrap();
    }

    #[test]
    fn a_socket_is_taken_over_when_its_server_is_gone_and_not_before() {
        let path = std::env::temp_dir().join(format!("krl-stream-{}", std::process::id()));
        let address = Address::Unix(path.clone());
        let living = Listener::bind(&address).unwrap();
        assert_eq!(path.metadata().unwrap().permissions().mode() & 0o777, OWN);
        living.let_users_connect().unwrap();
        assert_eq!(path.metadata().unwrap().permissions().mode() & 0o777, OTHERS_TOO);
        assert!(Listener::bind(&address).is_err(), "its server lives");
        drop(living);
        drop(Listener::bind(&address).unwrap());
        std::fs::remove_file(path).unwrap();
    }
}
