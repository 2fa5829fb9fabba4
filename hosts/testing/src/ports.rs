//! Ports for servers that come up some time after they were given one.
use std::io::{Error, ErrorKind};
use std::net::{SocketAddr, TcpListener};
use std::sync::atomic::{AtomicU32, Ordering};

/// The ports that are tried begin here, and there are this many.
const FIRST: u32 = 10_000;
const COUNT: u32 = 20_000;

/// An address at which nobody listens.
///
/// Systems give a connection a port above these. So none that is made meanwhile takes this one, and
/// no client that tries it again and again is connected to itself.
pub fn free_address() -> std::io::Result<SocketAddr> {
    static ASKED: AtomicU32 = AtomicU32::new(0);
    for _ in 0..COUNT {
        // Several processes ask at once.
        let asked = std::process::id().wrapping_mul(61) + 7 * ASKED.fetch_add(1, Ordering::Relaxed);
        let port = u16::try_from(FIRST + asked % COUNT).expect("the ports end below 30,000");
        if let Ok(listener) = TcpListener::bind(("127.0.0.1", port)) {
            return listener.local_addr();
        }
    }
    Err(Error::new(ErrorKind::AddrInUse, "no port is free"))
}
