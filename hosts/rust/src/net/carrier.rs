//! What carries frames between a client and its server: a stream, and TLS if the address begins
//! with `tls:`.
use crate::net::address::Address;
use crate::net::connect_fault::Rejection;
use crate::net::outbox::Outbox;
use crate::net::process;
use crate::net::stream::Stream;
use crate::net::tls::{NEEDED, Side, TlsConfig, TlsSession};
use crate::wire::frames::Frames;
use std::io::{self, ErrorKind, Read, Write};
use std::sync::{Arc, Mutex, MutexGuard, PoisonError};
use std::time::{Duration, Instant};

/// How long a handshake may take.
const HANDSHAKE: Duration = Duration::from_secs(3);

/// How much is read at once of a handshake.
const GULP: usize = 1 << 14;

/// One end of a connection. Two threads may have one each: one reads, and one writes. Neither waits
/// for the other side.
///
/// The session is locked while it works on memory, and never while a stream is read or written: so
/// no thread waits for a server that is slow.
#[derive(Debug)]
pub(crate) struct Carrier {
    stream: Stream,
    session: Option<Arc<Mutex<TlsSession>>>,
}

impl Carrier {
    /// Connects, and shakes hands if the address is one of TLS.
    pub fn connect(
        address: &Address,
        tls: Option<&TlsConfig>,
        wait: Duration,
    ) -> io::Result<Carrier> {
        let config = match (address.is_tls(), tls) {
            (true, None) => return Err(without_certificate(address)),
            (true, config) => config,
            (false, _) => None,
        };
        let mut stream = Stream::connect(address, wait)?;
        let Some(config) = config else { return Carrier::over(stream, None) };
        let mut session = TlsSession::new(config, Side::Connects)?;
        stream.set_timeouts(HANDSHAKE, HANDSHAKE)?;
        shake(&mut stream, &mut session, Instant::now() + HANDSHAKE)?;
        Carrier::over(stream, Some(session))
    }

    /// That of a stream that is connected, and on which the handshake is done.
    pub fn over(stream: Stream, session: Option<TlsSession>) -> io::Result<Carrier> {
        stream.never_wait()?;
        Ok(Carrier { stream, session: session.map(|session| Arc::new(Mutex::new(session))) })
    }

    /// Over a Unix socket: hands this process over to the server with the first bytes, and takes
    /// those away that are written so. The system may refuse that: then all of them are left.
    pub fn hand_over_process(&self, first: &mut Vec<u8>) {
        if self.stream.is_unix() {
            let written = process::write_with_this_process(&self.stream, first);
            first.drain(..written.unwrap_or(0));
        }
    }

    pub fn try_clone(&self) -> io::Result<Carrier> {
        Ok(Carrier { stream: self.stream.try_clone()?, session: self.session.clone() })
    }

    pub fn stream(&self) -> &Stream {
        &self.stream
    }

    /// Ends the connection for both sides, and wakes a thread that reads from it.
    pub fn shut(&self) {
        self.stream.shut();
    }

    /// Reads once, and puts what came after the frames. Returns how many bytes came: none if
    /// the server has ended the connection.
    pub fn fill(&mut self, frames: &mut Frames) -> io::Result<usize> {
        let Some(session) = &self.session else { return frames.fill(&mut self.stream) };
        let mut sealed = [0; GULP];
        let count = self.stream.read(&mut sealed)?;
        lock(session).open_into(&sealed[..count], frames)
    }

    /// Makes of the frames what is to be written.
    pub fn seal(&self, frames: &mut Vec<u8>) -> io::Result<()> {
        let Some(session) = &self.session else { return Ok(()) };
        let mut session = lock(session);
        session.put(frames);
        *frames = session.take_sealed()?;
        Ok(())
    }

    /// Writes what the stream takes at once of what is sealed.
    pub fn write(&mut self, sealed: &mut Outbox, now: Instant) -> io::Result<()> {
        sealed.write(&mut self.stream, now)
    }
}

/// Shakes hands, until the deadline.
fn shake(stream: &mut Stream, session: &mut TlsSession, end: Instant) -> io::Result<()> {
    let mut came = [0; GULP];
    loop {
        stream.write_all(&session.take_sealed()?)?;
        if session.peer().is_some() {
            return Ok(());
        }
        if Instant::now() >= end {
            return Err(io::Error::new(ErrorKind::TimedOut, "the handshake took too long"));
        }
        match stream.read(&mut came)? {
            0 => return Err(ErrorKind::UnexpectedEof.into()),
            count => session.shake(&came[..count])?,
        }
    }
}

fn without_certificate(address: &Address) -> io::Error {
    let why = format!("{address} is an address of TLS: the client needs {NEEDED}");
    Rejection::NotTaken(why).into()
}

fn lock<T>(mutex: &Mutex<T>) -> MutexGuard<'_, T> {
    mutex.lock().unwrap_or_else(PoisonError::into_inner)
}
