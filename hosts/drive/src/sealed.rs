//! One side of a connection by TLS, for a network that reads what is sent over it: it shows each
//! side the certificate of the other one.
use crate::certificates;
use krl::sans_io::TlsSession;
use std::collections::VecDeque;
use std::error::Error;
use std::io::{self, ErrorKind, Read, Write};
use std::net::TcpStream;
use std::sync::{Arc, Mutex, MutexGuard, PoisonError};
use std::time::Duration;

/// How much is read at once.
const GULP: usize = 1 << 14;

/// How long the other side may take for each part of a handshake.
const HANDSHAKE: Duration = Duration::from_secs(5);

/// The numbers of clients are below this.
const CLIENTS: u8 = 64;

/// It may be cloned, so that one thread reads and another one writes.
pub struct Sealed {
    stream: TcpStream,
    session: Arc<Mutex<TlsSession>>,
    /// What has come and is not read.
    opened: VecDeque<u8>,
}

impl Sealed {
    /// Takes the connection of a client as its server, and answers the client's number.
    pub fn accept(stream: TcpStream) -> Result<(Sealed, u8), Box<dyn Error>> {
        let config = certificates::of("server")?;
        let sealed = Sealed::shake(stream, TlsSession::accept(&config)?)?;
        let peer = sealed.session().peer();
        let number = (0..CLIENTS).find(|number| peer.is_some_and(|it| it.is_client(*number)));
        Ok((sealed, number.ok_or("a certificate of no client")?))
    }

    /// Connects to the server as the client of this number.
    pub fn connect(stream: TcpStream, number: u8) -> Result<Sealed, Box<dyn Error>> {
        let config = certificates::of(&format!("client-{number}"))?;
        Ok(Sealed::shake(stream, TlsSession::connect(&config)?)?)
    }

    /// Another handle of the same connection. What was opened stays with this one.
    pub fn try_clone(&self) -> io::Result<Sealed> {
        let (stream, session) = (self.stream.try_clone()?, Arc::clone(&self.session));
        Ok(Sealed { stream, session, opened: VecDeque::new() })
    }

    fn shake(mut stream: TcpStream, mut session: TlsSession) -> io::Result<Sealed> {
        stream.set_read_timeout(Some(HANDSHAKE))?;
        let (mut opened, mut came) = (VecDeque::new(), [0; GULP]);
        while session.peer().is_none() {
            stream.write_all(&session.take_sealed()?)?;
            let count = stream.read(&mut came)?;
            if count == 0 {
                return Err(ErrorKind::UnexpectedEof.into());
            }
            opened.extend(session.open(&came[..count])?);
        }
        stream.write_all(&session.take_sealed()?)?;
        stream.set_read_timeout(None)?;
        Ok(Sealed { stream, session: Arc::new(Mutex::new(session)), opened })
    }

    fn session(&self) -> MutexGuard<'_, TlsSession> {
        self.session.lock().unwrap_or_else(PoisonError::into_inner)
    }
}

impl Read for Sealed {
    fn read(&mut self, bytes: &mut [u8]) -> io::Result<usize> {
        let mut came = [0; GULP];
        while self.opened.is_empty() {
            let count = self.stream.read(&mut came)?;
            if count == 0 {
                return Ok(0);
            }
            let opened = self.session().open(&came[..count])?;
            self.opened.extend(opened);
        }
        self.opened.read(bytes)
    }
}

impl Write for Sealed {
    fn write(&mut self, bytes: &[u8]) -> io::Result<usize> {
        let sealed = {
            let mut session = self.session();
            session.put(bytes);
            session.take_sealed()?
        };
        self.stream.write_all(&sealed)?;
        Ok(bytes.len())
    }

    fn flush(&mut self) -> io::Result<()> {
        Ok(())
    }
}
