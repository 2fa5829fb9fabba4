//! TLS 1.3, in which each side shows a certificate.
//!
//! A session works on memory: what came from the socket is handed to it, and what is to leave is
//! taken from it. So it never waits, and the owner of the socket decides how to wait for it.
mod certificate;
mod config;
mod pipe;

pub use certificate::Certificate;
pub use config::{TlsConfig, TlsError};

use crate::identity::{Identity, Role, TableName};
use crate::net::connect_fault::Rejection;
use crate::wire::frames::{Frames, GULP, TLS_ALERT};
use openssl::error::ErrorStack;
use openssl::ssl::{Error, ErrorCode, Ssl, SslRef, SslStream, SslVerifyMode};
use openssl::x509::{X509Ref, X509StoreContextRef, X509VerifyResult};
use pipe::Pipe;
use std::ffi::c_ulong;
use std::fmt;
use std::io::{self, ErrorKind, Read, Write};
use std::sync::{Arc, OnceLock};

/// What one needs at an address of TLS.
pub(crate) const NEEDED: &str = "a certificate, its key, and that of the authority";

/// The most bytes that come in a handshake: a chain of certificates has a few thousand.
const LONGEST_HANDSHAKE: usize = 1 << 16;

/// How much is opened at once: a record.
const RECORD: usize = 1 << 14;

/// Which bits of a code of OpenSSL are its reason, as far as alerts need them.
const REASON: c_ulong = 0xfff;

/// The kind of the records of a handshake, with which each connection of TLS begins.
const HANDSHAKE: u8 = 22;

/// Alerts, each with its level before it: the record before was not expected, and no other one
/// follows.
const UNEXPECTED_MESSAGE: [u8; 2] = [2, 10];
const CLOSE_NOTIFY: [u8; 2] = [1, 0];

/// The reason of an alert is its number after this one.
const ALERTS: c_ulong = 1000;

/// The alerts of TLS about a certificate: `handshake_failure`, those from `bad_certificate` to
/// `certificate_unknown`, `unknown_ca`, `access_denied` and `certificate_required`.
const ABOUT_CERTIFICATES: [c_ulong; 9] = [NO_NAME_COUNTS, 42, 43, 44, 45, 46, 48, 49, 116];

/// The alert `handshake_failure`, which a side of krl sends if no name of a certificate counts.
const NO_NAME_COUNTS: c_ulong = 40;

/// Which side of a connection this one is.
#[derive(Clone, Copy, Debug, PartialEq, Eq)]
pub(crate) enum Side {
    /// The other end has to be a server.
    Connects,
    /// The other end has to be a client or an operator.
    Accepts,
}

/// One connection by TLS, in memory: what came from the socket is handed to it, and what is to be
/// written to the socket is taken from it. It never waits, so it fits every kind of socket.
pub struct TlsSession {
    stream: SslStream<Pipe>,
    check: PeerCheck,
    /// None until the handshake is done.
    peer: Option<Identity>,
    /// How many bytes came in the handshake.
    shaken: usize,
    /// What is to leave as soon as the handshake is done and it is sealed.
    unsealed: Vec<u8>,
    /// Room for the content of a record.
    room: Box<[u8]>,
    /// The other side has announced its end.
    is_ended: bool,
}

/// Judges the certificate of the other end of one connection, within the handshake.
///
/// A program that serves a port of its own, or asks one, judges its peers by this as a server judges
/// its clients: by the names in their certificates.
#[derive(Clone, Debug)]
pub struct PeerCheck {
    side: Side,
    table: Option<TableName>,
    /// Whose certificate was refused.
    refused: RefusedSubject,
}

/// The subject of a certificate that was refused.
#[derive(Clone, Debug, Default)]
struct RefusedSubject(Arc<OnceLock<String>>);

impl RefusedSubject {
    fn note(&self, chain: &X509StoreContextRef) {
        if let Some(certificate) = chain.current_cert() {
            // The first one that is refused decides.
            let _ = self.0.set(certificate::shown(certificate.subject_name()));
        }
    }

    /// As it appears in a sentence, after "the other end".
    fn in_brackets(&self) -> String {
        self.0.get().map(|subject| format!(" ({subject})")).unwrap_or_default()
    }
}

impl PeerCheck {
    /// A check for a connection that this side has made, to a server, and the `Ssl` within whose
    /// handshake it judges.
    ///
    /// # Errors
    ///
    /// Those of OpenSSL.
    pub fn of_server(config: &TlsConfig) -> io::Result<(PeerCheck, Ssl)> {
        PeerCheck::new(config, Side::Connects)
    }

    /// A check for a connection that this side has taken, of a client or an operator.
    ///
    /// # Errors
    ///
    /// Those of OpenSSL.
    pub fn of_client(config: &TlsConfig) -> io::Result<(PeerCheck, Ssl)> {
        PeerCheck::new(config, Side::Accepts)
    }

    fn new(config: &TlsConfig, side: Side) -> io::Result<(PeerCheck, Ssl)> {
        let mut ssl = Ssl::new(&config.context())?;
        match side {
            Side::Connects => ssl.set_connect_state(),
            Side::Accepts => ssl.set_accept_state(),
        }
        let (table, refused) = (config.table().cloned(), RefusedSubject::default());
        let check = PeerCheck { side, table, refused };
        let within = check.clone();
        let mode = SslVerifyMode::PEER | SslVerifyMode::FAIL_IF_NO_PEER_CERT;
        ssl.set_verify_callback(mode, move |is_certified, chain| {
            let is_taken = is_certified && is_named(chain, within.side, within.table.as_ref());
            if !is_taken {
                within.refused.note(chain);
            }
            is_taken
        });
        Ok((check, ssl))
    }

    /// Who is at the other end by its certificate, once the handshake is done.
    ///
    /// # Errors
    ///
    /// `PermissionDenied`, with a sentence, if it shows no certificate that counts.
    pub fn peer(&self, ssl: &SslRef) -> io::Result<Identity> {
        let certificate = ssl.peer_certificate().ok_or_else(|| not_taken(NO_NAME))?;
        let found = peer_of(&certificate, self.side, self.table.as_ref());
        found.ok_or_else(|| not_taken(NO_NAME))
    }

    /// Why the connection can't continue after this error: a sentence. It is `PermissionDenied` if
    /// one side does not take the other's certificate.
    #[must_use]
    pub fn why_refused(&self, ssl: &SslRef, error: &Error) -> io::Error {
        let verified = ssl.verify_result();
        let alert = error.ssl_error().and_then(alert_of);
        let subject = self.refused.in_brackets();
        match (verified, alert) {
            (X509VerifyResult::APPLICATION_VERIFICATION, _) => {
                not_taken(&format!("{NO_NAME}{subject}"))
            }
            (_, Some(alert)) => {
                not_taken(&format!("the other end does not accept this certificate: {alert}"))
            }
            (X509VerifyResult::OK, None) => {
                io::Error::new(ErrorKind::InvalidData, format!("TLS failed: {error}"))
            }
            (refused, None) => {
                let why = refused.error_string();
                let certificate = format!("the certificate of the other end{subject}");
                not_taken(&format!("{certificate} is not accepted: {why}"))
            }
        }
    }
}

impl TlsSession {
    /// A connection that this side has made, to a server.
    ///
    /// # Errors
    ///
    /// Those of OpenSSL.
    #[cfg(feature = "sans-io")]
    pub fn connect(config: &TlsConfig) -> io::Result<TlsSession> {
        TlsSession::new(config, Side::Connects)
    }

    /// A connection that this side has taken, of a client or an operator.
    ///
    /// # Errors
    ///
    /// Those of OpenSSL.
    #[cfg(feature = "sans-io")]
    pub fn accept(config: &TlsConfig) -> io::Result<TlsSession> {
        TlsSession::new(config, Side::Accepts)
    }

    /// A connection with this side. The handshake begins with the first bytes that leave or come.
    pub(crate) fn new(config: &TlsConfig, side: Side) -> io::Result<TlsSession> {
        let (check, ssl) = PeerCheck::new(config, side)?;
        let mut session = TlsSession {
            stream: SslStream::new(ssl, Pipe::default())?,
            check,
            peer: None,
            shaken: 0,
            unsealed: Vec::new(),
            room: vec![0; RECORD].into(),
            is_ended: false,
        };
        session.go_on()?;
        Ok(session)
    }

    /// Who is at the other end: none until the handshake is done. A server may send nothing.
    #[must_use]
    pub fn peer(&self) -> Option<Identity> {
        self.peer
    }

    /// Reads once from the stream, and puts its content after the frames. Returns how many
    /// bytes came: none if the other side has ended.
    pub(crate) fn fill(
        &mut self,
        stream: &mut impl Read,
        frames: &mut Frames,
    ) -> io::Result<usize> {
        let mut sealed = [0; GULP];
        let count = stream.read(&mut sealed)?;
        self.open_into(&sealed[..count], frames)
    }

    /// Takes what came from the socket, and puts its content after the frames. Returns how many
    /// bytes came: none if the other side has ended.
    pub(crate) fn open_into(&mut self, sealed: &[u8], frames: &mut Frames) -> io::Result<usize> {
        let opened = self.open(sealed)?;
        put(&opened, frames)?;
        Ok(if self.is_ended && opened.is_empty() { 0 } else { sealed.len() })
    }

    /// Takes what came from the socket, and returns its content. What is to be written may be more
    /// then: see [`TlsSession::take_sealed`].
    ///
    /// # Errors
    ///
    /// `PermissionDenied`, with a sentence, if one side does not take the other's certificate;
    /// `InvalidData` if the bytes are not those of TLS 1.3, or the other side ended the session for
    /// another reason. What is to be written still informs the other side.
    pub fn open(&mut self, sealed: &[u8]) -> io::Result<Vec<u8>> {
        self.shake(sealed)?;
        if self.peer.is_some() { self.open_records() } else { Ok(Vec::new()) }
    }

    /// Takes what came from the socket, and continues with the handshake if it is not done.
    pub(crate) fn shake(&mut self, sealed: &[u8]) -> io::Result<()> {
        self.stream.get_mut().feed(sealed);
        if self.peer.is_some() {
            return Ok(());
        }
        // A server may begin with an alert.
        let is_plain = sealed.first().is_some_and(|kind| *kind != HANDSHAKE);
        if self.check.side == Side::Accepts && self.shaken == 0 && is_plain {
            return self.refuse_what_is_plain();
        }
        self.shaken += sealed.len();
        if self.shaken > LONGEST_HANDSHAKE {
            return Err(io::Error::new(ErrorKind::InvalidData, "the handshake does not end"));
        }
        self.go_on()
    }

    /// The other end does not speak TLS. OpenSSL answers nothing then: this side does, so that a peer
    /// knows it.
    fn refuse_what_is_plain(&mut self) -> io::Result<()> {
        for [level, what] in [UNEXPECTED_MESSAGE, CLOSE_NOTIFY] {
            self.stream.get_mut().write_all(&TLS_ALERT)?;
            self.stream.get_mut().write_all(&[0, 2, level, what])?;
        }
        let why = "the other end does not speak TLS: does it have the address without tls:?";
        Err(io::Error::new(ErrorKind::InvalidData, why))
    }

    /// Puts bytes after those that are to leave.
    pub fn put(&mut self, bytes: &[u8]) {
        self.unsealed.extend_from_slice(bytes);
    }

    /// Seals what is to leave, if the handshake is done, and takes what is to be written to the
    /// socket.
    ///
    /// # Errors
    ///
    /// Those of OpenSSL.
    pub fn take_sealed(&mut self) -> io::Result<Vec<u8>> {
        if self.peer.is_some() {
            let unsealed = std::mem::take(&mut self.unsealed);
            self.seal(&unsealed)?;
        }
        Ok(self.stream.get_mut().take_outgoing())
    }

    fn seal(&mut self, plain: &[u8]) -> io::Result<()> {
        let mut rest = plain;
        while !rest.is_empty() {
            let count = self.stream.ssl_write(rest).map_err(|error| self.refused(&error))?;
            rest = &rest[count..];
        }
        Ok(())
    }

    /// Continues with the handshake as far as it comes without more from the other side.
    fn go_on(&mut self) -> io::Result<()> {
        match self.stream.do_handshake() {
            Ok(()) => self.peer = Some(self.check.peer(self.stream.ssl())?),
            Err(error) if error.code() == ErrorCode::WANT_READ => {}
            Err(error) => return Err(self.refused(&error)),
        }
        Ok(())
    }

    fn open_records(&mut self) -> io::Result<Vec<u8>> {
        let mut plain = Vec::new();
        while !self.is_ended {
            match self.stream.ssl_read(&mut self.room) {
                Ok(count) => plain.extend_from_slice(&self.room[..count]),
                Err(error) if error.code() == ErrorCode::WANT_READ => break,
                Err(error) if error.code() == ErrorCode::ZERO_RETURN => self.is_ended = true,
                Err(error) => return Err(self.refused(&error)),
            }
        }
        Ok(plain)
    }

    fn refused(&self, error: &Error) -> io::Error {
        self.check.why_refused(self.stream.ssl(), error)
    }
}

const NO_NAME: &str = "the certificate of the other end has no name that counts here: a server's \
                       is krl:server, a client's krl:client:N, and an operator's krl:operator, \
                       each with @TABLE after it if the table has a name";

/// Whether the certificate names who may be at the other end. Those of authorities name nobody.
fn is_named(chain: &mut X509StoreContextRef, side: Side, table: Option<&TableName>) -> bool {
    if chain.error_depth() > 0 {
        return true;
    }
    let is_named = chain.current_cert().is_some_and(|found| peer_of(found, side, table).is_some());
    if !is_named {
        chain.set_error(X509VerifyResult::APPLICATION_VERIFICATION);
    }
    is_named
}

/// Who is at the other end of this side's connection, by its certificate. A server is nobody: it
/// sends nothing as a client.
fn peer_of(certificate: &X509Ref, side: Side, table: Option<&TableName>) -> Option<Identity> {
    let names = certificate::names_of(certificate);
    let names = names.iter().map(String::as_str);
    match side {
        Side::Accepts => Identity::of_names(names, table),
        Side::Connects => Role::is_server(names, table).then(Identity::nobody),
    }
}

/// The alert by which the other side has refused this certificate, if it has. One about something
/// else, such as an internal error, is not a verdict on the certificate.
fn alert_of(errors: &ErrorStack) -> Option<&'static str> {
    let refused = errors.errors().iter().find(|error| is_about_certificate(error.code()))?;
    if refused.code() & REASON == ALERTS + NO_NAME_COUNTS {
        return Some("it has no name that counts there, such as a client's krl:client:3");
    }
    Some(refused.reason().unwrap_or("an alert"))
}

/// Whether OpenSSL's code is that of an alert about a certificate.
fn is_about_certificate(code: c_ulong) -> bool {
    let reason = code & REASON;
    ABOUT_CERTIFICATES.iter().any(|alert| reason == ALERTS + alert)
}

fn not_taken(why: &str) -> io::Error {
    Rejection::NotTaken(why.into()).into()
}

/// Puts what came after the frames.
fn put(opened: &[u8], frames: &mut Frames) -> io::Result<()> {
    let mut rest = opened;
    while !rest.is_empty() {
        frames.fill(&mut rest)?;
    }
    Ok(())
}

impl fmt::Debug for TlsSession {
    fn fmt(&self, f: &mut fmt::Formatter<'_>) -> fmt::Result {
        let mut shown = f.debug_struct("TlsSession");
        shown.field("check", &self.check).field("peer", &self.peer).finish_non_exhaustive()
    }
}

#[cfg(test)]
mod tests;
