//! How a connection to the database is secured: by TLS over OpenSSL, or not at all.
use openssl::error::ErrorStack;
use openssl::ssl::{Ssl, SslConnector, SslFiletype, SslMethod, SslVerifyMode};
use openssl::x509::X509;
use openssl::x509::store::X509StoreBuilder;
use std::error::Error;
use std::io;
use std::path::{Path, PathBuf};
use std::pin::Pin;
use std::task::{Context, Poll};
use tokio::io::{AsyncRead, AsyncWrite, ReadBuf};
use tokio_openssl::SslStream;
use tokio_postgres::tls::{ChannelBinding, MakeTlsConnect, TlsConnect, TlsStream};

/// What is checked of the database's certificate, as with `sslmode` in PostgreSQL's own programs.
#[derive(Clone, Copy, Debug, PartialEq, Eq)]
pub(crate) enum Mode {
    /// There is no TLS.
    Disable,
    /// Nothing, unless an authority is given.
    Require,
    /// The authority.
    VerifyCa,
    /// The authority, and the host's name or address.
    VerifyFull,
}

/// How a connection is secured.
#[derive(Clone, Debug, PartialEq, Eq)]
pub(crate) struct Security {
    pub mode: Mode,
    /// The certificates of the authorities, as PEM. Without it those of the system count.
    pub authority: Option<PathBuf>,
    /// A certificate of the client, and its key, each as PEM.
    pub certificate: Option<PathBuf>,
    pub key: Option<PathBuf>,
}

impl Mode {
    /// The mode of this name. `allow` and `prefer` are not modes here: with them a connection may
    /// be plain without notice.
    pub fn parse(name: &str) -> Option<Mode> {
        match name {
            "disable" => Some(Mode::Disable),
            "require" => Some(Mode::Require),
            "verify-ca" => Some(Mode::VerifyCa),
            "verify-full" => Some(Mode::VerifyFull),
            _ => None,
        }
    }
}

impl Security {
    /// What connects by TLS, or none if a connection is plain.
    ///
    /// # Errors
    ///
    /// If a file can't be used: a sentence.
    pub fn tls(&self) -> Result<Option<Tls>, String> {
        let mode = match (self.mode, &self.authority) {
            (Mode::Disable, _) => return Ok(None),
            (Mode::Require, Some(_)) => Mode::VerifyCa,
            (mode, _) => mode,
        };
        let connector = self.connector(mode)?;
        Ok(Some(Tls { connector, checks_host: mode == Mode::VerifyFull }))
    }

    fn connector(&self, mode: Mode) -> Result<SslConnector, String> {
        let message_of = |error: ErrorStack| error.to_string();
        let mut builder = SslConnector::builder(SslMethod::tls_client()).map_err(message_of)?;
        if mode == Mode::Require {
            builder.set_verify(SslVerifyMode::NONE);
        }
        if let Some(path) = &self.authority {
            let mut store = X509StoreBuilder::new().map_err(message_of)?;
            for certificate in authorities(path)? {
                store.add_cert(certificate).map_err(message_of)?;
            }
            builder.set_cert_store(store.build());
        }
        if let Some(path) = &self.certificate {
            let taken = builder.set_certificate_chain_file(path);
            taken.map_err(|error| bad_file("sslcert", path, &error))?;
        }
        if let Some(path) = &self.key {
            let taken = builder.set_private_key_file(path, SslFiletype::PEM);
            taken.map_err(|error| bad_file("sslkey", path, &error))?;
        }
        Ok(builder.build())
    }
}

fn authorities(path: &Path) -> Result<Vec<X509>, String> {
    let pem = std::fs::read(path).map_err(|error| bad_file("sslrootcert", path, &error))?;
    let found = X509::stack_from_pem(&pem);
    let found = found.map_err(|error| bad_file("sslrootcert", path, &error))?;
    if found.is_empty() {
        return Err(bad_file("sslrootcert", path, &"there is no certificate in it"));
    }
    Ok(found)
}

fn bad_file(parameter: &str, path: &Path, why: &dyn std::fmt::Display) -> String {
    format!("{parameter} {} can't be used: {why}", path.display())
}

/// What connects by TLS.
#[derive(Clone)]
pub(crate) struct Tls {
    connector: SslConnector,
    checks_host: bool,
}

/// One connection, before its handshake.
pub(crate) struct Handshake(Ssl);

/// A connection over TLS.
pub(crate) struct Sealed<S>(SslStream<S>);

type Connecting<S> =
    Pin<Box<dyn Future<Output = Result<Sealed<S>, Box<dyn Error + Send + Sync>>> + Send>>;

impl<S: AsyncRead + AsyncWrite + Unpin + Send + 'static> MakeTlsConnect<S> for Tls {
    type Stream = Sealed<S>;
    type TlsConnect = Handshake;
    type Error = ErrorStack;

    fn make_tls_connect(&mut self, host: &str) -> Result<Handshake, ErrorStack> {
        let configured = self.connector.configure()?.verify_hostname(self.checks_host);
        Ok(Handshake(configured.into_ssl(host)?))
    }
}

impl<S: AsyncRead + AsyncWrite + Unpin + Send + 'static> TlsConnect<S> for Handshake {
    type Stream = Sealed<S>;
    type Error = Box<dyn Error + Send + Sync>;
    type Future = Connecting<S>;

    fn connect(self, stream: S) -> Connecting<S> {
        Box::pin(async move {
            let mut stream = SslStream::new(self.0, stream)?;
            Pin::new(&mut stream).connect().await?;
            Ok(Sealed(stream))
        })
    }
}

impl<S: AsyncRead + AsyncWrite + Unpin> TlsStream for Sealed<S> {
    fn channel_binding(&self) -> ChannelBinding {
        ChannelBinding::none()
    }
}

impl<S: AsyncRead + AsyncWrite + Unpin> AsyncRead for Sealed<S> {
    fn poll_read(
        mut self: Pin<&mut Self>,
        context: &mut Context<'_>,
        bytes: &mut ReadBuf<'_>,
    ) -> Poll<io::Result<()>> {
        Pin::new(&mut self.0).poll_read(context, bytes)
    }
}

impl<S: AsyncRead + AsyncWrite + Unpin> AsyncWrite for Sealed<S> {
    fn poll_write(
        mut self: Pin<&mut Self>,
        context: &mut Context<'_>,
        bytes: &[u8],
    ) -> Poll<io::Result<usize>> {
        Pin::new(&mut self.0).poll_write(context, bytes)
    }

    fn poll_flush(mut self: Pin<&mut Self>, context: &mut Context<'_>) -> Poll<io::Result<()>> {
        Pin::new(&mut self.0).poll_flush(context)
    }

    fn poll_shutdown(mut self: Pin<&mut Self>, context: &mut Context<'_>) -> Poll<io::Result<()>> {
        Pin::new(&mut self.0).poll_shutdown(context)
    }
}
