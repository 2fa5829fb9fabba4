//! Without the feature `tls` no side of a connection can be made over TLS.
use crate::identity::Identity;
use crate::wire::frames::Frames;
use std::io::{self, Read};

/// What one needs at an address of TLS.
pub(crate) const NEEDED: &str =
    "a certificate, its key, that of the authority, and the feature `tls`";

/// There is none.
#[derive(Clone, Debug, PartialEq, Eq)]
pub(crate) enum TlsConfig {}

impl TlsConfig {
    pub fn identity(&self) -> Option<Identity> {
        match *self {}
    }
}

/// Which side of a connection this one is.
#[derive(Clone, Copy, Debug, PartialEq, Eq)]
pub(crate) enum Side {
    Connects,
    Accepts,
}

/// There is none.
#[derive(Debug)]
pub(crate) enum TlsSession {}

impl TlsSession {
    pub fn new(config: &TlsConfig, _side: Side) -> io::Result<TlsSession> {
        match *config {}
    }

    pub fn peer(&self) -> Option<Identity> {
        match *self {}
    }

    pub fn fill(&mut self, _stream: &mut impl Read, _frames: &mut Frames) -> io::Result<usize> {
        match *self {}
    }

    pub fn open_into(&mut self, _sealed: &[u8], _frames: &mut Frames) -> io::Result<usize> {
        match *self {}
    }

    pub fn shake(&mut self, _sealed: &[u8]) -> io::Result<()> {
        match *self {}
    }

    pub fn put(&mut self, _bytes: &[u8]) {
        match *self {}
    }

    pub fn take_sealed(&mut self) -> io::Result<Vec<u8>> {
        match *self {}
    }
}
