//! Without the feature `tls` a client shows nothing, and files for TLS are refused.
use crate::code::Code;
use crate::fault::Fault;
use crate::options::TlsTexts;
use krl::{ClientBuilder, Reader, Servers};

/// Nothing.
#[derive(Debug)]
pub struct Tls;

impl Tls {
    pub fn new(texts: TlsTexts<'_>) -> Result<Tls, Fault> {
        let TlsTexts { authority, certificate, key, table } = texts;
        let is_none = [authority, certificate, key, table].iter().all(Option::is_none);
        if is_none { Ok(Tls) } else { Err(refused()) }
    }

    #[allow(clippy::unused_self, reason = "as with the feature")]
    pub fn show_to(&self, servers: Servers) -> Servers {
        servers
    }

    #[allow(clippy::unused_self, reason = "as with the feature")]
    pub fn show_by(&self, builder: ClientBuilder) -> ClientBuilder {
        builder
    }

    #[allow(clippy::unused_self, reason = "as with the feature")]
    pub fn show_as(&self, reader: Reader) -> Reader {
        reader
    }

    #[allow(clippy::unused_self, reason = "as with the feature")]
    pub fn reload(&self) -> Result<(), Fault> {
        Err(refused())
    }
}

fn refused() -> Fault {
    Fault::new(Code::BadTls, "the library was built without TLS")
}
