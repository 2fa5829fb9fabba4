//! What a client shows to servers by TLS, and whom it trusts.
use crate::code::Code;
use crate::fault::Fault;
use crate::options::TlsTexts;
use krl::error::TlsError;
use krl::operate::TableName;
use krl::{ClientBuilder, Reader, Servers, TlsConfig};
use std::error::Error;

/// What was read of the files, if there are some.
#[derive(Debug)]
pub struct Tls(Option<TlsConfig>);

impl Tls {
    pub fn new(texts: TlsTexts<'_>) -> Result<Tls, Fault> {
        let TlsTexts { authority, certificate, key, table } = texts;
        match (authority, certificate, key) {
            (Some(authority), Some(certificate), Some(key)) => {
                let config = TlsConfig::from_files(authority, certificate, key);
                Ok(Tls(Some(for_table(config.map_err(|error| bad(&error))?, table)?)))
            }
            (None, None, None) if table.is_none() => Ok(Tls(None)),
            _ => Err(Fault::misuse(
                "`tls_authority`, `tls_certificate` and `tls_key` are set together or not at all, \
                 and `table` is set only with them",
            )),
        }
    }

    /// The same servers, to which the client shows this.
    pub fn show_to(&self, servers: Servers) -> Servers {
        match &self.0 {
            Some(config) => servers.with_tls(config.clone()),
            None => servers,
        }
    }

    /// The same builder, whose client shows this.
    pub fn show_by(&self, builder: ClientBuilder) -> ClientBuilder {
        match &self.0 {
            Some(config) => builder.tls(config.clone()),
            None => builder,
        }
    }

    /// The same reader, which shows this.
    pub fn show_as(&self, reader: Reader) -> Reader {
        match &self.0 {
            Some(config) => reader.with_tls(config.clone()),
            None => reader,
        }
    }

    pub fn reload(&self) -> Result<(), Fault> {
        let none = Fault::new(Code::BadTls, "the client has joined without files for TLS");
        self.0.as_ref().ok_or(none)?.reload().map_err(|error| bad(&error))
    }
}

fn for_table(config: TlsConfig, table: Option<&str>) -> Result<TlsConfig, Fault> {
    let Some(table) = table else { return Ok(config) };
    let table = table.parse::<TableName>();
    let table = table.map_err(|error| Fault::about(Code::Misuse, "`table`", &error))?;
    Ok(config.for_table(table))
}

fn bad(error: &TlsError) -> Fault {
    Fault::new(Code::BadTls, with_source(error))
}

/// An error, and what has caused it.
fn with_source(error: &dyn Error) -> String {
    match error.source() {
        Some(source) => format!("{error}: {}", with_source(source)),
        None => error.to_string(),
    }
}
