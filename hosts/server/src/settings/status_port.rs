//! The address of a status port, as it is written and read.
use super::{BadSetting, key};
use krl::TlsConfig;
use std::fmt;

/// What the address of a status port begins with that serves by TLS, and by plain TCP.
const TLS: &str = "tls:";
const PLAIN: &str = "plain:";

/// A status port, and what is shown to it.
#[derive(Debug)]
pub struct StatusPort {
    /// The host and the port.
    pub place: String,
    pub tls: Option<TlsConfig>,
}

impl StatusPort {
    /// The status port at this address, to which this is shown if it is one of TLS.
    pub fn new(
        address: &str,
        tls: impl FnOnce() -> Result<Option<TlsConfig>, BadSetting>,
    ) -> Result<StatusPort, BadSetting> {
        let (place, is_tls) = match address.strip_prefix(TLS) {
            Some(place) => (place, true),
            None => (address.strip_prefix(PLAIN).unwrap_or(address), false),
        };
        if !is_place(place) {
            return Err(BadSetting(format!(
                "'{address}' is not an address of a status port, such as {} or tls:db1:7401",
                key::STATUS.default
            )));
        }
        let tls = if is_tls { tls()? } else { None };
        match (is_tls, &tls) {
            (true, None) => Err(BadSetting(format!(
                "{address} is an address of TLS, and needs --tls-authority, --tls-certificate and \
                 --tls-key"
            ))),
            _ => Ok(StatusPort { place: place.into(), tls }),
        }
    }

    /// The address of the server's page, for a browser.
    pub fn url(&self) -> String {
        let scheme = if self.tls.is_some() { "https" } else { "http" };
        format!("{scheme}://{}/", self.place)
    }
}

/// Whether this is a host and a port.
fn is_place(text: &str) -> bool {
    let is_host_byte = |byte: u8| byte.is_ascii_alphanumeric() || b"-._:[]%".contains(&byte);
    text.rsplit_once(':').is_some_and(|(host, port)| {
        !host.is_empty() && host.bytes().all(is_host_byte) && port.parse::<u16>().is_ok()
    })
}

impl fmt::Display for StatusPort {
    fn fmt(&self, f: &mut fmt::Formatter<'_>) -> fmt::Result {
        f.write_str(if self.tls.is_some() { TLS } else { "" })?;
        f.write_str(&self.place)
    }
}
