//! The options of commands that ask a status port.
use crate::settings::{BadSetting, StatusPort, TlsOptions, key};
use crate::status::locks;
use crate::status::paths::{JSON, TEXT};
use clap::{Args, ValueEnum};

/// Which status port is asked.
#[derive(Args, Debug)]
pub struct PortOptions {
    /// The server's status port, with tls: before it if it serves by TLS
    #[arg(env = "KRL_STATUS", default_value = key::STATUS.default)]
    address: String,
    #[command(flatten)]
    tls: TlsOptions,
}

impl PortOptions {
    pub fn port(&self) -> Result<StatusPort, BadSetting> {
        self.tls.status_port(&self.address)
    }
}

/// Which status port is asked for a page, and how the page is printed.
#[derive(Args, Debug)]
pub struct PageOptions {
    #[command(flatten)]
    pub port: PortOptions,
    #[command(flatten)]
    pub format: FormatOptions,
}

/// Whose locks are printed, and how.
#[derive(Args, Debug)]
pub struct LocksOptions {
    /// The first point of the range
    #[arg(requires = "hi")]
    pub lo: Option<u64>,
    /// One past the last point of the range: 9223372036854775808 at most
    pub hi: Option<u64>,
    /// The server's status port, with tls: before it if it serves by TLS
    #[arg(
        long,
        env = "KRL_STATUS",
        value_name = "ADDRESS",
        default_value = key::STATUS.default
    )]
    pub status: String,
    #[command(flatten)]
    pub tls: TlsOptions,
    /// The most slots that are printed: 64 to 10000
    #[arg(long, value_name = "COUNT", default_value_t = locks::LIMIT)]
    pub limit: usize,
    #[command(flatten)]
    pub format: FormatOptions,
}

/// How an answer is printed.
#[derive(Args, Clone, Copy, Debug)]
pub struct FormatOptions {
    /// How the answer is printed
    #[arg(long, value_enum, default_value_t = Format::Text)]
    format: Format,
    /// The same as --format json
    #[arg(long)]
    json: bool,
}

impl FormatOptions {
    /// The kind of page that is asked for.
    pub fn kind(self) -> &'static str {
        match (self.json, self.format) {
            (false, Format::Text) => TEXT,
            (true, _) | (_, Format::Json) => JSON,
        }
    }
}

/// How an answer is printed.
#[derive(Clone, Copy, Debug, PartialEq, Eq, ValueEnum)]
pub enum Format {
    Text,
    Json,
}
