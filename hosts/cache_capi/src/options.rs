//! How a cache is opened, as C asks for it.
use crate::code::Code;
use crate::fault::Fault;
use krl::TlsConfig;
use krl::operate::TableName;
use krl_cache::{Cache, CacheBuilder, PostgresAddress};
use krl_ffi::{Versioned, text};
use std::error::Error;
use std::ffi::c_char;
use std::fmt::Display;
use std::ops::Range;
use std::time::Duration;

/// A client of krl has a number below this.
const NUMBERS: u32 = 64;

/// The `krlcache_options` of the header.
#[derive(Clone, Copy, Debug)]
#[repr(C)]
#[allow(missing_docs, reason = "the header has it")]
pub struct Options {
    pub size: usize,
    pub database: *const c_char,
    pub user: *const c_char,
    pub password: *const c_char,
    pub lock_folder: *const c_char,
    pub first_number: u32,
    pub end_number: u32,
    pub memory: u64,
    pub timeout_ms: u64,
    pub tls_authority: *const c_char,
    pub tls_certificate: *const c_char,
    pub tls_key: *const c_char,
    pub tls_table: *const c_char,
}

impl Versioned for Options {
    const EARLIER: &'static [usize] = &[];
}

impl Options {
    /// A cache as they ask for it, which is not open yet.
    ///
    /// # Safety
    ///
    /// Each text is null, or ends by a zero and stays meanwhile.
    pub unsafe fn builder(&self) -> Result<CacheBuilder, Fault> {
        // SAFETY: the caller vouches for each text.
        let text = |what, at| unsafe { text(what, at) };
        let required = |what: &'static str, at| {
            text(what, at)?.ok_or_else(|| Fault::misuse(format!("the option `{what}` is null")))
        };
        let database = address_of(required("database", self.database)?)?;
        let mut builder = Cache::builder(database, required("lock_folder", self.lock_folder)?);
        builder = match (text("user", self.user)?, text("password", self.password)?) {
            (Some(user), Some(password)) => builder.user(user, password),
            (None, None) => builder,
            _ => return Err(Fault::misuse("`user` and `password` are set together or not at all")),
        };
        if let Some(numbers) = self.numbers()? {
            builder = builder.numbers(numbers);
        }
        if self.memory > 0 {
            builder = builder.memory(usize::try_from(self.memory).unwrap_or(usize::MAX));
        }
        if self.timeout_ms > 0 {
            builder = builder.timeout(Duration::from_millis(self.timeout_ms));
        }
        let files = [
            text("tls_authority", self.tls_authority)?,
            text("tls_certificate", self.tls_certificate)?,
            text("tls_key", self.tls_key)?,
        ];
        let tls = tls_of(files, text("tls_table", self.tls_table)?)?;
        Ok(match tls {
            Some(config) => builder.tls(config),
            None => builder,
        })
    }

    /// The numbers of krl's clients, if they are set.
    fn numbers(&self) -> Result<Option<Range<u8>>, Fault> {
        let (first, end) = (self.first_number, self.end_number);
        if (first, end) == (0, 0) {
            return Ok(None);
        }
        let range = u8::try_from(first).ok().zip(u8::try_from(end).ok());
        let range = range.filter(|_| first < end && end <= NUMBERS);
        let bad = || format!("the numbers from {first} on below {end} are not some of 0 to 63");
        let (first, end) = range.ok_or_else(|| Fault::new(Code::BadNumber, bad()))?;
        Ok(Some(first..end))
    }
}

fn address_of(text: &str) -> Result<PostgresAddress, Fault> {
    let bad = |error| Fault::new(Code::BadAddress, format!("the option `database`: {error}"));
    text.parse().map_err(bad)
}

/// What is shown to krl's servers, if files are named.
fn tls_of(files: [Option<&str>; 3], table: Option<&str>) -> Result<Option<TlsConfig>, Fault> {
    let [Some(authority), Some(certificate), Some(key)] = files else {
        let is_none = files.iter().chain([&table]).all(Option::is_none);
        return if is_none { Ok(None) } else { Err(half_of_tls()) };
    };
    let config = TlsConfig::from_files(authority, certificate, key);
    let config = config.map_err(|error| Fault::new(Code::BadTls, with_source(&error)))?;
    let Some(table) = table else { return Ok(Some(config)) };
    let table = table.parse::<TableName>();
    let table = table.map_err(|error| misuse_of("tls_table", &error))?;
    Ok(Some(config.for_table(table)))
}

fn half_of_tls() -> Fault {
    Fault::misuse(
        "`tls_authority`, `tls_certificate` and `tls_key` are set together or not at all, and \
         `tls_table` is set only with them",
    )
}

fn misuse_of(option: &str, error: &dyn Display) -> Fault {
    Fault::misuse(format!("the option `{option}`: {error}"))
}

/// An error, and what has caused it.
fn with_source(error: &dyn Error) -> String {
    match error.source() {
        Some(source) => format!("{error}: {}", with_source(source)),
        None => error.to_string(),
    }
}
