//! How a client joins, as C asks for it.
use crate::client::Joined;
use crate::code::Code;
use crate::fault::Fault;
use crate::input::range;
use crate::tls::Tls;
use krl::operate::evict;
use krl::{Client, ClientBuilder, END, JoinError, Place, Reader, ShardMap};
use krl_ffi::{Versioned, text};
use std::ffi::c_char;
use std::ops::Range;
use std::path::Path;
use std::time::Duration;

/// A client's number is below this.
pub const NUMBERS: u32 = 64;

/// The `krlc_options` of the header.
#[derive(Clone, Copy, Debug)]
#[repr(C)]
#[allow(missing_docs, reason = "the header has it")]
pub struct Options {
    pub size: usize,
    pub servers: *const c_char,
    pub map: *const c_char,
    pub lock_file: *const c_char,
    pub number: u32,
    pub numbers: u64,
    pub timeout_ms: u64,
    pub wait_if_in_use_ms: u64,
    pub tls_authority: *const c_char,
    pub tls_certificate: *const c_char,
    pub tls_key: *const c_char,
    pub table: *const c_char,
    pub lo: u64,
    pub hi: u64,
}

/// What the options ask for, with their defaults.
#[derive(Debug)]
pub struct Wish<'o> {
    place: Place,
    /// The file of the map, if the place is one.
    map_file: Option<&'o Path>,
    number: Number<'o>,
    timeout: Option<Duration>,
    wait_if_in_use: Option<Duration>,
    keys: Range<u64>,
    tls: Tls,
}

/// The files for TLS, and the table, as far as they are named.
#[derive(Clone, Copy, Debug)]
pub struct TlsTexts<'o> {
    pub authority: Option<&'o str>,
    pub certificate: Option<&'o str>,
    pub key: Option<&'o str>,
    pub table: Option<&'o str>,
}

/// A number.
#[derive(Debug)]
enum Number<'o> {
    /// This one, with its lock file; with a map, the folder of its lock files.
    One(u8, &'o Path),
    /// The first of these that is free. The lock files are in the folder.
    FirstOf(Vec<u8>, &'o Path),
    /// The first one that is free. The lock files are in the user's folder.
    Any,
}

impl Versioned for Options {
    const EARLIER: &'static [usize] = &[];
}

impl Options {
    /// What they ask for.
    ///
    /// # Safety
    ///
    /// Each text is null, or ends by a zero and stays as long as the answer lives.
    pub unsafe fn wish<'o>(&self) -> Result<Wish<'o>, Fault> {
        let text = |what, at| -> Result<Option<&'o str>, Fault> {
            // SAFETY: the caller vouches for each text.
            Ok(unsafe { text(what, at) }?)
        };
        let place = place_of(text("servers", self.servers)?, text("map", self.map)?)?;
        let lock_file = text("lock_file", self.lock_file)?.map(Path::new);
        let tls = TlsTexts {
            authority: text("tls_authority", self.tls_authority)?,
            certificate: text("tls_certificate", self.tls_certificate)?,
            key: text("tls_key", self.tls_key)?,
            table: text("table", self.table)?,
        };
        Ok(Wish {
            place,
            map_file: text("map", self.map)?.map(Path::new),
            number: Number::new(self.number, self.numbers, lock_file)?,
            timeout: waited(self.timeout_ms),
            wait_if_in_use: waited(self.wait_if_in_use_ms),
            keys: self.keys()?,
            tls: Tls::new(tls)?,
        })
    }

    fn keys(&self) -> Result<Range<u64>, Fault> {
        let is_unset = self.lo == 0 && self.hi == 0;
        if !self.map.is_null() {
            return if is_unset { Ok(0..END + 1) } else { range(self.lo, self.hi) };
        }
        let misuse = Fault::misuse("the options `lo` and `hi` are for a client with a map");
        if is_unset { Ok(0..END + 1) } else { Err(misuse) }
    }
}

/// A time that is 0 if it is not set.
fn waited(milliseconds: u64) -> Option<Duration> {
    (milliseconds > 0).then(|| Duration::from_millis(milliseconds))
}

impl<'o> Number<'o> {
    fn new(number: u32, numbers: u64, lock_file: Option<&'o Path>) -> Result<Self, Fault> {
        if number != 0 && numbers != 0 {
            return Err(Fault::misuse("the options `number` and `numbers` are both set"));
        }
        let Some(lock_file) = lock_file else {
            let is_any = number == 0 && numbers == 0;
            let misuse = Fault::misuse("the option `lock_file` is null, and a number is set");
            return if is_any { Ok(Number::Any) } else { Err(misuse) };
        };
        if numbers != 0 {
            let set = (0..64).filter(|number| numbers >> number & 1 == 1).collect();
            return Ok(Number::FirstOf(set, lock_file));
        }
        let bad = |_| Fault::new(Code::BadNumber, "a client's number is 0 to 63");
        u8::try_from(number).map(|number| Number::One(number, lock_file)).map_err(bad)
    }

    fn builder(self, place: Place) -> Result<ClientBuilder, JoinError> {
        Ok(match self {
            Number::One(number, lock_file) => Client::builder(place, number, lock_file),
            Number::FirstOf(numbers, folder) => {
                Client::builder_with_numbers(place, numbers, folder)
            }
            Number::Any => Client::builder_with_any_number(place)?,
        })
    }
}

/// The place that the options name.
fn place_of(servers: Option<&str>, map: Option<&str>) -> Result<Place, Fault> {
    match (servers, map) {
        (Some(servers), None) => {
            let bad =
                |error| Fault::about(Code::BadAddress, &format!("the servers '{servers}'"), &error);
            servers.parse().map(Place::Server).map_err(bad)
        }
        (None, Some(map)) => {
            let bad = |error| Fault::about(Code::BadMap, &format!("the map '{map}'"), &error);
            ShardMap::from_file(map).map(Place::Map).map_err(bad)
        }
        (None, None) => Err(Fault::misuse("neither `servers` nor `map` is set")),
        (Some(_), Some(_)) => Err(Fault::misuse("`servers` and `map` are both set")),
    }
}

impl Wish<'_> {
    /// Evicts the client of the number.
    pub fn evict(self) -> Result<(), Fault> {
        if self.timeout.is_some() || self.wait_if_in_use.is_some() {
            return Err(Fault::misuse("an eviction has no options of time"));
        }
        match self.place {
            Place::Server(servers) => {
                let Number::One(number, lock_file) = self.number else {
                    return Err(Fault::misuse("an eviction is of one number, by its lock file"));
                };
                Ok(evict(self.tls.show_to(servers), number, lock_file)?)
            }
            Place::Map(_) => Err(Fault::misuse("a client is evicted at one server, not a map")),
        }
    }

    /// A reader that is connected to the servers of the keys, and follows its map.
    pub fn reader(self) -> Result<Reader, Fault> {
        if !matches!(self.number, Number::Any) || self.wait_if_in_use.is_some() {
            return Err(Fault::misuse(
                "a reader has no number: `number`, `numbers`, `lock_file` and `wait_if_in_use_ms` \
                 are for clients",
            ));
        }
        let mut reader = self.tls.show_as(Reader::new(self.place));
        if let Some(timeout) = self.timeout {
            reader = reader.with_timeout(timeout);
        }
        if let Some(file) = self.map_file {
            reader.follow(file).map_err(|error| Fault::misuse(error.to_string()))?;
        }
        reader.connect(self.keys)?;
        Ok(reader)
    }

    /// Joins.
    pub fn join(self) -> Result<Joined, Fault> {
        let mut builder = self.tls.show_by(self.number.builder(self.place)?.keys(self.keys));
        if let Some(timeout) = self.timeout {
            builder = builder.timeout(timeout);
        }
        if let Some(wait) = self.wait_if_in_use {
            builder = builder.wait_if_in_use(wait);
        }
        Ok(Joined::new(builder.join()?, self.tls, self.map_file))
    }
}
