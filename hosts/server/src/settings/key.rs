//! The table of settings. A new one takes an entry here, and its field of `Settings` with the parser
//! of its value.
use clap::Arg;
use serde::Deserialize;
use serde::de::{Deserializer, Error};

/// A setting: how it is written, and what it may be.
#[derive(Debug)]
pub struct Key {
    /// Its name in a configuration file. The flag and the variable follow from it.
    pub name: &'static str,
    /// What stands for its value in the help.
    word: &'static str,
    pub kind: Kind,
    /// Its text by default: empty if it is left out then.
    pub default: &'static str,
    /// What it has to be.
    pub expected: &'static str,
    /// What it is for.
    help: &'static str,
}

/// How a value is written in a file.
#[derive(Clone, Copy, Debug, PartialEq, Eq)]
pub enum Kind {
    Text,
    Number,
    /// `yes` or `no`. The flag by itself means `yes`.
    YesNo,
}

impl Key {
    /// Its flag on the command line.
    pub fn flag(&self) -> String {
        format!("--{}", self.name)
    }

    /// Its variable in the environment.
    pub fn variable(&self) -> String {
        format!("KRL_{}", self.name.replace('-', "_").to_uppercase())
    }

    /// Whether a configuration file may have it. No file asks for a new store: it is read at each
    /// start.
    pub fn is_in_files(&self) -> bool {
        self.name != CREATE.name
    }

    const fn expects(self, expected: &'static str) -> Key {
        Key { expected, ..self }
    }

    const fn helps(self, help: &'static str) -> Key {
        Key { help, ..self }
    }

    /// How it is given on a command line, or by the environment.
    pub fn argument(&self) -> Arg {
        let Key { name, word, kind, help, .. } = *self;
        let argument = Arg::new(name).long(name).env(self.variable()).value_name(word).help(help);
        let argument = match kind {
            Kind::Text | Kind::Number => argument,
            Kind::YesNo => argument.num_args(0..=1).default_missing_value("yes"),
        };
        match name {
            _ if name == STORE_CERTIFICATE.name => argument.requires(STORE_KEY.name),
            _ if name == STORE_KEY.name => argument.requires(STORE_CERTIFICATE.name),
            _ => argument,
        }
    }
}

/// A key of a configuration file.
impl<'de> Deserialize<'de> for &'static Key {
    fn deserialize<D: Deserializer<'de>>(deserializer: D) -> Result<&'static Key, D::Error> {
        let name = String::deserialize(deserializer)?;
        let keys = ALL.iter().copied().filter(|key| key.is_in_files());
        keys.clone().find(|key| key.name == name).ok_or_else(|| {
            let names: Vec<_> = keys.map(|key| format!("`{}`", key.name)).collect();
            let names = names.join(", ");
            D::Error::custom(format!("unknown setting `{name}`, expected one of {names}"))
        })
    }
}

/// A setting that is a text: its name, what stands for it in the help, and its text by default.
const fn text(name: &'static str, word: &'static str, default: &'static str) -> Key {
    Key { name, word, kind: Kind::Text, default, expected: "", help: "" }
}

const fn number(name: &'static str, word: &'static str, default: &'static str) -> Key {
    Key { kind: Kind::Number, ..text(name, word, default) }
}

const fn yes_no(name: &'static str) -> Key {
    Key { kind: Kind::YesNo, ..text(name, "YES", "no").expects("yes or no") }
}

/// A setting that is the path of a file, and may be left out.
const fn file(name: &'static str) -> Key {
    text(name, "FILE", "").expects("the path of a file")
}

/// Declares the settings, and the list of them all.
macro_rules! settings {
    ($($key:ident = $value:expr;)*) => {
        $(pub const $key: Key = $value;)*

        /// All settings, in the order in which they are shown.
        pub const ALL: &[&Key] = &[$(&$key),*];
    };
}

settings! {
    LISTEN = text("listen", "ADDRESS", "127.0.0.1:7400")
        .expects("an address such as 127.0.0.1:7400, tls:10.0.0.1:7400, plain:10.0.0.1:7400, or \
                  unix: and a path")
        .helps("Where clients connect: tls:10.0.0.5:7400, 127.0.0.1:7400, or unix: and a path");
    TLS_AUTHORITY = file("tls-authority")
        .helps("The certificate of the authority that certified servers, clients and operators, \
                as PEM");
    TLS_CERTIFICATE = file("tls-certificate")
        .helps("The certificate to show over TLS, as PEM, with those between it and the \
                authority's");
    TLS_KEY = file("tls-key")
        .helps("The key of that certificate, as PEM");
    TABLE = text("table", "NAME", "")
        .expects("1 to 64 letters, digits, '-', '_' and '.'")
        .helps("The name of the table, if certificates have it after an @, such as \
                krl:client:3@orders");
    USERS = text("users", "USERS", "")
        .expects("users and what each may send, such as 1001=3,4 or 1001=3 1002=operator")
        .helps("Other users of this machine that may connect over a Unix socket, by number, and \
                the clients for which each may speak: 1001=3,4 or '1001=3 1002=operator'");
    PLAIN = yes_no("plain-beyond-loopback")
        .helps("Listen over plain TCP even where other machines can connect: each can speak for \
                any client");
    STORE = text("store", "STORE", "krl.db")
        .expects("the path of a file; or etcd:// (etcds:// for TLS), endpoints and a prefix; or \
                  postgres://, a host and a database, without a password, and with \
                  ?sslmode=verify-full, verify-ca, require or disable unless the host is this \
                  machine")
        .helps("What keeps the table: a file of SQLite; a cluster, such as \
                etcd://10.0.0.1:2379,10.0.0.2:2379/krl/orders, over which several servers may \
                run: one serves, and the others stand by; or a database, such as \
                <postgres://krl@10.0.0.1/orders?sslmode=verify-full>");
    STORE_WRITES = text("store-writes", "WRITES", "joined")
        .expects("joined or single")
        .helps("How a commit is written to the log of SQLite: joined, up to 64 KiB by one call \
                of the system, or single, by two calls for each page, as SQLite does by itself. \
                The file is the same");
    CREATE = yes_no("create")
        .helps("Make a new store if there is none. Otherwise the server refuses to start on a \
                store that is missing or holds nothing");
    STORE_AUTHORITY = file("store-authority")
        .helps("The certificate of the authority that certified the cluster's nodes, as PEM");
    STORE_CERTIFICATE = file("store-certificate")
        .helps("The certificate that the server shows to the cluster, as PEM");
    STORE_KEY = file("store-key")
        .helps("The key of that certificate, as PEM in PKCS #8");
    ROOM = number("room", "ROWS", "")
        .expects("the most rows of the table, from 1 to 1048576")
        .helps("How many rows the table may have, from 1 to 1048576. By default it is the \
                greatest that a server over this store had before, and 65536 over a new store");
    REACH = number("reach", "SLOTS", "128")
        .expects("the most slots of one grant, from 1 to 128")
        .helps("How many slots one grant takes at most, from 1 to 128: a client that reads many \
                rows for the first time asks for that many at a time");
    SHARD = text("shard", "SHARD", "")
        .expects("FIRST..END@VERSION, such as 0..500000@3, or 500000..@3 for the last shard")
        .helps("The shard that the server serves, FIRST..END@VERSION: its keys, and the version \
                of the map in which they became this shard. Clients of another shard are \
                refused. Once the store keeps it, it may be left out");
    MAP = text("map", "MAP", "")
        .expects("the file of a map of shards, or where the map is at home, as in `krl-server \
                  map`")
        .helps("The map that clients follow, in a file or at home in etcd or PostgreSQL: ten \
                seconds after the shard of this server has changed there, the server no longer \
                renews the leases of clients that have stayed");
    ADVERTISE = text("advertise", "ADDRESS", "")
        .expects("an address at which clients reach this server")
        .helps("Where clients reach this server, if that is not where it listens. It is kept in \
                the store");
    ELECTION_LEASE = number("election-lease", "SECONDS", "5")
        .expects("a whole number of seconds from 2 to 3600")
        .helps("How many seconds a server over a cluster may be silent before another one takes \
                its place");
    STATUS = text("status", "ADDRESS", "127.0.0.1:7401")
        .expects("an address such as 127.0.0.1:7401, or off; one of another machine begins with \
                  tls: or plain:")
        .helps("Where the status is served by HTTP: 127.0.0.1:7401, tls:10.0.0.5:7401 for \
                operators, or off");
    OTHERS = text("others", "ADDRESSES", "")
        .expects("addresses of status ports, at most 63, such as 10.0.0.2:7401 tls:db3:7401")
        .helps("The status ports of other servers, which stand by or have other shards, \
                separated by spaces: the page of this server shows them too");
    LOG_LEVEL = text("log-level", "LEVEL", "info")
        .expects("error, warn, info, debug or trace")
        .helps("The least severe events that are logged: error, warn, info, debug or trace");
    LOG_FORMAT = text("log-format", "FORMAT", "text")
        .expects("text or json")
        .helps("How events are logged to standard error: text or json");
    LEASE = text("lease", "LENGTH", "10s")
        .expects("off, or a length from 300ms to 86400s, such as 10s or 500ms")
        .helps("How long a client may answer from its cache after its last sign, such as 10s or \
                500ms. One that is silent for longer is evicted. Or off: then only an operator \
                evicts a client");
    DRIFT = number("drift", "PERCENT", "25")
        .expects("a whole number from 0 to 100")
        .helps("By how many percent this machine's clock may run faster than a client's");
}

/// Those of a connection by TLS.
pub const OF_TLS: &[&Key] = &[&TLS_AUTHORITY, &TLS_CERTIFICATE, &TLS_KEY, &TABLE];
