//! The words of the command line.
mod bench_words;

use crate::failure::Failure;
use crate::words::{self, Numbers};
pub use bench_words::{BenchWords, Mix, Skew};
use clap::{Args, CommandFactory, FromArgMatches, Parser, Subcommand, ValueEnum};
use clap_complete::Shell;
use krl::operate::TableName;
use krl::{Servers, TlsConfig};
use krl_cli::{Existing, ValueForm, sentence};
use std::ffi::OsString;
use std::ops::Range;
use std::path::PathBuf;
use std::time::Duration;

const HELP: &str = "\
Keys are 0 to 2^63 - 2. A range is LO HI or LO..HI: from LO on, below HI. END
stands for 2^63 - 1.

Values have at most 32 bytes. A value is text, or
  hex:cafe    the bytes ca fe
  u64:5       the eight bytes of the number 5, the highest first
  text:u64:5  the text after text:
With --hex, values without a prefix are read and shown as hexadecimal digits.
With --number-values they are numbers, or x and hexadecimal digits, as in the
scripts of krl.

A row is printed as KEY=VALUE, one per line. What is printed can be read back:
insert, put and set take KEY=VALUE in place of KEY VALUE. A value that is not
text is printed as u64: and a number if it has eight bytes, otherwise as hex:
and digits.

The client's number: one process at a time is the client of a number, from 0
to 63. Without --number the first free one from 63 down to 56 is taken, so
eight commands run at once; over TLS, the first free one for which the
certificate may speak. But a get and a scan of up to 128 rows take none, so any
number of them run at once. Lock files in $XDG_STATE_HOME/krl, or
~/.local/state/krl, show which are free for this user on this machine. If the
server reports that another user or machine has a number, the next one is tried
after a second: give --number, or KRL_NUMBER, to each, such as 40-47.
--number auto takes any free number.

The command of hold finds the incarnation of the client in KRL_INCARNATION.

For a table of several servers give --map FILE, or KRL_MAP, in place of
--server. The file has a line version = N, and for each shard a table [[shard]]
with first, its first key, and servers, its addresses.

Without a command krl-client shows a prompt; lines from a pipe or a file are
run until the first one fails.

Exit status:
  0    it is done
  1    it was refused: the row exists, does not exist, or the table is full; or
       the output can't be written
  2    an argument, a file or the map is wrong
  3    there was no answer in time: the server is away or does not serve this
       client, another client holds what the command needs, or the client lost
       its lease or the server's store went back. A write may have been applied,
       unless standard error reports that it was not made
  4    the client could not join, or may not do what it asked for
  125  hold: the range was lost before the command had ended
  126  hold: the command can't be run
  127  hold: there is no such command; otherwise hold ends with its status
  130  Ctrl-C ended it (watch and bench: 0); another signal: 128 and its number
  141  nobody reads the output any more

Examples:
  krl-client insert 15 one
  krl-client set 15 two
  krl-client scan 10 20
  krl-client del 10..20
  krl-client import rows.csv
  krl-client export --json
  krl-client watch 10..20 --count 1
  krl-client --map map.toml scan ..
  krl-client hold 10..20 --update -- ./rebuild.sh
  krl-client bench --clients 4 --seconds 5";

/// Read, write, watch and hold ranges of a krl server, or of the servers of a map.
#[derive(Debug, Parser)]
#[command(name = "krl-client", version, after_help = HELP, disable_help_subcommand = true)]
pub struct Arguments {
    #[command(flatten)]
    pub options: Options,
    #[command(subcommand)]
    pub command: Option<Command>,
}

impl Arguments {
    /// Reads the words of this process.
    ///
    /// The usage of each command is fixed before. By itself clap adds to that of an error each
    /// option which an environment variable sets, as if it were one that is missing.
    pub fn read() -> Result<Arguments, clap::Error> {
        let mut program = Arguments::command();
        program.build();
        for command in program.get_subcommands_mut() {
            let usage = command.render_usage().to_string();
            let usage = usage.trim_start_matches("Usage: ").to_string();
            *command = std::mem::take(command).override_usage(usage);
        }
        Arguments::from_arg_matches(&program.try_get_matches()?)
    }
}

/// What holds for every command.
#[derive(Clone, Debug, Args)]
#[command(next_help_heading = "Options of every command")]
pub struct Options {
    /// Where the server listens: 127.0.0.1:7400, tls:db1:7400, or unix: and a path. Several are
    /// separated by commas
    #[arg(
        long,
        global = true,
        env = "KRL_SERVER",
        value_name = "ADDRESS",
        default_value = "127.0.0.1:7400"
    )]
    pub server: Servers,
    /// The file of a map, which lists the servers and the keys of each, in place of one server
    #[arg(long, global = true, env = "KRL_MAP", value_name = "FILE")]
    pub map: Option<PathBuf>,
    /// Over TLS: the certificate of the authority that certified the server, as PEM
    #[arg(
        long,
        global = true,
        env = "KRL_TLS_AUTHORITY",
        value_name = "FILE",
        requires = "tls_certificate"
    )]
    pub tls_authority: Option<PathBuf>,
    /// Over TLS: this client's certificate, whose names are krl:client:N for its numbers, as PEM
    #[arg(
        long,
        global = true,
        env = "KRL_TLS_CERTIFICATE",
        value_name = "FILE",
        requires = "tls_key"
    )]
    pub tls_certificate: Option<PathBuf>,
    /// Over TLS: the key of that certificate, as PEM
    #[arg(
        long,
        global = true,
        env = "KRL_TLS_KEY",
        value_name = "FILE",
        requires = "tls_authority"
    )]
    pub tls_key: Option<PathBuf>,
    /// Over TLS: the name of the table, if certificates have one
    #[arg(long, global = true, env = "KRL_TABLE", value_name = "NAME")]
    pub table: Option<TableName>,
    /// The client's number, 0 to 63; or a range, such as 40-47, or auto for all numbers: the
    /// greatest free one is taken. By default 56-63, or over TLS any for which the certificate may
    /// speak, but none for a get or a short scan
    #[arg(long, global = true, env = "KRL_NUMBER", value_name = "NUMBER")]
    number: Option<Numbers>,
    /// The lock file, in place of one in the user's folder. It needs a --number that is a single
    /// number
    #[arg(long, global = true, env = "KRL_LOCK_FILE", value_name = "FILE")]
    pub lock_file: Option<PathBuf>,
    /// How long calls wait for answers, such as 10s, 500ms or 1min
    #[arg(
        long,
        global = true,
        env = "KRL_TIMEOUT",
        value_name = "TIME",
        default_value = "15s",
        value_parser = humantime::parse_duration
    )]
    pub timeout: Duration,
    /// How answers are printed: as lines of text, or as one JSON value per line
    #[arg(long, global = true, env = "KRL_FORMAT", value_enum, default_value_t = Format::Text)]
    format: Format,
    /// The same as --format json
    #[arg(long, global = true)]
    json: bool,
    /// Values without a prefix are hexadecimal digits
    #[arg(long, global = true, conflicts_with = "number_values")]
    hex: bool,
    /// Values without a prefix are numbers of eight bytes, or x and hexadecimal digits
    #[arg(long, global = true)]
    number_values: bool,
}

impl Options {
    /// The numbers among which a client takes one.
    pub fn numbers(&self) -> Numbers {
        let is_certified = self.tls_certificate.is_some();
        let by_default = if is_certified { Numbers::ALL } else { Numbers::BY_DEFAULT };
        self.number.clone().unwrap_or(by_default)
    }

    /// Whether the words name the client of the command, so that it is no reader.
    pub fn name_a_client(&self) -> bool {
        self.number.is_some() || self.lock_file.is_some()
    }

    /// What is shown to the servers by TLS.
    pub fn tls(&self) -> Result<Option<TlsConfig>, Failure> {
        let (Some(authority), Some(certificate), Some(key)) =
            (&self.tls_authority, &self.tls_certificate, &self.tls_key)
        else {
            return Ok(None);
        };
        let config = TlsConfig::from_files(authority, certificate, key)
            .map_err(|error| Failure::Usage(sentence(&error)))?;
        Ok(Some(match &self.table {
            Some(table) => config.for_table(table.clone()),
            None => config,
        }))
    }

    /// How answers are printed. `--json` takes precedence, even if `KRL_FORMAT` has another value.
    pub fn format(&self) -> Format {
        if self.json { Format::Json } else { self.format }
    }

    pub fn values(&self) -> ValueForm {
        match (self.hex, self.number_values) {
            (true, _) => ValueForm::Hex,
            (_, true) => ValueForm::Number,
            _ => ValueForm::Text,
        }
    }
}

/// How answers are printed.
#[derive(Clone, Copy, Debug, PartialEq, Eq, ValueEnum)]
pub enum Format {
    Text,
    // One value a line.
    Json,
}

/// Commands are typed as they come after krl-client. Quotes keep spaces, and # begins a comment.
#[derive(Debug, Parser)]
#[command(multicall = true)]
pub struct Line {
    #[command(subcommand)]
    pub command: LineCommand,
}

#[derive(Debug, Subcommand)]
pub enum LineCommand {
    #[command(flatten)]
    Command(Command),
    /// End the prompt
    #[command(alias = "exit")]
    Quit,
}

#[derive(Debug, Subcommand)]
pub enum Command {
    #[command(flatten)]
    Client(ClientCommand),
    /// Measure a server with clients of its own, on keys that have no row
    Bench(BenchWords),
    /// Write the rows of a CSV or JSON Lines file to the table
    Import(ImportWords),
    /// Print a script by which a shell completes commands and options of krl-client
    Completion {
        /// The shell
        shell: Shell,
    },
}

/// A command of one client.
#[derive(Debug, Subcommand)]
pub enum ClientCommand {
    /// Print the row of a key
    Get {
        /// The key
        key: String,
    },
    /// Print the rows of a range
    Scan {
        #[command(flatten)]
        range: RangeWords,
    },
    /// Make a new row; refused if there is one
    Insert {
        #[command(flatten)]
        row: RowWords,
    },
    /// Give a row another value; refused if there is none
    Put {
        #[command(flatten)]
        row: RowWords,
    },
    /// Give a key a value, whether or not it has a row
    Set {
        #[command(flatten)]
        row: RowWords,
    },
    /// Delete a row, refused if there is none; or the rows of a range, one after the other
    #[command(visible_alias = "del")]
    Delete {
        #[command(flatten)]
        keys: KeyOrRangeWords,
    },
    /// Print the rows of a range as CSV, or with --json as JSON Lines
    Export {
        #[command(flatten)]
        range: OptionalRangeWords,
    },
    /// Report how long each server takes to answer a read of its greatest key
    Ping,
    /// Print a range, and again whenever it changes, until Ctrl-C
    Watch {
        #[command(flatten)]
        range: RangeWords,
        /// End after this many changes
        #[arg(long, value_name = "N")]
        count: Option<u64>,
    },
    /// Hold a range while a command runs: nobody changes it meanwhile
    Hold {
        #[command(flatten)]
        range: RangeWords,
        /// Nobody else holds it with --update meanwhile either; others can still read it
        #[arg(long)]
        update: bool,
        /// The command and its arguments
        #[arg(last = true, required = true, value_name = "COMMAND")]
        words: Vec<OsString>,
    },
}

impl ClientCommand {
    /// The keys that it needs.
    pub fn keys(&self) -> Result<Range<u64>, Failure> {
        let one = |key: u64| key..key + 1;
        match self {
            ClientCommand::Get { key } => words::key(key).map(one),
            ClientCommand::Delete { keys } => keys.parse().map(KeyOrRange::keys),
            ClientCommand::Insert { row }
            | ClientCommand::Put { row }
            | ClientCommand::Set { row } => row.key().map(one),
            ClientCommand::Export { range } => range.range(),
            ClientCommand::Scan { range }
            | ClientCommand::Watch { range, .. }
            | ClientCommand::Hold { range, .. } => range.range(),
            ClientCommand::Ping => Ok(words::ALL),
        }
    }
}

/// A range in one word or two.
#[derive(Clone, Debug, Args)]
pub struct RangeWords {
    /// The range, from LO on and below HI
    #[arg(value_name = "LO..HI|LO HI")]
    first: String,
    #[arg(hide = true)]
    second: Option<String>,
}

impl RangeWords {
    pub fn range(&self) -> Result<Range<u64>, Failure> {
        words::range(&self.first, self.second.as_deref())
    }
}

/// A range in one word or two, or all keys.
#[derive(Clone, Debug, Args)]
pub struct OptionalRangeWords {
    /// The range, from LO on and below HI; all keys by default
    #[arg(value_name = "LO..HI|LO HI")]
    first: Option<String>,
    #[arg(hide = true)]
    second: Option<String>,
}

impl OptionalRangeWords {
    pub fn range(&self) -> Result<Range<u64>, Failure> {
        let Some(first) = &self.first else { return Ok(words::ALL) };
        words::range(first, self.second.as_deref())
    }
}

/// A key, or a range in one word or two.
#[derive(Clone, Debug, Args)]
pub struct KeyOrRangeWords {
    /// The key; or a range, from LO on and below HI
    #[arg(value_name = "KEY|LO..HI|LO HI")]
    first: String,
    #[arg(hide = true)]
    second: Option<String>,
}

/// What a delete is about.
#[derive(Clone, Debug, PartialEq, Eq)]
pub enum KeyOrRange {
    Key(u64),
    Range(Range<u64>),
}

impl KeyOrRangeWords {
    pub fn parse(&self) -> Result<KeyOrRange, Failure> {
        if self.second.is_some() || self.first.contains("..") {
            words::range(&self.first, self.second.as_deref()).map(KeyOrRange::Range)
        } else {
            words::key(&self.first).map(KeyOrRange::Key)
        }
    }
}

impl KeyOrRange {
    /// The keys that it needs.
    fn keys(self) -> Range<u64> {
        match self {
            KeyOrRange::Key(key) => key..key + 1,
            KeyOrRange::Range(keys) => keys,
        }
    }
}

/// What an import takes.
#[derive(Clone, Debug, Args)]
pub struct ImportWords {
    /// The file, or - for standard input: JSON Lines if its name ends in .jsonl, .ndjson or .json or
    /// --json is given, otherwise CSV
    pub file: PathBuf,
    /// What to do with a row whose key has a row in the table already
    #[arg(long, value_enum, default_value = "refuse")]
    pub existing: Existing,
    /// How many clients write the rows at the same time
    #[arg(long, value_name = "COUNT", default_value_t = 1, value_parser = clap::value_parser!(u8).range(1..=64))]
    pub clients: u8,
}

/// A row in one word or two.
#[derive(Clone, Debug, Args)]
pub struct RowWords {
    /// The key, or the whole row as KEY=VALUE
    #[arg(value_name = "KEY")]
    first: String,
    /// The value
    #[arg(value_name = "VALUE")]
    second: Option<String>,
}

impl RowWords {
    /// The key, whatever the value is.
    fn key(&self) -> Result<u64, Failure> {
        let (key, _) = self.first.split_once('=').unwrap_or((&self.first, ""));
        words::key(if self.second.is_some() { &self.first } else { key })
    }

    pub fn row(&self, values: ValueForm) -> Result<krl::Row, Failure> {
        let (key, value) = match &self.second {
            Some(value) => (self.first.as_str(), value.as_str()),
            None => self.first.split_once('=').ok_or_else(|| {
                Failure::Usage(format!("'{}' has no value: KEY VALUE is expected", self.first))
            })?,
        };
        Ok(krl::Row { key: words::key(key)?, value: values.read(value)? })
    }
}

#[cfg(test)]
mod tests {
    use super::*;

    #[test]
    fn the_grammar_is_consistent() {
        Arguments::command().debug_assert();
        Line::command().debug_assert();
    }

    #[test]
    fn rows() {
        let words = |first: &str, second: Option<&str>| RowWords {
            first: first.into(),
            second: second.map(Into::into),
        };
        let row = |first, second| words(first, second).row(ValueForm::Text).unwrap();
        assert_eq!(row("15", Some("a=b")), row("15=a=b", None));
        assert_eq!(row("15=", None).value.as_ref(), b"");
        assert!(words("15", None).row(ValueForm::Text).is_err());
        assert!(words("END=a", None).row(ValueForm::Text).is_err());
    }

    #[test]
    fn what_a_delete_is_about() {
        let parse = |first: &str, second: Option<&str>| {
            let words = KeyOrRangeWords { first: first.into(), second: second.map(Into::into) };
            words.parse().ok()
        };
        assert_eq!(parse("15", None), Some(KeyOrRange::Key(15)));
        assert_eq!(parse("15..16", None), Some(KeyOrRange::Range(15..16)));
        assert_eq!(parse("15", Some("20")), Some(KeyOrRange::Range(15..20)));
        for (first, second) in
            [("ten", None), ("END", None), ("20", Some("15")), ("1..2", Some("3"))]
        {
            assert_eq!(parse(first, second), None, "{first} {second:?}");
        }
    }
}
