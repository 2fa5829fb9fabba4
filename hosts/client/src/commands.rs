//! The commands that ask once.
use crate::arguments::{ClientCommand, KeyOrRange, RowWords};
use crate::failure::Failure;
use crate::output::Printer;
use crate::session::Session;
use crate::signals::Signals;
use crate::{deleting, exporting, holding, pinging, watching, words};
use krl::{Client, Error, Outcome, Row, Value};

/// What commands run with.
pub struct Context<'c> {
    pub session: &'c Session,
    pub printer: Printer,
    pub signals: &'c Signals,
}

impl Context<'_> {
    /// Runs a command, and returns the exit status if nothing failed.
    pub fn run(&self, command: &ClientCommand) -> Result<u8, Failure> {
        match command {
            ClientCommand::Get { key } => {
                let key = words::key(key)?;
                print_row(self.printer, key, &self.session.client.read(key..=key)?)?;
            }
            ClientCommand::Scan { range } => {
                self.printer.rows(&self.session.client.read(range.range()?)?)?;
            }
            ClientCommand::Insert { row } => self.write(Client::insert, row)?,
            ClientCommand::Put { row } => self.write(Client::put, row)?,
            ClientCommand::Set { row } => self.write(Client::set, row)?,
            ClientCommand::Delete { keys } => match keys.parse()? {
                KeyOrRange::Key(key) => self.judged(self.session.client.delete(key), key)?,
                KeyOrRange::Range(keys) => deleting::delete(self, keys)?,
            },
            ClientCommand::Export { range } => exporting::export(self, range.range()?)?,
            ClientCommand::Ping => pinging::ping(self)?,
            ClientCommand::Watch { range, count } => {
                watching::watch(self, &range.range()?, *count)?;
            }
            ClientCommand::Hold { range, update, words } => {
                return holding::hold(self, range.range()?, *update, words);
            }
        }
        Ok(0)
    }

    fn write(
        &self,
        write: fn(&Client, u64, Value) -> Result<Outcome, Error>,
        row: &RowWords,
    ) -> Result<(), Failure> {
        let Row { key, value } = row.row(self.printer.values)?;
        self.judged(write(&self.session.client, key, value), key)
    }

    fn judged(&self, outcome: Result<Outcome, Error>, key: u64) -> Result<(), Failure> {
        let number = self.session.client.number();
        let outcome = outcome.map_err(|refused| Failure::of_write(refused, key, number))?;
        self.printer.outcome(outcome)?;
        applied(self.session, outcome, key)
    }
}

/// Prints what a key has. Fails if it has no row.
pub fn print_row(printer: Printer, key: u64, rows: &[Row]) -> Result<(), Failure> {
    printer.rows(rows)?;
    if rows.is_empty() { Err(no_row(key)) } else { Ok(()) }
}

/// Fails unless the write of this key was applied.
pub fn applied(session: &Session, outcome: Outcome, key: u64) -> Result<(), Failure> {
    match outcome {
        Outcome::Applied => Ok(()),
        Outcome::Exists => Err(Failure::Refused(format!("there is a row of key {key} already"))),
        Outcome::Absent => Err(no_row(key)),
        Outcome::Full => Err(Failure::Refused(session.place.full(key))),
        Outcome::NotHeld => Err(Failure::Refused("the server refused the write".into())),
    }
}

fn no_row(key: u64) -> Failure {
    Failure::Refused(format!("there is no row of key {key}"))
}
