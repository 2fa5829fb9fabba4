//! The commands that read without a number.
use crate::arguments::{ClientCommand, Options};
use crate::commands;
use crate::failure::Failure;
use crate::output::Printer;
use crate::place::Place;
use crate::session;
use crate::waiting::with_note_if_long;
use crate::words;
use krl::{JoinError, Row};
use std::ops::Range;

/// Prints the rows of a get or a scan if a reader, which takes no number, can read them at one
/// moment. Returns whether it has: other commands, and longer scans, need a client, and so does a
/// command for which one is named.
pub fn run(options: &Options, command: &ClientCommand) -> Result<bool, Failure> {
    if options.name_a_client() {
        return Ok(false);
    }
    let printer = Printer::of(options);
    match command {
        ClientCommand::Get { key } => {
            let key = words::key(key)?;
            let Some(rows) = read(options, key..key + 1)? else { return Ok(false) };
            commands::print_row(printer, key, &rows)?;
        }
        ClientCommand::Scan { range } => {
            let Some(rows) = read(options, range.range()?)? else { return Ok(false) };
            printer.rows(&rows)?;
        }
        _ => return Ok(false),
    }
    Ok(true)
}

/// The rows of these keys, if a reader can read them at one moment.
fn read(options: &Options, keys: Range<u64>) -> Result<Option<Vec<Row>>, Failure> {
    let place = Place::of(options, keys.clone())?;
    let mut reader = place.reader(options.timeout);
    if let Some(map) = &options.map {
        reader.follow(map).map_err(|error| Failure::not_followed(map, &error))?;
    }
    let connected =
        with_note_if_long(|| session::waits_for(options), || reader.connect(keys.clone()));
    connected.map_err(|error| not_connected(options, &place, error))?;
    Ok(reader.read_at_one_moment(keys)?)
}

fn not_connected(options: &Options, place: &Place, error: JoinError) -> Failure {
    let JoinError { kind, shard, .. } = error;
    let server = place.servers_of(shard).unwrap_or(&options.server);
    Failure::of_reader(kind, server).at_shard(shard)
}
