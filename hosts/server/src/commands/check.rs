//! What a store holds, and whether a server can start on it; and until when certificates last.
use super::{certificates, stores};
use crate::process::Done;
use crate::process::output::{self, numbers};
use krl::operate::Certificate;
use krl::operate::Checksum;
use krl::store::Record;
use std::fs::{self, File};
use std::io::{self, Read};
use std::path::Path;
use std::process::ExitCode;
use std::time::SystemTime;

/// This many bytes show what a file is.
const FIRST_BYTES: u64 = 4096;

/// Prints what the file holds: a store, or certificates. The exit status is 1 if no server can
/// start on the store, or a certificate is not valid now and for this many days.
pub fn check(path: &Path, days: u32) -> Done<ExitCode> {
    match first_bytes(path) {
        Ok(bytes) if certificates::is_pem(&bytes) => check_certificates(path, days),
        _ => check_store(path),
    }
}

/// The bytes that distinguish a PEM file from a store.
fn first_bytes(path: &Path) -> io::Result<Vec<u8>> {
    let mut bytes = Vec::new();
    File::open(path)?.take(FIRST_BYTES).read_to_end(&mut bytes)?;
    Ok(bytes)
}

fn check_certificates(path: &Path, days: u32) -> Done<ExitCode> {
    let unreadable = || format!("{} has no certificate that can be read", path.display());
    let read = Certificate::all_of_pem(&fs::read(path)?).ok_or_else(unreadable)?;
    let (text, are_valid) = certificates::judge(&read, SystemTime::now(), days);
    output::print(&text)?;
    Ok(if are_valid { ExitCode::SUCCESS } else { ExitCode::FAILURE })
}

fn check_store(path: &Path) -> Done<ExitCode> {
    stores::refuse_served(path)?;
    let file = stores::read(path)?;
    let snapshot = &file.snapshot;
    let (gone, there): (Vec<_>, Vec<_>) = snapshot.records.iter().partition(|it| it.left);
    let (judgment, status) = match (file.checksum, snapshot.judge()) {
        (Checksum::Differs, _) => ("it is damaged: take another backup".into(), ExitCode::FAILURE),
        (_, Ok(())) => ("a server can start on it".to_string(), ExitCode::SUCCESS),
        (_, Err(code)) => (format!("no server can start on it: {code}"), ExitCode::FAILURE),
    };
    let checksum = match file.checksum {
        Checksum::Absent => "none, as of a store that a server has opened",
        Checksum::Matches => "it matches",
        Checksum::Differs => "it does not match",
    };
    output::print(&format!(
        "version: {}\n\
         page size: {} bytes\n\
         epoch: {}\n\
         rows: {}\n\
         room: {}\n\
         shard: {}\n\
         checksum: {checksum}\n\
         clients that have not left: {}\n\
         clients that have left: {}\n\
         {judgment}\n",
        file.version,
        file.page_size,
        snapshot.epoch,
        snapshot.rows.len(),
        snapshot.kept_room().unwrap_or_default(),
        snapshot.shard.map_or("none".to_string(), |shard| shard.to_string()),
        list(&there),
        list(&gone),
    ))?;
    Ok(status)
}

fn list(records: &[&Record]) -> String {
    let mut clients: Vec<_> = records.iter().map(|record| record.client).collect();
    clients.sort_unstable();
    if clients.is_empty() { "none".to_string() } else { numbers(&clients) }
}
