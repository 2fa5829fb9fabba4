//! Which files of SQLite are stores, and of which version.
use crate::store::StoreError;
use rusqlite::Connection;

/// What a store has as SQLite's application id: "krl1" in ASCII.
const APPLICATION: i64 = 0x6b72_6c31;

/// The version of the tables, as SQLite's user version.
pub(crate) const VERSION: i64 = 7;

/// The tables of a store from before there were versions, by name.
const NAMES: [&str; 3] = ["entry", "epoch", "record"];

/// What a file of SQLite is.
#[derive(Clone, Copy, Debug, PartialEq, Eq)]
pub(crate) enum Found {
    /// It has nothing yet.
    New,
    /// It has bytes, and no tables. So has a copy of a running server's file: the tables are in the
    /// log for as long as that is short. So has one whose first start was cut off, with a log.
    Bare,
    /// A store of this older version: 0 if it is from before there were versions. It keeps no shard;
    /// one of before version 6 has no journal; the records of version 5 count commits; one of before
    /// version 4 lacks the room of its servers, one of before version 3 what is known of leases, and
    /// one of before version 2 the starts of its servers.
    Older(i64),
    /// A store of this version.
    Current,
}

/// What the file is, by its pages, its application id, its user version and the names of its tables.
fn found(pages: i64, application: i64, version: i64, tables: &[String]) -> Result<Found, String> {
    match (application, version) {
        (0, 0) if tables.is_empty() => Ok(if pages == 0 { Found::New } else { Found::Bare }),
        (0, 0) if tables == NAMES => Ok(Found::Older(0)),
        (APPLICATION, 1..VERSION) => Ok(Found::Older(version)),
        (APPLICATION, VERSION) => Ok(Found::Current),
        (APPLICATION, other) => Err(format!(
            "the store has version {other}, and this program reads versions up to {VERSION}"
        )),
        _ => Err("the file is a database of another program, and not a store of krl".to_string()),
    }
}

/// What the file of this connection is.
pub(crate) fn look(connection: &Connection) -> Result<Found, StoreError> {
    let number = |pragma| connection.query_row(pragma, [], |row| row.get(0));
    let pages = number("PRAGMA page_count")?;
    let application = number("PRAGMA application_id")?;
    let version = number("PRAGMA user_version")?;
    let mut names =
        connection.prepare("SELECT name FROM sqlite_master WHERE type = 'table' ORDER BY name")?;
    let tables = names.query_map([], |row| row.get(0))?.collect::<Result<Vec<String>, _>>()?;
    found(pages, application, version, &tables).map_err(StoreError::failed)
}

/// What is wrong with a file that has bytes and no tables.
pub(crate) const BARE: &str = "the file is not a store: it has no tables. If it was copied next to \
    a running server, its log is missing, the file whose name ends in -wal: take copies by \
    `krl-server backup`. If the first start on it was cut off, remove it";

/// How the first bytes of a file of SQLite begin, and where its application id stands in them.
const MAGIC: &[u8; 16] = b"SQLite format 3\0";
const APPLICATION_AT: usize = 68;

/// Whether the first bytes of a file, as they are read without SQLite, are not those of a store: a
/// sentence. A file that is empty may become one, and what is in the log is not seen.
pub(crate) fn judge_first_bytes(bytes: &[u8]) -> Result<(), &'static str> {
    if bytes.is_empty() {
        return Ok(());
    }
    if !bytes.starts_with(MAGIC) {
        return Err("the file is not a database of SQLite, and not a store of krl");
    }
    let application = bytes.get(APPLICATION_AT..).and_then(<[u8]>::first_chunk);
    match application.map(|id| i64::from(u32::from_be_bytes(*id))) {
        Some(0 | APPLICATION) => Ok(()),
        _ => Err("the file is a database of another program, and not a store of krl"),
    }
}

/// Makes the file a store of this version. Both numbers change with the transaction that is open.
pub(crate) fn mark(connection: &Connection) -> Result<(), StoreError> {
    connection.pragma_update(None, "application_id", APPLICATION)?;
    connection.pragma_update(None, "user_version", VERSION)?;
    Ok(())
}

#[cfg(test)]
mod tests {
    use super::*;

    fn tables(names: &[&str]) -> Vec<String> {
        names.iter().map(ToString::to_string).collect()
    }

    #[test]
    fn the_first_bytes_of_a_file_show_what_is_plainly_no_store() {
        let mut bytes = [0; 100];
        assert_eq!(judge_first_bytes(&[]), Ok(()));
        assert!(judge_first_bytes(b"root:x:0:0:root:/root:/bin/bash\n").is_err());
        assert!(judge_first_bytes(&bytes).is_err());
        bytes[..16].copy_from_slice(MAGIC);
        assert_eq!(judge_first_bytes(&bytes), Ok(()));
        assert!(judge_first_bytes(&bytes[..70]).is_err(), "cut off");
        bytes[APPLICATION_AT..72].copy_from_slice(b"krl1");
        assert_eq!(judge_first_bytes(&bytes), Ok(()));
        bytes[APPLICATION_AT..72].copy_from_slice(b"GPKG");
        assert!(judge_first_bytes(&bytes).unwrap_err().contains("another program"));
    }

    #[test]
    fn each_kind_of_file() {
        let ours = tables(&NAMES);
        let found =
            |application, version, tables: &[String]| super::found(7, application, version, tables);
        assert_eq!(super::found(0, 0, 0, &[]), Ok(Found::New));
        assert_eq!(found(0, 0, &[]), Ok(Found::Bare));
        assert_eq!(found(0, 0, &ours), Ok(Found::Older(0)));
        assert_eq!(found(APPLICATION, 1, &ours), Ok(Found::Older(1)));
        assert_eq!(found(APPLICATION, 2, &ours), Ok(Found::Older(2)));
        assert_eq!(found(APPLICATION, 3, &ours), Ok(Found::Older(3)));
        assert_eq!(found(APPLICATION, 4, &ours), Ok(Found::Older(4)));
        assert_eq!(found(APPLICATION, 5, &ours), Ok(Found::Older(5)));
        assert_eq!(found(APPLICATION, 6, &ours), Ok(Found::Older(6)));
        assert_eq!(found(APPLICATION, 7, &ours), Ok(Found::Current));
        for (application, version, tables) in [
            (0, 0, tables(&["entry", "epoch"])),
            (0, 0, tables(&["entry", "epoch", "other", "record"])),
            (0, 1, ours.clone()),
            (0, 1, Vec::new()),
            (7, 0, Vec::new()),
            (7, 1, ours.clone()),
        ] {
            let what = found(application, version, &tables).unwrap_err();
            assert!(what.contains("another program"), "{application} {version} {tables:?}: {what}");
        }
        for version in [0, 8, -1] {
            let what = found(APPLICATION, version, &ours).unwrap_err();
            assert!(what.contains(&format!("version {version},")), "{what}");
        }
    }
}
