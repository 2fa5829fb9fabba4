//! Rows of a file into a store that no server serves.
use super::stores;
use crate::process::Done;
use crate::process::output;
use crate::settings::{BadSetting, StorePlace};
use krl::operate::Room;
use krl::store::Snapshot;
use krl_cli::{Existing, FileFormat, Line, ValueForm, read_file};
use std::path::Path;

/// A store with rows that an import adds to it.
#[derive(Debug, Default, PartialEq, Eq)]
struct Added {
    store: Snapshot,
    /// The lines whose rows are new or replace another one.
    written: Vec<Line>,
    /// How many rows of the file the store had already and keeps.
    kept: usize,
}

/// Writes the rows of the file to the store, all or none, and reports what it has then.
pub fn import(file: &Path, is_json: bool, place: &StorePlace, existing: Existing) -> Done {
    let format = if is_json { FileFormat::JsonLines } else { FileFormat::of_name(file) };
    let lines =
        read_file(file, format, ValueForm::Text).map_err(|error| BadSetting(error.to_string()))?;
    let added = match place {
        StorePlace::File(path) if path.exists() => into_store(path, lines, existing)?,
        _ => into_new_store(place, lines)?,
    };
    let Added { store, written, kept } = added;
    let (written, rows) = (written.len(), store.rows.len());
    let kept = if kept == 0 { String::new() } else { format!(", {kept} were there and stay") };
    Ok(output::print_done(&format!("{place}: imported {written} rows{kept}; it has {rows}\n"))?)
}

fn into_store(path: &Path, lines: Vec<Line>, existing: Existing) -> Done<Added> {
    let owner = stores::own(path)?;
    let added = add(stores::read_left(owner.file())?.snapshot, lines, existing)?;
    stores::judge(&path.display(), &added.store)?;
    let rows = added.written.iter().map(|line| line.row);
    stores::change(owner.file(), |file| file.write_rows(rows))?;
    Ok(added)
}

fn into_new_store(place: &StorePlace, lines: Vec<Line>) -> Done<Added> {
    let added = add(Snapshot::default(), lines, Existing::Refuse)?;
    stores::judge(place, &added.store)?;
    stores::create(place, &added.store)?;
    Ok(added)
}

/// Adds the rows of the lines to what a store has. If it has all of them already, the import is a
/// repeated one, which is never refused.
fn add(store: Snapshot, lines: Vec<Line>, existing: Existing) -> Result<Added, String> {
    let has = |Line { row, .. }: &Line| store.rows.get(&row.key) == Some(&row.value);
    let existing = if lines.iter().all(has) { Existing::Keep } else { existing };
    let mut added = Added { store, ..Added::default() };
    for line in lines {
        if let Some(shard) = added.store.shard
            && !shard.bounds.keys().contains(&line.row.key)
        {
            let (place, key) = (line.place, line.row.key);
            return Err(format!(
                "line {place}: the key {key} is none of the store's shard, {shard}"
            ));
        }
        let is_there = added.store.rows.contains_key(&line.row.key);
        match existing {
            Existing::Refuse if is_there => {
                let (place, key) = (line.place, line.row.key);
                let choices = Existing::CHOICES;
                return Err(format!("line {place}: the store has a row of key {key}: {choices}"));
            }
            Existing::Keep if is_there => added.kept += 1,
            Existing::Refuse | Existing::Keep | Existing::Replace => {
                added.store.rows.insert(line.row.key, line.row.value);
                added.written.push(line);
            }
        }
    }
    let (rows, most) = (added.store.rows.len(), Room::MAX);
    if rows > most.rows() {
        return Err(format!("the store would have {rows} rows, and a table has at most {most}"));
    }
    Ok(added)
}

#[cfg(test)]
mod tests {
    use super::*;
    use krl::{Row, Value};

    fn line(key: u64, place: u64) -> Line {
        Line { row: Row { key, value: Value::from(key + place) }, place }
    }

    /// A store with the rows 1 and 2.
    fn store() -> Snapshot {
        let rows = [1, 2].map(|key| (key, Value::from(key)));
        Snapshot { epoch: 7, rows: rows.into(), ..Snapshot::default() }
    }

    #[test]
    fn an_import_that_was_made_is_repeated_and_changes_nothing() {
        let lines = || vec![line(1, 1), line(3, 2)];
        let made = add(store(), lines(), Existing::Replace).unwrap().store;
        for existing in [Existing::Refuse, Existing::Keep, Existing::Replace] {
            let again = add(made.clone(), lines(), existing).unwrap();
            assert_eq!((again.store, again.written.len(), again.kept), (made.clone(), 0, 2));
        }
    }

    #[test]
    fn a_row_of_another_shard_is_refused() {
        let store = || Snapshot { shard: "1..3@4".parse().ok(), ..store() };
        let refused = add(store(), vec![line(2, 1), line(3, 2)], Existing::Replace).unwrap_err();
        assert_eq!(refused, "line 2: the key 3 is none of the store's shard, 1..3@4");
        assert!(add(store(), vec![line(2, 1)], Existing::Replace).is_ok());
    }

    #[test]
    fn no_table_has_more_rows_than_a_server_may_have() {
        let most = Room::MAX.rows() as u64;
        let lines = |count| (10..10 + count).map(|key| line(key, key)).collect();
        assert!(add(store(), lines(most - 2), Existing::Refuse).is_ok());
        let message = add(store(), lines(most - 1), Existing::Refuse).unwrap_err();
        assert!(message.ends_with("1048577 rows, and a table has at most 1048576"), "{message}");
    }
}
