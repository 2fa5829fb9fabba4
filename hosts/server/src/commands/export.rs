//! The rows of a store as a file.
use super::stores;
use crate::process::Done;
use crate::process::output;
use krl::Row;
use krl_cli::{FileFormat, RowWriter, ValueForm};
use std::path::Path;

/// Prints the rows of a store that no server serves.
pub fn export(store: &Path, is_json: bool) -> Done {
    stores::refuse_served(store)
        .map_err(|why| format!("{why}: `krl-client export` asks a server"))?;
    let file = stores::read_undamaged(store)?;
    let format = if is_json { FileFormat::JsonLines } else { FileFormat::Csv };
    let mut text = Vec::new();
    let mut rows = RowWriter::new(&mut text, format, ValueForm::Text)?;
    for (&key, &value) in &file.snapshot.rows {
        rows.write(&Row { key, value })?;
    }
    rows.finish()?;
    Ok(output::print(&String::from_utf8_lossy(&text))?)
}
