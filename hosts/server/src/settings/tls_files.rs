//! The files of TLS, as settings name them.
use super::{BadSetting, Given, key, value};
use krl::TlsConfig;
use krl::operate::TableName;
use std::path::PathBuf;

/// The files of one side of a connection, as far as they are named, and the table whose names count.
#[derive(Clone, Debug)]
pub struct TlsFiles {
    authority: Option<PathBuf>,
    certificate: Option<PathBuf>,
    key: Option<PathBuf>,
    table: Option<TableName>,
}

impl TlsFiles {
    pub fn of(given: &Given) -> Result<TlsFiles, BadSetting> {
        Ok(TlsFiles {
            authority: given.path(&key::TLS_AUTHORITY),
            certificate: given.path(&key::TLS_CERTIFICATE),
            key: given.path(&key::TLS_KEY),
            table: given.optional(&key::TABLE, value::parsed)?,
        })
    }

    /// Whether all three files are named.
    pub fn are_named(&self) -> bool {
        [&self.authority, &self.certificate, &self.key].iter().all(|file| file.is_some())
    }

    /// Reads them, if they are named: all three or none.
    pub fn read(self) -> Result<Option<TlsConfig>, BadSetting> {
        let TlsFiles { authority, certificate, key, table } = self;
        match (authority, certificate, key) {
            (None, None, None) => Ok(None),
            (Some(authority), Some(certificate), Some(key)) => {
                let read = TlsConfig::from_files(authority, certificate, key);
                let read = read.map_err(|error| BadSetting(krl_cli::sentence(&error)))?;
                Ok(Some(match table {
                    Some(table) => read.for_table(table),
                    None => read,
                }))
            }
            _ => Err(BadSetting(all_are_needed())),
        }
    }
}

/// That TLS needs all files, as a sentence.
pub fn all_are_needed() -> String {
    let [authority, certificate, key] =
        [&key::TLS_AUTHORITY, &key::TLS_CERTIFICATE, &key::TLS_KEY].map(key::Key::flag);
    format!("TLS needs all of {authority}, {certificate} and {key}")
}
