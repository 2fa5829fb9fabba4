//! What the processes of a drive show by TLS.
use krl::TlsConfig;
use std::error::Error;
use std::path::PathBuf;

/// The variable that names the folder in which `packaging/certificates` has made `server` and
/// `client-N` for each client of a drive.
const FOLDER: &str = "KRL_CERTIFICATES";

/// What this holder shows.
pub fn of(holder: &str) -> Result<TlsConfig, Box<dyn Error>> {
    let folder = std::env::var_os(FOLDER).map(PathBuf::from);
    let folder = folder.ok_or_else(|| format!("{FOLDER} has to name a folder of certificates"))?;
    let [certificate, key] = ["crt", "key"].map(|kind| folder.join(format!("{holder}.{kind}")));
    Ok(TlsConfig::from_files(folder.join("authority.crt"), certificate, key)?)
}
