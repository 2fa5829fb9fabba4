//! What one side of a connection shows, and whom it trusts.
use super::certificate::{Certificate, Unfit};
use crate::identity::{Identity, TableName};
use openssl::error::ErrorStack;
use openssl::pkey::{PKey, Private};
use openssl::ssl::{
    SslContext, SslContextBuilder, SslContextRef, SslMethod, SslOptions, SslSessionCacheMode,
    SslVerifyMode, SslVersion,
};
use openssl::stack::Stack;
use openssl::x509::{X509, X509StoreContext, X509VerifyResult};
use std::error::Error;
use std::fmt;
use std::fs;
use std::path::{Path, PathBuf};
use std::sync::{Arc, Mutex, MutexGuard, PoisonError};
use std::time::{SystemTime, UNIX_EPOCH};

/// What one side of a connection shows, and whom it trusts.
///
/// All certificates are of one authority, and each names its holder by names of the kind URI in its
/// subjectAltName: `krl:client:3` may speak for the client 3, `krl:operator` may evict clients and
/// see the status, and `krl:server` is a server. One certificate may have several names. If the
/// table has a name, each is followed by `@` and that name, such as `krl:client:3@orders`, and
/// names of other tables, or of none, count nothing.
///
/// **Everybody whom the authority certifies is trusted.** It has to be krl's own, or one that lets
/// nobody choose such names.
///
/// A clone shares what was read: [`TlsConfig::reload`] changes all clones, and two configurations
/// are equal if one is a clone of the other and both are of one table.
///
/// # Examples
///
/// ```no_run
/// use krl::{Access, Client, Listener, Server, Servers, SqliteStore, TlsConfig};
///
/// let shown = TlsConfig::from_files("authority.pem", "server.pem", "server.key")?;
/// let listener = Listener::bind(&"tls:0.0.0.0:7400".parse()?)?;
/// let server = Server::builder(listener, SqliteStore::open("table.db")?)
///     .access(Access::new().tls(shown.clone()))
///     .start()?;
///
/// let own = TlsConfig::from_files("authority.pem", "client-3.pem", "client-3.key")?;
/// let servers: Servers = "tls:db1:7400".parse()?;
/// let client = Client::join(servers.with_tls(own), 3, "client-3.lock")?;
///
/// shown.reload()?; // the next connections are shown what the files have now
/// # Ok::<(), Box<dyn std::error::Error>>(())
/// ```
#[derive(Clone)]
pub struct TlsConfig {
    shared: Arc<Shared>,
    table: Option<TableName>,
    is_of_server: bool,
}

struct Shared {
    files: TlsFiles,
    loaded: Mutex<Loaded>,
}

/// What was read.
struct Loaded {
    context: SslContext,
    own: Certificate,
    /// Whether the authority has certified it, and why not.
    certified: X509VerifyResult,
}

/// Where the certificates and the key are.
#[derive(Clone, Debug)]
struct TlsFiles {
    authority: PathBuf,
    certificate: PathBuf,
    key: PathBuf,
}

/// A file that makes no side of a connection.
#[derive(Debug)]
pub struct TlsError {
    what: String,
    source: Option<Box<dyn Error + Send + Sync>>,
}

impl TlsConfig {
    /// Reads the certificate of the authority, this side's own one with those between the two
    /// after it, and its key, each as PEM.
    ///
    /// # Errors
    ///
    /// If a file can't be read, is not one of these, or the key is another certificate's.
    pub fn from_files(
        authority: impl AsRef<Path>,
        certificate: impl AsRef<Path>,
        key: impl AsRef<Path>,
    ) -> Result<TlsConfig, TlsError> {
        let [authority, certificate, key] =
            [authority.as_ref(), certificate.as_ref(), key.as_ref()].map(PathBuf::from);
        let files = TlsFiles { authority, certificate, key };
        let loaded = Mutex::new(files.read()?);
        let shared = Arc::new(Shared { files, loaded });
        Ok(TlsConfig { shared, table: None, is_of_server: false })
    }

    /// Of the names in certificates only those of this table count.
    #[must_use]
    pub fn for_table(self, table: TableName) -> TlsConfig {
        TlsConfig { table: Some(table), ..self }
    }

    /// For a server, whose certificate clients accept now: it is valid, and names a server of the
    /// table. [`TlsConfig::for_table`] has to come before. From now on [`TlsConfig::reload`]
    /// refuses any other certificate.
    ///
    /// # Errors
    ///
    /// If the certificate is expired, not yet valid, does not have the name `krl:server` of the
    /// table, or is not certified by the authority.
    pub fn for_server(self) -> Result<TlsConfig, TlsError> {
        self.judge(&self.loaded())?;
        Ok(TlsConfig { is_of_server: true, ..self })
    }

    /// Reads the files again. Connections that are made from now on use what they contain
    /// now; existing ones continue.
    ///
    /// # Errors
    ///
    /// Those of [`TlsConfig::from_files`], and of [`TlsConfig::for_server`] if that was called:
    /// then all stays as it was.
    pub fn reload(&self) -> Result<(), TlsError> {
        let loaded = self.shared.files.read()?;
        if self.is_of_server {
            self.judge(&loaded)?;
        }
        *self.loaded() = loaded;
        Ok(())
    }

    /// The certificate that is shown now.
    #[must_use]
    pub fn certificate(&self) -> Certificate {
        self.loaded().own.clone()
    }

    /// What the certificate that is shown now grants at the table, if it grants anything.
    pub(crate) fn identity(&self) -> Option<Identity> {
        Identity::of_names(self.certificate().names.iter().map(String::as_str), self.table())
    }

    fn loaded(&self) -> MutexGuard<'_, Loaded> {
        self.shared.loaded.lock().unwrap_or_else(PoisonError::into_inner)
    }

    /// Whether clients believe a server that shows this certificate now.
    fn judge(&self, loaded: &Loaded) -> Result<(), TlsError> {
        let own = &loaded.own;
        let now = SystemTime::now().duration_since(UNIX_EPOCH).unwrap_or_default();
        let now = i64::try_from(now.as_secs()).unwrap_or(i64::MAX);
        let (path, subject) = (self.shared.files.certificate.display(), &own.subject);
        let why = match own.judge_for_server(self.table.as_ref(), now) {
            None if loaded.certified == X509VerifyResult::OK => return Ok(()),
            None => format!(
                "is not certified by the authority {}: {}",
                self.shared.files.authority.display(),
                loaded.certified.error_string()
            ),
            Some(Unfit::Expired) => format!("expired at {}", own.expires_at),
            Some(Unfit::NotYetValid) => "is not valid yet: is the clock right?".to_string(),
            Some(Unfit::NoName) => {
                let at = self.table.as_ref().map(|table| format!("@{table}"));
                let named = if own.names.is_empty() { "none".into() } else { own.names.join(", ") };
                let at = at.unwrap_or_default();
                format!("does not have the name krl:server{at}, but these: {named}")
            }
        };
        let what = format!("the certificate {path} ({subject}) {why}");
        Err(TlsError { what, source: None })
    }

    pub(super) fn context(&self) -> SslContext {
        self.loaded().context.clone()
    }

    pub(super) fn table(&self) -> Option<&TableName> {
        self.table.as_ref()
    }
}

impl TlsFiles {
    fn read(&self) -> Result<Loaded, TlsError> {
        let TlsFiles { authority, certificate, key } = self;
        for path in [authority, certificate] {
            // OpenSSL would report a missing file by codes of its own.
            fs::File::open(path).map_err(unreadable(path))?;
        }
        let mut context = SslContextBuilder::new(SslMethod::tls()).map_err(unusable)?;
        context.set_min_proto_version(Some(SslVersion::TLS1_3)).map_err(unusable)?;
        context.set_ca_file(authority).map_err(bad_file("authority's certificate", authority))?;
        context
            .set_certificate_chain_file(certificate)
            .map_err(bad_file("certificate", certificate))?;
        context.set_private_key(&*read_key(key)?).map_err(bad_file("key", key))?;
        context.check_private_key().map_err(bad_file("key of the certificate", key))?;
        context.set_verify(SslVerifyMode::PEER | SslVerifyMode::FAIL_IF_NO_PEER_CERT);
        // Each connection shows its certificate again.
        context.set_options(SslOptions::NO_TICKET);
        context.set_session_cache_mode(SslSessionCacheMode::OFF);
        let context = context.build();
        let own = context.certificate().map(Certificate::of).transpose();
        let own = own.map_err(bad_file("certificate", certificate))?;
        let own = own.ok_or_else(|| bad_file("certificate", certificate)(ErrorStack::get()))?;
        let certified =
            verify_own(&context, certificate).map_err(bad_file("certificate", certificate))?;
        Ok(Loaded { context, own, certified })
    }
}

/// Whether those who believe the authority of the context believe the first certificate of the file,
/// by those after it.
fn verify_own(context: &SslContextRef, path: &Path) -> Result<X509VerifyResult, ErrorStack> {
    let mut chain = Stack::new()?;
    let mut shown = X509::stack_from_pem(&fs::read(path).unwrap_or_default())?.into_iter();
    let Some(own) = shown.next() else { return Ok(X509VerifyResult::APPLICATION_VERIFICATION) };
    for certificate in shown {
        chain.push(certificate)?;
    }
    X509StoreContext::new()?.init(context.cert_store(), &own, &chain, |it| {
        it.verify_cert()?;
        Ok(it.error())
    })
}

/// Reads a key. One with a pass phrase is refused: nobody can be asked for it.
fn read_key(path: &Path) -> Result<PKey<Private>, TlsError> {
    let pem = fs::read(path).map_err(unreadable(path))?;
    let mut has_phrase = false;
    let key = PKey::private_key_from_pem_callback(&pem, |_| {
        has_phrase = true;
        Ok(0)
    });
    if has_phrase {
        let what = format!("the key {} has a pass phrase: give a key without one", path.display());
        return Err(TlsError { what, source: None });
    }
    key.map_err(bad_file("key", path))
}

fn unusable(source: ErrorStack) -> TlsError {
    TlsError { what: "TLS 1.3 can't be used".into(), source: Some(source.into()) }
}

fn unreadable(path: &Path) -> impl FnOnce(std::io::Error) -> TlsError {
    let what = format!("{} can't be read", path.display());
    |source| TlsError { what, source: Some(source.into()) }
}

fn bad_file(kind: &str, path: &Path) -> impl FnOnce(ErrorStack) -> TlsError {
    let what = format!("{} is not the {kind}, as PEM", path.display());
    |source| TlsError { what, source: Some(source.into()) }
}

impl PartialEq for TlsConfig {
    fn eq(&self, other: &TlsConfig) -> bool {
        Arc::ptr_eq(&self.shared, &other.shared) && self.table == other.table
    }
}

impl Eq for TlsConfig {}

impl fmt::Debug for TlsConfig {
    fn fmt(&self, f: &mut fmt::Formatter<'_>) -> fmt::Result {
        let mut shown = f.debug_struct("TlsConfig");
        shown.field("files", &self.shared.files).field("table", &self.table);
        shown.finish_non_exhaustive()
    }
}

impl fmt::Display for TlsError {
    fn fmt(&self, f: &mut fmt::Formatter<'_>) -> fmt::Result {
        f.write_str(&self.what)
    }
}

impl std::error::Error for TlsError {
    fn source(&self) -> Option<&(dyn std::error::Error + 'static)> {
        let source = self.source.as_deref()?;
        Some(source)
    }
}
