//! TLS to the database. They start a server of PostgreSQL.
use krl::store::{Change, Store};
use krl_postgres::{PostgresAddress, PostgresStore};
use krl_testing::authority::Authority;
use krl_testing::database::Database;

/// A database whose certificate, for 127.0.0.1, is of this authority.
fn secure(authority: &Authority) -> Option<Database> {
    let (certificate, key) = authority.node();
    let file = |name: &str, path| Database::file(name, &std::fs::read(path).unwrap());
    let certificate = format!("ssl_cert_file={}", file("node.pem", certificate));
    let key = format!("ssl_key_file={}", file("node.key", key));
    Database::start_with(&["ssl=on", &certificate, &key])
}

/// The database's address at this host, with these words on TLS.
fn address(database: &Database, host: &str, words: &str) -> PostgresAddress {
    let text = database.address::<String>().replace("127.0.0.1", host);
    format!("{text}?{words}").parse().unwrap()
}

fn load(address: &PostgresAddress) -> Result<PostgresStore, String> {
    let mut store = PostgresStore::open(address, None).map_err(|error| error.to_string())?;
    store.load().map_err(|error| error.to_string())?;
    Ok(store)
}

#[test]
fn a_database_is_reached_by_tls_and_its_certificate_is_checked() {
    let (right, other) = (Authority::make(), Authority::make());
    let Some(database) = secure(&right) else { return };
    let authority = |of: &Authority| format!("sslrootcert={}", of.certificate().display());
    let full = format!("sslmode=verify-full&{}", authority(&right));
    let mut store = load(&address(&database, "127.0.0.1", &full)).unwrap();
    store.commit(&[Change::Started { epoch: 1 }]).unwrap();
    let sealed = "SELECT count(*) FROM pg_stat_ssl WHERE ssl";
    database.connect().wait_until(sealed, |count| count == 1);
    drop(store);
    // The certificate has an address, and not that name.
    let error = load(&address(&database, "localhost", &full)).unwrap_err();
    assert!(error.contains("certificate verify failed"), "{error}");
    let ca = format!("sslmode=verify-ca&{}", authority(&right));
    load(&address(&database, "localhost", &ca)).unwrap();
    load(&address(&database, "localhost", "sslmode=require")).unwrap();
    for mode in ["require", "verify-ca", "verify-full"] {
        let words = format!("sslmode={mode}&{}", authority(&other));
        let error = load(&address(&database, "127.0.0.1", &words)).unwrap_err();
        assert!(error.contains("certificate verify failed"), "{mode}: {error}");
    }
    let error = load(&address(&database, "127.0.0.1", "sslmode=verify-full")).unwrap_err();
    assert!(error.contains("certificate verify failed"), "authorities of the system: {error}");
}

#[test]
fn what_cannot_be_used_is_reported() {
    let Some(database) = Database::start() else { return };
    let error = load(&address(&database, "127.0.0.1", "sslmode=require")).unwrap_err();
    assert!(error.contains("server does not support TLS"), "{error}");
    let missing = "sslmode=verify-full&sslrootcert=/nowhere/ca.pem";
    let error = load(&address(&database, "127.0.0.1", missing)).unwrap_err();
    assert!(error.contains("sslrootcert /nowhere/ca.pem can't be used: No such file"), "{error}");
}
