//! Clusters that want TLS, certificates, or a user and the password. They start a node of etcd, and
//! make certificates by openssl.
use krl::store::{Change, Store, StoreError};
use krl_etcd::{Credentials, Election, EtcdAddress, EtcdStore};
use krl_testing::authority::Authority;
use krl_testing::cluster::Cluster;
use serde_json::{Value as Json, json};

const STARTED: [Change; 1] = [Change::Started { epoch: 1 }];

/// Opens the store, loads it, and commits something.
fn serve(address: &EtcdAddress, credentials: &Credentials) -> Result<EtcdStore, StoreError> {
    let mut store = EtcdStore::open(address, credentials)?;
    store.load()?;
    store.commit(&STARTED)?;
    Ok(store)
}

/// The sentence with which a store is refused.
fn refused(address: &EtcdAddress, credentials: &Credentials) -> String {
    serve(address, credentials).map(drop).unwrap_err().to_string()
}

fn user(name: &str, password: &str) -> Credentials {
    Credentials { user: Some((name.to_string(), password.to_string())), ..Credentials::default() }
}

#[test]
fn a_cluster_that_wants_certificates_gets_one() {
    let (authority, other) = (Authority::make(), Authority::make());
    let Some(cluster) = Cluster::start_secure(&authority) else { return };
    let address: EtcdAddress = cluster.address("secure");
    assert!(address.is_secure);
    let right = Credentials {
        user: None,
        authority: Some(authority.certificate()),
        certificate: Some(authority.client()),
    };
    serve(&address, &right).unwrap().commit(&[]).unwrap();
    assert_eq!(Election::leader(&address, &right), Ok(None));

    let wrong = Credentials { authority: Some(other.certificate()), ..right.clone() };
    let reason = refused(&address, &wrong);
    assert!(reason.contains("is not certified by"), "{reason}");
    let none = Credentials { certificate: None, ..right.clone() };
    let reason = refused(&address, &none);
    assert!(reason.contains("takes no client without a certificate of its authority"), "{reason}");
    let others = Credentials { certificate: Some(other.client()), ..right };
    let reason = refused(&address, &others);
    assert!(reason.contains("takes no client without a certificate of its authority"), "{reason}");
    // It may be a node that ends just now: so it is asked again for a while.
    let plain = EtcdAddress { is_secure: false, ..address };
    let reason = Election::leader(&plain, &Credentials::default()).unwrap_err().to_string();
    assert!(reason.ends_with("reached by etcds://"), "{reason}");
}

#[test]
fn a_node_without_tls_is_reported() {
    let Some(cluster) = Cluster::start() else { return };
    let secure = EtcdAddress { is_secure: true, ..cluster.address("plain") };
    let reason = Election::leader(&secure, &Credentials::default()).unwrap_err().to_string();
    assert!(reason.ends_with("reached by etcd://"), "{reason}");
}

/// Has the cluster ask for a user from now on: `root`; or `krl`, which may use the keys of `krl`.
fn enable_users(cluster: &Cluster) {
    let ask = |path: &str, body: Json| cluster.ask(path, &body);
    for (name, password) in [("root", "of all"), ("krl", "of krl")] {
        ask("auth/user/add", json!({"name": name, "password": password}));
        ask("auth/role/add", json!({"name": name}));
        ask("auth/user/grant", json!({"user": name, "role": name}));
    }
    // From `/krl/` up to `/krl0`, in base64.
    let keys = json!({"permType": "READWRITE", "key": "L2tybC8=", "range_end": "L2tybDA="});
    ask("auth/role/grant", json!({"name": "krl", "perm": keys}));
    ask("auth/enable", json!({}));
}

#[test]
fn a_cluster_that_wants_a_user_gets_one() {
    let Some(cluster) = Cluster::start() else { return };
    enable_users(&cluster);
    let address: EtcdAddress = cluster.address("users");
    let mut store = serve(&address, &user("krl", "of krl")).unwrap();
    // The earlier token no longer counts then.
    cluster.ask_as("root", "of all", "auth/user/add", &json!({"name": "one", "password": "more"}));
    store.commit(&[Change::Registered { client: 9, incarnation: 1 }]).unwrap();

    let reason = refused(&address, &user("krl", "other"));
    assert!(reason.contains("the user krl or the password is wrong"), "{reason}");
    let reason = refused(&address, &user("nobody", "of krl"));
    assert!(reason.contains("the user nobody or the password is wrong"), "{reason}");
    let reason = refused(&address, &Credentials::default());
    assert!(reason.contains("wants a user and a password"), "{reason}");
    let elsewhere = EtcdAddress { prefix: "/other".to_string(), ..address };
    let reason = refused(&elsewhere, &user("krl", "of krl"));
    assert!(reason.contains("the user krl may not use the keys"), "{reason}");
}

#[test]
fn a_user_of_a_cluster_without_users_learns_the_reason() {
    let Some(cluster) = Cluster::start() else { return };
    let reason = refused(&cluster.address("no-users"), &user("krl", "of krl"));
    assert!(reason.contains("has no users"), "{reason}");
}
