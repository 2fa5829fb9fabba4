//! A map of shards at home in a file, in etcd or in PostgreSQL.
use crate::process::Done;
use crate::settings::StorePlace;
use krl::store::{FileMap, MapHome};
use krl_etcd::{Credentials, EtcdMap};
use krl_postgres::PostgresMap;

pub fn open(place: &StorePlace, credentials: &Credentials) -> Done<Box<dyn MapHome + Send>> {
    Ok(match place {
        StorePlace::File(path) => Box::new(FileMap::new(path)),
        StorePlace::Etcd(address) => Box::new(EtcdMap::open(address, credentials)?),
        StorePlace::Postgres(address) => {
            Box::new(PostgresMap::open(address, credentials.user.as_ref())?)
        }
    })
}
