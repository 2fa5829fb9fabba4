//! Readers whose search path has what others have made.
#[path = "site/mod.rs"]
mod site;

use krl_testing::database::TRAPS;
use site::{LONG, Site, from_memory, keys_of_item, name, name_of};

const UUID: [u8; 16] = [0xa0; 16];

/// A table with keys of other types, and with a type of its own.
const PLACE: &str = "
    CREATE TYPE mood AS ENUM ('calm', 'glad');
    CREATE TABLE place (country varchar(2), code uuid, name text, mood mood,
        PRIMARY KEY (country, code));
    INSERT INTO place VALUES ('at', 'a0a0a0a0-a0a0-a0a0-a0a0-a0a0a0a0a0a0', 'Vienna', 'glad');
    INSERT INTO krl.cached VALUES ('place', '{country,code}', 119, 16, false);";

#[test]
fn nothing_of_others_is_called_in_the_name_of_the_reader() {
    let Some(site) = Site::start() else { return };
    site.sql.run(PLACE);
    site.sql.run(TRAPS);
    let cache = site.cache_of_role("app", LONG);
    site.sql.run("ALTER ROLE app SET search_path = public, pg_catalog");
    let (items, places) = (cache.table("item").unwrap(), cache.table("place").unwrap());
    assert_eq!(from_memory(&items, |items| items.range(3..9).unwrap().len()), 6);
    let vienna = |of_key: &krl_cache::Table| of_key.get(("at", UUID)).unwrap().unwrap();
    assert_eq!(name(&from_memory(&places, vienna)), "Vienna");
    let both = places.get_many([("at", UUID), ("de", UUID)]).unwrap();
    assert_eq!(both.iter().flatten().count(), 1);
    assert_eq!(items.get_many([30, 31, 32]).unwrap().iter().flatten().count(), 3);
    site.write(keys_of_item(3..4), "UPDATE public.item SET name = 'lamp' WHERE id = 3");
    assert_eq!(name_of(&items, 3).unwrap(), "lamp");
    cache.close();
}

#[test]
fn a_name_without_a_schema_is_looked_up_once_as_the_role_does() {
    let Some(site) = Site::start() else { return };
    site.sql.run(
        "CREATE SCHEMA own; CREATE TABLE own.item (id integer PRIMARY KEY, name text);
         INSERT INTO own.item VALUES (3, 'of its own');
         INSERT INTO krl.cached VALUES ('own.item', '{id}', 119, 16, true);",
    );
    let cache = site.cache_of_role("app", LONG);
    site.sql.run(
        "GRANT USAGE ON SCHEMA own TO app; GRANT SELECT ON own.item TO app;
         ALTER ROLE app SET search_path = own, public",
    );
    let (own, public) = (cache.table("item").unwrap(), cache.table("public.item").unwrap());
    let read = || [&own, &public].map(|table| name_of(table, 3).unwrap());
    assert_eq!(read(), ["of its own", "item 3"]);
    site.sql.run(
        "ALTER ROLE app SET search_path = public;
         SELECT pg_terminate_backend(pid) FROM pg_stat_activity WHERE usename = 'app'",
    );
    site.define(2, "ALTER TABLE own.item ADD COLUMN weight bigint");
    assert_eq!(from_memory(&own, |own| name_of(own, 3)).unwrap(), "of its own");
    assert_eq!(name_of(&cache.table("item").unwrap(), 3).unwrap(), "item 3");
    cache.close();
}
