//! Readers of tables of PostgreSQL. They start a server of PostgreSQL, which has functions in SQL in
//! place of the extension: `hosts/pgext/check` has a reader next to the extension itself.
#[path = "site/mod.rs"]
mod site;

use krl_cache::{Cache, Key, ReadError, Row, Table};
use krl_testing::database::Database;
use site::{
    CLUSTER_MARK, ITEM_MARK, LONG, Site, from_memory, keys_of_item, name, name_of, wait_until,
};
use std::thread;
use std::time::{Duration, Instant};

const UUID: [u8; 16] = [0xa0; 16];
const UUID_TEXT: &str = "a0a0a0a0-a0a0-a0a0-a0a0-a0a0a0a0a0a0";

fn names(rows: &[Row]) -> Vec<String> {
    rows.iter().map(name).collect()
}

#[test]
fn a_row_is_read_from_memory_until_it_is_taken_back() {
    let Some(site) = Site::start() else { return };
    let cache = site.cache();
    let items = cache.table("item").unwrap();
    let lamp = items.get(3).unwrap().unwrap();
    assert_eq!(lamp.get::<i32>("id").unwrap(), 3);
    assert_eq!((name(&lamp).as_str(), lamp.get::<i64>("price").unwrap()), ("item 3", 30));
    assert_eq!(from_memory(&items, |items| items.get(3).unwrap().unwrap()), lamp);

    site.write(keys_of_item(3..4), "UPDATE item SET name = 'lamp', price = NULL WHERE id = 3");
    let lamp = items.get(3).unwrap().unwrap();
    assert_eq!((name(&lamp).as_str(), lamp.get::<Option<i64>>("price").unwrap()), ("lamp", None));
    assert_eq!(from_memory(&items, |items| items.get(3).unwrap().unwrap()), lamp);

    // That there is no row is kept too.
    assert!(from_memory(&items, |items| items.get(51).unwrap()).is_none());
    site.write(keys_of_item(3..4), "INSERT INTO item VALUES (51, 'shade', 7)");
    assert_eq!(name_of(&items, 51).unwrap(), "shade");
    assert_eq!(from_memory(&items, |items| name_of(items, 51)).unwrap(), "shade");
    site.write(keys_of_item(3..4), "DELETE FROM item WHERE id = 51");
    assert_eq!(name_of(&items, 51), None);
    cache.close();
    assert_eq!(name_of(&items, 3).unwrap(), "lamp", "it is read from the database now");
}

#[test]
fn a_cache_is_closed_though_its_loader_waits_for_the_database() {
    const TIMEOUT: Duration = Duration::from_secs(8);
    let Some(site) = Site::start() else { return };
    let cache = site.builder().timeout(TIMEOUT).open().unwrap();
    let items = cache.table("item").unwrap();
    from_memory(&items, |items| items.get(3).unwrap());
    let other = site.database.connect();
    other.run("BEGIN; LOCK TABLE item");
    thread::scope(|scope| {
        // Both the read and the loader wait for the table.
        let waiting = scope.spawn(|| items.get(4));
        site.database.wait_for_waiting(2);
        let begun = Instant::now();
        cache.close();
        wait_until("it has left", || site.server.status().clients.len() == 1);
        let took = begun.elapsed();
        assert!(took < TIMEOUT / 2, "{took:?}");
        other.run("COMMIT");
        assert_eq!(name(&waiting.join().unwrap().unwrap().unwrap()), "item 4");
    });
}

#[test]
fn keys_have_one_column_or_several() {
    let Some(site) = Site::start() else { return };
    site.sql.run(&format!(
        "CREATE TABLE place (country varchar(2), code uuid, \"The Name\" text NOT NULL,
            PRIMARY KEY (country, code));
         INSERT INTO place VALUES ('at', '{UUID_TEXT}', 'Vienna');
         INSERT INTO krl.cached VALUES ('place', '{{country,code}}', 119, 16, false);
         CREATE TABLE \"Note\" (author text, body text);
         INSERT INTO \"Note\" VALUES ('ada', 'one'), ('ada', 'two'), ('grace', 'three');
         INSERT INTO krl.cached VALUES ('\"Note\"', '{{author}}', 139, 1, false);"
    ));
    let cache = site.cache();
    let places = cache.table("public.place").unwrap();
    let vienna = || from_memory(&places, |places| places.get(("at", UUID)).unwrap()).unwrap();
    assert_eq!(vienna().get::<&str>("The Name").unwrap(), "Vienna");
    assert!(from_memory(&places, |places| places.get(("de", UUID)).unwrap()).is_none());
    site.write(120..136, "UPDATE place SET \"The Name\" = 'Wien'");
    let both = places.get_many([("at", UUID), ("de", UUID)]).unwrap();
    assert!(both[0].as_ref().unwrap().get::<&str>("The Name").unwrap() == "Wien");
    assert!(both[1].is_none());

    let notes = cache.table("\"Note\"").unwrap();
    let bodies = |author: &str| {
        let rows = from_memory(&notes, |notes| notes.rows(author).unwrap());
        let mut bodies: Vec<String> = rows.iter().map(|row| row.get("body").unwrap()).collect();
        bodies.sort();
        bodies
    };
    assert_eq!(bodies("ada"), ["one", "two"]);
    assert_eq!(bodies("grace"), ["three"]);
    assert_eq!(bodies("nobody"), [""; 0]);
    let refused = notes.get("ada").unwrap_err();
    assert!(matches!(&refused, ReadError::SeveralRows(key) if *key == Key::from("ada")));
    cache.close();
}

#[test]
fn several_rows_are_those_of_one_moment() {
    let Some(site) = Site::start() else { return };
    let cache = site.cache();
    let items = cache.table("item").unwrap();
    let expected: Vec<String> = (10..20).map(|key| format!("item {key}")).collect();
    assert_eq!(names(&items.range(10..20).unwrap()), expected);
    assert_eq!(names(&from_memory(&items, |items| items.range(10..20).unwrap())), expected);
    assert_eq!(items.range(38..=99).unwrap().len(), 2);
    assert_eq!(items.range(..).unwrap().len(), 40, "a range of all keys");
    assert_eq!(items.range(20..20).unwrap(), []);

    // One of them was taken back: what is missing is loaded, and then again all are in memory.
    site.write(keys_of_item(12..13), "UPDATE item SET name = 'lamp' WHERE id = 12");
    assert_eq!(names(&items.range(11..14).unwrap()), ["item 11", "lamp", "item 13"]);
    let names = |items: &Table| {
        let rows = items.get_many([13, 77, 12]).unwrap();
        rows.iter().map(|row| row.as_ref().map(name)).collect::<Vec<_>>()
    };
    assert_eq!(from_memory(&items, names), [Some("item 13".into()), None, Some("lamp".into())]);
    cache.close();
}

#[test]
fn what_is_in_memory_is_read_without_the_database() {
    let Some(mut site) = Site::start() else { return };
    let cache = site.cache();
    let items = cache.table("item").unwrap();
    let cached = |keys: &[i64]| items.cached(keys.iter().copied()).unwrap();
    assert_eq!(cached(&[3]), None);
    assert_eq!(items.statistics().misses, 0, "nobody is asked");
    let both = from_memory(&items, |items| items.get_many([3, 51]).unwrap());
    assert_eq!((both[1].as_ref(), both[0].as_ref().map(name)), (None, Some("item 3".into())));
    assert_eq!(cached(&[3, 51]), Some(both));
    assert_eq!(cached(&[3, 4]), None, "one is missing");
    let range = from_memory(&items, |items| items.range(3..=5).unwrap());
    assert_eq!(items.cached_range(3..=5).unwrap(), Some(range));
    assert_eq!(items.cached_range(3..=6).unwrap(), None);
    assert_eq!(items.cached_range(..).unwrap(), None, "a range of all keys");
    assert_eq!(items.cached_range(5..5).unwrap(), Some(Vec::new()));
    assert!(matches!(items.cached(["lamp"]), Err(ReadError::Key(_))));

    site.take_back(keys_of_item(3..4));
    assert_eq!((cached(&[3]), cached(&[4]).unwrap().len()), (None, 1), "one was taken back");
    site.database.stop();
    assert_eq!(cached(&[4]).unwrap()[0].as_ref().map(name).unwrap(), "item 4");
    cache.close();
    assert_eq!(cached(&[4]), None, "nothing is held any more");
}

#[test]
fn nothing_is_kept_while_a_transaction_is_about_to_commit() {
    let Some(site) = Site::start() else { return };
    let cache = site.cache();
    let items = cache.table("item").unwrap();
    site.sql.run(&format!("INSERT INTO krl.notices VALUES ({})", keys_of_item(3..4).start));
    wait_until("a load is not kept", || {
        assert_eq!(name_of(&items, 3).unwrap(), "item 3");
        items.statistics().unkept > 0
    });
    // Others are kept.
    assert_eq!(from_memory(&items, |items| name_of(items, 4)).unwrap(), "item 4");
    let misses = items.statistics().misses;
    assert_eq!(name_of(&items, 3).unwrap(), "item 3");
    assert_eq!(items.statistics().misses, misses + 1);
    site.sql.run("UPDATE item SET name = 'lamp' WHERE id = 3; DELETE FROM krl.notices");
    assert_eq!(name_of(&items, 3).unwrap(), "lamp");
    assert_eq!(from_memory(&items, |items| name_of(items, 3)).unwrap(), "lamp");
    cache.close();
}

#[test]
fn rows_are_selected_after_the_question_whether_they_are_quiet() {
    let Some(site) = Site::start() else { return };
    let cache = site.cache();
    let items = cache.table("item").unwrap();
    from_memory(&items, |items| items.get(3).unwrap());
    // A transaction commits just before the question is answered.
    site.sql.run("UPDATE krl.state SET touches = 'UPDATE public.item SET price = price + 1'");
    let loads = items.statistics().loads;
    let before = site.sql.query("SELECT price FROM item WHERE id = 19");
    let row = items.get(19).unwrap().unwrap(); // of a stripe that is held
    // The loader may ask too.
    assert!(items.statistics().loads > loads);
    assert!(row.get::<i64>("price").unwrap() > before[0].get(0));
    cache.close();
}

#[test]
fn what_was_lost_is_loaded_with_a_miss() {
    let Some(site) = Site::start() else { return };
    let cache = site.cache();
    let items = cache.table("item").unwrap();
    // The loader may be late, and load them while the transaction is about to commit.
    wait_until("the others are loaded too", || {
        for key in [3, 4, 5] {
            from_memory(&items, |items| items.get(key).unwrap());
        }
        site.write(keys_of_item(0..16), "UPDATE item SET price = price + 1");
        from_memory(&items, |items| items.get(3).unwrap());
        let hits = items.statistics().hits;
        let prices = [4, 5].map(|key| items.get(key).unwrap().unwrap().get::<i64>("price"));
        assert_eq!(prices[1].as_ref().unwrap() - prices[0].as_ref().unwrap(), 10);
        items.statistics().hits == hits + 2
    });
    cache.close();
}

/// Changes of a table, and the last of its columns after each.
const CHANGES: [(&str, &str); 4] = [
    ("ALTER TABLE item ADD COLUMN weight bigint DEFAULT 5", "weight int8"),
    ("ALTER TABLE item ALTER COLUMN weight TYPE text", "weight text"),
    ("ALTER TABLE item RENAME COLUMN weight TO mass", "mass text"),
    ("ALTER TABLE item DROP COLUMN mass", "price int8"),
];

fn last_column(row: Option<Row>) -> String {
    let row = row.unwrap();
    let last = row.columns().last().unwrap();
    format!("{} {}", last.name(), last.sql_type())
}

/// The last column of a row that was in memory, and of others that were not.
fn last_columns(items: &Table) -> [String; 5] {
    let all = [
        items.get(3).unwrap(),
        items.get(20).unwrap(),
        items.get_many([3, 21]).unwrap().pop().flatten(),
        items.rows(22).unwrap().pop(),
        items.range(..).unwrap().pop(),
    ];
    all.map(last_column)
}

#[test]
fn a_row_that_is_not_kept_has_the_columns_of_its_table_at_once() {
    let Some(site) = Site::start() else { return };
    let cache = site.cache();
    let items = cache.table("item").unwrap();
    // Nothing is quiet as long as the cluster is suspended. After that the table is not cached.
    for state in ["INSERT INTO krl.notices VALUES (0)", "DELETE FROM krl.cached"] {
        site.sql.run(state);
        assert_eq!(last_columns(&items), ["price int8"; 5]);
        for (change, expected) in CHANGES {
            site.sql.run(change);
            assert_eq!(last_columns(&items), [expected; 5], "{change}");
        }
    }
    assert_eq!(items.statistics().kept, 0);
    cache.close();
}

#[test]
fn a_table_that_is_not_cached_is_read_from_the_database_until_it_is() {
    let Some(site) = Site::start() else { return };
    let caches = [site.cache(), site.cache()];
    let running = caches[0].table("item").unwrap();
    from_memory(&running, |items| items.get(3).unwrap());
    site.define(2, "DELETE FROM krl.cached WHERE relation = 'item'::regclass");
    let tables = [running, caches[1].table("item").unwrap()];
    let expected = "the table public.item is not cached: call SELECT krl.cache('public.item')";
    assert!(tables[1].fault().unwrap().starts_with(expected));
    for (table, cache) in tables.iter().zip(&caches) {
        wait_until("the loader looks at the table", || {
            assert_eq!(name_of(table, 3).unwrap(), "item 3");
            table.fault().is_some_and(|fault| fault.starts_with(expected))
        });
        assert_eq!(names(&table.range(7..9).unwrap()), ["item 7", "item 8"]);
        assert_eq!((table.cached([3]).unwrap(), cache.fault()), (None, None));
    }
    site.sql.run("UPDATE item SET name = 'lamp' WHERE id = 3");
    assert_eq!(tables.each_ref().map(|table| name_of(table, 3).unwrap()), ["lamp"; 2]);

    // It is cached again, by another mark.
    site.define(3, "INSERT INTO krl.cached VALUES ('item', '{id}', 119, 16, true)");
    for table in &tables {
        assert_eq!(from_memory(table, |table| name_of(table, 3)).unwrap(), "lamp");
        wait_until("there is no fault", || table.fault().is_none());
    }
    site.write(123..124, "UPDATE item SET name = 'shade' WHERE id = 3");
    assert_eq!(tables.each_ref().map(|table| name_of(table, 3).unwrap()), ["shade"; 2]);
    caches.into_iter().for_each(Cache::close);
}

#[test]
fn an_extension_of_another_version_is_reported() {
    let Some(site) = Site::start() else { return };
    let cache = site.cache();
    let items = cache.table("item").unwrap();
    from_memory(&items, |items| items.get(3).unwrap());
    site.sql.run("ALTER FUNCTION krl.quiet RENAME TO calm");
    // Of a stripe that is held, and of one that is not.
    for key in [19, 4] {
        wait_until("the fault is reported", || {
            assert_eq!(name_of(&items, key).unwrap(), format!("item {key}"));
            items.fault().is_some_and(|fault| fault.contains("ALTER EXTENSION krl UPDATE"))
        });
    }
    site.sql.run("ALTER FUNCTION krl.calm RENAME TO quiet");
    from_memory(&items, |items| items.get(4).unwrap());
    wait_until("there is no fault", || items.fault().is_none());
    cache.close();
}

#[test]
fn a_changed_definition_is_found() {
    let Some(site) = Site::start() else { return };
    let cache = site.cache();
    let items = cache.table("item").unwrap();
    from_memory(&items, |items| items.get(3).unwrap());
    for (nonce, (change, expected)) in (2..).zip(CHANGES) {
        site.define(nonce, change);
        assert_eq!(last_columns(&items), [expected; 5], "at once");
        assert_eq!(last_column(from_memory(&items, |items| items.get(3).unwrap())), expected);
    }

    // Another table has the name, and is not cached.
    site.define(
        9,
        "ALTER TABLE item RENAME TO earlier;
         CREATE TABLE item (id integer PRIMARY KEY, name text);
         INSERT INTO item VALUES (3, 'of another table')",
    );
    assert_eq!(name_of(&items, 3).unwrap(), "of another table");
    wait_until("the loader reports why", || {
        assert_eq!(name_of(&items, 3).unwrap(), "of another table");
        items.fault().is_some_and(|fault| fault.contains("the table public.item is not cached"))
    });
    let kept = items.statistics().hits;
    site.sql.run("UPDATE item SET name = 'changed'");
    assert_eq!(name_of(&items, 3).unwrap(), "changed");
    assert_eq!(items.statistics().hits, kept);
    cache.close();
}

#[test]
fn a_definition_that_is_about_to_change_is_found_again() {
    let Some(site) = Site::start() else { return };
    let cache = site.cache();
    let items = cache.table("item").unwrap();
    for (mark, columns) in [(ITEM_MARK, 4), (CLUSTER_MARK, 5)] {
        from_memory(&items, |items| items.get(3).unwrap());
        // A transaction has given notice and taken the mark, and has not committed yet.
        let notice = if mark == CLUSTER_MARK { 0 } else { mark };
        site.sql.run(&format!("INSERT INTO krl.notices VALUES ({notice})"));
        site.take_back(mark..mark + 1);
        let unkept = items.statistics().unkept;
        wait_until("the loader looks at the table", || {
            assert_eq!(name_of(&items, 3).unwrap(), "item 3");
            items.statistics().unkept > unkept
        });
        site.sql.run(&format!(
            "ALTER TABLE item ADD COLUMN of{columns} bigint; DELETE FROM krl.notices"
        ));
        assert_eq!(items.get(3).unwrap().unwrap().columns().len(), columns);
    }
    from_memory(&items, |items| items.get(3).unwrap());
    cache.close();
}

#[test]
fn the_database_answers_while_krl_or_the_extension_is_away() {
    let Some(site) = Site::start() else { return };
    let servers = site.server.address();
    site.sql.run("UPDATE krl.state SET servers = 'unix:/nowhere/krl.socket'");
    let cache = site.cache();
    let items = cache.table("item").unwrap();
    wait_until("krl is away", || {
        assert_eq!(name_of(&items, 3).unwrap(), "item 3");
        items.statistics().away > 0
    });
    assert!(cache.fault().is_some());
    site.sql.run(&format!("UPDATE krl.state SET servers = '{servers}'"));
    from_memory(&items, |items| items.get(3).unwrap());
    wait_until("nothing is away", || cache.fault().is_none());

    site.define(2, "");
    site.sql.run("ALTER SCHEMA krl RENAME TO gone");
    wait_until("the extension is away", || {
        assert_eq!(name_of(&items, 3).unwrap(), "item 3");
        cache.fault().is_some_and(|fault| fault.contains("has no extension krl"))
    });
    site.sql.run("ALTER SCHEMA gone RENAME TO krl");
    from_memory(&items, |items| items.get(3).unwrap());

    // A start of the extension whose mark this reader does not hold yet.
    site.sql.run("UPDATE krl.state SET nonce = 7");
    site.take_back(keys_of_item(3..4));
    let before = items.statistics();
    wait_until("a load is not kept", || {
        assert_eq!(name_of(&items, 3).unwrap(), "item 3");
        items.statistics().unkept > before.unkept
    });
    assert_eq!(items.statistics().kept, before.kept);
    site.define(7, "");
    from_memory(&items, |items| items.get(3).unwrap());
    cache.close();
}

#[test]
fn what_the_database_refuses_of_one_table_is_no_fault_of_the_others() {
    let Some(site) = Site::start() else { return };
    let cache = site.cache_of_role("app", LONG);
    site.sql.run(
        "CREATE TABLE secret (id bigint PRIMARY KEY);
         INSERT INTO krl.cached VALUES ('secret', '{id}', 119, 16, true);",
    );
    let (items, secrets) = (cache.table("item").unwrap(), cache.table("secret").unwrap());
    from_memory(&items, |items| items.get(3).unwrap());
    wait_until("the loader is refused too", || {
        assert!(secrets.get(3).is_err());
        secrets.fault().is_some_and(|fault| fault.contains("permission denied for table secret"))
    });
    for key in 0..50 {
        secrets.get(key).unwrap_err();
        items.get(100 + key).unwrap();
        assert_eq!((cache.fault(), items.fault()), (None, None));
        assert!(secrets.fault().is_some());
    }
    assert_eq!(items.statistics().away, 0);
    site.sql.run("GRANT SELECT ON secret TO app");
    from_memory(&secrets, |secrets| secrets.get(3).unwrap());
    wait_until("there is no fault", || secrets.fault().is_none());
    cache.close();
}

#[test]
fn a_lock_that_others_hold_is_a_fault_of_its_table() {
    let Some(site) = Site::start() else { return };
    let cache = site.cache();
    let items = cache.table("item").unwrap();
    let held = site.keep_from_readers(keys_of_item(4..5));
    wait_until("the loader gives up", || {
        assert_eq!((name_of(&items, 4).unwrap(), cache.fault()), ("item 4".to_string(), None));
        items.fault().is_some_and(|fault| fault.contains("another client holds"))
    });
    drop(held);
    from_memory(&items, |items| items.get(4).unwrap());
    wait_until("there is no fault", || items.fault().is_none());
    cache.close();
}

#[test]
fn connections_that_end_are_made_again() {
    let Some(mut site) = Site::start() else { return };
    let cache = site.cache();
    let items = cache.table("item").unwrap();
    from_memory(&items, |items| items.get(3).unwrap());
    site.sql.run(
        "SELECT pg_terminate_backend(pid) FROM pg_stat_activity
         WHERE backend_type = 'client backend' AND pid <> pg_backend_pid()",
    );
    assert_eq!(name_of(&items, 4).unwrap(), "item 4");
    assert_eq!(from_memory(&items, |items| name_of(items, 5)).unwrap(), "item 5");
    site.database.stop();
    assert_eq!(name_of(&items, 5).unwrap(), "item 5", "from memory, while the database is away");
    let failed = items.get(6).unwrap_err();
    assert!(matches!(failed, ReadError::Database { sqlstate: None, .. }), "{failed}");
    assert!(failed.to_string().starts_with("the database: cannot connect to "), "{failed}");
    site.database.start_again();
    wait_until("the database answers", || items.get(6).is_ok());
    cache.close();
}

#[test]
fn memory_is_limited() {
    let Some(site) = Site::start() else { return };
    site.sql.run(
        "CREATE TABLE wide (id bigint PRIMARY KEY, name text);
         INSERT INTO wide SELECT id, repeat('x', 1000) FROM generate_series(0, 999) AS id;
         INSERT INTO krl.cached VALUES ('wide', '{id}', 119, 16, true);",
    );
    let cache = site.cache_of(100_000);
    let wide = cache.table("wide").unwrap();
    for first in (0..1000).step_by(10) {
        from_memory(&wide, |wide| wide.range(first..first + 10).unwrap().len());
    }
    let found = wide.statistics();
    assert!(found.bytes <= 100_000 && found.keys > 50 && found.evictions > 800, "{found:?}");
    cache.close();
}

#[test]
fn several_caches_and_threads_read_a_table() {
    let Some(site) = Site::start() else { return };
    let caches = [site.cache(), site.cache()];
    thread::scope(|scope| {
        for cache in &caches {
            let items = cache.table("item").unwrap();
            for first in [0, 20] {
                let items = items.clone();
                scope.spawn(move || {
                    for key in first..first + 20 {
                        let found = from_memory(&items, |items| name_of(items, key));
                        assert_eq!(found.unwrap(), format!("item {key}"));
                    }
                });
            }
        }
    });
    caches.into_iter().for_each(Cache::close);
}

#[test]
fn what_cannot_be_read_is_refused_with_a_sentence() {
    let Some(site) = Site::start() else { return };
    site.sql.run(
        "CREATE TABLE plain (id bigint);
         CREATE TABLE named (name text PRIMARY KEY);
         INSERT INTO krl.cached VALUES ('named', '{name}', 119, 16, false);
         CREATE TABLE renamed (id bigint PRIMARY KEY);
         INSERT INTO krl.cached VALUES ('renamed', '{number}', 139, 16, true);",
    );
    let cache = site.cache();
    let refused = |table: &str| cache.table(table).unwrap_err().to_string();
    let expected = "the table public.plain is not cached, and cannot be read either: it has no \
                    primary key ";
    assert!(refused("plain").starts_with(expected), "{}", refused("plain"));
    assert!(refused("missing").starts_with("the database: relation \"missing\" does not exist"));
    assert!(
        refused("renamed").starts_with("the key of public.renamed has changed since it was cached")
    );
    let (items, named) = (cache.table("item").unwrap(), cache.table("named").unwrap());
    let refused = |error: ReadError| error.to_string();
    let expected = "the key lamp is not one of public.item: expected an integer";
    assert_eq!(refused(items.get("lamp").unwrap_err()), expected);
    let expected = "the key (3, lamp) is not one of public.named: expected a text";
    assert_eq!(refused(named.get((3, "lamp")).unwrap_err()), expected);
    let expected = "the key of public.named is not one integer";
    assert_eq!(refused(named.range(..).unwrap_err()), expected);
    cache.close();

    let Some(bare) = Database::start() else { return };
    let folder = std::env::temp_dir().join(format!("krl-reader-bare-{}", std::process::id()));
    let cache = Cache::builder(bare.address(), &folder).open().unwrap();
    let refused = cache.table("pg_class").unwrap_err();
    assert!(refused.to_string().starts_with("the database has no extension krl"), "{refused}");
    cache.close();
    std::fs::remove_dir_all(folder).unwrap();
}
