//! What PostgreSQL is asked. Each name has its schema, so that nothing depends on a search path: what
//! others make in a schema of it would be run with the rights of the reader.
use crate::held::Few;
use crate::key::{Key, KeyValue};
use crate::row::Row;
use crate::rows::Rows;
use std::fmt::Write;
use std::ops::RangeInclusive;
use tokio_postgres::types::{ToSql, Type};

/// Reports which stripes are quiet. They are asked for one by one only if not all of them are. The
/// table is found by its name: before another one had it, the first one's mark was taken.
pub(crate) const QUIET: &str = "
    SELECT CASE WHEN krl.quiet($1, pg_catalog.to_regclass($2), $3, $4) THEN $4 ELSE ARRAY(
        SELECT stripe FROM pg_catalog.unnest($4) AS stripe
        WHERE krl.quiet($1, pg_catalog.to_regclass($2), $3, ARRAY[stripe])) END";

/// Reports whether nobody is about to change the definition of a table.
pub(crate) const QUIET_DEFINITION: &str =
    "SELECT krl.quiet($1, pg_catalog.to_regclass($2), $3, '{}')";

/// Whether the role of the session may log in and connect to its database, now.
pub(crate) const MAY_CONNECT: &str = "
    SELECT rolcanlogin AND pg_catalog.has_database_privilege(
        pg_catalog.current_database()::pg_catalog.text, 'CONNECT')
    FROM pg_catalog.pg_roles WHERE rolname OPERATOR(pg_catalog.=) SESSION_USER";

/// Where krl's servers are.
pub(crate) const SERVERS: &str = "SELECT krl.servers()";

/// Each statement has a snapshot of its own. What the names of types and operators mean that the
/// client of PostgreSQL asks for by itself does not depend on the role either.
pub(crate) const SETTINGS: &str = "
    SET default_transaction_isolation = 'read committed';
    SET client_min_messages = error;
    SET search_path = pg_catalog, pg_temp;";

/// What follows in the transaction finds tables as the role's own search path has them.
pub(crate) const AS_THE_ROLE: &str = "BEGIN; SET LOCAL search_path TO DEFAULT";

/// The name of a table with its schema.
pub(crate) const FULL_NAME: &str = "
    SELECT pg_catalog.format('%I.%I', s.nspname, c.relname)
    FROM pg_catalog.pg_class AS c
        JOIN pg_catalog.pg_namespace AS s ON s.oid OPERATOR(pg_catalog.=) c.relnamespace
    WHERE c.oid OPERATOR(pg_catalog.=) $1::pg_catalog.text::pg_catalog.regclass";

/// Finds how a table is cached, by its full name. The key of one that is not cached is its primary
/// key, which `krl.cache` takes by default.
pub(crate) const CACHED: &str = "
    SELECT pg_catalog.format('%I.%I', s.nspname, c.relname), k.mark, k.stripes, k.by_remainder,
        pg_catalog.current_setting('server_encoding'),
        ARRAY(SELECT pg_catalog.quote_ident(part.name::pg_catalog.text)
            FROM pg_catalog.unnest(key.columns) WITH ORDINALITY AS part (name, place)
            ORDER BY part.place),
        ARRAY(SELECT a.atttypid
            FROM pg_catalog.unnest(key.columns) WITH ORDINALITY AS part (name, place)
                JOIN pg_catalog.pg_attribute AS a
                    ON a.attname OPERATOR(pg_catalog.=) part.name
            WHERE a.attrelid OPERATOR(pg_catalog.=) c.oid AND NOT a.attisdropped
            ORDER BY part.place)
    FROM pg_catalog.pg_class AS c
        JOIN pg_catalog.pg_namespace AS s ON s.oid OPERATOR(pg_catalog.=) c.relnamespace
        LEFT JOIN krl.cached AS k ON k.relation OPERATOR(pg_catalog.=) c.oid,
        LATERAL (SELECT CASE WHEN k.mark IS NOT NULL THEN k.key_columns ELSE ARRAY(
            SELECT a.attname
            FROM pg_catalog.pg_index AS i,
                pg_catalog.unnest(i.indkey::pg_catalog.int2[]) WITH ORDINALITY AS part (number, place)
                JOIN pg_catalog.pg_attribute AS a
                    ON a.attnum OPERATOR(pg_catalog.=) part.number
            WHERE i.indrelid OPERATOR(pg_catalog.=) c.oid AND i.indisprimary
                AND a.attrelid OPERATOR(pg_catalog.=) c.oid
                AND part.place OPERATOR(pg_catalog.<=) i.indnkeyatts
            ORDER BY part.place) END AS columns) AS key
    WHERE c.oid OPERATOR(pg_catalog.=) pg_catalog.to_regclass($1)";

const EQUALS: &str = "OPERATOR(pg_catalog.=)";

/// The type of a column of a key.
#[derive(Clone, Copy, Debug, PartialEq, Eq)]
pub(crate) enum KeyType {
    Integer,
    Text,
    Uuid,
}

/// How the rows of a table are selected. Each statement has a number of type `bigint` before the
/// columns of the table. Those are all that the table has at that moment: PostgreSQL refuses a
/// prepared statement whose columns have changed.
#[derive(Debug, PartialEq, Eq)]
pub(crate) struct TableSql {
    /// The name with its schema, in quotes where it needs them.
    pub table: String,
    pub key: Vec<KeyType>,
    one: String,
    several: String,
    range: String,
}

/// Which rows are selected.
#[derive(Debug)]
pub(crate) enum Selection<'k> {
    /// Those of keys. Each has the key, if this is one integer and there are several; otherwise the
    /// place of its key, from 1 on.
    Keys(Vec<&'k Key>),
    /// Those of a range, in the order of their keys.
    Range(RangeInclusive<i64>),
}

/// The values of a statement.
pub(crate) type Values<'k> = Vec<Box<dyn ToSql + Sync + 'k>>;

impl KeyType {
    /// The type with this number.
    pub fn of(oid: u32) -> Option<KeyType> {
        match Type::from_oid(oid)? {
            Type::INT2 | Type::INT4 | Type::INT8 => Some(KeyType::Integer),
            Type::TEXT | Type::VARCHAR => Some(KeyType::Text),
            Type::UUID => Some(KeyType::Uuid),
            _ => None,
        }
    }

    pub fn name(self) -> &'static str {
        match self {
            KeyType::Integer => "an integer",
            KeyType::Text => "a text",
            KeyType::Uuid => "a UUID",
        }
    }

    pub fn fits(self, value: &KeyValue) -> bool {
        self == match value {
            KeyValue::Integer(_) => KeyType::Integer,
            KeyValue::Text(_) => KeyType::Text,
            KeyValue::Uuid(_) => KeyType::Uuid,
        }
    }

    /// The type as which a value is sent, and the one to which it is converted.
    fn sent_as(self) -> (&'static str, &'static str) {
        match self {
            KeyType::Integer => ("bigint", "bigint"),
            KeyType::Text => ("pg_catalog.text", "pg_catalog.text"),
            KeyType::Uuid => ("pg_catalog.text", "pg_catalog.uuid"),
        }
    }

    /// The values of this column of keys, as one array.
    fn array<'k>(self, values: impl Iterator<Item = &'k KeyValue>) -> Box<dyn ToSql + Sync + 'k> {
        match self {
            KeyType::Integer => Box::new(values.map(integer).collect::<Vec<i64>>()),
            KeyType::Text | KeyType::Uuid => {
                Box::new(values.map(KeyValue::text).collect::<Vec<_>>())
            }
        }
    }
}

fn is_integer(key: &Key) -> bool {
    matches!(key.values(), [KeyValue::Integer(_)])
}

fn integer(value: &KeyValue) -> i64 {
    if let KeyValue::Integer(number) = value { *number } else { 0 }
}

impl TableSql {
    /// For a table of this name, and the columns of its key. All names are quoted.
    pub fn new(table: String, key: &[String], types: Vec<KeyType>) -> TableSql {
        let (mut of_one, mut of_several) = (Vec::new(), Vec::new());
        let (mut arrays, mut names) = (Vec::new(), String::new());
        for (number, (column, of_type)) in (1..).zip(key.iter().zip(&types)) {
            let (sent, to) = of_type.sent_as();
            of_one.push(format!("t.{column} {EQUALS} ${number}::{sent}::{to}"));
            of_several.push(format!("t.{column} {EQUALS} k.k{number}::{to}"));
            arrays.push(format!("pg_catalog.unnest(${number}::{sent}[])"));
            let _ = write!(names, "k{number}, ");
        }
        let (of_one, of_several) = (of_one.join(" AND "), of_several.join(" AND "));
        let (arrays, first) = (arrays.join(", "), key.first().map_or("", |column| column));
        let several = match types[..] {
            [KeyType::Integer] => format!(
                "SELECT t.{first}::bigint, t.* FROM {table} AS t
                 WHERE t.{first} {EQUALS} ANY ($1::bigint[])"
            ),
            _ => format!(
                "SELECT k.place, t.* FROM ROWS FROM ({arrays}) WITH ORDINALITY
                 AS k ({names}place) JOIN {table} AS t ON {of_several}"
            ),
        };
        TableSql {
            one: format!("SELECT 1::bigint, t.* FROM {table} AS t WHERE {of_one}"),
            several,
            range: format!(
                "SELECT t.{first}::bigint, t.* FROM {table} AS t
                 WHERE t.{first} OPERATOR(pg_catalog.>=) $1::bigint
                 AND t.{first} OPERATOR(pg_catalog.<=) $2::bigint ORDER BY t.{first}"
            ),
            table,
            key: types,
        }
    }
}

impl Selection<'_> {
    /// The statement, and its values.
    pub fn statement<'s>(&'s self, sql: &'s TableSql) -> (&'s str, Values<'s>) {
        match self {
            Selection::Keys(keys) => match keys[..] {
                [key] => (&sql.one, key.values().iter().map(value).collect()),
                _ => (&sql.several, arrays(sql, keys)),
            },
            Selection::Range(keys) => {
                (&sql.range, vec![Box::new(*keys.start()), Box::new(*keys.end())])
            }
        }
    }

    /// What was selected, by the keys in their order.
    pub fn by_key(&self, selected: Vec<(i64, Row)>) -> Few<Rows> {
        let mut places: Vec<(i64, usize)> = self.numbers().into_iter().zip(0..).collect();
        places.sort_unstable();
        let mut rows: Vec<Vec<Row>> = vec![Vec::new(); places.len()];
        for (number, row) in selected {
            let begin = places.partition_point(|(of_key, _)| *of_key < number);
            let of_row = places[begin..].iter().take_while(|(of_key, _)| *of_key == number);
            of_row.for_each(|(_, place)| rows[*place].push(row.clone()));
        }
        rows.into_iter().map(Rows::new).collect()
    }

    /// The number with which the rows of each key are selected.
    fn numbers(&self) -> Vec<i64> {
        match self {
            Selection::Keys(keys) if keys.len() > 1 && keys.iter().all(|key| is_integer(key)) => {
                keys.iter().flat_map(|key| key.values()).map(integer).collect()
            }
            Selection::Keys(keys) => (1..).take(keys.len()).collect(),
            Selection::Range(keys) => keys.clone().collect(),
        }
    }
}

fn value(value: &KeyValue) -> Box<dyn ToSql + Sync + '_> {
    match value {
        KeyValue::Integer(number) => Box::new(*number),
        KeyValue::Text(_) | KeyValue::Uuid(_) => Box::new(value.text()),
    }
}

/// An array of the values of each column.
fn arrays<'k>(sql: &TableSql, keys: &[&'k Key]) -> Values<'k> {
    let array = |(place, of_type): (usize, &KeyType)| {
        of_type.array(keys.iter().map(move |key| &key.values()[place]))
    };
    sql.key.iter().enumerate().map(array).collect()
}

#[cfg(test)]
mod tests {
    use super::*;
    use crate::row::tests::row;

    fn table() -> TableSql {
        let key = ["country", "\"the code\""].map(str::to_string);
        TableSql::new("public.place".to_string(), &key, vec![KeyType::Text, KeyType::Uuid])
    }

    #[test]
    fn rows_are_selected_by_the_columns_of_the_key() {
        let (place, key) = (table(), Key::from(("at", [7; 16])));
        let one = Selection::Keys(vec![&key]);
        let (one, values) = one.statement(&place);
        assert_eq!(values.len(), 2);
        assert_eq!(
            one,
            "SELECT 1::bigint, t.* FROM public.place AS t \
             WHERE t.country OPERATOR(pg_catalog.=) $1::pg_catalog.text::pg_catalog.text \
             AND t.\"the code\" OPERATOR(pg_catalog.=) $2::pg_catalog.text::pg_catalog.uuid"
        );
        let several = Selection::Keys(vec![&key, &key]);
        let (several, values) = several.statement(&place);
        assert_eq!(values.len(), 2, "an array for each column");
        assert!(several.contains("AS k (k1, k2, place) JOIN public.place AS t ON t.country "));
    }

    /// Names of functions, types and operators in a statement that have no schema. `bigint` and such
    /// are words of SQL, and never names in a schema.
    fn unqualified(sql: &str) -> Vec<&str> {
        const WORDS: [&str; 11] = [
            "OPERATOR", "ARRAY", "ANY", "FROM", "AS", "k", "part", "ELSE", "bigint", "SELECT",
            "LATERAL",
        ];
        let is_of_name = |letter: char| letter.is_alphanumeric() || letter == '_' || letter == '.';
        let called = sql.match_indices('(').map(|(place, _)| {
            let before = sql[..place].trim_end();
            before.rsplit(|letter| !is_of_name(letter)).next().unwrap()
        });
        let cast = sql.match_indices("::").map(|(place, _)| {
            let after = &sql[place + 2..];
            after.split(|letter| !is_of_name(letter)).next().unwrap()
        });
        let signs = sql.split("OPERATOR(").enumerate().map(|(part, text)| match part {
            0 => text,
            _ => text.split_once(')').unwrap().1,
        });
        let operator = signs.flat_map(|text| text.matches(['=', '<', '>', '+', '|', '~', '!']));
        let words =
            ["BETWEEN", "LIKE", "USING", " IN "].into_iter().filter(|word| sql.contains(word));
        let names = called.chain(cast).filter(|name| !name.is_empty() && !WORDS.contains(name));
        names.filter(|name| !name.contains('.')).chain(operator).chain(words).collect()
    }

    #[test]
    fn each_name_that_is_sent_has_its_schema() {
        let own = [QUIET, QUIET_DEFINITION, MAY_CONNECT, SERVERS, FULL_NAME, CACHED];
        let numbered =
            TableSql::new("public.n".to_string(), &["n".to_string()], vec![KeyType::Integer]);
        let of_tables = [table(), numbered].map(|it| [it.one, it.several, it.range]).concat();
        for sql in own.into_iter().chain(of_tables.iter().map(|sql| &**sql)) {
            assert_eq!(unqualified(sql), [""; 0], "{sql}");
        }
        for (sql, found) in [
            ("SELECT count(*) FROM krl.cached", vec!["count"]),
            ("SELECT $1::text::regclass", vec!["text", "regclass"]),
            ("SELECT t.n FROM t WHERE t.n = $1", vec!["="]),
            ("SELECT 1 FROM unnest($1) AS k JOIN t USING (n)", vec!["unnest", "USING"]),
        ] {
            let all = unqualified(sql);
            assert!(found.iter().all(|name| all.contains(name)), "{sql}: {all:?}");
        }
    }

    #[test]
    fn what_was_selected_is_found_by_its_key() {
        let [lamp, shade] = [row("lamp", None), row("shade", Some(3))];
        let counts = |selection: Selection<'_>, selected| -> Vec<usize> {
            selection.by_key(selected).iter().map(|rows| rows.as_slice().len()).collect()
        };
        let keys = ["a", "b", "c"].map(Key::from);
        let selected = vec![(3, lamp.clone()), (1, shade.clone()), (3, shade.clone())];
        assert_eq!(counts(Selection::Keys(keys.iter().collect()), selected), [1, 0, 2]);
        let keys = [7, 6, 5, 7].map(Key::from);
        let selected = vec![(5, lamp.clone()), (7, shade.clone()), (8, shade.clone())];
        assert_eq!(counts(Selection::Keys(keys.iter().collect()), selected), [1, 0, 1, 1]);
        let selected = vec![(1, lamp.clone())];
        assert_eq!(counts(Selection::Keys(vec![&keys[0]]), selected), [1]);
        let selected = vec![(i64::MAX - 1, lamp), (i64::MAX, shade)];
        assert_eq!(counts(Selection::Range(i64::MAX - 2..=i64::MAX), selected), [0, 1, 1]);
    }
}
