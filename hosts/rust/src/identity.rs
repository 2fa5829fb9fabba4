//! Who is at the other end of a connection, and what it may send.
use crate::model::client_number::ClientNumber;
use crate::model::client_set::ClientSet;
use crate::wire::host_frame::FromClient;
use crate::wire::incoming::Incoming;
use crate::wire::message::Message;
use std::fmt;
use std::str::FromStr;

/// What the names of a certificate begin with.
const CLIENT: &str = "krl:client:";
const READER: &str = "krl:reader";
const OPERATOR: &str = "krl:operator";
const SERVER: &str = "krl:server";

/// How many connections an identity may have at once, for each client of it.
const CONNECTIONS_PER_CLIENT: usize = 4;

/// Who is at the other end of a connection: the clients for which it may speak, and whether it may
/// evict clients and see the status, or read without speaking for a client.
///
/// As text: the clients' numbers, `operator` and `reader`, with commas between them, such as
/// `3,4,operator`.
#[derive(Clone, Copy, Debug, Default, PartialEq, Eq)]
pub struct Identity {
    clients: ClientSet,
    is_operator: bool,
    is_reader: bool,
}

/// A text that is not an identity.
#[derive(Clone, Copy, Debug, PartialEq, Eq)]
pub struct BadIdentity;

/// The name of a table: 1 to 64 ASCII letters, digits, `-`, `_` and `.`. Certificates name it, so
/// that one authority serves several tables.
#[derive(Clone, Debug, PartialEq, Eq)]
pub struct TableName(String);

/// A text that is not the name of a table.
#[derive(Clone, Copy, Debug, PartialEq, Eq)]
pub struct BadTableName;

/// What the names of a certificate stand for.
#[derive(Clone, Copy, Debug, PartialEq, Eq)]
pub(crate) enum Role {
    Client(u8),
    Operator,
    Reader,
    Server,
}

impl Identity {
    /// It may send everything.
    pub(crate) fn everybody() -> Identity {
        Identity { clients: ClientSet::of_bits(u64::MAX), is_operator: true, is_reader: true }
    }

    /// It may send nothing.
    pub(crate) fn nobody() -> Identity {
        Identity::default()
    }

    /// What these names of a certificate grant at the table, if they grant anything. A name that is
    /// of another kind, of another table, or not spelled in its one way, grants nothing.
    pub(crate) fn of_names<'n>(
        names: impl IntoIterator<Item = &'n str>,
        table: Option<&TableName>,
    ) -> Option<Identity> {
        let mut found = Identity::default();
        for role in names.into_iter().filter_map(|name| Role::of_name(name, table)) {
            match role {
                Role::Client(number) => found.clients = found.clients.with(number),
                Role::Operator => found.is_operator = true,
                Role::Reader => found.is_reader = true,
                Role::Server => {}
            }
        }
        (found != Identity::nobody()).then_some(found)
    }

    /// Whether it may speak for the client of this number.
    #[must_use]
    pub fn is_client(&self, number: u8) -> bool {
        self.clients.has(number)
    }

    /// Whether it may speak for any client.
    pub(crate) fn is_of_clients(&self) -> bool {
        self.clients != ClientSet::default()
    }

    /// Whether it may evict clients, and see the status.
    #[must_use]
    pub fn is_operator(&self) -> bool {
        self.is_operator
    }

    /// Whether it may read the whole table: if it may speak for a client, or is a reader.
    #[must_use]
    pub fn may_read(&self) -> bool {
        self.is_reader || self.is_of_clients()
    }

    /// Whether it may send this frame: one that names one of its own clients, or, if it is an
    /// operator, one that ends a client. A peer that may send anything may send a host's Hello,
    /// which names no client. Only a peer that may send everything may send a string that names no
    /// client: such a string is judged.
    ///
    /// A frame of a host without a known meaning may be sent: it is passed over.
    pub(crate) fn may_send(&self, frame: &Incoming<'_>) -> bool {
        match frame {
            Incoming::Message(message) => self.may_send_message(message),
            Incoming::Sign(sign) => self.is_operator || self.is_client(sign.client),
            Incoming::Read(_) | Incoming::Host(Some(FromClient::ReaderHello(_))) => self.may_read(),
            Incoming::Host(_) => *self != Identity::nobody(),
        }
    }

    /// The same of a message, or of the head of one.
    pub(crate) fn may_send_message(&self, message: &Message<'_>) -> bool {
        let Some(client) = message.client() else { return *self == Identity::everybody() };
        let is_of_an_end = message.kind().is_of_an_end();
        self.is_client(client) || self.is_operator && is_of_an_end
    }

    /// How many connections it may have at once.
    pub(crate) fn most_connections(&self) -> usize {
        let others = usize::from(self.is_operator) + usize::from(self.is_reader);
        CONNECTIONS_PER_CLIENT * (self.clients.iter().count() + others)
    }
}

impl Role {
    /// What the name stands for at the table. It has to be spelled in its one way, so that what an
    /// authority reads is what the name grants.
    fn of_name(name: &str, table: Option<&TableName>) -> Option<Role> {
        let (role, of) = match name.split_once('@') {
            Some((role, of)) => (role, Some(of)),
            None => (name, None),
        };
        if of != table.map(TableName::as_str) {
            return None;
        }
        match role {
            OPERATOR => Some(Role::Operator),
            READER => Some(Role::Reader),
            SERVER => Some(Role::Server),
            _ => number_of(role.strip_prefix(CLIENT)?).map(Role::Client),
        }
    }

    /// Whether one of these names is that of the table's server.
    pub(crate) fn is_server<'n>(
        names: impl IntoIterator<Item = &'n str>,
        table: Option<&TableName>,
    ) -> bool {
        names.into_iter().any(|name| Role::of_name(name, table) == Some(Role::Server))
    }
}

/// A client's number, without a sign and without zeros before it.
fn number_of(text: &str) -> Option<u8> {
    let number = ClientNumber::of(text.parse::<u8>().ok()?)?.get();
    (number.to_string() == text).then_some(number)
}

impl TableName {
    /// The name as text.
    #[must_use]
    pub fn as_str(&self) -> &str {
        &self.0
    }
}

impl FromStr for TableName {
    type Err = BadTableName;

    fn from_str(text: &str) -> Result<TableName, BadTableName> {
        let is_plain = |byte: u8| byte.is_ascii_alphanumeric() || b"-_.".contains(&byte);
        let is_name = (1..=64).contains(&text.len()) && text.bytes().all(is_plain);
        if is_name { Ok(TableName(text.into())) } else { Err(BadTableName) }
    }
}

impl FromStr for Identity {
    type Err = BadIdentity;

    fn from_str(text: &str) -> Result<Identity, BadIdentity> {
        let mut found = Identity::default();
        for word in text.split(',') {
            match word {
                "operator" => found.is_operator = true,
                "reader" => found.is_reader = true,
                number => {
                    found.clients = found.clients.with(number_of(number).ok_or(BadIdentity)?);
                }
            }
        }
        Ok(found)
    }
}

impl fmt::Display for Identity {
    fn fmt(&self, f: &mut fmt::Formatter<'_>) -> fmt::Result {
        let numbers = self.clients.iter().map(|client| client.to_string());
        let operator = self.is_operator.then(|| "operator".to_string());
        let reader = self.is_reader.then(|| "reader".to_string());
        f.write_str(&numbers.chain(operator).chain(reader).collect::<Vec<_>>().join(","))
    }
}

impl fmt::Display for TableName {
    fn fmt(&self, f: &mut fmt::Formatter<'_>) -> fmt::Result {
        f.write_str(&self.0)
    }
}

impl fmt::Display for BadIdentity {
    fn fmt(&self, f: &mut fmt::Formatter<'_>) -> fmt::Result {
        f.write_str(
            "an identity is client numbers from 0 to 63, `operator` and `reader`, such as \
             3,4,operator",
        )
    }
}

impl fmt::Display for BadTableName {
    fn fmt(&self, f: &mut fmt::Formatter<'_>) -> fmt::Result {
        f.write_str("the name of a table has 1 to 64 letters, digits, '-', '_' and '.'")
    }
}

impl std::error::Error for BadIdentity {}

impl std::error::Error for BadTableName {}

#[cfg(test)]
mod tests {
    use super::*;
    use crate::lease::boot_clock::Moment;
    use crate::lease::terms::{Older, Sign};
    use crate::wire::read_frame::ReadRequest;

    fn message(kind: u8, client: u8) -> Vec<u8> {
        [&[1, kind, client][..], &[0; 15]].concat()
    }

    fn may_send(identity: &Identity, frame: &[u8]) -> bool {
        identity.may_send(&Incoming::read(frame))
    }

    fn of(names: &[&str], table: Option<&str>) -> Option<Identity> {
        let table = table.map(|table| table.parse().unwrap());
        Identity::of_names(names.iter().copied(), table.as_ref())
    }

    #[test]
    fn a_client_may_send_for_its_numbers() {
        let found = of(&["krl:client:3", "https://x", "krl:client:63"], None).unwrap();
        assert_eq!("3,63".parse(), Ok(found));
        assert_eq!(found.to_string(), "3,63");
        assert!(may_send(&found, &message(4, 3)) && may_send(&found, &message(0, 63)));
        assert!(!may_send(&found, &message(0, 4)) && !may_send(&found, &message(0, 64)));
        assert!(!may_send(&found, &[]) && !may_send(&found, &[1, 0, 3]));
        assert_eq!(found.most_connections(), 8);
    }

    #[test]
    fn an_operator_ends_clients_and_does_no_more() {
        let found = of(&["krl:operator"], None).unwrap();
        for kind in 0..=8 {
            assert_eq!(
                may_send(&found, &message(kind, 9)),
                matches!(kind, 0 | 1 | 2 | 8),
                "{kind}"
            );
        }
        assert_eq!(found.to_string(), "operator");
    }

    #[test]
    fn a_reader_reads_and_does_no_more() {
        let read = ReadRequest { number: 1, lo: 0, hi: 9 }.frame();
        let hello = FromClient::ReaderHello(None).frame();
        let reader = of(&["krl:reader"], None).unwrap();
        assert_eq!((reader.to_string().as_str(), "reader".parse()), ("reader", Ok(reader)));
        for kind in 0..=8 {
            assert!(!may_send(&reader, &message(kind, 9)), "{kind}");
        }
        for (identity, may) in [("reader", true), ("3", true), ("operator", false)] {
            let identity = identity.parse().unwrap();
            assert_eq!(may_send(&identity, &read[8..]), may, "{identity}");
            assert_eq!(may_send(&identity, &hello[8..]), may, "{identity}");
        }
        assert!(!may_send(&Identity::nobody(), &read[8..]));
        assert_eq!(of(&["krl:reader@orders"], None), None);
    }

    #[test]
    fn a_host_may_send_for_its_clients() {
        let hello = FromClient::Hello(None).frame();
        let sign = |client| {
            let (stamp, older) = (Moment::of_nanoseconds(5), Older::Unknown);
            Sign { client, incarnation: 1, stamp, length: 0, older }.frame()
        };
        let three = of(&["krl:client:3"], None).unwrap();
        let operator = of(&["krl:operator"], None).unwrap();
        assert!(may_send(&three, &hello[8..]) && may_send(&operator, &hello[8..]));
        assert!(may_send(&three, &sign(3)[8..]) && !may_send(&three, &sign(4)[8..]));
        assert!(may_send(&operator, &sign(4)[8..]));
        for frame in [&hello[8..], &sign(3)[8..], &message(0, 3)[..]] {
            assert!(!may_send(&Identity::nobody(), frame), "{frame:?}");
        }
    }

    #[test]
    fn only_everybody_may_send_what_names_no_client() {
        let three = of(&["krl:client:3"], None).unwrap();
        for frame in [&[][..], &[1], &[1, 0, 3], &[9; 40], &message(0, 64)] {
            assert!(
                !may_send(&three, frame) && may_send(&Identity::everybody(), frame),
                "{frame:?}"
            );
        }
    }

    #[test]
    fn other_names_grant_nothing() {
        for names in [
            &[][..],
            &["krl:client:64"],
            &["krl:client:"],
            &["krl:client:+3"],
            &["krl:client:03"],
            &["krl:client:3 "],
            &["KRL:client:3"],
            &["krl:server"],
            &["krl:operators"],
            &["krl:client:3@"],
            &["krl:client:3@orders"],
        ] {
            assert_eq!(of(names, None), None, "{names:?}");
        }
        for text in ["", "3,", "64", "03", "krl", "operator,x"] {
            assert_eq!(text.parse::<Identity>(), Err(BadIdentity), "{text}");
        }
        assert!("0".parse::<Identity>().is_ok_and(|identity| identity.is_client(0)));
    }

    #[test]
    fn a_name_counts_only_at_its_own_table() {
        let names = ["krl:client:3@orders", "krl:operator@stock", "krl:client:4"];
        assert_eq!(of(&names, Some("orders")), "3".parse().ok());
        assert_eq!(of(&names, Some("stock")), "operator".parse().ok());
        assert_eq!(of(&names, None), "4".parse().ok());
        assert_eq!(of(&names, Some("other")), None);
        let orders = "orders".parse().ok();
        assert!(Role::is_server(["krl:server@orders"], orders.as_ref()));
        assert!(Role::is_server(["krl:server"], None));
        assert!(!Role::is_server(["krl:server"], orders.as_ref()));
        assert!(!Role::is_server(["krl:client:3@orders"], orders.as_ref()));
        for text in ["", "a b", "a@b", "é"] {
            assert_eq!(text.parse::<TableName>(), Err(BadTableName), "{text}");
        }
        assert_eq!("x".repeat(65).parse::<TableName>(), Err(BadTableName));
    }
}
