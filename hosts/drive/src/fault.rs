//! Faults of servers that stand by, and of their store.
use std::str::FromStr;

#[derive(Clone, Copy, Debug, PartialEq, Eq, PartialOrd, Ord)]
pub enum Fault {
    /// The server that serves is killed.
    Kill,
    /// It is stopped until another one serves, and continues then.
    Freeze,
    /// The same, and the other one is killed at once.
    Wake,
    /// Its machine reaches nobody but the clients until another one serves.
    Cut,
    /// What it asks of the store is held back until another one serves, and comes late.
    Delay,
    /// Its machine reaches nobody until another one serves.
    Isolate,
    /// A change of the store is held back, the server asks again and continues; the first one comes
    /// late, and the server is killed then.
    Late,
    /// Two servers start at once: the first one's start comes to the store after the second one's.
    Cross,
    /// A node of etcd is killed and started again.
    Node,
}

/// The faults and their names.
const NAMES: [(Fault, &str); 9] = [
    (Fault::Kill, "kill"),
    (Fault::Freeze, "freeze"),
    (Fault::Wake, "wake"),
    (Fault::Cut, "cut"),
    (Fault::Delay, "delay"),
    (Fault::Isolate, "isolate"),
    (Fault::Late, "late"),
    (Fault::Cross, "cross"),
    (Fault::Node, "node"),
];

impl FromStr for Fault {
    type Err = String;

    fn from_str(word: &str) -> Result<Fault, String> {
        let fault = NAMES.iter().find(|(_, name)| *name == word);
        fault.map(|(fault, _)| *fault).ok_or_else(|| {
            let names = NAMES.map(|(_, name)| name).join(", ");
            format!("{word} is no fault: there are {names}")
        })
    }
}
