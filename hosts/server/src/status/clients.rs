//! Which clients are there: the page on clients as text and as JSON.
use super::locks;
use krl::operate::ClientStatus;
use krl::operate::{LeaseLeft, Status, Wait};
use serde_json::{Value, json};
use std::time::Duration;

const HEADS: [&str; 6] = ["number", "peer", "connected", "last word", "lease", "waits for"];

/// What stands where there is nothing.
const NONE: &str = "-";

/// A client, and what a status reports of it.
#[derive(Clone, Copy, Debug)]
pub struct Shown<'a> {
    pub status: &'a ClientStatus,
    /// The lock that it waits for.
    pub wait: Option<&'a Wait>,
    /// Of how many slots it holds something.
    pub slots: u64,
    /// The server serves nobody before this client has reported, or is evicted.
    pub is_missing: bool,
}

/// All clients of a status, by number.
pub fn of(status: &Status) -> impl Iterator<Item = Shown<'_>> {
    status.clients.iter().map(|client| {
        let number = client.client;
        let held = status.holdings.iter().find(|held| held.client == number);
        Shown {
            status: client,
            wait: status.waits.iter().find(|wait| wait.client == number),
            slots: held.map_or(0, |held| held.slots),
            is_missing: status.missing.contains(&number),
        }
    })
}

/// The clients of a status as a list in JSON.
pub fn as_json(status: &Status) -> Value {
    of(status).map(|client| client.as_json()).collect()
}

/// The page as JSON.
pub fn page_as_json(status: &Status) -> String {
    format!("{:#}\n", json!({ "clients": as_json(status) }))
}

/// The page as text: a table.
pub fn as_text(status: &Status) -> String {
    let mut rows = vec![HEADS.map(str::to_string)];
    rows.extend(of(status).map(|client| client.as_row()));
    let width = |column: usize| rows.iter().map(|row| row[column].len()).max().unwrap_or(0);
    let widths: [usize; HEADS.len()] = std::array::from_fn(width);
    rows.iter().map(|row| line(row, &widths)).collect()
}

impl Shown<'_> {
    pub fn peer(&self) -> Option<String> {
        self.status.connection.map(|connection| connection.peer.to_string())
    }

    fn as_json(&self) -> Value {
        let ClientStatus { client, connection, silent_for, lease, .. } = self.status;
        let lease = match lease {
            LeaseLeft::Unending => None,
            LeaseLeft::Ends(left) => Some(left.as_secs_f64()),
        };
        json!({
            "client": client,
            "peer": self.peer(),
            "connected_seconds": connection.map(|it| it.open_for.as_secs_f64()),
            "silent_seconds": silent_for.map(|it| it.as_secs_f64()),
            "lease_left_seconds": lease,
            "slots": self.slots,
            "is_missing": self.is_missing,
            "wait": self.wait.map(locks::wait_as_json),
        })
    }

    fn as_row(&self) -> [String; HEADS.len()] {
        let ClientStatus { client, connection, silent_for, lease, .. } = self.status;
        let or_none = |time: Option<Duration>| time.map_or_else(|| NONE.to_string(), brief);
        [
            client.to_string(),
            self.peer().unwrap_or_else(|| NONE.to_string()),
            or_none(connection.map(|it| it.open_for)),
            or_none(*silent_for),
            lease_in_words(*lease),
            self.waits_in_words(),
        ]
    }

    /// What the client waits for, or why the server waits for it.
    pub fn waits_in_words(&self) -> String {
        match self.wait {
            Some(wait) => wait_in_words(wait),
            None if self.is_missing => "has to report".to_string(),
            None => NONE.to_string(),
        }
    }
}

pub fn lease_in_words(lease: LeaseLeft) -> String {
    match lease {
        LeaseLeft::Unending => "no end".to_string(),
        LeaseLeft::Ends(left) => brief(left),
    }
}

fn wait_in_words(wait: &Wait) -> String {
    let Wait { point, hi, mode, waited, .. } = wait;
    let (whom, end, waited) = (locks::whom(wait), end_in_words(*hi), brief(*waited));
    format!("{whom}: {mode} from {point} below {end}, for {waited}")
}

/// The end of a range. That of the whole table is a word: its number is long.
pub fn end_in_words(end: u64) -> String {
    locks::end_as_json(end).map_or_else(|| "END".to_string(), |end| end.to_string())
}

/// A length of time in one unit.
pub fn brief(time: Duration) -> String {
    let seconds = time.as_secs();
    match seconds {
        0..100 => format!("{:.1} s", time.as_secs_f64()),
        100..6_000 => format!("{} min", seconds / 60),
        6_000..172_800 => format!("{} h", seconds / 3_600),
        _ => format!("{} days", seconds / 86_400),
    }
}

fn line(row: &[String; HEADS.len()], widths: &[usize; HEADS.len()]) -> String {
    let [number, peer, connected, silent, lease, waits] = row;
    let [first, second, third, fourth, fifth, _] = widths;
    format!(
        "{number:>first$}  {peer:<second$}  {connected:>third$}  {silent:>fourth$}  \
         {lease:>fifth$}  {waits}\n"
    )
}

#[cfg(test)]
mod tests {
    use super::*;
    use krl::operate::ClientConnection;
    use krl::operate::{HeldSlots, Mode, PeerAddress};

    fn seconds(seconds: f64) -> Duration {
        Duration::from_secs_f64(seconds)
    }

    fn status() -> Status {
        let peer = PeerAddress::Tcp("10.0.0.9:51234".parse().unwrap());
        let mut connected = ClientStatus::new(3, LeaseLeft::Ends(seconds(9.75)));
        connected.connection = Some(ClientConnection::new(peer, seconds(7_400.0)));
        connected.silent_for = Some(seconds(0.2));
        let gone = ClientStatus::new(12, LeaseLeft::Unending);
        let mut status = Status::default();
        status.clients = vec![connected, gone];
        status.waits =
            vec![Wait::new(3, 10..krl::END + 1, Mode::RangeXX, seconds(4.5), vec![5, 7])];
        status.holdings = vec![HeldSlots::new(3, 8)];
        status.missing = vec![12];
        status
    }

    #[test]
    fn text_is_a_table() {
        let table = "\
number  peer            connected  last word   lease  waits for
     3  10.0.0.9:51234        2 h      0.2 s   9.8 s  5, 7: RangeX-X from 10 below END, for 4.5 s
    12  -                       -          -  no end  has to report
";
        assert_eq!(as_text(&status()), table);
        let nobody = "number  peer  connected  last word  lease  waits for\n";
        assert_eq!(as_text(&Status::default()), nobody);
    }

    #[test]
    fn times_have_one_unit() {
        for (time, words) in [
            (0.04, "0.0 s"),
            (99.9, "99.9 s"),
            (100.0, "1 min"),
            (5_999.0, "99 min"),
            (6_000.0, "1 h"),
            (172_799.0, "47 h"),
            (172_800.0, "2 days"),
        ] {
            assert_eq!(brief(seconds(time)), words);
        }
    }
}
