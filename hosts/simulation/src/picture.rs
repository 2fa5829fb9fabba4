//! A run as a picture in plain text: a column for each machine, and from the top to the bottom what
//! happens. An arrow is one delivery, with the number of its frame; an `x` in place of the tip marks
//! one that nobody takes. `*` marks what happens at one machine, and `=` what concerns all of them.
use crate::record::{Delivery, Fate, Happened, Line, Node};
use std::collections::BTreeSet;
use std::fmt::Write;

/// Where the first column stands, and how far the next one is from it.
const LEFT: usize = 30;
const BETWEEN: usize = 34;

/// Draws these lines.
#[must_use]
pub fn draw(lines: &[Line]) -> String {
    let columns = columns(lines);
    let mut picture = heads(&columns);
    for line in lines {
        let mut row = Row::new(&columns);
        let milliseconds = line.moment.as_secs_f64() * 1000.0;
        match &line.happened {
            Happened::Delivery(delivery) => {
                row.write(0, &format!("{milliseconds:12.3} {}", delivery.number));
                row.arrow(&columns, delivery);
            }
            Happened::At(node, what) => {
                row.write(0, &format!("{milliseconds:12.3}"));
                row.write(place(&columns, *node), &format!("* {what}"));
            }
            Happened::World(what) => row = Row::of(&format!("{milliseconds:12.3}  = {what}")),
        }
        // A text takes all that is written to it.
        let _ = writeln!(picture, "{}", row.text());
    }
    picture
}

/// The machines that the lines name: the first client, the servers, and the other clients.
fn columns(lines: &[Line]) -> Vec<Node> {
    let named = lines.iter().flat_map(|line| match &line.happened {
        Happened::Delivery(Delivery { from, to, .. }) => vec![*from, *to],
        Happened::At(node, _) => vec![*node],
        Happened::World(_) => Vec::new(),
    });
    let named: BTreeSet<Node> = named.collect();
    let (clients, servers): (Vec<_>, Vec<_>) =
        named.into_iter().partition(|node| matches!(node, Node::Client(_)));
    let (first, others) = clients.split_at(clients.len().min(1));
    [first, &servers, others].concat()
}

fn heads(columns: &[Node]) -> String {
    let mut row = Row::of("");
    for (number, node) in columns.iter().enumerate() {
        row.write(LEFT + number * BETWEEN, &node.to_string());
    }
    row.text() + "\n"
}

fn place(columns: &[Node], node: Node) -> usize {
    LEFT + columns.iter().position(|column| *column == node).unwrap_or(0) * BETWEEN
}

/// One row of the picture.
struct Row(Vec<char>);

impl Row {
    /// A row in which nothing happens yet.
    fn new(columns: &[Node]) -> Row {
        let mut row = Row(Vec::new());
        for number in 0..columns.len() {
            row.write(LEFT + number * BETWEEN, "|");
        }
        row
    }

    fn of(text: &str) -> Row {
        Row(text.chars().collect())
    }

    fn write(&mut self, at: usize, text: &str) {
        let end = at + text.chars().count();
        self.0.resize(self.0.len().max(end), ' ');
        for (place, letter) in self.0[at..].iter_mut().zip(text.chars()) {
            *place = letter;
        }
    }

    /// An arrow from one column to another, with its words at the left end.
    fn arrow(&mut self, columns: &[Node], delivery: &Delivery) {
        let Delivery { from, to, fate, what, .. } = delivery;
        let [from, to] = [from, to].map(|node| place(columns, *node));
        let (left, right) = (from.min(to) + 1, from.max(to));
        let room = right.saturating_sub(left + 5);
        let what: String = what.chars().take(room).collect();
        self.write(left, &"-".repeat(right.saturating_sub(left)));
        self.write(left + 2, &format!(" {what} "));
        let tip = match (fate, from < to) {
            (Fate::Lost, _) => "x",
            (Fate::Taken, true) => ">",
            (Fate::Taken, false) => "<",
        };
        self.write(if from < to { right - 1 } else { left }, tip);
    }

    fn text(&self) -> String {
        let text: String = self.0.iter().collect();
        text.trim_end().to_string()
    }
}

#[cfg(test)]
mod tests {
    use super::*;
    use std::time::Duration;

    fn line(milliseconds: u64, happened: Happened) -> Line {
        Line { moment: Duration::from_millis(milliseconds), happened }
    }

    fn delivery(number: u64, from: Node, to: Node, fate: Fate, what: &str) -> Happened {
        Happened::Delivery(Delivery { number, from, to, fate, what: what.into() })
    }

    #[test]
    fn a_picture_has_a_column_for_each_machine_and_an_arrow_for_each_delivery() {
        let (client, other, server) = (Node::Client(0), Node::Client(3), Node::Server(0));
        let lines = [
            line(1, Happened::At(client, "starts".into())),
            line(2, delivery(7, client, server, Fate::Taken, "Hello")),
            line(3, delivery(8, server, client, Fate::Lost, "Epoch 1")),
            line(4, delivery(9, other, server, Fate::Taken, &"very ".repeat(20))),
            line(5, Happened::World("all is whole again".into())),
        ];
        let expected = "
                              client 0                          server 0                          client 3
       1.000                  * starts                          |                                 |
       2.000 7                |-- Hello ----------------------->|                                 |
       3.000 8                |x- Epoch 1 ----------------------|                                 |
       4.000 9                |                                 |<- very very very very very ver -|
       5.000  = all is whole again
";
        assert_eq!(draw(&lines), expected[1..]);
    }
}
