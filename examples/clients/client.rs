//! A client in Rust: `client 127.0.0.1:7400`.
use krl::{Client, Outcome, Row, Servers, Value};

fn main() -> Result<(), Box<dyn std::error::Error>> {
    let servers: Servers = std::env::args().nth(1).ok_or("which server?")?.parse()?;
    let client = Client::connect(servers)?; // takes the first free number
    println!("client {}", client.number());

    println!("get: {}", client.get(15)?.map_or("no row".into(), text));
    show("read", &client.read(10..20)?); // asks the server, and keeps the range
    if let Some(rows) = client.cached(10..20)? {
        show("cached", &rows); // no message; None if the cache lacks a part
    }

    if client.put(15, Value::try_from("hello")?)? == Outcome::Absent {
        println!("put: there is no row"); // `set` inserts it, or replaces its value
    }
    let outcome = client.set(15, Value::try_from("hello")?)?;
    assert_eq!(outcome, Outcome::Applied); // any other one changes nothing

    let (rows, pin) = client.pin_for_update(10..20)?; // nobody else pins it for an update
    show("pinned", &rows);
    let outcome = pin.put(15, Value::try_from("world")?)?; // while the pin holds, or never
    assert_eq!(outcome, Outcome::Applied);
    drop(pin);

    let mut changes = client.changes(10..20)?; // the rows now, and again after each change
    show("now", &changes.next().ok_or("the client has left")??);
    assert_eq!(client.delete(15)?, Outcome::Applied);
    show("changed", &changes.next().ok_or("the client has left")??);

    let nobody: Servers = "127.0.0.1:1".parse()?;
    if let Err(error) = Client::connect(nobody) {
        println!("error: {error}");
    }
    client.leave()?; // gives everything back
    Ok(())
}

fn text(value: Value) -> String {
    String::from_utf8_lossy(value.as_bytes()).into()
}

fn show(what: &str, rows: &[Row]) {
    let line = |row: &Row| format!("{what}: {}={}", row.key, text(row.value));
    let lines: Vec<String> = rows.iter().map(line).collect();
    println!(
        "{}",
        if rows.is_empty() {
            format!("{what}: no row")
        } else {
            lines.join("\n")
        }
    );
}
