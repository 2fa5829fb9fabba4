//! A client in Rust whose calls are futures, of any executor: `async_client 127.0.0.1:7400`.
use krl::{AsyncClient, Client, Outcome, Row, Servers, Value};

#[tokio::main(flavor = "current_thread")]
async fn main() -> Result<(), Box<dyn std::error::Error>> {
    let servers: Servers = std::env::args().nth(1).ok_or("which server?")?.parse()?;
    let client = AsyncClient::from(connect(servers).await?);
    println!("client {}", client.client().number());

    let rows = client.read(15..16).await?; // one key is a range
    println!(
        "get: {}",
        rows.first().map_or("no row".into(), |row| text(row.value))
    );
    show("read", &client.read(10..20).await?); // asks the server, and keeps the range
    if let Some(rows) = client.client().cached(10..20)? {
        show("cached", &rows); // no message, and nothing to await
    }

    if client.put(15, Value::try_from("hello")?).await? == Outcome::Absent {
        println!("put: there is no row"); // `set` inserts it, or replaces its value
    }
    let outcome = client.set(15, Value::try_from("hello")?).await?;
    assert_eq!(outcome, Outcome::Applied); // any other one changes nothing

    let (rows, pin) = client.pin_for_update(10..20).await?;
    show("pinned", &rows);
    let outcome = pin.put(15, Value::try_from("world")?).await?; // while the pin holds, or never
    assert_eq!(outcome, Outcome::Applied);
    drop(pin);

    let mut changes = client.changes(10..20)?; // the rows now, and again after each change
    show("now", &changes.next().await.ok_or("the client has left")??);
    assert_eq!(client.delete(15).await?, Outcome::Applied);
    show(
        "changed",
        &changes.next().await.ok_or("the client has left")??,
    );

    let nobody: Servers = "127.0.0.1:1".parse()?;
    if let Err(error) = connect(nobody).await {
        println!("error: {error}");
    }
    client.leave().await?; // gives everything back
    Ok(())
}

/// Joining blocks, so it needs a thread that may block.
async fn connect(servers: Servers) -> Result<Client, Box<dyn std::error::Error>> {
    Ok(tokio::task::spawn_blocking(|| Client::connect(servers)).await??)
}

fn text(value: Value) -> String {
    String::from_utf8_lossy(value.as_bytes()).into()
}

fn show(what: &str, rows: &[Row]) {
    let line = |row: &Row| format!("{what}: {}={}", row.key, text(row.value));
    let lines: Vec<String> = rows.iter().map(line).collect();
    println!(
        "{}",
        if rows.is_empty() {
            format!("{what}: no row")
        } else {
            lines.join("\n")
        }
    );
}
