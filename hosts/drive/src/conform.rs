//! The client of the Rust host, as `hosts/conformance/README.md` wants a client: it does what each
//! line of its input asks, and prints a line for each.
use crate::Found;
use krl::{Address, Client, Outcome, Row, Value};
use std::error::Error;
use std::io::{BufRead, Write};
use std::num::ParseIntError;
use std::ops::Range;
use std::time::Duration;

/// What is printed of a call.
type Printed = Result<String, krl::Error>;

/// Joins, and does what the lines of standard input ask until it is to leave.
pub fn run(address: &str, number: &str, lock_file: &str, seconds: &str) -> Found {
    let address: Address = address.parse()?;
    let timeout = Duration::from_secs_f64(seconds.parse()?);
    let builder = Client::builder(address, number.parse()?, lock_file);
    let client = builder.timeout(timeout).join()?;
    print("{\"epoch\": null}");
    if answer_lines(&client)? {
        print_answer(client.leave().map(|()| "{}".into()));
    }
    Ok(true)
}

/// Answers each line, and returns whether one of them was to leave.
fn answer_lines(client: &Client) -> Result<bool, Box<dyn Error>> {
    let mut pins = Vec::new();
    for line in std::io::stdin().lock().lines() {
        let line = line?;
        let words: Vec<&str> = words_of(&line).collect();
        match *words {
            ["leave"] => return Ok(true),
            ["pin", start, stop] => {
                print_answer(
                    client.pin(keys(start, stop)?).map(|pin| pins.push(pin)).map(|()| "{}".into()),
                );
            }
            ["unpin"] => {
                drop(pins.pop());
                print_answer(Ok("{}".into()));
            }
            _ => print_answer(answer(client, &words)?),
        }
    }
    Ok(false)
}

/// The words of a line such as `["put", 10, "31"]`, in which no word has a comma or a quote.
fn words_of(line: &str) -> impl Iterator<Item = &str> {
    let within = line.trim().trim_start_matches('[').trim_end_matches(']');
    within.split(',').map(|word| word.trim().trim_matches('"'))
}

fn answer(client: &Client, words: &[&str]) -> Result<Printed, Box<dyn Error>> {
    Ok(match *words {
        ["read", start, stop] => client.read(keys(start, stop)?).map(|rows| spell_rows(Some(rows))),
        ["cached", start, stop] => client.cached(keys(start, stop)?).map(spell_rows),
        ["insert", key, value] => client.insert(key.parse()?, value_of(value)?).map(outcome),
        ["put", key, value] => client.put(key.parse()?, value_of(value)?).map(outcome),
        ["delete", key] => client.delete(key.parse()?).map(outcome),
        ["forget", start, stop] => client.forget(keys(start, stop)?).map(|()| "{}".into()),
        _ => return Err(format!("no call of a client: {words:?}").into()),
    })
}

fn keys(start: &str, stop: &str) -> Result<Range<u64>, ParseIntError> {
    Ok(start.parse()?..stop.parse()?)
}

fn print_answer(answer: Printed) {
    let line = answer.unwrap_or_else(|refused| {
        let text = format!("{:?}", refused.kind);
        let name = text.split('(').next().unwrap_or_default();
        format!("{{\"error\": \"{name}\"}}")
    });
    print(&line);
}

/// Prints a line. A kit that has seen enough stops reading.
fn print(line: &str) {
    let _ = writeln!(std::io::stdout(), "{line}");
}

fn spell_rows(rows: Option<Vec<Row>>) -> String {
    let Some(rows) = rows else { return "{\"rows\": null}".into() };
    let rows: Vec<String> = rows.iter().map(row).collect();
    format!("{{\"rows\": [{}]}}", rows.join(", "))
}

fn row(row: &Row) -> String {
    let digits = row.value.as_bytes().iter().map(|byte| format!("{byte:02x}"));
    format!("[{}, \"{}\"]", row.key, digits.collect::<String>())
}

fn outcome(outcome: Outcome) -> String {
    format!("{{\"outcome\": \"{outcome:?}\"}}")
}

/// The value of hexadecimal digits.
fn value_of(digits: &str) -> Result<Value, Box<dyn Error>> {
    let bytes: Result<Vec<u8>, _> = (0..digits.len() / 2)
        .map(|at| u8::from_str_radix(&digits[2 * at..2 * at + 2], 16))
        .collect();
    Ok(Value::try_from(&bytes?[..])?)
}
