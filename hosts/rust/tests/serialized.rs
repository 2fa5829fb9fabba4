//! Rows, values and the status of a server as JSON.
use krl::{MemoryStore, Row, Server, Value};
use serde_json::json;

#[test]
fn a_row_is_what_it_was_when_it_is_read_again() {
    let row = Row { key: 15, value: Value::try_from("five").unwrap() };
    let text = serde_json::to_string(&row).unwrap();
    assert_eq!(text, r#"{"key":15,"value":[102,105,118,101]}"#);
    assert_eq!(serde_json::from_str::<Row>(&text).unwrap(), row);
    let of_text: Row = serde_json::from_str(r#"{"key":15,"value":"five"}"#).unwrap();
    assert_eq!(of_text, row);
    let too_long = json!({ "key": 15, "value": vec![7; 33] }).to_string();
    let refused = serde_json::from_str::<Row>(&too_long).unwrap_err().to_string();
    assert!(refused.contains("a value has at most 32 bytes, and this one 33"), "{refused}");
}

#[test]
fn the_status_of_a_server_is_shown() {
    let listener = std::net::TcpListener::bind("127.0.0.1:0").unwrap();
    let server = Server::start(listener, MemoryStore::default()).unwrap();
    let status = serde_json::to_value(server.status()).unwrap();
    assert_eq!((&status["epoch"], &status["room"]), (&json!(1), &json!(65_536)));
    assert_eq!(status["closed"]["ended"], json!(0));
    assert_eq!((&status["clients"], &status["failure"]), (&json!([]), &json!(null)));
}
