//! Requests and answers as etcd's JSON gateway has them: bytes in base64, numbers as text.
use serde_json::{Value as Json, json};

#[allow(deprecated, reason = "one source for Debian's base64 and the registry's")]
fn encode(bytes: &[u8]) -> String {
    base64::encode(bytes)
}

#[allow(deprecated, reason = "one source for Debian's base64 and the registry's")]
fn decode(text: &str) -> Option<Vec<u8>> {
    base64::decode(text).ok()
}

/// What a transaction compares: that the key has this value, or is not there.
pub(crate) fn has(key: &str, value: Option<&str>) -> Json {
    let key = encode(key.as_bytes());
    match value {
        Some(value) => {
            let value = encode(value.as_bytes());
            json!({"key": key, "target": "VALUE", "result": "EQUAL", "value": value})
        }
        None => json!({"key": key, "target": "CREATE", "result": "EQUAL", "createRevision": "0"}),
    }
}

pub(crate) fn put(key: &str, value: &[u8]) -> Json {
    json!({"requestPut": {"key": encode(key.as_bytes()), "value": encode(value)}})
}

/// A key that goes with the lease.
pub(crate) fn put_leased(key: &str, value: &str, lease: &str) -> Json {
    let (key, value) = (encode(key.as_bytes()), encode(value.as_bytes()));
    json!({"requestPut": {"key": key, "value": value, "lease": lease}})
}

pub(crate) fn delete(key: &str) -> Json {
    json!({"requestDeleteRange": {"key": encode(key.as_bytes())}})
}

/// The key, and all keys that begin with it and a slash.
pub(crate) fn delete_all(key: &str) -> Json {
    // What begins with the key and a slash comes before what begins with the byte after a slash.
    let (first, last) = (encode(key.as_bytes()), encode(format!("{key}0").as_bytes()));
    json!({"requestDeleteRange": {"key": first, "rangeEnd": last}})
}

pub(crate) fn get(key: &str) -> Json {
    json!({"requestRange": {"key": encode(key.as_bytes())}})
}

/// One key, as a call of its own.
pub(crate) fn range_of_one(key: &str) -> Json {
    json!({"key": encode(key.as_bytes())})
}

/// One key, and all its changes from the revision on.
pub(crate) fn watch(key: &str, revision: u64) -> Json {
    let key = encode(key.as_bytes());
    json!({"create_request": {"key": key, "start_revision": revision.to_string()}})
}

/// One key, as it was at the revision.
pub(crate) fn range_at(key: &str, revision: u64) -> Json {
    json!({"key": encode(key.as_bytes()), "revision": revision.to_string()})
}

/// Keys from `from` up to `end`, as they were at the revision.
pub(crate) fn range(from: &[u8], end: &[u8], limit: usize, revision: u64) -> Json {
    json!({
        "key": encode(from), "rangeEnd": encode(end),
        "limit": limit.to_string(), "revision": revision.to_string(),
    })
}

/// The bytes of a field: none if it is left out.
pub(crate) fn bytes_of(json: &Json) -> Option<Vec<u8>> {
    decode(json.as_str().unwrap_or(""))
}

pub(crate) fn text_of(json: &Json) -> Option<String> {
    String::from_utf8(bytes_of(json)?).ok()
}

/// The whole number of a field: 0 if it is left out.
pub(crate) fn number_of(json: &Json) -> u64 {
    json.as_str().and_then(|text| text.parse().ok()).or(json.as_u64()).unwrap_or(0)
}

/// The value that the one `get` of a transaction has found.
pub(crate) fn found_by_get(answer: &Json) -> Option<String> {
    text_of(found(answer)?.get("value")?)
}

/// The lease of the key that the one `get` of a transaction has found.
pub(crate) fn found_lease(answer: &Json) -> Option<String> {
    found(answer)?.get("lease")?.as_str().map(str::to_string)
}

fn found(answer: &Json) -> Option<&Json> {
    let response = &answer["responses"][0];
    let range = response.get("response_range").or(response.get("responseRange"))?;
    range["kvs"].get(0)
}

/// Whether a transaction's compares held.
pub(crate) fn succeeded(answer: &Json) -> bool {
    answer["succeeded"].as_bool() == Some(true)
}

#[cfg(test)]
mod tests {
    use super::*;

    #[test]
    fn fields_are_read_as_the_gateway_writes_them() {
        let answer = json!({"revision": "17", "value": "Zm9v", "count": 3});
        assert_eq!(number_of(&answer["revision"]), 17);
        assert_eq!((number_of(&answer["count"]), number_of(&answer["none"])), (3, 0));
        assert_eq!(text_of(&answer["value"]).as_deref(), Some("foo"));
        assert_eq!(bytes_of(&answer["none"]), Some(Vec::new()));
        assert_eq!(bytes_of(&json!("&")), None);
        let found = json!({"responses": [{"response_range": {"kvs": [{"value": "Zm9v"}]}}]});
        assert_eq!(found_by_get(&found).as_deref(), Some("foo"));
        assert_eq!(found_by_get(&json!({"responses": [{"response_range": {}}]})), None);
    }
}
