//! The page of a server and its picture, as they are sent.
mod common;

use common::{Serving, program, until};
use krl::{Outcome, Value};
use std::net::TcpListener;

/// The head and the body of a page.
fn whole(serving: &Serving, path: &str) -> String {
    use std::io::{Read, Write};
    let mut stream = std::net::TcpStream::connect(&serving.status).unwrap();
    write!(stream, "GET {path} HTTP/1.1\r\nHost: localhost\r\n\r\n").unwrap();
    let mut reply = String::new();
    stream.read_to_string(&mut reply).unwrap();
    reply
}

#[test]
fn the_page_is_whole_without_scripts_and_may_do_little() {
    let folder = tempfile::tempdir().unwrap();
    let serving = Serving::start(&folder.path().join("krl.db"));
    let client = serving.join(folder.path(), 3);
    assert_eq!(client.insert(10, Value::from(1)), Ok(Outcome::Applied));
    // What the status has comes a little later than what the picture has.
    until("all is shown of client 3", || {
        let page = serving.get("/").1;
        ["<text x=\"8\" ", "<dd>1 of 65536</dd>", "<td>127.0.0.1:"]
            .iter()
            .all(|it| page.contains(it))
    });
    let page = whole(&serving, "/");
    for part in [
        "HTTP/1.1 200 OK\r\n",
        "content-type: text/html; charset=utf-8\r\n",
        "cache-control: no-store\r\n",
        "cross-origin-resource-policy: same-origin\r\n",
        "content-security-policy: default-src 'none'; connect-src 'self'; ",
        "<p class=\"phase serving\">serving</p>",
        "<dd>1 of 65536</dd>",
        ">client 3</text>",
        "<td>127.0.0.1:",
        "</html>",
    ] {
        assert!(page.contains(part), "{part}: {page}");
    }
    assert!(!page.contains("script-src 'unsafe") && !page.contains(" on 'self'"), "{page}");
    assert_eq!(serving.ask("POST / HTTP/1.1\r\nHost: localhost\r\n\r\n").0, 405);
}

#[test]
fn the_picture_is_a_file_of_a_part_or_of_all() {
    let folder = tempfile::tempdir().unwrap();
    let serving = Serving::start(&folder.path().join("krl.db"));
    let client = serving.join(folder.path(), 3);
    assert_eq!(client.insert(10, Value::from(1)), Ok(Outcome::Applied));
    client.read(0..5).unwrap();
    let picture = whole(&serving, "/locks.svg");
    assert!(picture.contains("content-type: image/svg+xml\r\n"), "{picture}");
    assert!(picture.contains("\r\n\r\n<svg xmlns=\"http://www.w3.org/2000/svg\" "), "{picture}");
    assert!(picture.contains("<style>") && picture.contains(">client 3</text>"), "{picture}");
    let (status, part) = serving.get("/locks.svg?lo=100&hi=200");
    assert!(
        status == 200 && part.contains(">100</text>") && part.contains(">200</text>"),
        "{part}"
    );
    for (path, message) in [
        ("/locks.svg?lo=20&hi=10", "begin below its end"),
        ("/locks.svg?limit=100", "'limit' is unknown: there is lo and hi"),
        ("/?lo=ten", "lo is 'ten'"),
    ] {
        let (status, page) = serving.get(path);
        assert!(status == 400 && page.contains(message), "{path}: {status}, {page}");
    }
}

#[test]
fn a_recovery_is_shown_with_its_end() {
    let folder = tempfile::tempdir().unwrap();
    let store = folder.path().join("krl.db");
    let serving = Serving::start(&store).killed_beside(9, folder.path(), &store);
    until("client 9 is missing", || {
        let page = serving.get("/").1;
        page.contains("waits for the reports of the clients 9, at most ")
            && page.contains("<p class=\"phase recovering\">")
    });
}

#[test]
fn the_other_servers_of_a_table_stand_on_the_page_of_each() {
    let folder = tempfile::tempdir().unwrap();
    let serve = |name: &str, shard: &str, others: &str| {
        let mut command = program();
        command.arg("serve").arg("--store").arg(folder.path().join(name));
        Serving::start_by(command.args(["--shard", shard, "--others", others]))
    };
    // Nothing listens here any more, and here a socket accepts no connection.
    let gone = TcpListener::bind("127.0.0.1:0").unwrap().local_addr().unwrap();
    let silent = TcpListener::bind("127.0.0.1:0").unwrap();
    let second = serve("second.db", "500..@3", "");
    let others = format!("{} {gone} plain:{}", second.status, silent.local_addr().unwrap());
    let first = serve("first.db", "0..500@3", &others);
    assert!(!second.get("/").1.contains("All servers"));
    let row = format!(
        "<a href=\"http://{0}/\">http://{0}/</a></td><td class=\"serving\">serving</td>\
         <td>500..@3</td><td>1</td><td>0 of 65536</td>",
        second.status
    );
    until("all rows are there", || {
        let page = first.get("/").1;
        let own = "<td>this one</td><td class=\"serving\">serving</td><td>0..500@3</td>";
        let refused = format!("the status port {gone} gave no answer: ");
        [own, &row, &refused, "gave no answer within 3s"].iter().all(|it| page.contains(it))
    });
    drop(second);
    until("the second one is gone", || !first.get("/").1.contains(&row));
}

#[test]
fn the_address_of_another_server_is_judged_at_the_start() {
    for (others, message) in [
        ("here", "others: 'here' is not an address of a status port"),
        ("tls:db3:7401", "others: tls:db3:7401 is an address of TLS, and needs --tls-authority"),
        ("a\"b:1", "is not an address of a status port"),
    ] {
        let refused = common::run(&["config", "--others", others]);
        assert_eq!(refused.status.code(), Some(2), "{others}");
        assert!(common::errors(&refused).contains(message), "{}", common::errors(&refused));
    }
}
