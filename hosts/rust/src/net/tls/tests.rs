use super::*;
use krl_testing::certificates::{Authority, Files};
use std::path::PathBuf;

struct Folder(PathBuf);

impl Folder {
    fn new(name: &str) -> Folder {
        let name = format!("krl-tls-{}-{name}", std::process::id());
        let folder = std::env::temp_dir().join(name);
        std::fs::create_dir_all(&folder).unwrap();
        Folder(folder)
    }
}

impl Drop for Folder {
    fn drop(&mut self) {
        let _ = std::fs::remove_dir_all(&self.0);
    }
}

fn config(files: &Files) -> TlsConfig {
    TlsConfig::from_files(&files.authority, &files.certificate, &files.key).unwrap()
}

/// Shakes hands: the client's session and the server's, if both continue.
fn shake(client: &TlsConfig, server: &TlsConfig) -> io::Result<(TlsSession, TlsSession)> {
    let mut client = TlsSession::new(client, Side::Connects)?;
    let mut server = TlsSession::new(server, Side::Accepts)?;
    client.put(b"first");
    let mut came = Vec::new();
    for _ in 0..4 {
        came.extend(server.open(&client.take_sealed()?)?);
        client.open(&server.take_sealed()?)?;
    }
    assert_eq!(came, b"first", "what was sent early comes once the handshake is done");
    Ok((client, server))
}

#[test]
fn what_one_side_sends_the_other_one_receives() {
    let (folder, authority) = (Folder::new("says"), Authority::new("ours"));
    let server = config(&authority.certify(&folder.0, &["krl:server"], 1));
    let three = config(&authority.certify(&folder.0, &["krl:client:3", "krl:client:4"], 1));
    let (mut client, mut server) = shake(&three, &server).unwrap();
    assert_eq!(server.peer(), "3,4".parse().ok());
    for length in [0, 1, RECORD - 1, RECORD, 5 * RECORD + 3] {
        let (sent, mut received) = (vec![7; length], Vec::new());
        server.put(&sent);
        // In pieces, as a network hands it over.
        for piece in server.take_sealed().unwrap().chunks(1000) {
            received.extend(client.open(piece).unwrap());
        }
        assert_eq!(received, sent);
    }
}

#[test]
fn who_is_not_certified_for_it_gets_no_connection() {
    let folder = Folder::new("who");
    let (ours, theirs) = (Authority::new("ours"), Authority::new("theirs"));
    let certify = |names: &[&str], days| config(&ours.certify(&folder.0, names, days));
    let (server, three) = (certify(&["krl:server"], 1), certify(&["krl:client:3"], 1));
    assert!(shake(&three, &server).is_ok());
    let strangers = [
        certify(&["krl:client:5"], -1),
        certify(&["krl:server"], 2),
        certify(&["https://example.org"], 1),
        certify(&["krl:client:3@orders"], 1),
        certify(&[], 1),
        config(&theirs.certify_for(&ours, &folder.0, &["krl:client:6"], 1)),
    ];
    for (place, stranger) in strangers.iter().enumerate() {
        assert!(shake(stranger, &server).is_err(), "stranger {place}");
    }
    let impostors = [
        certify(&["krl:client:7"], 1),
        certify(&["krl:server"], -1),
        certify(&["krl:server@orders"], 1),
        config(&theirs.certify_for(&ours, &folder.0, &["krl:server"], 3)),
    ];
    for (place, impostor) in impostors.iter().enumerate() {
        assert!(shake(&three, impostor).is_err(), "impostor {place}");
    }
}

#[test]
fn each_table_has_its_names() {
    let (folder, authority) = (Folder::new("table"), Authority::new("ours"));
    let orders = |names: &[&str]| {
        config(&authority.certify(&folder.0, names, 1)).for_table("orders".parse().unwrap())
    };
    let server = orders(&["krl:server@orders"]);
    let (_, accepted) = shake(&orders(&["krl:client:3@orders"]), &server).unwrap();
    assert_eq!(accepted.peer(), "3".parse().ok());
    assert!(shake(&orders(&["krl:client:3"]), &server).is_err());
    assert!(shake(&orders(&["krl:client:3@stock"]), &server).is_err());
    assert!(shake(&orders(&["krl:client:4@orders"]), &orders(&["krl:server"])).is_err());
}

#[test]
fn a_stranger_sends_little_before_it_identifies_itself() {
    let (folder, authority) = (Folder::new("little"), Authority::new("ours"));
    let server = config(&authority.certify(&folder.0, &["krl:server"], 1));
    for bytes in [&[0; 100][..], b"GET / HTTP/1.1\r\n\r\n"] {
        let mut session = TlsSession::new(&server, Side::Accepts).unwrap();
        assert!(session.open(bytes).is_err());
    }
    // The head of a record of a handshake, and then nothing but its bytes.
    let mut session = TlsSession::new(&server, Side::Accepts).unwrap();
    let record = [&[22, 3, 1, 0x40, 0, 1, 0xff, 0xff, 0xff][..], &[0; 1 << 14]].concat();
    let answers = (0..8).map(|_| session.open(&record));
    assert!(answers.last().unwrap().is_err());
}

#[test]
fn a_server_may_begin_with_an_alert_and_a_client_may_not() {
    let (folder, authority) = (Folder::new("alert"), Authority::new("ours"));
    let three = config(&authority.certify(&folder.0, &["krl:client:3"], 1));
    let server = config(&authority.certify(&folder.0, &["krl:server"], 1));
    let alert = [21, 3, 3, 0, 2, 2, 40];
    let refused = |config, side| TlsSession::new(config, side).unwrap().open(&alert).unwrap_err();
    assert_eq!(refused(&three, Side::Connects).kind(), ErrorKind::PermissionDenied);
    assert!(refused(&server, Side::Accepts).to_string().contains("does not speak TLS"));
}

#[test]
fn a_key_of_another_certificate_is_refused() {
    let (folder, authority) = (Folder::new("key"), Authority::new("ours"));
    let three = authority.certify(&folder.0, &["krl:client:3"], 1);
    let four = authority.certify(&folder.0, &["krl:client:4"], 1);
    let mixed = TlsConfig::from_files(&three.authority, &three.certificate, &four.key);
    let error = mixed.unwrap_err();
    assert!(std::error::Error::source(&error).is_some() && error.to_string().contains(".key"));
    let nowhere = TlsConfig::from_files("nowhere", &three.certificate, &three.key).unwrap_err();
    assert_eq!(nowhere.to_string(), "nowhere can't be read");
    let other = TlsConfig::from_files(&three.key, &three.certificate, &three.key).unwrap_err();
    assert!(other.to_string().contains(" is not the authority's certificate"), "{other}");
}

#[test]
fn files_are_read_again_and_bad_ones_change_nothing() {
    let (folder, authority) = (Folder::new("again"), Authority::new("ours"));
    let server = config(&authority.certify(&folder.0, &["krl:server"], 1));
    let (three, four) = (
        authority.certify(&folder.0, &["krl:client:3"], 1),
        authority.certify(&folder.0, &["krl:client:4"], 1),
    );
    let shown = config(&three);
    assert_eq!(shown, shown.clone());
    assert_ne!(shown, config(&three));
    let peer = || shake(&shown, &server).unwrap().1.peer();
    assert_eq!(peer(), "3".parse().ok());
    std::fs::copy(&four.certificate, &three.certificate).unwrap();
    assert!(shown.reload().is_err(), "the key is another certificate's");
    assert_eq!(peer(), "3".parse().ok());
    std::fs::copy(&four.key, &three.key).unwrap();
    shown.reload().unwrap();
    assert_eq!(peer(), "4".parse().ok());
}

#[test]
fn each_side_learns_why_it_is_refused() {
    let folder = Folder::new("why");
    let (ours, theirs) = (Authority::new("ours"), Authority::new("theirs"));
    let server = config(&ours.certify(&folder.0, &["krl:server"], 1));
    let why = |client: &TlsConfig, server: &TlsConfig| {
        shake(client, server).err().map(|error| (error.kind(), error.to_string())).unwrap()
    };
    let nameless = config(&ours.certify(&folder.0, &["https://example.org"], 2));
    let (kind, text) = why(&nameless, &server);
    assert_eq!(kind, ErrorKind::PermissionDenied);
    assert!(text.contains("no name that counts here"), "{text}");
    let expired = config(&ours.certify(&folder.0, &["krl:client:3"], -1));
    let (_, text) = why(&expired, &server);
    assert!(text.contains("certificate has expired"), "{text}");
    let three = config(&ours.certify(&folder.0, &["krl:client:3"], 3));
    let impostor = config(&theirs.certify_for(&ours, &folder.0, &["krl:server"], 4));
    let (kind, text) = why(&three, &impostor);
    assert_eq!(kind, ErrorKind::PermissionDenied);
    assert!(text.contains("is not accepted"), "{text}");
}
