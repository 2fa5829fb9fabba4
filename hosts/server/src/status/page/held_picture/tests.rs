use super::*;
use krl::END;
use krl::operate::{ClientConnection, ClientStatus};
use krl::operate::{LeaseLeft, Mode, PeerAddress};

fn client(client: u8, silent: u64) -> ClientStatus {
    let peer = PeerAddress::Tcp("10.0.0.5:41234".parse().unwrap());
    let mut status = ClientStatus::new(client, LeaseLeft::Ends(Duration::from_secs(9)));
    status.connection = Some(ClientConnection::new(peer, Duration::from_secs(60)));
    status.silent_for = Some(Duration::from_secs(silent));
    status
}

fn wait(client: u8, waits_for: &[u8]) -> Wait {
    let waited = Duration::from_millis(4500);
    Wait::new(client, 20..21, Mode::RangeXX, waited, waits_for.to_vec())
}

fn status(waits: Vec<Wait>) -> Status {
    let mut status = Status::default();
    status.clients = vec![client(3, 0), client(5, 6), client(9, 0)];
    status.waits = waits;
    status
}

fn run(client: u8, lo: u64, hi: u64, mode: Mode) -> HeldRun {
    HeldRun::new(client, lo..hi, mode, 2)
}

fn held(next: Option<u64>) -> Held {
    let runs = vec![run(3, 0, 20, Mode::RangeSS), run(5, 20, END + 1, Mode::RangeSU)];
    Held { runs, next, seen: (0..64).collect(), age: Some(Duration::ZERO) }
}

fn svg(waits: &[Wait], next: Option<u64>) -> String {
    let (status, held) = (status(waits.to_vec()), held(next));
    HeldPicture { status: &status, held: &held, points: 0..END + 1, path: "/" }.svg("")
}

#[test]
fn each_client_that_holds_or_waits_has_a_row() {
    let svg = svg(&[wait(3, &[5])], None);
    assert_eq!(svg.matches("<g class=\"client").count(), 2);
    assert!(svg.contains("<g class=\"client\" data-client=\"3\">"), "{svg}");
    assert!(svg.contains("<g class=\"client fades\" data-client=\"5\">"), "it is silent: {svg}");
    assert!(svg.contains(">silent for 6.0 s, lease 9.0 s</text>"), "{svg}");
    assert!(svg.contains(">10.0.0.5:41234</text>"), "{svg}");
    assert!(svg.contains(
        "class=\"held reads\"><title>client 3 reads (RangeS-S) 2 slots from 0 below 20<"
    ));
    assert!(svg.contains(
        "class=\"held updates\"><title>client 5 reads, writes next (RangeS-U) 2 slots from"
    ));
    assert!(svg.contains(">1 more client holds nothing here.</text>"), "{svg}");
}

#[test]
fn a_wait_is_hatched_and_one_in_a_circle_is_marked() {
    let chain = svg(&[wait(3, &[5])], None);
    let title =
        "<title>client 3 waits for 5: writes (RangeX-X) from 20 below 21, for 4.5 s</title>";
    assert!(chain.contains(&format!("class=\"waits\">{title}")), "{chain}");
    assert!(!chain.contains("deadlock"));
    let circle = svg(&[wait(3, &[5]), wait(5, &[3])], None);
    assert_eq!(circle.matches("class=\"waits deadlock\"").count(), 2, "{circle}");
}

#[test]
fn the_picture_is_described_in_words() {
    let svg = svg(&[wait(3, &[5])], None);
    let text = "client 3 reads (RangeS-S) 2 slots from 0 below 20. client 5 reads, writes next \
                (RangeS-U) 2 slots from 20 below END. client 3 waits for 5: writes (RangeX-X) from 20 \
                below 21, for 4.5 s.";
    assert!(svg.contains(&format!("<desc id=\"held-text\">{text}</desc>")), "{svg}");
    let status = status(Vec::new());
    for (age, text) in [
        (Some(Duration::ZERO), "Nobody holds anything here."),
        (None, "Nobody was seen to hold anything here yet."),
    ] {
        let nobody = Held { age, ..Held::default() };
        let picture = HeldPicture { status: &status, held: &nobody, points: 0..10, path: "/" };
        assert_eq!(picture.text(), text);
        assert!(picture.parts().is_empty());
    }
}

/// Of a client that was not looked at nothing is known.
#[test]
fn a_client_that_was_not_looked_at_is_not_shown_to_hold_nothing() {
    let status = status(Vec::new());
    for (seen, message) in [
        (vec![9], ">1 more client holds nothing here. 2 clients were not looked at yet.</text>"),
        (vec![3, 9], ">2 more clients hold nothing here. 1 client was not looked at yet.</text>"),
        (vec![], ">3 clients were not looked at yet.</text>"),
    ] {
        let held = Held { seen, ..Held::default() };
        let picture = HeldPicture { status: &status, held: &held, points: 0..10, path: "/" };
        assert!(picture.svg("").contains(message), "{message}: {}", picture.svg(""));
    }
}

#[test]
fn what_is_left_out_is_named() {
    let svg = svg(&[], Some(70));
    let message = ">1 more client holds nothing below 70. From 70 on there is more to see.</text>";
    assert!(svg.contains(message), "{svg}");
}

#[test]
fn a_part_with_edges_inside_has_a_picture_of_its_own() {
    let runs = (0..100).map(|at| run(3, (1 << 60) + at, (1 << 60) + at + 1, Mode::X)).collect();
    let held = Held { runs, ..Held::default() };
    let status = status(Vec::new());
    let picture = HeldPicture { status: &status, held: &held, points: 0..END + 1, path: "/" };
    let parts = picture.parts();
    assert!(parts.len() > 1, "{parts:?}");
    let part = &parts[0];
    let link = format!("href=\"/?lo={}&amp;hi={}\"", part.start, part.end);
    assert!(picture.svg("").contains(&link), "{link}");
}
