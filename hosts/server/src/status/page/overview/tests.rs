use super::*;
use krl::operate::{ClientStatus, Counts};
use krl::operate::{Mode, Wait};

fn client(client: u8, lease: LeaseLeft) -> ClientStatus {
    ClientStatus::new(client, lease)
}

fn ends(seconds: u64) -> LeaseLeft {
    LeaseLeft::Ends(Duration::from_secs(seconds))
}

fn serving() -> Status {
    let clients = vec![client(3, ends(9)), client(7, LeaseLeft::Unending)];
    let mut status = Status::default();
    (status.epoch, status.rows, status.is_serving) = (7, 41, true);
    status.clients = clients;
    status
}

fn wait(client: u8, other: u8) -> Wait {
    let waited = Duration::from_millis(4500);
    Wait::new(client, 5..6, Mode::X, waited, vec![other])
}

fn held() -> Held {
    Held { age: Some(Duration::ZERO), ..Held::default() }
}

fn html(status: &Status) -> String {
    overview(status, &held()).html()
}

fn overview<'a>(status: &'a Status, held: &'a Held) -> Overview<'a> {
    Overview {
        status,
        held: Ok(held),
        points: 0..locks::TOP,
        rates: Some(Rates { taken: 1.0, sent: 2.5, changes: 40.4, ..Rates::default() }),
        histograms: None,
        certificate: Some(2_000_000),
        backup: Some(Duration::from_secs(18_000)),
        servers: String::new(),
    }
}

#[test]
fn the_head_has_the_state() {
    let html = html(&serving());
    for figure in [
        "<p class=\"phase serving\">serving</p>",
        " started over this store\">epoch</dt><dd>7</dd>",
        "<dt>rows</dt><dd>41 of 65536</dd>",
        "<dt>clients</dt><dd>2</dd>",
        ">waiting</dt><dd>nobody</dd>",
        "<dt>messages</dt><dd>3.5 in a second</dd>",
        "<dt>changes</dt><dd>40 in a second</dd>",
        "<dt>certificate</dt><dd>23 days more</dd>",
        "<dt>last backup</dt><dd>5 h ago</dd>",
        "<title>krl: serving</title>",
    ] {
        assert!(html.contains(figure), "{figure}: {html}");
    }
    assert!(!html.contains("class=\"alarm\"") && !html.contains("id=\"recovery\""), "{html}");
    assert!(!html.contains("<dt>evicted</dt>") && !html.contains("<dt>alarms</dt>"), "{html}");
}

#[test]
fn what_is_wrong_is_an_alarm() {
    let mut status = serving();
    (status.alarms, status.store_alarms) = (vec![3], 1);
    status.failure = Some("no <disk>".to_string());
    status.waits = vec![wait(3, 7), wait(7, 3)];
    let html = html(&status);
    for message in [
        "The server has failed: no &lt;disk&gt;",
        "Alarm: the report of client 3 contradicts",
        "Alarm: the store lacks what clients have seen",
        "Deadlock: the clients 3 and 7 wait for each other",
        ">waiting</dt><dd>2, up to 4.5 s</dd>",
        "<dt>alarms</dt><dd>1</dd>",
        "<td>7: <a href=\"/?lo=5&amp;hi=6\">writes (X) at 5</a>, for 4.5 s</td>",
        "<p class=\"phase ended\">ended</p>",
    ] {
        assert!(html.contains(message), "{message}: {html}");
    }
    assert_eq!(html.matches("class=\"alarm\"").count(), 4);
}

#[test]
fn a_recovery_names_who_is_missing_and_its_end() {
    let mut recovering = serving();
    (recovering.is_serving, recovering.missing) = (false, vec![3]);
    assert!(html(&recovering).contains("the reports of the clients 3, at most 9.0 s more."));
    let mut both = recovering;
    both.missing = vec![3, 7];
    let message = "the clients 3 and 7, until all have reported or an operator evicts them.";
    assert!(html(&both).contains(message), "{}", html(&both));
}

#[test]
fn an_old_look_is_reported_and_so_is_none() {
    let (status, held) = (serving(), held());
    let old = Held { age: Some(Duration::from_secs(9)), ..Held::default() };
    let page = overview(&status, &old).html();
    assert!(page.contains("This was seen up to 9.0 s ago: "), "{page}");
    let page = overview(&status, &Held::default()).html();
    assert!(page.contains("Not all of this was seen yet: "), "{page}");
    let none = Overview { held: Err("it is busy.".to_string()), ..overview(&status, &held) };
    assert!(none.html().contains("<p class=\"busy\">it is busy.</p>"));
}

#[test]
fn a_part_has_links_to_its_parts_and_to_the_whole() {
    let run = |at: u64| krl::operate::HeldRun::new(3, at..at + 1, Mode::X, 1);
    let runs = (0..100).map(|at| run((1 << 60) + at)).collect();
    let held = Held { runs, next: Some(1 << 61), ..held() };
    let status = serving();
    let page = Overview { points: 5..1 << 62, ..overview(&status, &held) }.html();
    for link in [
        "<a href=\"/\">whole table</a>\nShow only:\n<a href=\"/?lo=5&amp;hi=",
        "<a href=\"/?lo=2305843009213693952&amp;hi=4611686018427387904\">from ",
    ] {
        assert!(page.contains(link), "{link}: {page}");
    }
}

#[test]
fn times_are_pictures() {
    let (status, held) = (serving(), held());
    let commits = Counts { buckets: vec![(500, 9)], count: 9, sum: 1 };
    let histograms =
        Histograms { over: Duration::from_secs(300), commits, ..Histograms::default() };
    let page = Overview { histograms: Some(histograms), ..overview(&status, &held) };
    let html = page.html();
    assert!(html.contains("in the last 5 min"), "{html}");
    assert!(html.contains(">commit: 99 percent within 500 \u{b5}s, of 9</figcaption>"), "{html}");
    assert!(html.contains(">grant: none</figcaption>"), "{html}");
}

#[test]
fn the_page_is_small_and_asks_nobody_else() {
    let html = html(&serving());
    assert!(html.len() < 16_000, "{} bytes", html.len());
    let links = html.replace("http://www.w3.org/2000/svg", "");
    assert!(!links.contains("://") && !links.contains(" src="), "{html}");
    assert!(html.contains("<noscript><meta http-equiv=\"refresh\" content=\"1\"></noscript>"));
}

#[test]
fn each_picture_has_a_text() {
    let mut status = serving();
    status.waits = vec![wait(3, 7)];
    let held = held();
    let histograms = Some(Histograms::default());
    let html = Overview { histograms, ..overview(&status, &held) }.html();
    let pictures: Vec<_> = html.split("<svg ").skip(1).collect();
    assert_eq!(pictures.len(), 5);
    for picture in pictures {
        let start: String = picture.chars().take(300).collect();
        assert!(start.contains("role=\"img\" aria-labelledby=\""), "{start}");
        assert!(picture.contains("<title id=\""), "{start}");
    }
}
