use super::*;
use krl::operate::Mode;
use krl::{MemoryStore, Server};
use std::net::TcpListener;

fn server() -> Server {
    let listener = TcpListener::bind("127.0.0.1:0").unwrap();
    Server::start(listener, MemoryStore::default()).unwrap()
}

fn run(client: u8, lo: u64, hi: u64) -> HeldRun {
    HeldRun::new(client, lo..hi, Mode::S, 1)
}

/// A page on these clients, each of which holds the points up to its number.
fn page(clients: Range<u8>) -> HeldPage {
    let runs = |client: u8| vec![run(client, 0, 1 + u64::from(client))];
    HeldPage::new(clients.map(|it| (it, runs(it))).collect(), Duration::ZERO)
}

/// A search that is not done, and one that is.
fn searches() -> (HeldSearch, HeldSearch) {
    (HeldSearch::new(0..9, 1).unwrap(), HeldSearch::new(0..0, 1).unwrap())
}

fn looks_at(work: Option<Work>) -> u64 {
    match work {
        Some(Work::Look { points, .. }) => points.end,
        other => panic!("it does not look: {other:?}"),
    }
}

#[test]
fn looks_take_less_than_a_hundredth_of_the_loops_time() {
    for took in [3, 20_000, 7_000_000].map(Duration::from_micros) {
        assert!(took * 100 < took + rest_after(took), "{took:?}");
    }
}

#[test]
fn a_look_continues_until_it_is_whole_and_then_rests() {
    let (server, mut views, start) = (server(), Views::default(), Instant::now());
    let after = |millis| start + Duration::from_millis(millis);
    let (begun, done) = searches();
    assert!(views.next(start).is_none());
    views.ask(&server.monitor(), 1, &(0..9), start);
    assert_eq!(looks_at(views.next(start)), 9);
    views.take(1, &(0..9), begun, Ok(page(0..3)), after(10));
    let held = views.held(1, &(0..9), after(20)).unwrap();
    assert_eq!((held.runs.len(), held.age), (3, None), "it is not whole");
    assert_eq!(held.seen, [0, 1, 2]);
    assert!(
        !views.shows(1, &(0..9), after(20)) && views.shows(1, &(0..9), start + FIRST_LOOK_WAIT)
    );
    assert_eq!(looks_at(views.next(after(30))), 9);
    views.take(1, &(0..9), done.clone(), Ok(page(3..64)), after(40));
    assert!(views.shows(1, &(0..9), after(40)));
    let held = views.held(1, &(0..9), after(100)).unwrap();
    assert_eq!((held.runs.len(), held.age), (64, Some(Duration::from_millis(90))));
    assert!(matches!(views.next(after(100)), Some(Work::Rest(time)) if time < LOOK_PERIOD));
    // The next look begins, and what was seen before is shown until it is seen again.
    assert_eq!(looks_at(views.next(after(500))), 9);
    views.take(1, &(0..9), done, Ok(page(0..1)), after(510));
    let held = views.held(1, &(0..9), after(510)).unwrap();
    assert_eq!((held.runs.len(), held.age), (64, Some(Duration::from_millis(500))));
}

#[test]
fn ranges_take_turns_and_are_forgotten() {
    let (server, mut views, start) = (server(), Views::default(), Instant::now());
    for end in [7, 8] {
        views.ask(&server.monitor(), 1, &(0..end), start);
    }
    let (first, second) = (looks_at(views.next(start)), looks_at(views.next(start)));
    assert_eq!([first.min(second), first.max(second)], [7, 8]);
    let later = start + FORGOTTEN / 2;
    views.ask(&server.monitor(), 1, &(0..8), later);
    assert_eq!(looks_at(views.next(start + FORGOTTEN)), 8);
    assert_eq!(views.views.len(), 1);
    assert!(views.next(later + FORGOTTEN).is_none());
    for end in 1..20 {
        views.ask(&server.monitor(), 1, &(0..end), start + Duration::from_secs(end));
    }
    assert_eq!(views.views.len(), MAX_VIEWS);
    assert!(views.view(1, &(0..19)).is_some() && views.view(1, &(0..1)).is_none());
}

#[test]
fn a_look_that_fails_is_reported_until_one_succeeds() {
    let (server, mut views, now) = (server(), Views::default(), Instant::now());
    let (begun, _) = searches();
    views.ask(&server.monitor(), 1, &(0..9), now);
    views.take(1, &(0..9), begun.clone(), Err(LocksError::Busy), now);
    assert_eq!(views.held(1, &(0..9), now), Err(LocksError::Busy));
    assert!(views.shows(1, &(0..9), now), "nobody waits for more");
    views.take(1, &(0..9), begun, Ok(page(0..1)), now);
    assert_eq!(views.held(1, &(0..9), now).map(|held| held.runs.len()), Ok(1));
}

#[tokio::test]
async fn a_server_is_looked_at_only_when_somebody_asks() {
    let (server, looks) = (server(), Looks::default());
    let held = looks.at(&server.monitor(), 1, &(0..9)).await.unwrap();
    assert_eq!((held.runs, held.next), (Vec::new(), None));
    assert!(looks.lock().are_looked_at);
    server.stop().unwrap();
    let failed = || looks.lock().held(1, &(0..9), Instant::now()) == Err(LocksError::Ended);
    let end = Instant::now() + Duration::from_secs(60);
    while !failed() && looks.lock().are_looked_at {
        assert!(Instant::now() < end, "it looks at a server that has ended");
        thread::sleep(Duration::from_millis(10));
    }
}

#[test]
fn a_run_ends_where_more_is_left_out() {
    let mut runs = vec![run(1, 0, 50), run(2, 10, 20), run(2, 30, 40)];
    assert_eq!(cut(&mut runs, 2), Some(30));
    assert_eq!(runs, [run(1, 0, 30), run(2, 10, 20)]);
    assert_eq!(cut(&mut runs, 2), None);
}
