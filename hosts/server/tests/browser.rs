//! The page of a server, in a browser.
mod chromium;
mod common;

use chromium::Browser;
use common::{Serving, program, until};
use krl::{Client, Outcome, Value};
use serde_json::Value as Json;
use std::path::Path;
use std::thread::{self, Scope};
use std::time::Duration;

/// How soon the page has to show what happens.
const SOON: Duration = Duration::from_secs(2);

/// How often a wait is made again, on a machine that is too busy to show it soon.
const TRIES: usize = 10;

/// Waits that are not part of a circle, those that are, and what is hatched.
const WAITS: &str = "document.querySelectorAll('#waits g.wait:not(.deadlock)').length";
const IN_CIRCLES: &str = "document.querySelectorAll('#waits g.wait.deadlock').length";
const HATCHED: &str = "document.querySelectorAll('#held g.client rect.waits').length";
const ALARMS: &str = "document.querySelectorAll('p.alarm').length";

/// When the page was read again, in milliseconds.
const READS: &str = "performance.getEntriesByType('resource')\
                     .filter(it => it.initiatorType === 'fetch').map(it => it.startTime)";

/// Whether the page shows that the server does not answer.
const IS_LATE: &str = "document.getElementById('late').checkVisibility()";

fn is(what: &str, count: usize) -> String {
    format!("{what} === {count}")
}

/// A server whose clients keep their leases on a machine that stands still for a while.
fn serve(folder: &Path) -> Serving {
    let mut command = program();
    command.arg("serve").arg("--store").arg(folder.join("krl.db")).args(["--lease", "600s"]);
    Serving::start_by(&mut command)
}

fn show(serving: &Serving) -> Option<Browser> {
    let mut browser = Browser::show(&format!("http://{}/", serving.status))?;
    browser.until("document.querySelector('.phase.serving') !== null");
    browser.look(1000, "light");
    Some(browser)
}

/// The page reads itself again each second. A machine that is busy stretches some of these seconds.
fn reads_itself_each_second(browser: &mut Browser) {
    browser.until(&format!("{READS}.length > 5"));
    let reads = browser.evaluate(READS);
    let reads: Vec<f64> = reads.as_array().unwrap().iter().filter_map(Json::as_f64).collect();
    let shortest = reads.windows(2).map(|pair| pair[1] - pair[0]).fold(f64::MAX, f64::min);
    assert!((900.0..1500.0).contains(&shortest), "it was read at {reads:?} milliseconds");
}

/// Has a client write a key in a thread of its own.
fn writes<'s>(scope: &'s Scope<'s, '_>, client: &'s Client, key: u64) {
    scope.spawn(move || assert_eq!(client.put(key, Value::from(2)), Ok(Outcome::Applied)));
}

#[test]
fn a_wait_and_a_circle_are_shown_soon() {
    let folder = tempfile::tempdir().unwrap();
    let serving = serve(folder.path());
    let Some(mut browser) = show(&serving) else { return };
    let clients = [1, 2, 3].map(|number| serving.join(folder.path(), number));
    let [first, second, third] = &clients;
    for client in &clients {
        client.set_timeout(Duration::from_secs(600));
    }
    for key in [5, 10, 20] {
        assert_eq!(first.insert(key, Value::from(1)), Ok(Outcome::Applied));
    }
    let (mut waited, mut circled) = (Vec::new(), Vec::new());
    for _ in 0..TRIES {
        let pins = (first.pin_for_read(0..11).unwrap().1, second.pin_for_read(20..21).unwrap().1);
        thread::scope(|scope| {
            writes(scope, third, 5);
            until("3 waits for 1", || serving.get("/locks").1.contains("client 3 waits for 1"));
            waited.push(browser.until(&is(WAITS, 1)));
            browser.until(&is(HATCHED, 1));
            assert_eq!(browser.evaluate(IN_CIRCLES), 0);
            writes(scope, second, 10);
            writes(scope, first, 20);
            until("1 waits for 2", || serving.get("/locks").1.contains("client 1 waits for"));
            circled.push(browser.until(&is(IN_CIRCLES, 2)));
            browser.until(&is(ALARMS, 1));
            browser.photograph("circle.png");
            browser.look(1000, "dark");
            browser.photograph("circle-dark.png");
            browser.look(320, "light");
            browser.photograph("circle-narrow.png");
            let width = browser.evaluate("document.documentElement.scrollWidth");
            assert!(width.as_u64().unwrap() <= 320, "a narrow page is as wide as {width}");
            browser.look(1000, "light");
            drop(pins);
        });
        browser.until(&is(IN_CIRCLES, 0));
        browser.until(&is(ALARMS, 0));
        let is_soon = |times: &[Duration]| times.iter().any(|time| *time <= SOON);
        if is_soon(&waited) && is_soon(&circled) {
            reads_itself_each_second(&mut browser);
            assert_eq!(browser.evaluate(IS_LATE), false);
            assert!(browser.complaints.is_empty(), "{:?}", browser.complaints);
            return;
        }
    }
    panic!("the page showed a wait after {waited:?}, and a circle after {circled:?}");
}

#[test]
fn a_part_is_read_again_with_its_scrolling_and_the_keyboard() {
    let folder = tempfile::tempdir().unwrap();
    let serving = serve(folder.path());
    let Some(mut browser) = show(&serving) else { return };
    let client = serving.join(folder.path(), 3);
    browser.until("document.querySelectorAll('#clients td').length > 0");
    browser.look(320, "light");
    browser.evaluate("document.querySelector('#keys .wide').scrollLeft = 100");
    browser.evaluate("document.querySelector('#clients a').focus()");
    browser.evaluate("document.querySelector('#clients td').textContent = 'STALE'");
    browser.evaluate("document.querySelector('#keys h2').textContent = 'STALE'");
    browser.until("!document.querySelector('main').textContent.includes('STALE')");
    assert_eq!(browser.evaluate("document.querySelector('#keys .wide').scrollLeft"), 100);
    let focused = "document.activeElement === document.querySelector('#clients a')";
    assert_eq!(browser.evaluate(focused), true);
    // As if the process had stood by until now.
    browser.evaluate("document.querySelectorAll('section:not(#head)').forEach(it => it.remove())");
    browser.until("document.querySelectorAll('#clients td').length > 0");
    client.leave().unwrap();
}

#[test]
fn a_page_without_its_server_reports_it_and_still_shows_what_was() {
    let folder = tempfile::tempdir().unwrap();
    let serving = serve(folder.path());
    let Some(mut browser) = show(&serving) else { return };
    serving.signal(&["KILL"]);
    serving.ended();
    browser.until(IS_LATE);
    assert_eq!(browser.evaluate("document.querySelector('.phase').textContent"), "serving");
}
