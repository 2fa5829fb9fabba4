//! The picture of who waits for whom, as SVG.
use super::deadlocks::Deadlocks;
use super::held_picture;
use super::markup::{Markup, escape, list, number};
use super::modes;
use crate::status::clients::brief;
use crate::status::locks::LONG_WAIT;
use krl::operate::Wait;

const WIDTH: f64 = 520.0;
const ROW: f64 = 36.0;
const TOP: f64 = 6.0;
const RADIUS: f64 = 14.0;

/// The middle of the client that waits, the ends of its arrow, and the middle of the first client
/// that it waits for.
const WAITS: f64 = 24.0;
const ARROW: (f64, f64) = (42.0, 202.0);
const AWAITED: f64 = 226.0;

/// The most clients that are drawn at the end of an arrow.
const MAX_AWAITED: usize = 8;

/// The picture of these waits, if there are any.
pub fn svg(waits: &[Wait]) -> Option<String> {
    if waits.is_empty() {
        return None;
    }
    let deadlocks = Deadlocks::of(waits);
    let mut svg = Markup::default();
    let height = TOP + ROW * number(waits.len());
    svg.add(format_args!(
        "<svg viewBox=\"0 0 {WIDTH} {height}\" class=\"picture\" id=\"waits\" role=\"img\" \
         aria-labelledby=\"waits-title waits-text\">\
         <title id=\"waits-title\">Who waits for whom</title>\
         <desc id=\"waits-text\">{}</desc>",
        escape(&text(waits))
    ));
    for name in ["plain", "deadlock"] {
        svg.add(format_args!(
            "<defs><marker id=\"arrow-{name}\" refX=\"7\" refY=\"4\" markerWidth=\"8\" \
             markerHeight=\"8\" markerUnits=\"userSpaceOnUse\" orient=\"auto\">\
             <path d=\"M0,0L8,4L0,8z\" class=\"{name}\"/></marker></defs>"
        ));
    }
    for (place, wait) in waits.iter().enumerate() {
        row(&mut svg, wait, TOP + ROW * number(place) + RADIUS, &deadlocks);
    }
    svg.add(format_args!("</svg>"));
    Some(svg.text())
}

/// The same in words.
pub fn text(waits: &[Wait]) -> String {
    let sentences: Vec<_> = waits.iter().map(sentence).collect();
    sentences.join(". ") + "."
}

/// The text of each circle.
pub fn alarms(waits: &[Wait]) -> Vec<String> {
    let alarm = |group: &Vec<u8>| {
        let clients = list(group);
        format!("Deadlock: the clients {clients} wait for each other until one of them gives up.")
    };
    Deadlocks::of(waits).groups().iter().map(alarm).collect()
}

fn sentence(wait: &Wait) -> String {
    let Wait { client, point, mode, waited, waits_for, .. } = wait;
    let (whom, waited) = (list(waits_for), brief(*waited));
    let mode = modes::words_and_name(*mode);
    format!("client {client} waits for {whom}: {mode} at {point}, for {waited}")
}

fn row(svg: &mut Markup, wait: &Wait, y: f64, deadlocks: &Deadlocks) {
    let Wait { client, point, hi, mode, waited, waits_for, .. } = wait;
    let is_in_circle = waits_for.iter().any(|other| deadlocks.has_edge(*client, *other));
    let (class, arrow) = match (is_in_circle, *waited >= LONG_WAIT) {
        (true, _) => ("wait deadlock", "arrow-deadlock"),
        (false, true) => ("wait long", "arrow-plain"),
        (false, false) => ("wait", "arrow-plain"),
    };
    svg.add(format_args!("<g class=\"{class}\" data-client=\"{client}\">"));
    node(svg, *client, WAITS, y, deadlocks.has(*client));
    let ((from, to), width) = (ARROW, 1.5 + (waited.as_secs_f64() / 5.0).min(4.5));
    svg.add(format_args!(
        "<line x1=\"{from}\" x2=\"{to}\" y1=\"{y}\" y2=\"{y}\" stroke-width=\"{width:.1}\" \
         marker-end=\"url(#{arrow})\"/><a href=\"{}\"><text x=\"{}\" y=\"{}\" class=\"over\">\
         <title>{}; show this part</title>{} at {point}, {}</text></a>",
        held_picture::link("/", &(*point..*hi)),
        f64::midpoint(from, to),
        y - 5.0,
        escape(&sentence(wait)),
        modes::words(*mode),
        brief(*waited)
    ));
    for (place, other) in waits_for.iter().take(MAX_AWAITED).enumerate() {
        let x = AWAITED + 34.0 * number(place);
        node(svg, *other, x, y, deadlocks.has_edge(*client, *other));
    }
    if let more @ 1.. = waits_for.len().saturating_sub(MAX_AWAITED) {
        let x = AWAITED + 34.0 * number(MAX_AWAITED) - 12.0;
        svg.add(format_args!("<text x=\"{x}\" y=\"{}\">+{more}</text>", y + 4.0));
    }
    svg.add(format_args!("</g>"));
}

fn node(svg: &mut Markup, client: u8, x: f64, y: f64, is_in_circle: bool) {
    let class = if is_in_circle { "node deadlock" } else { "node" };
    svg.add(format_args!(
        "<circle cx=\"{x}\" cy=\"{y}\" r=\"{RADIUS}\" class=\"{class}\"/>\
         <text x=\"{x}\" y=\"{}\" class=\"over\">{client}</text>",
        y + 4.0
    ));
}

#[cfg(test)]
mod tests {
    use super::*;
    use std::time::Duration;

    fn wait(client: u8, waits_for: &[u8], seconds: u64) -> Wait {
        let waited = Duration::from_secs(seconds);
        Wait::new(client, 120..121, krl::operate::Mode::X, waited, waits_for.to_vec())
    }

    #[test]
    fn each_wait_is_an_arrow() {
        assert_eq!(svg(&[]), None);
        let svg = svg(&[wait(11, &[3, 5], 4), wait(12, &[3], 40)]).unwrap();
        assert_eq!(svg.matches("<line ").count(), 2);
        assert!(svg.contains("<g class=\"wait\" data-client=\"11\">"), "{svg}");
        assert!(svg.contains("<g class=\"wait long\" data-client=\"12\">"), "{svg}");
        let link = "<a href=\"/?lo=120&amp;hi=121\"><text x=\"122\" y=\"15\" class=\"over\">";
        assert!(svg.contains(link), "{svg}");
        let title =
            "<title>client 11 waits for 3 and 5: writes (X) at 120, for 4.0 s; show this part";
        assert!(svg.contains(&format!("{title}</title>writes at 120, 4.0 s</text>")), "{svg}");
        let words = "client 11 waits for 3 and 5: writes (X) at 120, for 4.0 s. client 12 waits for 3: \
                     writes (X) at 120, for 40.0 s.";
        assert!(svg.contains(&format!("<desc id=\"waits-text\">{words}</desc>")), "{svg}");
    }

    #[test]
    fn a_circle_is_marked_and_reported() {
        let waits = [wait(1, &[2], 1), wait(2, &[1, 7], 1), wait(3, &[1], 1)];
        let svg = svg(&waits).unwrap();
        assert_eq!(svg.matches("<g class=\"wait deadlock\"").count(), 2, "{svg}");
        assert_eq!(svg.matches("class=\"node deadlock\"").count(), 4, "3 and 7 are in none: {svg}");
        let message =
            "Deadlock: the clients 1 and 2 wait for each other until one of them gives up.";
        assert_eq!(alarms(&waits), [message]);
        assert!(alarms(&waits[1..]).is_empty());
    }

    #[test]
    fn many_are_counted() {
        let others: Vec<u8> = (10..30).collect();
        let svg = svg(&[wait(1, &others, 0)]).unwrap();
        assert!(svg.contains(">+12</text>") && svg.matches("<circle ").count() == 9, "{svg}");
    }
}
