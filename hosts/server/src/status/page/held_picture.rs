//! The picture of who holds which keys, as SVG.
use super::axis::{Axis, Span};
use super::deadlocks::Deadlocks;
use super::markup::{Markup, escape, list, number};
use super::modes::{self, LEGEND};
use crate::status::clients::{self, brief, end_in_words, lease_in_words};
use crate::status::looks::Held;
use krl::operate::HeldRun;
use krl::operate::{Status, Wait};
use std::ops::Range;
use std::time::Duration;

/// A client that is silent for this long may have gone: it ticks several times a second.
pub const SILENT: Duration = Duration::from_secs(2);

const WIDTH: f64 = 960.0;
const LEFT: f64 = 84.0;
const BARS: f64 = 640.0;
const TOP: f64 = 40.0;
const ROW: f64 = 22.0;

/// Who holds which keys of a range.
#[derive(Debug)]
pub struct HeldPicture<'a> {
    pub status: &'a Status,
    pub held: &'a Held,
    /// The range.
    pub points: Range<u64>,
    /// What is asked for the picture of a part of it, followed by `?lo=10&hi=20`.
    pub path: &'a str,
}

impl HeldPicture<'_> {
    /// The picture, with what goes first into its element.
    pub fn svg(&self, first: &str) -> String {
        let (axis, shown) = (self.axis(), self.shown());
        let mut svg = Markup::default();
        let bottom = TOP + ROW * number(shown.len()) + 2.0;
        let note = self.note(&shown);
        let height = bottom + if note.is_empty() { 22.0 } else { 44.0 };
        svg.add(format_args!(
            "<svg xmlns=\"http://www.w3.org/2000/svg\" viewBox=\"0 0 {WIDTH} {height}\" \
             class=\"picture\" id=\"held\" role=\"img\" aria-labelledby=\"held-title held-text\">"
        ));
        svg.add(format_args!("{first}<title id=\"held-title\">Who holds which keys</title>"));
        svg.add(format_args!("<desc id=\"held-text\">{}</desc>", escape(&self.text())));
        svg.add(format_args!("{HATCH}"));
        legend(&mut svg);
        self.lines(&mut svg, &axis, bottom);
        let deadlocks = Deadlocks::of(&self.status.waits);
        for (place, client) in shown.iter().enumerate() {
            let y = TOP + ROW * number(place);
            self.row(&mut svg, &axis, *client, y, &deadlocks);
        }
        if !note.is_empty() {
            let y = height - 8.0;
            let note = escape(&note);
            svg.add(format_args!("<text x=\"{LEFT}\" y=\"{y}\" class=\"note\">{note}</text>"));
        }
        svg.add(format_args!("</svg>"));
        svg.text()
    }

    /// The same in words.
    pub fn text(&self) -> String {
        let held = self.held.runs.iter().map(run_in_words);
        let waits = self.waits().map(wait_in_words);
        let sentences: Vec<_> = held.take(100).chain(waits).collect();
        match sentences.as_slice() {
            [] if self.held.age.is_none() => {
                "Nobody was seen to hold anything here yet.".to_string()
            }
            [] => "Nobody holds anything here.".to_string(),
            some => some.join(". ") + ".",
        }
    }

    /// The parts of the range of which there are pictures with more room.
    pub fn parts(&self) -> Vec<Range<u64>> {
        let axis = self.axis();
        let labels = axis.labels();
        let pairs = labels.windows(2).map(|pair| pair[0]..pair[1]);
        pairs.filter(|part| axis.has_between(part.start, part.end)).collect()
    }

    pub fn link(&self, part: &Range<u64>) -> String {
        link(self.path, part)
    }

    fn axis(&self) -> Axis {
        let held = self.held.runs.iter().map(|run| Span { points: run.lo..run.hi, clients: 1 });
        // Who waits has it in common with somebody who may not be shown.
        let waits = self.waits().map(|wait| Span { points: wait.point..wait.hi, clients: 2 });
        let next = self.held.next.map(|next| Span { points: next..self.points.end, clients: 0 });
        let spans: Vec<_> = held.chain(waits).chain(next).collect();
        Axis::new(&self.points, &spans, LEFT, BARS)
    }

    /// The waits here. They are those of the status, which is younger than the look.
    fn waits(&self) -> impl Iterator<Item = &Wait> {
        let points = &self.points;
        self.status.waits.iter().filter(|it| it.point < points.end && points.start < it.hi)
    }

    /// The clients that hold something here or wait here, by number.
    fn shown(&self) -> Vec<u8> {
        let held = self.held.runs.iter().map(|run| run.client);
        let mut clients: Vec<u8> = held.chain(self.waits().map(|wait| wait.client)).collect();
        clients.sort_unstable();
        clients.dedup();
        clients
    }

    /// The labels of the axis, and its parts, each of which a click shows by itself.
    fn lines(&self, svg: &mut Markup, axis: &Axis, bottom: f64) {
        for label in axis.labels() {
            let (x, y, words) = (axis.x(label), bottom + 14.0, end_in_words(label));
            svg.add(format_args!(
                "<line x1=\"{x:.1}\" x2=\"{x:.1}\" y1=\"{TOP}\" y2=\"{bottom}\" class=\"edge\"/>\
                 <text x=\"{:.1}\" y=\"{y}\" class=\"key\">{words}</text>",
                axis.begins(label)
            ));
        }
        for part in self.parts() {
            let (x, end) = (axis.x(part.start), axis.x(part.end));
            svg.add(format_args!(
                "<a href=\"{}\" tabindex=\"-1\"><rect x=\"{x:.1}\" y=\"{TOP}\" width=\"{:.1}\" \
                 height=\"{:.1}\" class=\"part\"><title>show only {} to {}</title></rect></a>",
                self.link(&part),
                end - x,
                bottom - TOP + 20.0,
                part.start,
                end_in_words(part.end)
            ));
        }
    }

    fn row(&self, svg: &mut Markup, axis: &Axis, client: u8, y: f64, deadlocks: &Deadlocks) {
        let known = clients::of(self.status).find(|it| it.status.client == client);
        let is_silent = known.is_none_or(|it| is_silent(&it));
        let fades = if is_silent { " fades" } else { "" };
        svg.add(format_args!("<g class=\"client{fades}\" data-client=\"{client}\">"));
        svg.add(format_args!("<text x=\"8\" y=\"{:.0}\">client {client}</text>", y + 14.0));
        for run in self.held.runs.iter().filter(|run| run.client == client) {
            svg.add(format_args!("{}", bar(axis, run, y)));
        }
        for wait in self.waits().filter(|wait| wait.client == client) {
            svg.add(format_args!("{}", hatched(axis, wait, y, deadlocks.has(client))));
        }
        let side = known.map_or_else(String::new, |it| side(&it));
        let (x, y) = (LEFT + BARS + 10.0, y + 14.0);
        svg.add(format_args!("<text x=\"{x}\" y=\"{y:.0}\">{}</text></g>", escape(&side)));
    }

    /// What the picture does not have: clients with nothing here, those that were not looked at
    /// yet, and the rest of the range.
    fn note(&self, shown: &[u8]) -> String {
        let others = self.status.clients.iter().map(|it| it.client);
        let (seen, unseen): (Vec<u8>, Vec<u8>) = others
            .filter(|client| !shown.contains(client))
            .partition(|client| self.held.seen.contains(client));
        let place = self.held.next.map_or("here".to_string(), |next| format!("below {next}"));
        let seen = match seen.len() {
            0 => None,
            1 => Some(format!("1 more client holds nothing {place}.")),
            count => Some(format!("{count} more clients hold nothing {place}.")),
        };
        let unseen = match unseen.len() {
            0 => None,
            1 => Some("1 client was not looked at yet.".to_string()),
            count => Some(format!("{count} clients were not looked at yet.")),
        };
        let more = self.held.next.map(|next| format!("From {next} on there is more to see."));
        [seen, unseen, more].into_iter().flatten().collect::<Vec<_>>().join(" ")
    }
}

/// What is asked at this path for the picture of a part.
pub fn link(path: &str, part: &Range<u64>) -> String {
    format!("{path}?lo={}&amp;hi={}", part.start, part.end)
}

/// The pattern of waits.
const HATCH: &str = "<defs><pattern id=\"hatch\" width=\"6\" height=\"6\" \
                     patternUnits=\"userSpaceOnUse\" patternTransform=\"rotate(45)\">\
                     <rect width=\"2.5\" height=\"6\" class=\"stripe\"/></pattern></defs>";

fn legend(svg: &mut Markup) {
    let mut x = LEFT;
    for (class, words) in LEGEND {
        svg.add(format_args!(
            "<rect x=\"{x}\" y=\"10\" width=\"12\" height=\"12\" class=\"{class}\"/>\
             <text x=\"{}\" y=\"20\">{words}</text>",
            x + 18.0
        ));
        x += 60.0 + 6.6 * number(words.len());
    }
    svg.add(format_args!(
        "<rect x=\"{x}\" y=\"10\" width=\"12\" height=\"12\" class=\"waits\"/>\
         <text x=\"{}\" y=\"20\">waits</text>",
        x + 18.0
    ));
}

fn bar(axis: &Axis, run: &HeldRun, y: f64) -> String {
    let x = axis.x(run.lo);
    let width = (axis.x(run.hi) - x - 1.0).max(1.0);
    format!(
        "<rect x=\"{x:.1}\" y=\"{:.0}\" width=\"{width:.1}\" height=\"14\" class=\"held {}\">\
         <title>{}</title></rect>",
        y + 3.0,
        modes::class(run.mode),
        run_in_words(run)
    )
}

fn hatched(axis: &Axis, wait: &Wait, y: f64, is_deadlocked: bool) -> String {
    let x = axis.x(wait.point);
    let width = (axis.x(wait.hi) - x - 1.0).max(8.0);
    let class = if is_deadlocked { "waits deadlock" } else { "waits" };
    format!(
        "<rect x=\"{x:.1}\" y=\"{:.0}\" width=\"{width:.1}\" height=\"18\" class=\"{class}\">\
         <title>{}</title></rect>",
        y + 1.0,
        wait_in_words(wait)
    )
}

fn run_in_words(run: &HeldRun) -> String {
    let HeldRun { lo, hi, client, mode, slots, .. } = *run;
    let end = end_in_words(hi);
    let count = if slots == 1 { "1 slot".to_string() } else { format!("{slots} slots") };
    let mode = modes::words_and_name(mode);
    format!("client {client} {mode} {count} from {lo} below {end}")
}

fn wait_in_words(wait: &Wait) -> String {
    let Wait { client, point, hi, mode, waited, waits_for, .. } = wait;
    let (whom, end, waited) = (list(waits_for), end_in_words(*hi), brief(*waited));
    let mode = modes::words_and_name(*mode);
    format!("client {client} waits for {whom}: {mode} from {point} below {end}, for {waited}")
}

/// Whether a client may have gone.
pub fn is_silent(client: &clients::Shown<'_>) -> bool {
    let status = client.status;
    status.connection.is_none() || status.silent_for.is_none_or(|silent| silent >= SILENT)
}

/// What stands at the right of a client's bars.
fn side(client: &clients::Shown<'_>) -> String {
    if is_silent(client) {
        let silent = client.status.silent_for.map_or_else(
            || "not heard yet".to_string(),
            |silent| format!("silent for {}", brief(silent)),
        );
        return format!("{silent}, lease {}", lease_in_words(client.status.lease));
    }
    client.peer().unwrap_or_default()
}

#[cfg(test)]
mod tests;
