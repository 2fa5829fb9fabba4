//! The page of a server, as HTML.
use super::held_picture::{self, HeldPicture, is_silent};
use super::markup::{Markup, escape, list};
use super::{histogram, modes, waits_picture};
use crate::status::clients::{self, brief, end_in_words, lease_in_words};
use crate::status::locks;
use crate::status::looks::Held;
use crate::status::recent::{Histograms, Rates};
use krl::operate::{LeaseLeft, Status, Wait};
use std::ops::Range;
use std::time::Duration;

/// What the page shows.
#[derive(Debug)]
pub struct Overview<'a> {
    pub status: &'a Status,
    /// Who holds what, or why that was not seen.
    pub held: Result<&'a Held, String>,
    /// The points of the picture.
    pub points: Range<u64>,
    pub rates: Option<Rates>,
    pub histograms: Option<Histograms>,
    /// How many seconds the server's certificate is still valid, if it shows one.
    pub certificate: Option<i64>,
    /// How long ago the process made its last backup, if it has made one.
    pub backup: Option<Duration>,
    /// The servers of the table, as a part of the page.
    pub servers: String,
}

/// Looks older than this are marked as old.
const OLD_LOOK: Duration = Duration::from_secs(2);

pub const STYLE: &str = concat!(include_str!("overview.css"), include_str!("picture.css"));
pub const SCRIPT: &str = include_str!("overview.js");

impl Overview<'_> {
    pub fn html(&self) -> String {
        let title = format!("krl: {}", phase(self.status));
        // Alarms are a part of their own: a screen reader reads them when that part changes.
        let parts = [
            ("head", self.head() + &self.recovery()),
            ("alarms", self.alarms()),
            ("servers", self.servers.clone()),
            ("keys", self.keys()),
            ("waiting", self.waiting()),
            ("times", self.times()),
            ("clients", self.clients()),
        ];
        document(&title, &parts)
    }

    fn head(&self) -> String {
        let (status, mut head) = (self.status, Markup::default());
        let phase = phase(status);
        head.add(format_args!("<h1>krl</h1><p class=\"phase {phase}\">{phase}</p><dl>"));
        let mut figure = |name: &str, value: &str| {
            let name = head_with_meaning("dt", name);
            head.add(format_args!("<div>{name}<dd>{}</dd></div>", escape(value)));
        };
        figure("waiting", &waiting(status));
        figure("clients", &status.clients.len().to_string());
        figure("rows", &format!("{} of {}", status.rows, status.room.rows()));
        figure("epoch", &status.epoch.to_string());
        figure("reach", &format!("{} slots", status.reach));
        let alarms = status.alarms_raised + status.store_alarms;
        let counts = [("evicted", status.evicted), ("alarms", alarms)];
        for (name, count) in counts.into_iter().filter(|(_, count)| *count > 0) {
            figure(name, &count.to_string());
        }
        if let Some(rates) = &self.rates {
            figure("messages", &format!("{} in a second", rate(rates.taken + rates.sent)));
            figure("changes", &format!("{} in a second", rate(rates.changes)));
        }
        if let Some(seconds) = self.certificate {
            figure("certificate", &certificate(seconds));
        }
        if let Some(age) = self.backup {
            figure("last backup", &format!("{} ago", brief(age)));
        }
        head.add(format_args!("</dl>"));
        head.text()
    }

    /// What an operator has to look at.
    fn alarms(&self) -> String {
        let status = self.status;
        let failure = status.failure.iter().map(|why| format!("The server has failed: {why}"));
        let alarms = (!status.alarms.is_empty()).then(|| {
            let clients = list(&status.alarms);
            format!("Alarm: the report of client {clients} contradicts what the server knows.")
        });
        let store = (status.store_alarms > 0).then(|| {
            "Alarm: the store lacks what clients have seen: it is an older copy, or another one."
                .to_string()
        });
        let deadlocks = waits_picture::alarms(&status.waits);
        let all = failure.chain(alarms).chain(store).chain(deadlocks);
        let mut text = Markup::default();
        for alarm in all {
            text.add(format_args!("<p class=\"alarm\" role=\"alert\">{}</p>", escape(&alarm)));
        }
        text.text()
    }

    /// Which clients a recovering server waits for, and until when at the latest.
    fn recovery(&self) -> String {
        let status = self.status;
        if status.is_serving || status.failure.is_some() || status.missing.is_empty() {
            return String::new();
        }
        let clients = list(&status.missing);
        let end = match recovery_end(status) {
            LeaseLeft::Ends(left) => format!("at most {} more", brief(left)),
            LeaseLeft::Unending => "until all have reported or an operator evicts them".to_string(),
        };
        format!(
            "<p class=\"busy\" id=\"recovery\">Recovering: the server waits for the reports of the \
             clients {clients}, {end}.</p>\n"
        )
    }

    fn keys(&self) -> String {
        let mut part = Markup::default();
        part.add(format_args!("<h2>Who holds which keys</h2>"));
        match &self.held {
            Ok(held) => self.held(&mut part, held),
            Err(why) => part.add(format_args!("<p class=\"busy\">{}</p>", escape(why))),
        }
        part.text()
    }

    fn held(&self, part: &mut Markup, held: &Held) {
        let picture =
            HeldPicture { status: self.status, held, points: self.points.clone(), path: "/" };
        part.add(format_args!("<div class=\"wide\">{}</div>", picture.svg("")));
        part.add(format_args!("<nav aria-label=\"Parts of the table\">"));
        if self.points != (0..locks::TOP) {
            part.add(format_args!("<a href=\"/\">whole table</a>"));
        }
        let parts = picture.parts();
        if !parts.is_empty() {
            part.add(format_args!("Show only:"));
        }
        for range in parts {
            let (link, end) = (picture.link(&range), end_in_words(range.end));
            part.add(format_args!("<a href=\"{link}\">{} to {end}</a>", range.start));
        }
        if let Some(next) = held.next {
            let rest = picture.link(&(next..self.points.end));
            part.add(format_args!("<a href=\"{rest}\">from {next} on</a>"));
        }
        part.add(format_args!("</nav>"));
        let age = match held.age {
            Some(age) if age < OLD_LOOK => return,
            Some(age) => format!("This was seen up to {} ago", brief(age)),
            None => "Not all of this was seen yet".to_string(),
        };
        part.add(format_args!(
            "<p class=\"note\">{age}: a look at a large table takes the server's time.</p>"
        ));
    }

    fn waiting(&self) -> String {
        let picture = waits_picture::svg(&self.status.waits).map_or_else(
            || "<p class=\"note\">Nobody waits.</p>".to_string(),
            |svg| format!("<div class=\"wide\">{svg}</div>"),
        );
        format!("<h2>Who waits for whom</h2>\n{picture}\n")
    }

    fn times(&self) -> String {
        let Some(histograms) = &self.histograms else {
            return "<h2>How long it takes</h2>\n<p class=\"note\">Not measured yet.</p>\n".into();
        };
        let mut part = Markup::default();
        part.add(format_args!(
            "<h2>How long it took, in the last {}</h2><div class=\"times\">",
            brief(histograms.over)
        ));
        let Histograms { commits, grants, releases, .. } = histograms;
        for (name, counts) in [("commit", commits), ("grant", grants), ("release", releases)] {
            part.add(format_args!(
                "<figure><figcaption>{}</figcaption>{}</figure>",
                histogram::summary(name, counts),
                histogram::svg(name, counts)
            ));
        }
        part.add(format_args!("</div>"));
        part.text()
    }

    fn clients(&self) -> String {
        let mut part = Markup::default();
        let heads = ["number", "waits for", "slots", "lease", "last word", "connected", "peer"];
        let heads: String = heads.iter().map(|head| head_with_meaning("th", head)).collect();
        part.add(format_args!(
            "<h2>Clients</h2><div class=\"wide\"><table><thead><tr>{heads}</tr></thead><tbody>"
        ));
        for client in clients::of(self.status) {
            part.add(format_args!("{}", client_row(&client)));
        }
        part.add(format_args!("</tbody></table></div>"));
        part.add(format_args!(
            "<p class=\"note\">krl {} &middot; <a href=\"/status\">status</a> &middot; \
             <a href=\"/clients\">clients</a> &middot; <a href=\"/locks\">locks</a> &middot; \
             <a href=\"/locks.svg\">picture</a> &middot; <a href=\"/metrics\">metrics</a></p>",
            env!("CARGO_PKG_VERSION")
        ));
        part.text()
    }
}

/// The page of a process that does not serve.
pub fn without_a_server(role: &str, servers: String) -> String {
    let text = format!("<h1>krl</h1><p>This process {}.</p>", escape(role));
    document("krl", &[("head", text), ("servers", servers)])
}

fn document(title: &str, parts: &[(&str, String)]) -> String {
    let mut page = Markup::default();
    page.add(format_args!(
        "<!doctype html>\n<html lang=\"en\">\n<head>\n<meta charset=\"utf-8\">\n\
         <meta name=\"viewport\" content=\"width=device-width\">\n<title>{}</title>\n\
         <noscript><meta http-equiv=\"refresh\" content=\"1\"></noscript>\n\
         <style>{STYLE}</style>\n</head>\n<body>\n<main>",
        escape(title)
    ));
    for (id, text) in parts {
        page.add(format_args!("<section id=\"{id}\">\n{text}</section>"));
    }
    page.add(format_args!(
        "</main>\n<p id=\"late\" role=\"alert\" hidden>The server does not answer: this is what it \
         showed last.</p>\n<script>{SCRIPT}</script>\n</body>\n</html>"
    ));
    page.text()
}

/// The word for what the server does, which is a class of the page too.
fn phase(status: &Status) -> &'static str {
    match status {
        Status { failure: Some(_), .. } => "ended",
        Status { is_serving: true, .. } => "serving",
        _ => "recovering",
    }
}

/// When the last of the clients whose reports are missing is evicted, if none of them reports.
fn recovery_end(status: &Status) -> LeaseLeft {
    let missing = status.clients.iter().filter(|it| status.missing.contains(&it.client));
    missing.fold(LeaseLeft::Ends(Duration::ZERO), |last, it| match (last, it.lease) {
        (LeaseLeft::Ends(last), LeaseLeft::Ends(left)) => LeaseLeft::Ends(last.max(left)),
        _ => LeaseLeft::Unending,
    })
}

fn waiting(status: &Status) -> String {
    let longest = status.waits.iter().map(|wait| wait.waited).max();
    longest.map_or_else(
        || "nobody".to_string(),
        |longest| format!("{}, up to {}", status.waits.len(), brief(longest)),
    )
}

/// What those figures and columns mean whose names do not show it.
const MEANINGS: [(&str, &str); 6] = [
    ("waiting", "how many clients wait for a lock, and for how long"),
    ("epoch", "how many times a server has started over this store"),
    ("reach", "how many slots one grant takes at most"),
    ("slots", "how many rows the client has a lock on, each with the gap before it"),
    ("lease", "how long the client may still answer from its cache"),
    ("last word", "how long ago something last came from the client"),
];

/// The name of a figure or a column as an element, with its meaning as a hint.
fn head_with_meaning(element: &str, name: &str) -> String {
    match MEANINGS.iter().find(|(it, _)| *it == name) {
        Some((_, meaning)) => format!("<{element} title=\"{meaning}\">{name}</{element}>"),
        None => format!("<{element}>{name}</{element}>"),
    }
}

fn rate(rate: f64) -> String {
    if rate < 10.0 { format!("{rate:.1}") } else { format!("{rate:.0}") }
}

fn certificate(seconds: i64) -> String {
    match seconds {
        ..0 => "EXPIRED".to_string(),
        0..172_800 => format!("{} h more", seconds / 3_600),
        _ => format!("{} days more", seconds / 86_400),
    }
}

fn client_row(client: &clients::Shown<'_>) -> String {
    let status = client.status;
    let or_none = |time: Option<Duration>| time.map_or_else(|| "-".to_string(), brief);
    let note = if is_silent(client) { " class=\"note\"" } else { "" };
    format!(
        "<tr{note}><td>{}</td><td>{}</td><td>{}</td><td>{}</td><td>{}</td><td>{}</td><td>{}</td>\
         </tr>",
        status.client,
        waits_for(client),
        client.slots,
        lease_in_words(status.lease),
        or_none(status.silent_for),
        or_none(status.connection.map(|it| it.open_for)),
        escape(&client.peer().unwrap_or_else(|| "-".to_string())),
    )
}

/// What the client waits for, with a link to that part of the picture.
fn waits_for(client: &clients::Shown<'_>) -> String {
    let Some(Wait { point, hi, mode, waited, waits_for, .. }) = client.wait else {
        return escape(&client.waits_in_words());
    };
    let (whom, words) = (list(waits_for), modes::words_and_name(*mode));
    let (link, waited) = (held_picture::link("/", &(*point..*hi)), brief(*waited));
    format!("{whom}: <a href=\"{link}\">{words} at {point}</a>, for {waited}")
}

#[cfg(test)]
mod tests;
