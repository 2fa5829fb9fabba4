//! The page of a server and its pictures, and what they are made of.
mod axis;
mod deadlocks;
mod held_picture;
mod histogram;
mod markup;
mod modes;
mod overview;
mod servers;
mod waits_picture;

use super::metrics::seconds_left;
use super::paths::PICTURE;
use super::shown::{Shown, Table};
use super::{backup, report};
use crate::process::role::State;
use held_picture::HeldPicture;
use krl::operate::LocksError;
use krl::operate::{Monitor, Status};
use openssl::base64::encode_block;
use openssl::sha::sha256;
use overview::Overview;
use std::ops::Range;
use std::sync::LazyLock;
use std::time::{Instant, SystemTime};

/// The style of a picture that is served by itself: it has its own background.
const PICTURE_STYLE: &str =
    concat!(include_str!("page/picture.css"), ".picture { background: var(--ground); }\n");

/// What a picture that is served by itself may do: it has a style, and nothing else.
pub const PICTURE_POLICY: &str =
    "default-src 'none'; style-src 'unsafe-inline'; frame-ancestors 'none'";

/// What the page may do: show itself with its own style, and read itself again by its own script.
pub static POLICY: LazyLock<String> = LazyLock::new(|| {
    let hash = |text: &str| encode_block(&sha256(text.as_bytes()));
    let (style, script) = (hash(overview::STYLE), hash(overview::SCRIPT));
    format!(
        "default-src 'none'; connect-src 'self'; base-uri 'none'; form-action 'none'; \
         frame-ancestors 'none'; style-src 'sha256-{style}'; script-src 'sha256-{script}'"
    )
});

/// The page, with the picture of these points.
pub async fn html(shown: &Shown, monitor: &Monitor, points: Range<u64>) -> String {
    let epoch = monitor.status().epoch;
    let held = shown.looks.at(monitor, epoch, &points).await;
    // The rest is as recent as possible: a look may have waited for its time.
    let (status, now) = (monitor.status(), Instant::now());
    let tls = shown.certificate.as_ref();
    let overview = Overview {
        status: &status,
        held: held.as_ref().map_err(|why| format!("{why}.")),
        points,
        rates: shown.recent.rates(&status, now),
        histograms: shown.recent.histograms(&monitor.measured(), epoch, now),
        certificate: tls.map(|tls| seconds_left(&tls.certificate(), SystemTime::now())),
        backup: backup::age(SystemTime::now()),
        servers: servers(shown, &shown.role.state(), &status).await,
    };
    overview.html()
}

/// The page of a process that does not serve.
pub async fn without_a_server(shown: &Shown, state: &State) -> String {
    let servers = servers(shown, state, &Status::default()).await;
    overview::without_a_server(&state.to_string(), servers)
}

/// The servers of the table, if this one knows others.
async fn servers(shown: &Shown, state: &State, status: &Status) -> String {
    let Table { others, shard } = &shown.table;
    let own = match state {
        State::Serves { .. } => report::of_server(state, status, status.shard.or(*shard), None),
        _ => report::of_role(state),
    };
    // What this server reports can be read as what another one does.
    let own = serde_json::from_value(own).unwrap_or_default();
    servers::part(&own, &others.look().await)
}

/// The picture of who holds which of these points, as a file of SVG.
pub async fn picture(
    shown: &Shown,
    monitor: &Monitor,
    points: Range<u64>,
) -> Result<String, LocksError> {
    let epoch = monitor.status().epoch;
    let held = &shown.looks.at(monitor, epoch, &points).await?;
    let status = &monitor.status();
    let picture = HeldPicture { status, held, points, path: PICTURE };
    Ok(picture.svg(&format!("<style>{PICTURE_STYLE}</style>")))
}
