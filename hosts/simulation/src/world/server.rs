//! What happens at the servers.
use super::store::Stored;
use super::{Event, Serving, World};
use crate::network::Side;
use crate::record::Node;
use crate::timer::Timer;
use crate::weather::{self, Terms};
use krl::Leases;
use krl::error::ServeError;
use krl::operate::Room;
use krl::simulated::{FrameKind, Next, Sent, Server, Start};
use std::collections::BTreeMap;
use std::time::Duration;

/// By then a server has ended that has found its store to be an older one.
const ENDS_BY: Duration = Duration::from_secs(2);

impl World {
    /// Whether the server runs that may commit.
    fn runs_the_owner(&self) -> bool {
        let owner = self.disk.owner();
        self.sites.iter().any(|site| site.serving.as_ref().is_some_and(|it| it.start == owner))
    }

    pub(super) fn start_if_none_runs(&mut self, site: usize) {
        if self.runs_the_owner() {
            return;
        }
        if self.sites[site].serving.is_some() {
            return self.after(Duration::from_millis(200), Event::Start { site });
        }
        self.start(site);
    }

    /// A server is started over what the disk has. No earlier one commits any more.
    pub(super) fn start(&mut self, site: usize) {
        self.counts.starts += 1;
        let start = self.counts.starts;
        let (leases, room) = (self.draw_leases(), self.draw_room(start));
        let time = self.sites[site].clock.at(self.now);
        self.disk.take(start);
        let server = match Server::start(&mut self.disk, Start { leases, room }, time) {
            Ok(server) => server,
            Err(error) => return self.judge.find(format!("no server starts: {error}")),
        };
        self.note(Node::Server(site), 1, || format!("starts as number {start} with {leases:?}"));
        let serving = Serving {
            server,
            start,
            was_frozen: false,
            timer: Timer::IDLE,
            links: BTreeMap::new(),
        };
        self.sites[site].serving = Some(serving);
        self.sites[site].frozen_until = Duration::ZERO;
        self.turn_in(site, Duration::ZERO);
    }

    fn draw_leases(&mut self) -> Option<Leases> {
        match self.weather.terms {
            Terms::Endless => None,
            Terms::One(leases) => Some(leases),
            Terms::Each if self.dice.happens(200) => None,
            Terms::Each => Some(weather::leases(&mut self.dice)),
        }
    }

    /// The first server has little room; each later one has as much, or more, or is given none.
    fn draw_room(&mut self, start: u64) -> Option<Room> {
        let few = self.weather.room?;
        let drawn = match self.dice.among(0..3) {
            _ if start == 1 => Some(few),
            0 if self.disk.snapshot().rows.len() <= few => Some(few),
            1 => Some(few + 2),
            _ => None,
        };
        let kept = self.disk.snapshot().room.map_or(few, Room::rows);
        self.judge.has_room(drawn.unwrap_or(kept));
        drawn.and_then(|rows| Room::of(rows).ok())
    }

    /// A server ends, and all its connections with it.
    pub(super) fn end_server(&mut self, site: usize, why: &str) {
        let Some(serving) = self.sites[site].serving.take() else { return };
        self.note(Node::Server(site), 2, || format!("ends: {why}"));
        self.forget_asked(serving.start);
        for link in serving.links.into_values() {
            self.end_link(link, Side::Server);
        }
        let pause = self.dice.time(1_000..2_000_000);
        let next = self.dice.below(self.sites.len());
        self.after(pause, Event::Start { site: next });
    }

    /// By now this server has to have ended, if it did not stand still in between.
    pub(super) fn has_ended(&mut self, site: usize, start: u64, why: &str) {
        let serving = self.sites[site].serving.as_ref();
        if serving.is_some_and(|it| it.start == start && !it.was_frozen) {
            self.judge.find(format!("server {site} has not ended, though {why}"));
        }
    }

    pub(super) fn turn(&mut self, site: usize, start: u64) {
        let time = self.sites[site].clock.at(self.now);
        let serving = self.sites[site].serving.as_mut().filter(|it| it.start == start);
        let Some(serving) = serving.filter(|it| !it.server.is_committing()) else { return };
        self.happened += 1;
        let next = serving.server.turn(time);
        self.goes_on(site, next);
    }

    /// The store has answered.
    pub(super) fn stored(&mut self, site: usize, start: u64, stored: Stored) {
        let time = self.sites[site].clock.at(self.now);
        let serving = self.sites[site].serving.as_mut().filter(|it| it.start == start);
        let Some(serving) = serving else { return };
        match stored {
            Stored::Kept => {}
            Stored::Failed => return self.end_server(site, "its store has failed"),
            Stored::Deposed => return self.end_server(site, "another server has its store"),
        }
        self.happened += 1;
        let next = serving.server.committed(time);
        self.goes_on(site, next);
    }

    /// A server has judged or committed. What it sends then leaves, and it does what is next.
    fn goes_on(&mut self, site: usize, next: Result<Next, ServeError>) {
        let next = match next {
            Ok(next) => next,
            Err(error) => return self.fail(site, &error),
        };
        let clock = self.sites[site].clock;
        let Some(serving) = &mut self.sites[site].serving else { return };
        let start = serving.start;
        for sent in &serving.server.take_sent() {
            self.deliver(site, sent);
        }
        match next {
            Next::Turn(soon) => self.turn_in(site, clock.takes(soon)),
            Next::Commit(changes) => {
                self.judge_incarnations(site, &changes);
                self.ask_store(start, &changes);
            }
            Next::Nothing => self.end_in_order(site),
        }
    }

    /// A server has ended by itself, or since it was asked to.
    fn end_in_order(&mut self, site: usize) {
        let failure = self.sites[site].serving.as_mut().and_then(|it| it.server.take_failure());
        match failure {
            None => {}
            Some(ServeError::OlderStore { .. }) if self.judge.went_back() => {}
            Some(error) => return self.fail(site, &error),
        }
        self.end_server(site, "in order");
    }

    /// What leaves of a server on a connection.
    fn deliver(&mut self, site: usize, sent: &Sent) {
        let Some(serving) = &mut self.sites[site].serving else { return };
        let start = serving.start;
        let Some(link) = serving.links.get(&sent.connection).copied() else { return };
        if sent.closes {
            serving.links.remove(&sent.connection);
        }
        if self.weather.is_identified && reports_that_it_went_back(&sent.bytes) {
            let why = "it has found its store to be an older one";
            self.after(ENDS_BY, Event::HasEnded { site, start, why });
        }
        self.carry(link, Side::Client, &sent.bytes);
        if sent.closes {
            self.end_link(link, Side::Server);
        }
    }

    /// The next turn is due then, or before.
    pub(super) fn turn_in(&mut self, site: usize, time: Duration) {
        let armed = self.now + time;
        let Some(serving) = &mut self.sites[site].serving else { return };
        let start = serving.start;
        if serving.timer.set(armed) {
            self.at(armed, Event::Turn { site, start, armed });
        }
    }

    fn fail(&mut self, site: usize, error: &ServeError) {
        self.judge.find(format!("server {site} has failed: {error}"));
        self.end_server(site, "it has failed");
    }

    /// Bytes have come to a server.
    pub(super) fn server_receives(&mut self, site: usize, connection: u64, bytes: &[u8]) {
        let time = self.sites[site].clock.at(self.now);
        let Some(serving) = &mut self.sites[site].serving else { return };
        self.happened += 1;
        serving.server.deliver(connection, bytes, time);
        if !serving.server.is_committing() {
            self.turn_in(site, Duration::ZERO);
        }
    }

    /// A server learns that a connection has ended.
    pub(super) fn server_loses(&mut self, site: usize, connection: u64) {
        let time = self.sites[site].clock.at(self.now);
        let Some(serving) = &mut self.sites[site].serving else { return };
        serving.links.remove(&connection);
        self.happened += 1;
        serving.server.hang_up(connection, time);
        if !serving.server.is_committing() {
            self.turn_in(site, Duration::ZERO);
        }
    }
}

/// Whether a frame among these reports to a client that the store lacks what it has seen.
fn reports_that_it_went_back(bytes: &[u8]) -> bool {
    crate::network::frames(bytes)
        .any(|frame| FrameKind::of(&frame[crate::network::PREFIX..]) == FrameKind::WentBack)
}
