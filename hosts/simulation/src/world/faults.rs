//! What goes wrong, and what operators do.
use super::{Down, Event, Machine, Side, Task, World};
use crate::network::Faults;
use crate::record::Happened;
use crate::weather::{Fault, Terms};
use std::time::Duration;

/// By then a server has found that another one has its store.
const FINDS_BY: Duration = Duration::from_secs(8);

/// After this time an operator sees that a client is not served, if nobody changes leases.
const SEES: Duration = Duration::from_secs(12);

impl World {
    pub(super) fn fault(&mut self) {
        if self.healed.is_some() {
            return self.evict_who_hinders();
        }
        let pause = self.fault_dice.time(self.weather.between_faults.clone());
        self.after(pause, Event::Fault);
        self.counts.faults += 1;
        let drawn = self.fault_dice.weighed(&self.weather.faults).map(|place| Fault::ALL[place]);
        let client = self.fault_dice.below(self.weather.clients);
        let site = self.fault_dice.below(self.sites.len());
        let number = self.counts.faults;
        let Some(fault) = drawn.filter(|_| !self.settings.without.contains(&number)) else {
            return;
        };
        self.record.note(self.now, &[number, fault as u64], || {
            Happened::World(format!("fault {number}: {fault:?}, client {client} or server {site}"))
        });
        self.goes_wrong(fault, client, site);
    }

    /// An older incarnation may be registered whose lease does not end: leases were changed, or a
    /// server died before it stored that the client has one. An operator sees that, and evicts it.
    fn evict_who_hinders(&mut self) {
        self.after(Duration::from_millis(500), Event::Fault);
        let waits = |machine: &Machine| machine.client.is_some() && machine.is_served != [true; 2];
        let hinders =
            |client: &usize| waits(&self.machines[*client]) && self.successor(*client).is_some();
        let hindering: Vec<_> = (0..self.weather.clients).filter(hinders).collect();
        let healed = self.healed.unwrap_or(self.now);
        let is_seen = self.now >= healed + SEES;
        if !hindering.is_empty() && (is_seen || self.weather.terms == Terms::Each) {
            let victim = self.fault_dice.pick(&hindering);
            self.evict(victim);
        }
    }

    fn goes_wrong(&mut self, fault: Fault, client: usize, site: usize) {
        match fault {
            Fault::KillServer => self.end_server(site, "it is killed"),
            Fault::StopServer => self.stop_server(site),
            Fault::FreezeServer => self.freeze_server(site),
            Fault::TakeOver => self.take_over(site),
            Fault::KillClient => self.kill_client(client, true),
            Fault::LosePower => self.kill_client(client, false),
            Fault::FreezeClient => {
                let until = self.now + self.draw_frost();
                freeze(&mut self.machines[client].frozen_until, until);
            }
            Fault::Cut => self.cut(client, site),
            Fault::Mend => self.machines[client].is_cut = [false; 2],
            Fault::Break => self.break_link(client),
            Fault::Reject => {
                self.machines[client].rejected_until =
                    self.now + self.fault_dice.time(0..2_000_000);
                self.break_link(client);
            }
            Fault::Evict if self.machines[client].client.is_none() => self.evict(client),
            // An operator evicts no client whose process runs.
            Fault::Evict => {}
            Fault::CopyStore => {
                if self.disk.copy() {
                    self.judge.copy();
                }
            }
            Fault::PutBack => self.put_back(),
        }
    }

    fn draw_frost(&mut self) -> Duration {
        if self.fault_dice.happens(700) {
            self.fault_dice.time(1_000..500_000)
        } else {
            self.fault_dice.time(500_000..8_000_000)
        }
    }

    fn freeze_server(&mut self, site: usize) {
        let until = self.now + self.draw_frost();
        freeze(&mut self.sites[site].frozen_until, until);
        if let Some(serving) = &mut self.sites[site].serving {
            serving.was_frozen = true;
        }
    }

    fn stop_server(&mut self, site: usize) {
        let time = self.sites[site].clock.at(self.now);
        if let Some(serving) = &mut self.sites[site].serving {
            serving.server.stop(time);
            self.turn_in(site, Duration::ZERO);
        }
    }

    /// The server that stands by takes the store. The other one finds it out by itself.
    fn take_over(&mut self, site: usize) {
        if self.sites[site].serving.is_some() {
            return;
        }
        self.start(site);
        let others = (0..self.sites.len()).filter(|other| *other != site);
        let others = others.filter_map(|other| Some((other, self.sites[other].serving.as_ref()?)));
        let others: Vec<_> = others.map(|(other, serving)| (other, serving.start)).collect();
        for (site, start) in others {
            let why = "another server has its store";
            self.after(FINDS_BY, Event::HasEnded { site, start, why });
        }
    }

    /// The client can't reach a server any more, and neither side learns of it. What one of them
    /// sends may still come.
    fn cut(&mut self, client: usize, site: usize) {
        let sides =
            self.fault_dice.pick(&[[true, true], [true, true], [true, false], [false, true]]);
        self.network.swallow(client, site, sides, self.now);
        self.machines[client].is_cut[site] = self.fault_dice.happens(700);
    }

    /// A connection breaks. Each side learns of it by itself.
    fn break_link(&mut self, client: usize) {
        let Some(link) = self.machines[client].link else { return };
        for to in [Side::Client, Side::Server] {
            let time = self.fault_dice.pick(&[0..2_000, 0..2_000, 0..3_000_000]);
            let time = self.fault_dice.time(time);
            self.after(time, Event::Ends { link, to });
        }
    }

    /// Servers are ended, and the copy of the store is put in its place.
    fn put_back(&mut self) {
        for site in 0..self.sites.len() {
            self.end_server(site, "its store is replaced");
        }
        self.asked.clear();
        if !self.disk.put_back() {
            return;
        }
        let left = self.judge.put_back();
        self.counts.went_back += 1;
        for machine in self.machines.iter_mut().filter(|machine| machine.client.is_some()) {
            machine.before = machine.before.take().or(left.clone());
            machine.may_lack = true;
        }
        self.last_before = self.network.last();
    }

    /// The moment from which on nobody stands still.
    fn all_go_on(&self) -> Duration {
        let sites = self.sites.iter().map(|site| site.frozen_until);
        let machines = self.machines.iter().map(|machine| machine.frozen_until);
        sites.chain(machines).fold(self.now, Duration::max)
    }

    /// Nothing goes wrong any more: the network carries all, and what was started by mistake is
    /// ended. What is stopped continues in its time, so that what waits for it comes in its order.
    pub(super) fn heal(&mut self) {
        self.record.note(self.now, &[0], || Happened::World("all is whole again".into()));
        self.healed = Some(self.all_go_on());
        self.weather.clear();
        self.network.faults = Faults::default();
        self.network.latency = self.weather.latency.clone();
        for site in 0..self.sites.len() {
            self.after(Duration::from_millis(1), Event::Start { site });
        }
        for client in 0..self.weather.clients {
            let is_second = self.weather.has_second_process && client + 1 == self.weather.clients;
            let machine = &mut self.machines[client];
            machine.is_cut = [false; 2];
            machine.rejected_until = Duration::ZERO;
            let is_wrong = machine.ahead > Duration::ZERO;
            if is_second {
                machine.stays_down = Some(Down::Retired);
            }
            if is_wrong || is_second {
                self.kill_client(client, true);
            }
        }
        let operator = self.weather.clients;
        if let Task::Evict { victim, .. } = self.machines[operator].task {
            self.end_eviction(operator, victim);
        }
    }
}

/// Stands still until this moment, or longer if it does so already: what waits for a process comes
/// to it in its order.
fn freeze(frozen_until: &mut Duration, until: Duration) {
    *frozen_until = until.max(*frozen_until);
}

#[cfg(test)]
mod tests {
    use super::*;

    #[test]
    fn a_second_frost_shortens_none() {
        let [short, long] = [3, 8].map(Duration::from_secs);
        let mut frozen_until = Duration::ZERO;
        for (until, expected) in [(short, short), (long, long), (short, long)] {
            freeze(&mut frozen_until, until);
            assert_eq!(frozen_until, expected);
        }
    }
}
