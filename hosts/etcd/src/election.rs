//! Which server should serve: the one that has a key with a lease.
//!
//! **No promise rests on it.** If two servers both believe that they have it, the store decides: it
//! refuses the older one's first change. The lease only determines when another one should try.
use crate::address::{Credentials, EtcdAddress};
use crate::call::Etcd;
use crate::explain;
use crate::request::{self, number_of, text_of};
use krl::store::fence::Failure;
use serde_json::json;
use std::fmt;
use std::sync::mpsc::{Receiver, RecvTimeoutError, Sender, channel};
use std::thread::{self, JoinHandle};
use std::time::{Duration, Instant};

/// The pause of a server that stands by before it tries again to take its place.
const PAUSE_BETWEEN_TRIES: Duration = Duration::from_millis(100);

/// How long it waits for an answer that is only informative.
const ASK: Duration = Duration::from_secs(5);

/// The shortest lease that etcd keeps to.
const SHORTEST: Duration = Duration::from_secs(2);

/// A server's part in the election.
#[derive(Clone, Debug)]
pub struct Election {
    address: EtcdAddress,
    credentials: Credentials,
    advertised: String,
    lease: Duration,
}

/// Why an election can't be held.
#[derive(Clone, Debug, PartialEq, Eq)]
pub struct ElectionError(String);

/// The time for which a server has the place. A thread keeps the lease alive, whatever the server
/// does meanwhile. Dropped, the lease is given back, and another server has the place at once: that
/// takes until the cluster answers, and at most until the lease has run out.
#[derive(Debug)]
pub struct Term {
    /// Dropped, it ends the thread.
    stop: Option<Sender<()>>,
    /// Closed by the thread once the lease has run out.
    runs: Receiver<()>,
    thread: Option<JoinHandle<()>>,
}

impl Election {
    /// A part of the server that clients reach at `advertised`. The lease is how long a server may
    /// be silent before another one takes its place: two seconds at least, and in whole seconds.
    ///
    /// # Errors
    ///
    /// For a shorter lease.
    pub fn new(
        address: EtcdAddress,
        credentials: Credentials,
        advertised: &str,
        lease: Duration,
    ) -> Result<Election, ElectionError> {
        if lease < SHORTEST || lease.subsec_nanos() != 0 {
            let why = format!("a lease is a whole number of seconds from 2 on, and not {lease:?}");
            return Err(ElectionError(why));
        }
        Ok(Election { address, credentials, advertised: advertised.to_string(), lease })
    }

    /// The address that the server advertises which has the place now, if one has it.
    ///
    /// # Errors
    ///
    /// If the cluster does not answer within five seconds.
    pub fn leader(
        address: &EtcdAddress,
        credentials: &Credentials,
    ) -> Result<Option<String>, ElectionError> {
        let mut etcd = Etcd::new(address, credentials).map_err(ElectionError)?;
        let asked = request::range_of_one(&key(address));
        let answer = etcd.call("kv/range", &asked, Instant::now() + ASK)?;
        Ok(answer["kvs"][0].get("value").and_then(text_of))
    }

    /// Waits until the server has the place. Each time that another server's address is found in
    /// the place, `report` gets it, and returns whether to continue. None if it is not to continue.
    ///
    /// # Errors
    ///
    /// If the credentials can't be used, or the cluster refuses what is asked. While the cluster
    /// does not answer, it is asked again.
    pub fn campaign(
        &self,
        mut report: impl FnMut(Standing<'_>) -> bool,
    ) -> Result<Option<Term>, ElectionError> {
        let mut etcd = Etcd::new(&self.address, &self.credentials).map_err(ElectionError)?;
        let mut lease = None;
        while report(Standing::Waits) {
            match self.try_once(&mut etcd, &mut lease, &mut report) {
                Ok(Some(lease)) => return Ok(Some(self.term(etcd, lease))),
                Ok(None) => {}
                Err(Failure::Unknown(why)) => {
                    report(Standing::Unanswered(&why));
                }
                Err(refused @ Failure::Refused(_)) => return Err(refused.into()),
            }
            thread::sleep(PAUSE_BETWEEN_TRIES);
        }
        Ok(None)
    }

    /// Takes the place if nobody has it, and returns the lease then. A server that only looks
    /// writes nothing: a transaction would be written to the log of each node, also where it
    /// changes nothing.
    fn try_once(
        &self,
        etcd: &mut Etcd,
        kept: &mut Option<Lease>,
        report: &mut impl FnMut(Standing<'_>) -> bool,
    ) -> Result<Option<Lease>, Failure> {
        let asked = request::range_of_one(&key(&self.address));
        let answer = etcd.call("kv/range", &asked, Instant::now() + self.lease)?;
        let found = &answer["kvs"][0];
        // An attempt to take it whose answer was lost may have done it.
        let is_own = |lease: &Lease| found["lease"].as_str() == Some(lease.id.as_str());
        if kept.as_ref().is_some_and(is_own) {
            let Some(lease) = kept.take() else { return Ok(None) };
            return lease.kept_alive(etcd, self.lease);
        }
        if let Some(leader) = found.get("value").and_then(text_of) {
            report(Standing::StandsBy(&leader));
            return Ok(None);
        }
        let now = Instant::now();
        let lease = match kept.take().filter(|lease| lease.is_fresh(self.lease, now)) {
            Some(lease) => lease,
            None => self.grant(etcd)?,
        };
        // It is kept if no answer comes.
        let id = kept.insert(lease).id.clone();
        let is_taken = self.take(etcd, &id)?;
        Ok(kept.take().filter(|_| is_taken))
    }

    /// Puts the address in the place, with this lease, if nobody is there.
    fn take(&self, etcd: &mut Etcd, lease: &str) -> Result<bool, Failure> {
        let key = key(&self.address);
        let asked = json!({
            "compare": [request::has(&key, None)],
            "success": [request::put_leased(&key, &self.advertised, lease)],
            "failure": [request::get(&key)],
        });
        let answer = match etcd.call("kv/txn", &asked, Instant::now() + self.lease) {
            // The lease has run out: another one is asked for in the next turn.
            Err(Failure::Refused(why)) if explain::is_of_lost_lease(&why) => return Ok(false),
            answer => answer?,
        };
        // An attempt whose answer was lost may have done it.
        let is_own = request::found_lease(&answer).as_deref() == Some(lease);
        Ok(request::succeeded(&answer) || is_own)
    }

    fn grant(&self, etcd: &mut Etcd) -> Result<Lease, Failure> {
        let asked = json!({"TTL": self.lease.as_secs().to_string()});
        let granted = Instant::now();
        let answer = etcd.call("lease/grant", &asked, granted + self.lease)?;
        let id = answer["ID"].as_str();
        let id = id.ok_or_else(|| Failure::Refused("etcd gave no lease".to_string()))?;
        Ok(Lease { id: id.to_string(), alive: granted })
    }

    fn term(&self, etcd: Etcd, lease: Lease) -> Term {
        let (stop, stopped) = channel();
        let (running, runs) = channel();
        let length = self.lease;
        let thread = thread::spawn(move || {
            keep(etcd, lease, length, &stopped);
            drop(running);
        });
        Term { stop: Some(stop), runs, thread: Some(thread) }
    }
}

/// What a server that stands by sees.
#[derive(Clone, Copy, Debug, PartialEq, Eq)]
pub enum Standing<'s> {
    /// It looks who has the place.
    Waits,
    /// The server that advertises this address has it.
    StandsBy(&'s str),
    /// The cluster does not answer.
    Unanswered(&'s str),
}

/// A lease of etcd.
struct Lease {
    id: String,
    /// When it was asked for that was granted last.
    alive: Instant,
}

impl Lease {
    /// The lease, kept alive if that is due: none if it has run out.
    fn kept_alive(mut self, etcd: &mut Etcd, length: Duration) -> Result<Option<Lease>, Failure> {
        let asked = Instant::now();
        if self.is_fresh(length, asked) {
            return Ok(Some(self));
        }
        let answer = etcd.call("lease/keepalive", &json!({"ID": self.id}), asked + length / 3);
        let runs = match answer {
            // A node that has just learned who leads reports it.
            Err(Failure::Refused(why)) if explain::is_of_lost_lease(&why) => false,
            answer => number_of(&answer?["result"]["TTL"]) > 0,
        };
        self.alive = asked;
        Ok(runs.then_some(self))
    }

    /// Whether the lease need not be kept alive yet, at this moment.
    fn is_fresh(&self, length: Duration, now: Instant) -> bool {
        now.saturating_duration_since(self.alive) < length / 3
    }
}

/// Whether a lease that was granted for this long has run out by now, unless the cluster knows
/// better.
fn may_have_run_out(alive: Instant, length: Duration, now: Instant) -> bool {
    now.saturating_duration_since(alive) > length
}

/// Keeps the lease alive until it is stopped, and gives it back then, or until it has run out.
fn keep(mut etcd: Etcd, mut lease: Lease, length: Duration, stopped: &Receiver<()>) {
    let id = lease.id.clone();
    while stopped.recv_timeout(length / 10) == Err(RecvTimeoutError::Timeout) {
        let alive = lease.alive;
        match lease.kept_alive(&mut etcd, length) {
            Ok(Some(kept)) => lease = kept,
            Ok(None) | Err(Failure::Refused(_)) => return,
            // Nobody knows, and another server may have the place by now.
            Err(Failure::Unknown(_)) if may_have_run_out(alive, length, Instant::now()) => return,
            Err(Failure::Unknown(_)) => lease = Lease { id: id.clone(), alive },
        }
    }
    // The next server need not wait until the lease has run out. A cluster that is slow to answer is
    // given until then.
    let _ = etcd.call("lease/revoke", &json!({"ID": id}), lease.alive + length);
}

fn key(address: &EtcdAddress) -> String {
    format!("{}/active", address.prefix)
}

impl Term {
    /// Whether the lease still runs, as far as this machine knows.
    #[must_use]
    pub fn runs(&self) -> bool {
        self.runs.try_recv() == Err(std::sync::mpsc::TryRecvError::Empty)
    }

    /// Waits this long for the end of the lease, and returns whether it still runs.
    #[must_use]
    pub fn runs_after(&self, wait: Duration) -> bool {
        self.runs.recv_timeout(wait) == Err(RecvTimeoutError::Timeout)
    }
}

impl Drop for Term {
    fn drop(&mut self) {
        self.stop = None;
        if let Some(thread) = self.thread.take() {
            // A panic of that thread has been reported by itself.
            let _ = thread.join();
        }
    }
}

impl From<Failure> for ElectionError {
    fn from(failure: Failure) -> ElectionError {
        ElectionError(failure.to_string())
    }
}

impl fmt::Display for ElectionError {
    fn fmt(&self, f: &mut fmt::Formatter<'_>) -> fmt::Result {
        f.write_str(&self.0)
    }
}

impl std::error::Error for ElectionError {}

#[cfg(test)]
mod tests {
    use super::*;
    use krl_testing::cluster::Cluster;
    use std::sync::atomic::{AtomicBool, AtomicU32, Ordering};

    /// Each call of the cluster may take this long.
    const LEASE: Duration = Duration::from_secs(30);
    const LONG: Duration = Duration::from_secs(60);

    fn election(address: &EtcdAddress, lease: Duration) -> Election {
        Election::new(address.clone(), Credentials::default(), "other", lease).unwrap()
    }

    /// Does this in the cluster.
    fn set(cluster: &Cluster, operation: &serde_json::Value) {
        cluster.ask("kv/txn", &json!({"success": [operation]}));
    }

    /// Puts a server in the place that keeps it, whatever the machine is busy with.
    fn occupy(cluster: &Cluster, address: &EtcdAddress) {
        set(cluster, &request::put(&key(address), b"one"));
    }

    /// How many entries the log of the node has.
    fn log_entries(cluster: &Cluster) -> u64 {
        number_of(&cluster.ask("maintenance/status", &json!({}))["raftIndex"])
    }

    fn wait_until(is_so: impl Fn() -> bool) {
        let end = Instant::now() + LONG;
        while !is_so() {
            assert!(Instant::now() < end, "it does not come");
            thread::sleep(PAUSE_BETWEEN_TRIES / 10);
        }
    }

    #[test]
    fn a_server_that_stands_by_writes_nothing() {
        let Some(cluster) = Cluster::start() else { return };
        let address = cluster.address("idle");
        occupy(&cluster, &address);
        let (looks, goes_on) = (AtomicU32::new(0), AtomicBool::new(true));
        let begun = Instant::now();
        thread::scope(|scope| {
            let other = scope.spawn(|| {
                election(&address, LEASE).campaign(|standing| {
                    looks.fetch_add(
                        u32::from(standing == Standing::StandsBy("one")),
                        Ordering::SeqCst,
                    );
                    goes_on.load(Ordering::SeqCst) && begun.elapsed() < 3 * LONG
                })
            });
            wait_until(|| looks.load(Ordering::SeqCst) > 0);
            let before = log_entries(&cluster);
            wait_until(|| looks.load(Ordering::SeqCst) > 20);
            let entries = log_entries(&cluster) - before;
            assert!(entries < 10, "{entries} entries of the log for 20 looks");
            goes_on.store(false, Ordering::SeqCst);
            assert!(other.join().unwrap().unwrap().is_none());
        });
    }

    #[test]
    fn a_server_stands_by_over_a_cluster_that_hangs_for_longer_than_a_lease() {
        let Some(cluster) = Cluster::start() else { return };
        let address = cluster.address("hangs");
        occupy(&cluster, &address);
        let (looks, unanswered) = (AtomicU32::new(0), AtomicU32::new(0));
        let begun = Instant::now();
        thread::scope(|scope| {
            let other = scope.spawn(|| {
                election(&address, SHORTEST).campaign(|standing| {
                    looks.fetch_add(
                        u32::from(standing == Standing::StandsBy("one")),
                        Ordering::SeqCst,
                    );
                    let is_unanswered = matches!(standing, Standing::Unanswered(_));
                    unanswered.fetch_add(u32::from(is_unanswered), Ordering::SeqCst);
                    begun.elapsed() < 3 * LONG
                })
            });
            wait_until(|| looks.load(Ordering::SeqCst) > 0);
            cluster.freeze();
            // Each takes as long as a lease.
            wait_until(|| unanswered.load(Ordering::SeqCst) > 1);
            cluster.thaw();
            let before = looks.load(Ordering::SeqCst);
            wait_until(|| looks.load(Ordering::SeqCst) > before);
            set(&cluster, &request::delete(&key(&address)));
            assert!(other.join().unwrap().unwrap().is_some(), "it has the place at last");
        });
    }

    /// Otherwise the next server would wait until the lease has run out.
    #[test]
    fn a_place_is_given_back_to_a_cluster_that_is_slow_to_answer() {
        let Some(cluster) = Cluster::start() else { return };
        let election = election(&cluster.address("slow"), LEASE);
        let term = election.campaign(|_| true).unwrap().unwrap();
        cluster.freeze();
        thread::scope(|scope| {
            scope.spawn(|| drop(term));
            thread::sleep(5 * PAUSE_BETWEEN_TRIES);
            cluster.thaw();
        });
        let begun = Instant::now();
        assert!(election.campaign(|_| begun.elapsed() < LEASE * 2 / 3).unwrap().is_some());
    }

    #[test]
    fn a_lease_is_fresh_for_a_third_of_its_length_and_has_run_out_after_it() {
        let (alive, ms) = (Instant::now(), Duration::from_millis);
        let lease = Lease { id: "4711".to_string(), alive };
        let is_fresh = |after| lease.is_fresh(ms(3000), alive + ms(after));
        assert_eq!([is_fresh(0), is_fresh(999), is_fresh(1000)], [true, true, false]);
        let has_run_out = |after| may_have_run_out(alive, ms(3000), alive + ms(after));
        assert_eq!([has_run_out(0), has_run_out(3000), has_run_out(3001)], [false, false, true]);
    }

    #[test]
    fn a_lease_that_the_cluster_has_lost_is_asked_for_again() {
        let Some(cluster) = Cluster::start() else { return };
        let election = election(&cluster.address("lost"), LEASE);
        let mut etcd = Etcd::new(&election.address, &election.credentials).unwrap();
        let lost = || Lease { id: "4711".to_string(), alive: Instant::now() };
        let mut kept = Some(lost());
        assert!(election.try_once(&mut etcd, &mut kept, &mut |_| true).unwrap().is_none());
        assert!(kept.is_none());
        let stale = Lease { alive: Instant::now().checked_sub(LEASE).unwrap(), ..lost() };
        assert!(stale.kept_alive(&mut etcd, LEASE).unwrap().is_none());
        assert!(election.try_once(&mut etcd, &mut kept, &mut |_| true).unwrap().is_some());
    }

    #[test]
    fn a_place_that_was_taken_by_an_attempt_without_an_answer_is_ones_own() {
        let Some(cluster) = Cluster::start() else { return };
        let election = election(&cluster.address("own"), LEASE);
        let mut etcd = Etcd::new(&election.address, &election.credentials).unwrap();
        let lease = election.try_once(&mut etcd, &mut None, &mut |_| true).unwrap().unwrap();
        let mut kept = Some(Lease { id: lease.id.clone(), alive: lease.alive });
        let found = election.try_once(&mut etcd, &mut kept, &mut |_| true).unwrap();
        assert_eq!(found.map(|lease| lease.id), Some(lease.id));
    }
}
