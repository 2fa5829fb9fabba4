//! Whose process has ended: such a client need not be waited for until its lease ends.
use crate::model::client_number::{ClientNumber, PerClient};
use crate::net::process::Process;
use std::sync::Arc;

/// The processes of clients of this machine, as far as their hosts have handed them over.
#[derive(Debug)]
pub(crate) struct Processes(PerClient<Option<Holder>>);

/// The process that has the cache of an incarnation.
#[derive(Debug)]
struct Holder {
    incarnation: u64,
    process: Arc<Process>,
}

impl Default for Processes {
    fn default() -> Processes {
        Processes([const { None }; ClientNumber::COUNT as usize])
    }
}

impl Processes {
    /// A message of this incarnation, which is registered, has come on a connection on which this
    /// process was handed over.
    pub fn note(&mut self, client: u8, incarnation: u64, process: &Arc<Process>) {
        let Some(holder) = self.0.get_mut(usize::from(client)) else { return };
        if holder.as_ref().is_none_or(|holder| holder.incarnation != incarnation) {
            *holder = Some(Holder { incarnation, process: Arc::clone(process) });
        }
    }

    /// Whether the registered incarnation of the client is dead, so that it may be evicted before
    /// its lease has ended.
    ///
    /// It is if the process that has its cache has ended, as the system states: then no thread of
    /// that process reads the cache any more. Nothing else shows it: a connection that ends does
    /// not, nor does the end of a process that only connected, such as a relay.
    ///
    /// This assumes that **no other process answers from the cache**. A host therefore hands over
    /// the process in whose memory the cache is, and a child that was forked refuses each call. A
    /// host whose cache several processes read, by shared memory for example, must hand none over.
    pub fn is_dead(&self, client: u8, registered: u64) -> bool {
        let holder = self.0.get(usize::from(client)).and_then(Option::as_ref);
        holder.is_some_and(|it| it.incarnation == registered && it.process.has_ended())
    }
}

#[cfg(test)]
mod tests {
    use super::*;
    use std::os::unix::net::UnixStream;

    /// A process that has ended: its descriptor is ready to be read, as that of any socket whose
    /// other end is gone.
    fn dead() -> Arc<Process> {
        Arc::new(Process::of_descriptor(UnixStream::pair().unwrap().0.into()))
    }

    fn alive() -> Arc<Process> {
        Arc::new(Process::this().unwrap())
    }

    #[test]
    fn a_client_is_dead_if_the_process_of_its_incarnation_has_ended() {
        let mut processes = Processes::default();
        assert!(!processes.is_dead(3, 7), "nothing is known");
        processes.note(3, 7, &dead());
        processes.note(4, 7, &alive());
        assert!(processes.is_dead(3, 7));
        assert!(!processes.is_dead(4, 7));
        assert!(!processes.is_dead(5, 7), "another client");
        assert!(!processes.is_dead(64, 7), "no client");
    }

    #[test]
    fn the_end_of_an_older_process_shows_nothing_of_its_successor() {
        let mut processes = Processes::default();
        processes.note(3, 7, &dead());
        assert!(!processes.is_dead(3, 8));
        processes.note(3, 8, &alive());
        assert!(!processes.is_dead(3, 8) && !processes.is_dead(3, 7));
    }

    #[test]
    fn an_incarnation_has_the_process_that_it_had_first() {
        let mut processes = Processes::default();
        processes.note(3, 7, &alive());
        processes.note(3, 7, &dead());
        assert!(!processes.is_dead(3, 7));
    }
}
