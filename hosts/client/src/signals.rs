//! What signals do: they end the process, or a watch, or go to the command that `hold` runs.
use crate::failure::SIGNALLED;
use krl::Client;
use nix::sys::signal::{Signal, kill};
use nix::unistd::Pid;
use signal_hook::consts::{SIGHUP, SIGINT, SIGQUIT, SIGTERM, SIGUSR1, SIGUSR2};
use signal_hook::iterator::Signals as Incoming;
use std::io::{self, IsTerminal};
use std::process::{self, Child};
use std::sync::atomic::{AtomicBool, Ordering};
use std::sync::{Arc, Mutex, MutexGuard, PoisonError, Weak};
use std::thread;
use std::time::{Duration, Instant};

/// How long a process that a signal ends waits for each thing that it still has to do.
pub const LEAVE_TIMEOUT: Duration = Duration::from_secs(1);

/// What takes the signals.
#[derive(Clone, Copy, Debug)]
enum Taker {
    /// The process ends.
    Process,
    /// A loop ends when it looks.
    Loop,
    /// A command that runs.
    Command(Pid),
}

/// The signals of this process, which a thread of their own takes.
#[derive(Clone)]
pub struct Signals(Arc<Shared>);

struct Shared {
    taker: Mutex<Taker>,
    clients: Mutex<Vec<Weak<Client>>>,
    is_loop_ended: AtomicBool,
}

/// Signals go to the process again when this is gone.
pub struct Taken<'s>(&'s Signals);

impl Signals {
    /// Takes the signals from now on.
    pub fn take() -> io::Result<Signals> {
        let mut incoming = Incoming::new([SIGINT, SIGTERM, SIGHUP, SIGQUIT, SIGUSR1, SIGUSR2])?;
        let shared = Shared {
            taker: Mutex::new(Taker::Process),
            clients: Mutex::default(),
            is_loop_ended: AtomicBool::new(false),
        };
        let signals = Signals(Arc::new(shared));
        let for_thread = signals.clone();
        let run = move || incoming.forever().for_each(|signal| for_thread.came(signal));
        thread::Builder::new().name("signals".into()).spawn(run)?;
        Ok(signals)
    }

    /// The client leaves, as others do, when a signal ends the process.
    pub fn ends(&self, client: &Arc<Client>) {
        lock(&self.0.clients).push(Arc::downgrade(client));
    }

    /// The next signal ends a loop, and one after it the process.
    pub fn to_loop(&self) -> Taken<'_> {
        self.0.is_loop_ended.store(false, Ordering::Release);
        *lock(&self.0.taker) = Taker::Loop;
        Taken(self)
    }

    /// Signals go to the command that is started, also those that come while it starts.
    pub fn to_command(
        &self,
        start: impl FnOnce() -> io::Result<Child>,
    ) -> io::Result<(Child, Pid, Taken<'_>)> {
        let mut taker = lock(&self.0.taker);
        let command = start()?;
        let number = Pid::from_raw(i32::try_from(command.id()).map_err(io::Error::other)?);
        *taker = Taker::Command(number);
        Ok((command, number, Taken(self)))
    }

    /// Waits while a signal is obeyed. It does not come back if that ends the process: what a
    /// command then reports of its client, which has left, does not matter.
    pub fn settle(&self) {
        drop(lock(&self.0.taker));
    }

    fn came(&self, signal: i32) {
        // While this is locked, no command ends unnoticed and leaves its number to another process.
        let mut taker = lock(&self.0.taker);
        match *taker {
            Taker::Process => self.end_process(signal),
            Taker::Loop => {
                self.0.is_loop_ended.store(true, Ordering::Release);
                *taker = Taker::Process;
            }
            Taker::Command(command) => send(signal, command),
        }
    }

    fn end_process(&self, signal: i32) -> ! {
        let end = Instant::now() + LEAVE_TIMEOUT;
        let clients: Vec<_> = lock(&self.0.clients).iter().filter_map(Weak::upgrade).collect();
        // All send Bye before one is waited for; and the process ends in any case.
        for client in &clients {
            let _ = client.within(Duration::ZERO).leave();
        }
        for client in &clients {
            let _ = client.within(end.saturating_duration_since(Instant::now())).leave();
        }
        process::exit(i32::from(SIGNALLED) + signal)
    }
}

impl Taken<'_> {
    /// Whether a signal has ended the loop.
    pub fn is_ended(&self) -> bool {
        self.0.0.is_loop_ended.load(Ordering::Acquire)
    }
}

impl Drop for Taken<'_> {
    fn drop(&mut self) {
        *lock(&self.0.0.taker) = Taker::Process;
    }
}

/// A terminal sends Ctrl-C and Ctrl-\ to the command itself.
fn send(signal: i32, command: Pid) {
    let is_of_terminal = matches!(signal, SIGINT | SIGQUIT) && io::stdin().is_terminal();
    if is_of_terminal {
        return;
    }
    if let Ok(signal) = Signal::try_from(signal) {
        // A command that has just ended takes no signal, and that is not an error.
        let _ = kill(command, signal);
    }
}

fn lock<T>(mutex: &Mutex<T>) -> MutexGuard<'_, T> {
    mutex.lock().unwrap_or_else(PoisonError::into_inner)
}
