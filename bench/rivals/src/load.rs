//! How long calls take as more clients make them at once: the mix.
use crate::measures::Plan;
use crate::mix::{self, Calls};
use crate::system::{Caching, Done, System};

/// Prints a line of CSV for each number of clients, and each kind of call. No row that is read is
/// stale: a system whose cache may be stale is asked for each read.
pub fn print(systems: &[Box<dyn System>], clients: &[u8], plan: &Plan) -> Done {
    println!("system,clients,kind,calls_a_second,p50_us,p99_us");
    for &clients in clients {
        for system in systems {
            let caching = if system.may_be_stale() { Caching::Off } else { Caching::On };
            let mix = mix::of(system.as_ref(), clients, caching, plan)?;
            line(system.name(), clients, "read", &mix.reads, plan);
            line(system.name(), clients, "write", &mix.writes, plan);
        }
    }
    Ok(())
}

fn line(system: &str, clients: u8, kind: &str, calls: &Calls, plan: &Plan) {
    let rate = crate::measures::rate(calls.count, plan.mixing);
    let [p50, p99] = [50, 99].map(|percent| calls.percentile(percent).as_secs_f64() * 1e6);
    println!("{system},{clients},{kind},{rate:.0},{p50:.2},{p99:.2}");
}
