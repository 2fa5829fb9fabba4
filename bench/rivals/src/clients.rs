//! Several clients, each in a thread of its own.
use crate::system::{Caching, Connection, Done, Found, System};
use std::thread;

type Connections = Vec<Box<dyn Connection>>;

/// The clients from 0 on.
pub fn connect(system: &dyn System, count: u8, caching: Caching) -> Found<Connections> {
    (0..count).map(|number| system.connect(number, caching)).collect()
}

/// Runs all at once, each with its number, and gathers what they come to.
pub fn at_once<T: Send>(
    connections: &mut Connections,
    run: impl Fn(u64, &mut dyn Connection) -> Found<T> + Sync,
) -> Found<Vec<T>> {
    let run = &run;
    thread::scope(|scope| {
        let mut threads = Vec::new();
        for (number, connection) in (0..).zip(connections) {
            threads.push(scope.spawn(move || run(number, connection.as_mut())));
        }
        let ended = threads.into_iter().map(|it| it.join().map_err(|_| "a client panicked")?);
        ended.collect()
    })
}

pub fn close(connections: Connections) -> Done {
    connections.into_iter().try_for_each(Connection::close)
}
