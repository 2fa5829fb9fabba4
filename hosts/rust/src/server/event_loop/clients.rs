//! What a server's loop shows of its clients.
use super::EventLoop;
use crate::lease::clocks::Now;
use crate::server::shown::client_status::ClientStatus;

impl EventLoop {
    /// Sees which clients are there, and since when each has been silent.
    pub(super) fn look_at_clients(&mut self, now: Now) {
        for client in self.connections.clients() {
            if let Some(received) = self.connections.last_received(client) {
                self.last_received.note(client, received);
            }
        }
        // Without that clock the loop ends.
        let Ok(boot) = now.boot() else { return };
        let leases = self.leases.left(boot);
        let status = |(client, lease)| ClientStatus {
            client,
            connection: self.connections.of_client(client, now.monotonic),
            silent_for: self.last_received.silent_for(client, now.monotonic),
            lease,
        };
        self.status.clients = leases.into_iter().map(status).collect();
    }
}
