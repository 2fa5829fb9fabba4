//! What C holds of a client.
use crate::code::Code;
use crate::fault::Fault;
use crate::pin::OwnPin;
use crate::tls::Tls;
use krl::Client;
use krl_ffi::AtExit;
use std::io::{self, ErrorKind};
use std::path::{Path, PathBuf};
use std::sync::Arc;
use std::time::Duration;

/// How long a client that is freed waits until its servers have kept that it left.
const LEAVE_TIMEOUT: Duration = Duration::from_secs(1);

/// A client that has joined. Its pins share it.
#[derive(Debug)]
pub struct Joined {
    client: Arc<Client>,
    tls: Tls,
    /// The file of its map.
    map_file: Option<PathBuf>,
    _at_exit: AtExit,
}

impl Joined {
    pub fn new(client: Client, tls: Tls, map_file: Option<&Path>) -> Joined {
        let client = Arc::new(client);
        let open = Arc::downgrade(&client);
        let at_exit = AtExit::call(move || {
            let _ = open.upgrade().map(|client| client.leave());
        });
        let map_file = map_file.map(Path::to_path_buf);
        Joined { client, tls, map_file, _at_exit: at_exit }
    }

    pub fn client(&self) -> &Client {
        &self.client
    }

    /// The client, whose calls wait for this many milliseconds; 0 stands for its timeout.
    pub fn within(&self, timeout_ms: u64) -> Client {
        match timeout_ms {
            0 => Client::clone(&self.client),
            _ => self.client.within(Duration::from_millis(timeout_ms)),
        }
    }

    /// From now on the client follows the file of its map.
    pub fn follow(&self) -> Result<(), Fault> {
        let file = self.map_file.as_deref();
        let file = file.ok_or_else(|| Fault::misuse("only a client with a map follows it"))?;
        let no_thread = |error: io::Error| match error.kind() {
            ErrorKind::InvalidInput => Fault::misuse(error.to_string()),
            _ => Fault::about(Code::NoThread, "the map is not followed", &error),
        };
        self.client.follow(file).map_err(no_thread)
    }

    pub fn reload_tls(&self) -> Result<(), Fault> {
        self.tls.reload()
    }

    pub fn own(&self, pin: krl::Pin) -> OwnPin {
        OwnPin::new(pin, &self.client)
    }

    /// Leaves. While it has pins the client stays, so it has to leave before.
    pub fn end(self) {
        if Arc::strong_count(&self.client) > 1 {
            let _ = self.client.within(LEAVE_TIMEOUT).leave();
        }
    }
}
