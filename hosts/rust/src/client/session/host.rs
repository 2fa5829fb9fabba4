//! What a client's host and that of its server send to one another beneath the messages.
use super::{Session, bad_message};
use crate::call::error::{Error, ErrorKind};
use crate::client::state::Dropped;
use crate::lease::terms::Answer;
use crate::log::event_log;
use crate::model::refusal::Refusal;
use crate::net::connect_fault::Rejection;
use crate::wire::host_frame::{FromClient, FromServer};
use crate::wire::read_frame::RowPage;
use std::io;

impl Session {
    /// The Hello of this host, and the shard that it takes the server for.
    pub(super) fn hello(&self) -> Vec<u8> {
        let mut frames = FromClient::Hello(self.seen).frame();
        let shard = self.servers.shard().map(FromClient::Shard);
        frames.extend(shard.map(FromClient::frame).unwrap_or_default());
        frames
    }

    /// Sends the greeting again, if it has not been answered for long.
    pub(super) fn greet_again_if_due(&mut self) -> io::Result<()> {
        if let Some(sign) = self.state.greet_again_if_due() {
            let greeting = [self.hello(), sign.frame()].concat();
            self.connection()?.to_send.extend(greeting);
        }
        Ok(())
    }

    /// Takes what the server's host sends beneath the messages. If the client has to begin again
    /// after it, the connection ends with that.
    pub(super) fn receive_host_frame(&mut self, frame: &[u8]) -> io::Result<()> {
        match FromServer::read(frame) {
            Some(FromServer::Refused(Refusal::OtherShard(served))) => {
                return Err(self.connection()?.fence.is_refused(served).into());
            }
            Some(FromServer::Refused(Refusal::OtherStore)) => return Err(self.leave_other_store()),
            Some(FromServer::Refused(Refusal::Version { read })) => {
                return Err(Rejection::OtherVersion(read).into());
            }
            Some(FromServer::Refused(refusal)) => {
                self.refusal = Some((refusal, self.now()));
                self.end_join_if_hopeless();
                if refusal == Refusal::Denied {
                    return Err(Rejection::NotTaken(refusal.to_string()).into());
                }
            }
            Some(FromServer::Mark(seen)) => self.seen = Some(seen),
            Some(FromServer::WentBack) => {
                self.connection()?.received.went_back = true;
                return Err(self.drop_all());
            }
            Some(FromServer::Shard(served)) => self.connection()?.fence.note_served(served)?,
            Some(FromServer::Hello { answers_signs: false }) => {
                self.connection()?.fence.passes()?;
                self.state.go_without_terms()?;
            }
            Some(FromServer::Hello { answers_signs: true }) => {}
            None => self.receive_host_answer(frame)?,
        }
        Ok(())
    }

    /// Takes the answer to a sign or to a question, which comes after the shard is confirmed.
    fn receive_host_answer(&mut self, frame: &[u8]) -> io::Result<()> {
        if let Some(page) = RowPage::read(frame) {
            self.connection()?.fence.passes()?;
            self.state.receive_rows(page).map_err(bad_message)?;
        } else if let Some(answer) = Answer::read(frame) {
            self.connection()?.fence.passes()?;
            // Who may not sign for the client is denied in place of that.
            self.accepted();
            self.state.receive_answer(answer)?;
        }
        Ok(())
    }

    /// The server's store lacks what the client has seen. From here on nothing of that is answered,
    /// and no message that rests on it is sent or taken: another connection has another
    /// incarnation. Returns why the connection ends.
    fn drop_all(&mut self) -> io::Error {
        self.state.drop_all(Dropped::StoreWentBack);
        self.seen = None;
        // The epochs of an older store may be older too.
        self.epoch = 0;
        event_log::store_went_back(self.address());
        io::Error::other(Error::from(ErrorKind::StoreWentBack))
    }

    /// The server serves another store than the one that the client has seen. From here on nothing
    /// that the client knows of that one is answered: it may be gone. Returns why the
    /// connection ends.
    ///
    /// The client keeps the mark, and so stays refused: without one it would join the other table,
    /// and its callers would not notice. One that has not joined since it dropped all has nothing
    /// to drop, and its calls wait for the right store: no attempt to connect uses up an
    /// incarnation.
    fn leave_other_store(&mut self) -> io::Error {
        if self.state.has_joined() {
            self.state.drop_all(Dropped::OtherStore);
            event_log::store_is_another_one(self.address());
        }
        // Callers learn of it once nothing is answered from the old cache.
        self.refusal = Some((Refusal::OtherStore, self.now()));
        self.end_join_if_hopeless();
        io::Error::other(Refusal::OtherStore.to_string())
    }
}
