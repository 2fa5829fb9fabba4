//! The lease of a client: what it may send, its signs, and how it ends.
use super::life::Stage;
use super::{Dropped, State};
use crate::lease::boot_clock::Moment;
use crate::lease::of_client::Piggyback;
use crate::lease::terms::Answer;
use crate::lease::terms::Sign;
use crate::model::code::Code;
use std::io::{self, ErrorKind};
use std::time::Duration;

/// A greeting that is not answered for so long is sent again: it may be lost.
const GREETS_AGAIN: u64 = 200_000_000;

/// What a client may send on its connection.
#[derive(Clone, Copy, Debug, PartialEq, Eq)]
pub(super) enum MaySend {
    /// Messages of the library, and signs when they are due.
    Free,
    /// Nothing of the library before the server has sent its terms on this connection: an
    /// incarnation without terms holds nothing. It was greeted at this moment.
    AwaitsTerms(Moment),
}

impl State {
    /// The sign with which a connection begins. Until its answer comes, the library sends nothing.
    pub fn greet(&mut self) -> io::Result<Sign> {
        let now = self.now.boot()?;
        let sign = self.client.lease_mut().greet(now).ok_or(ErrorKind::Interrupted)?;
        self.life.may_send = MaySend::AwaitsTerms(now);
        Ok(sign)
    }

    /// The incarnation is on the disk, so it may be sent.
    pub fn confirm_incarnation(&mut self) -> Result<(), Code> {
        self.client.confirm()
    }

    /// The greeting again, if it has not been answered for long.
    pub fn greet_again_if_due(&mut self) -> Option<Sign> {
        let MaySend::AwaitsTerms(greeted) = self.life.may_send else { return None };
        let now = self.now.boot().ok().filter(|now| now.since(greeted) >= GREETS_AGAIN)?;
        let sign = self.client.lease_mut().greet_again(now)?;
        self.life.may_send = MaySend::AwaitsTerms(now);
        Some(sign)
    }

    /// The connection is one on which the server answers no signs.
    pub fn go_without_terms(&mut self) -> io::Result<()> {
        let now = self.now.boot()?;
        self.client.lease_mut().go_without_terms(now);
        self.begin_to_send();
        Ok(())
    }

    /// The connection has ended. What still comes from it grants nothing.
    pub fn disconnect(&mut self) {
        self.client.lease_mut().disconnect();
        self.repeat_question();
    }

    /// Takes what the server's host answers to a sign. The client's moment is one after it has
    /// come.
    ///
    /// An incarnation that has ended while it sends Bye has left: the Bye is kept, or it was
    /// evicted.
    pub fn receive_answer(&mut self, answer: Answer) -> io::Result<()> {
        match answer {
            Answer::Granted(grant) => {
                if self.client.lease_mut().take(grant, self.now.boot()?) {
                    self.begin_to_send();
                }
            }
            Answer::Ended { incarnation } if incarnation != self.life.incarnation => {}
            Answer::Ended { .. } if self.life.stage == Stage::Leaving => self.life.note_bye_kept(),
            Answer::Ended { .. } => self.drop_all(Dropped::LeaseEnded),
        }
        Ok(())
    }

    /// From now on the library may send, and begins with its Hello.
    fn begin_to_send(&mut self) {
        if self.life.may_send != MaySend::Free {
            self.life.may_send = MaySend::Free;
            self.tick_soon();
        }
    }

    /// Drops all if the client's lease has ended.
    pub fn end_lease_if_over(&mut self) {
        if !self.is_void() && !self.holds_lease() {
            self.drop_all(Dropped::LeaseEnded);
        }
    }

    fn holds_lease(&self) -> bool {
        self.client.lease().end().allows(|| self.now.boot())
    }

    /// Appends what the client sends, and a sign if one is due. What may not be sent is lost, and so
    /// is what there is no memory for: a tick sends it again.
    pub fn take(&mut self, frames: &mut Vec<u8>) {
        let before = frames.len();
        self.append_output(frames);
        if frames.len() > before
            && let Some(written) = &mut self.held.written
        {
            written.note_left();
        }
    }

    /// There is no connection: what the client sends is lost.
    pub fn lose(&mut self) {
        self.append_output(&mut Vec::new());
    }

    fn append_output(&mut self, frames: &mut Vec<u8>) {
        let before = frames.len();
        let _ = self.client.take(frames);
        if self.life.may_send != MaySend::Free || !self.holds_lease() {
            frames.truncate(before);
            return;
        }
        self.life.has_sent |= frames.len() > before;
        self.leave_out_acknowledgement(frames, before);
        self.append_question(frames);
        let is_alone = frames.len() == before;
        let piggyback = if is_alone { Piggyback::Alone } else { Piggyback::OnMessages };
        let now = self.now.boot().ok();
        let sign = now.and_then(|now| self.client.lease_mut().sign_due(now, piggyback));
        frames.extend(sign.map(Sign::frame).unwrap_or_default());
    }

    /// How long the thread of the connection may sleep, as far as signs are due.
    pub fn longest_sleep(&self) -> Option<Duration> {
        self.client.lease().pace()
    }

    /// The last incarnation that the client has begun.
    pub fn incarnation(&self) -> u64 {
        self.life.incarnation
    }

    /// How long the client may answer from its cache if no terms come any more, or `None` if for
    /// ever.
    pub fn lease_left(&self) -> Option<Duration> {
        match self.now.boot() {
            Ok(now) if !self.is_void() => self.client.lease().left(now),
            _ => Some(Duration::ZERO),
        }
    }

    /// Whether the caller still has the pin, it is of this incarnation, and the lease holds. A
    /// client that leaves gives back what it has pinned.
    pub fn holds_pin(&self, id: u64) -> bool {
        self.held.pins.has(id) && self.life.is_here() && self.holds_lease()
    }
}

#[cfg(test)]
mod tests;
