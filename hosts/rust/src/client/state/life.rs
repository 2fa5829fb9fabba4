//! How a client leaves and ends; and how it drops what it knows and begins again, after its
//! server's store went back or is another one, or its lease has ended.
use super::leased::MaySend;
use super::pins::PinTable;
use super::policy::acknowledging::Acknowledging;
use super::policy::callbacks::Callbacks;
use super::policy::takings::Takings;
use super::policy::unkept::Question;
use super::request::Request;
use super::writing::Written;
use super::{Asked, Asking, Job, JobId, State};
use crate::call::error::ErrorKind;
use crate::model::refusal::Refusal;
use crate::proved::client_handle::ClientHandle;
use std::mem;

/// What ends with the incarnation of a client: the next one begins with none of it.
#[derive(Default)]
pub(super) struct PerIncarnation {
    pub written: Option<Written>,
    /// The last request for a lock.
    pub request: Option<Request>,
    pub question: Option<Question>,
    /// The last job that could not be answered without a lock.
    pub needs_lock: Option<JobId>,
    pub acknowledging: Acknowledging,
    pub pins: PinTable,
    pub takings: Takings,
    pub callbacks: Callbacks,
}

/// Whether a client is there, and what of its incarnation may leave.
#[derive(Debug)]
pub(super) struct Life {
    pub stage: Stage,
    /// Why the client has dropped all, if it has not begun again.
    pub void: Option<Dropped>,
    has_begun_again: bool,
    /// A message of the library may have left: a server may know the client.
    pub has_sent: bool,
    /// The last incarnation that it has begun.
    pub incarnation: u64,
    pub may_send: MaySend,
}

/// Whether the client is still there.
#[derive(Clone, Copy, Debug, PartialEq, Eq)]
pub(super) enum Stage {
    Here,
    /// It joins again to send Bye: the server may know it by an older incarnation.
    Returning,
    /// It waits for the answer to the write that is on its way, and then sends Bye.
    Finishing,
    /// It sends Bye.
    Leaving,
    /// The server has kept the Bye. Nothing more is asked.
    Gone,
    /// Its thread has ended, and no job continues.
    Ended,
}

/// Why a client has dropped all.
#[derive(Clone, Copy, Debug, PartialEq, Eq)]
pub(crate) enum Dropped {
    StoreWentBack,
    OtherStore,
    LeaseEnded,
}

impl Dropped {
    /// The error of those who wait and can't continue.
    pub fn refused(self) -> ErrorKind {
        match self {
            Dropped::StoreWentBack => ErrorKind::StoreWentBack,
            Dropped::OtherStore => ErrorKind::Unserved(Refusal::OtherStore),
            Dropped::LeaseEnded => ErrorKind::LeaseEnded,
        }
    }
}

impl Life {
    pub fn of(incarnation: u64) -> Life {
        let (stage, may_send) = (Stage::Here, MaySend::Free);
        let (has_begun_again, has_sent) = (false, false);
        Life { stage, void: None, has_begun_again, has_sent, incarnation, may_send }
    }

    /// Whether it has what it was given, and has not begun to leave.
    pub fn is_here(&self) -> bool {
        self.stage == Stage::Here && self.void.is_none()
    }

    /// Whether it leaves, and the server has not kept that.
    pub fn is_leaving(&self) -> bool {
        matches!(self.stage, Stage::Returning | Stage::Finishing | Stage::Leaving)
    }

    /// The server has kept that the client has left, if it has sent Bye.
    pub fn note_bye_kept(&mut self) {
        if self.stage == Stage::Leaving {
            self.stage = Stage::Gone;
        }
    }
}

impl Job {
    /// What happens to an open job when the client drops its state. After the end of a lease it
    /// continues from its start. If the store went back or is another one, only those continue that
    /// join and leave.
    fn after_drop(self, why: Dropped) -> Option<Job> {
        match (self, why) {
            (Job::Hold(taking, reply), Dropped::LeaseEnded) => {
                Some(Job::Hold(taking.begun_again(), reply))
            }
            (Job::Write(wanted, report), Dropped::LeaseEnded) => {
                Some(Job::Write(wanted.begun_again(), report))
            }
            (job @ (Job::Join(_) | Job::Leave(_)), _) | (job, Dropped::LeaseEnded) => Some(job),
            (job, Dropped::StoreWentBack | Dropped::OtherStore) => {
                job.refuse(why.refused());
                None
            }
        }
    }

    /// Ends it as one of a client that has left: to leave again is done.
    pub(super) fn end_after_bye(self) {
        match self {
            Job::Leave(reply) => reply.end(Ok(())),
            job => job.refuse(ErrorKind::Left),
        }
    }

    pub(super) fn refuse(self, why: ErrorKind) {
        match self {
            Job::Join(reply) | Job::Forget(_, reply) | Job::Leave(reply) => reply.end(Err(why)),
            Job::Read(_, reply) => reply.end(Err(why)),
            // One that is open was not sent, or was judged NotHeld.
            Job::Write(_, report) => report.refuse(why.of_unsent_write()),
            Job::Hold(_, reply) => reply.end(Err(why)),
        }
    }
}

impl State {
    /// Ends all jobs, waits for the answer to the write that is on its way, and sends Bye; and sends
    /// it again with each tick until the server has kept it. So a write is judged before Bye, or not
    /// sent at all.
    pub fn leave(&mut self) -> Asked<()> {
        if self.life.stage == Stage::Here {
            let has_to_return = self.has_to_return();
            self.life.stage = if has_to_return { Stage::Returning } else { Stage::Finishing };
        }
        self.add(Job::Leave)
    }

    /// Whether the client leaves or has left.
    pub fn has_begun_to_leave(&self) -> bool {
        self.life.is_leaving() || self.life.stage == Stage::Gone
    }

    /// Whether a client that leaves has to join first, since the server may know it by an older
    /// incarnation only.
    fn has_to_return(&self) -> bool {
        self.is_void() || self.life.has_begun_again && !self.has_joined()
    }

    /// Ends the jobs of a client that leaves, and sends Bye if nothing has to come before it: it has
    /// joined again to do so, and no write is on its way.
    pub(super) fn finish_if_leaving(&mut self) {
        if !self.life.is_leaving() {
            return;
        }
        for (id, job) in mem::take(&mut self.open) {
            match job {
                Job::Leave(_) => self.open.push((id, job)),
                job => self.refuse_one(id, job, ErrorKind::Left),
            }
        }
        let is_ready = match self.life.stage {
            Stage::Returning => self.has_joined(),
            Stage::Finishing => self.held.written.is_none(),
            _ => false,
        };
        match is_ready {
            true if self.life.has_sent => self.send_bye(),
            // No server knows it.
            true => self.life.stage = Stage::Gone,
            false => {}
        }
    }

    fn send_bye(&mut self) {
        self.life.stage = Stage::Leaving;
        // If there is no memory for it just now, the next tick sends it.
        let _ = self.client.leave();
        self.watches.note_change();
    }

    /// The server has not kept in time that the client leaves, and the client ends all the same: it
    /// knows nothing any more, and a write that may have left may have been made or not.
    pub fn end_unanswered(&mut self) {
        if matches!(self.life.stage, Stage::Gone | Stage::Ended) {
            return;
        }
        self.life.stage = Stage::Gone;
        let closed = ClientHandle::closed();
        self.client.replace(closed);
        if let Some(written) = mem::take(&mut self.held).written {
            written.end_unanswered();
        }
        for (_, job) in self.open.drain(..) {
            job.end_after_bye();
        }
        self.watches.note_change();
        self.report_changes();
    }

    /// The client's thread has ended: no job continues, and each one that waits learns it. A client
    /// that has left stays so.
    pub fn end(&mut self) {
        if self.life.stage != Stage::Gone {
            self.life.stage = Stage::Ended;
        }
        for (_, job) in self.open.drain(..) {
            job.refuse(ErrorKind::Stopped);
        }
        if let Some(written) = self.held.written.take() {
            written.refuse(ErrorKind::Stopped);
        }
        self.watches.refuse_all(ErrorKind::Stopped);
    }

    /// The client drops all that it holds and knows, as if it had crashed, and is void until it
    /// begins again: no read is answered, nothing is sent, and nothing that comes is taken. A write
    /// that is on its way ends: if it may have left, it is not known whether it is made. A client
    /// that has left has nothing to drop.
    pub fn drop_all(&mut self, why: Dropped) {
        match self.life.stage {
            Stage::Gone | Stage::Ended => return,
            Stage::Finishing | Stage::Leaving => self.life.stage = Stage::Returning,
            Stage::Here | Stage::Returning => {}
        }
        self.life.void = Some(why);
        self.client.replace(ClientHandle::closed());
        if let Some(written) = mem::take(&mut self.held).written {
            written.end_with_its_client(why.refused());
        }
        self.end_unbound_writes();
        for (id, job) in mem::take(&mut self.open) {
            self.open.extend(job.after_drop(why).map(|job| (id, job)));
        }
        self.watches.note_change();
        self.report_changes();
    }

    /// Whether the client has to begin again.
    pub fn is_void(&self) -> bool {
        self.life.void.is_some()
    }

    /// Whether the client has joined since it began, or began again: otherwise it knows nothing.
    pub fn has_joined(&self) -> bool {
        self.shows(|shown| shown.epoch > 0)
    }

    /// Continues as a client of a greater incarnation, which has not joined yet.
    pub fn begin_again(&mut self, client: ClientHandle) {
        self.life.incarnation = client.lease().incarnation();
        self.client.replace(client);
        self.life.void = None;
        self.life.has_begun_again = true;
        self.advance(Asking::Later);
    }
}
