//! What a server's host itself sends to a peer: terms, refusals, and that a Bye is stored.
//!
//! The library knows nothing of these frames, and so does not hold them back. A frame may rest on
//! any change that was judged before it, and terms rest on the store's answer that it is still this
//! server's. So each frame waits for the next commit. The loop judges nothing while it commits, so
//! that commit begins after the frame was put here.

/// The frames of a host, by whether they wait for a commit.
#[derive(Debug, Default)]
pub(super) struct HostFrames {
    frames: Vec<u8>,
    /// So many bytes of them may leave.
    free: usize,
    /// Something waits for the next commit: frames, or the end of the connection.
    is_waiting: bool,
}

impl HostFrames {
    /// Something waits for the next commit. Returns whether nothing did before.
    pub fn waits(&mut self) -> bool {
        !std::mem::replace(&mut self.is_waiting, true)
    }

    pub fn put(&mut self, frame: &[u8]) {
        self.is_waiting = true;
        self.frames.extend_from_slice(frame);
    }

    /// Whether something waits for a commit.
    pub fn is_waiting(&self) -> bool {
        self.is_waiting
    }

    /// The commit is made, or nothing had to be committed.
    pub fn committed(&mut self) {
        self.free = self.frames.len();
        self.is_waiting = false;
    }

    /// What may leave.
    pub fn free(&self) -> &[u8] {
        &self.frames[..self.free]
    }

    /// What may leave has left, or is lost.
    pub fn forget_free(&mut self) {
        self.frames.drain(..self.free);
        self.free = 0;
    }
}

#[cfg(test)]
mod tests {
    use super::*;

    #[test]
    fn a_frame_waits_for_a_commit() {
        let mut host_frames = HostFrames::default();
        assert!(host_frames.waits() && !host_frames.waits(), "it waits once");
        host_frames.put(b"first");
        assert!(host_frames.free().is_empty() && host_frames.is_waiting());
        host_frames.committed();
        assert!(!host_frames.is_waiting());
        host_frames.put(b"second");
        assert_eq!(host_frames.free(), b"first");
        host_frames.forget_free();
        assert!(host_frames.free().is_empty() && host_frames.is_waiting());
        host_frames.committed();
        assert_eq!(host_frames.free(), b"second");
    }
}
