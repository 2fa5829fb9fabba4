//! Whether a stripe is worth being held.

/// After this many losses in a row nothing is worth less.
const MOST_UNREAD: u8 = 6;

/// Judges by what has become of a stripe. One whose rows are lost again and again before anybody has
/// read them from memory costs its writers and readers more than it saves: it is held again only
/// after 2, 4, 8 .. misses, and after 64 at most.
#[derive(Debug, Default)]
pub(crate) struct Worth {
    /// How many times in a row the rows were lost unread.
    unread: u8,
    /// The misses since the stripe was to be held.
    misses: u8,
}

impl Worth {
    /// Notes that the stripe was lost, and whether a row was read from memory before.
    pub fn note_loss(&mut self, was_read: bool) {
        self.unread = if was_read { 0 } else { (self.unread + 1).min(MOST_UNREAD) };
    }

    /// Notes that a row of the stripe was not in memory. Returns whether the stripe is to be held.
    pub fn note_miss(&mut self) -> bool {
        self.misses += 1;
        let is_due = self.misses >= 1 << self.unread;
        if is_due {
            self.misses = 0;
        }
        is_due
    }
}

#[cfg(test)]
mod tests {
    use super::*;

    /// After how many misses the stripe is to be held.
    fn misses(worth: &mut Worth) -> usize {
        (1..100).find(|_| worth.note_miss()).unwrap()
    }

    #[test]
    fn what_is_lost_unread_is_held_ever_less_often() {
        let mut worth = Worth::default();
        assert_eq!(misses(&mut worth), 1);
        for expected in [2, 4, 8, 16, 32, 64, 64] {
            worth.note_loss(false);
            assert_eq!(misses(&mut worth), expected);
        }
        worth.note_loss(true);
        assert_eq!(misses(&mut worth), 1, "it was read");
    }
}
