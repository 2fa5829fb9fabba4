//! What a store needs that several servers may open at once, wherever it keeps its table.
//!
//! Such a store has a head. Every transaction compares the head with the last one that this server
//! has loaded or set, and sets another one. So of two servers that both believe that they serve, the
//! older one's first change is refused, and it ends. No clock, no lease and no message between
//! servers is needed for that.
//!
//! How a head is stored and compared is the store's own. The rest is here: the content of a head,
//! the [`Fence`]; whether a value of the store may still commit, its [`Ownership`]; and why a
//! transaction has no answer, a [`Failure`].
use crate::model::history::Mark;
use crate::store::StoreError;
use std::fmt;

/// What the head of each store has, whatever else is in it. A transaction compares all of it.
#[derive(Clone, Copy, Debug, Default, PartialEq, Eq)]
pub struct Fence {
    /// The epoch of the server.
    pub epoch: u64,
    /// Random for each value of a store, and 0 if no server has committed anything. It
    /// distinguishes two servers that both read one epoch and both want the next.
    pub owner: u128,
    /// How many transactions the owner has committed. One that is sent again since its answer was
    /// lost, or that comes late, finds another count and does nothing.
    pub transaction: u64,
    /// How many batches of changes the owner has committed whole. Clients notice by it that a store
    /// went back.
    pub commits: u64,
}

/// Why a transaction has no answer.
#[derive(Clone, Debug, PartialEq, Eq)]
pub enum Failure {
    /// It may be done or not, or may still be.
    Unknown(String),
    /// It is not done, and never will be.
    Refused(String),
}

/// Whether a value of a store may still be used. It is loaded once, since what it commits rests on
/// what it has loaded. It commits until something fails, and never again after that: nobody knows
/// then what the store has.
#[derive(Clone, Debug, Default)]
pub struct Ownership(State);

#[derive(Clone, Debug, Default)]
enum State {
    #[default]
    IsNotLoaded,
    IsLoaded,
    Ended(Ended),
}

/// Why nothing is committed any more.
#[derive(Clone, Debug)]
enum Ended {
    Deposed(String),
    Unanswered(String),
    Failed(String),
}

impl Fence {
    /// The fence of a server that has loaded this epoch and has committed nothing yet.
    ///
    /// # Errors
    ///
    /// `Refused` if the system has no random bytes.
    pub fn with_new_owner(epoch: u64) -> Result<Fence, Failure> {
        let owner = u128::from_ne_bytes(draw()?).max(1);
        Ok(Fence { epoch, owner, ..Fence::default() })
    }

    /// The fence that the owner's next transaction sets.
    #[must_use]
    pub fn after_transaction(self) -> Fence {
        Fence { transaction: self.transaction + 1, ..self }
    }

    /// The fence that the last transaction of the owner's next batch sets, before that transaction
    /// is counted.
    #[must_use]
    pub fn after_batch(self) -> Fence {
        Fence { commits: self.commits + 1, ..self }
    }

    /// How far the store had come as its head was this one. `None` if no server has committed
    /// anything.
    #[must_use]
    pub fn mark(self) -> Option<Mark> {
        let Fence { owner: start, commits, .. } = self;
        (start != 0).then_some(Mark { start, commits })
    }
}

impl Ownership {
    /// Whether the store may be loaded by this value.
    ///
    /// # Errors
    ///
    /// If it has been loaded already, or why it has ended.
    pub fn may_load(&self) -> Result<(), StoreError> {
        match &self.0 {
            State::IsNotLoaded => Ok(()),
            State::IsLoaded => Err(StoreError::failed("the store has been loaded already")),
            State::Ended(ended) => Err(ended.error()),
        }
    }

    /// The store has been loaded.
    pub fn note_loaded(&mut self) {
        self.0 = State::IsLoaded;
    }

    /// Whether this value may commit, or report what it has committed.
    ///
    /// # Errors
    ///
    /// If the store has not been loaded, or why it has ended.
    pub fn may_commit(&self) -> Result<(), StoreError> {
        match &self.0 {
            State::IsNotLoaded => Err(StoreError::failed("the store has not been loaded")),
            State::IsLoaded => Ok(()),
            State::Ended(ended) => Err(ended.error()),
        }
    }

    /// Judges a transaction by the head that stands after it. That is the expected one if the
    /// transaction was done, also by an attempt whose answer was lost. Otherwise this value commits
    /// nothing any more.
    ///
    /// # Errors
    ///
    /// `Deposed` if the head is another one, or none where one is expected. `Unanswered` if the
    /// failure is `Unknown`, and `Failed` if it is `Refused`.
    pub fn judge<Head: fmt::Display + PartialEq>(
        &mut self,
        found: Result<Option<Head>, Failure>,
        expected: Option<&Head>,
    ) -> Result<(), StoreError> {
        let ended = match found {
            Ok(head) if head.as_ref() == expected => return Ok(()),
            Ok(Some(other)) => Ended::Deposed(other.to_string()),
            Ok(None) => Ended::Deposed("no head that a server of krl sets".to_string()),
            Err(Failure::Unknown(why)) => Ended::Unanswered(why),
            Err(Failure::Refused(why)) => Ended::Failed(why),
        };
        let error = ended.error();
        self.0 = State::Ended(ended);
        Err(error)
    }
}

impl Ended {
    fn error(&self) -> StoreError {
        match self {
            Ended::Deposed(found) => StoreError::Deposed(found.clone()),
            Ended::Unanswered(why) => StoreError::Unanswered(why.clone().into()),
            Ended::Failed(why) => StoreError::failed(why.clone()),
        }
    }
}

impl From<Failure> for StoreError {
    fn from(failure: Failure) -> StoreError {
        match failure {
            Failure::Unknown(why) => StoreError::Unanswered(why.into()),
            Failure::Refused(why) => StoreError::failed(why),
        }
    }
}

impl fmt::Display for Failure {
    fn fmt(&self, f: &mut fmt::Formatter<'_>) -> fmt::Result {
        let (Failure::Unknown(why) | Failure::Refused(why)) = self;
        f.write_str(why)
    }
}

impl std::error::Error for Failure {}

impl fmt::Display for Fence {
    fn fmt(&self, f: &mut fmt::Formatter<'_>) -> fmt::Result {
        let Fence { epoch, owner, transaction, .. } = self;
        write!(f, "epoch {epoch}, transaction {transaction} of {owner:032x}")
    }
}

/// Random bytes of the system.
///
/// # Errors
///
/// `Refused` if it has none.
pub fn draw<const COUNT: usize>() -> Result<[u8; COUNT], Failure> {
    let mut bytes = [0; COUNT];
    getrandom::getrandom(&mut bytes)
        .map_err(|error| Failure::Refused(format!("this machine draws no bits: {error}")))?;
    Ok(bytes)
}

#[cfg(test)]
mod tests {
    use super::*;

    const HEAD: Fence = Fence { epoch: 3, owner: 7, transaction: 5, commits: 4 };

    fn loaded() -> Ownership {
        let mut ownership = Ownership::default();
        ownership.may_load().unwrap();
        assert!(ownership.may_commit().is_err(), "it is not loaded");
        ownership.note_loaded();
        ownership
    }

    #[test]
    fn a_store_is_loaded_once() {
        let mut ownership = loaded();
        assert!(ownership.may_load().is_err() && ownership.may_commit().is_ok());
        assert!(ownership.judge(Ok(Some(HEAD)), Some(&HEAD)).is_ok());
        assert!(ownership.judge::<Fence>(Ok(None), None).is_ok(), "a new store has no head");
        assert!(ownership.may_commit().is_ok());
    }

    #[test]
    fn what_is_not_known_to_be_done_ends_it_for_good() {
        let others = [
            Fence { epoch: 4, ..HEAD },
            Fence { owner: 8, ..HEAD },
            Fence { transaction: 6, ..HEAD },
            Fence { commits: 5, ..HEAD },
        ];
        let others = others.map(|other| Ok(Some(other))).into_iter().chain([Ok(None)]);
        let failures = [Failure::Unknown("x".into()), Failure::Refused("x".into())];
        for found in others.chain(failures.map(Err)) {
            let mut ownership = loaded();
            let kind = |error: &StoreError| std::mem::discriminant(error);
            let error = ownership.judge(found.clone(), Some(&HEAD)).unwrap_err();
            let is_expected = match &found {
                Ok(_) => matches!(error, StoreError::Deposed(_)),
                Err(Failure::Unknown(_)) => matches!(error, StoreError::Unanswered(_)),
                Err(Failure::Refused(_)) => matches!(error, StoreError::Failed(_)),
            };
            assert!(is_expected, "{found:?}: {error}");
            let later = [ownership.may_commit(), ownership.may_load()].map(Result::unwrap_err);
            assert!(later.iter().all(|later| kind(later) == kind(&error)), "{found:?}");
        }
        let mut ownership = loaded();
        assert!(ownership.judge(Ok(Some(HEAD)), None).is_err(), "somebody else was first");
    }

    #[test]
    fn each_owner_is_another_one() {
        let [one, other] = [0; 2].map(|_| Fence::with_new_owner(3).unwrap());
        assert_ne!(one.owner, other.owner);
        assert_eq!((one.epoch, one.transaction, one.commits), (3, 0, 0));
        assert_eq!(one.mark(), Some(Mark { start: one.owner, commits: 0 }));
        assert_eq!(Fence::default().mark(), None);
        let next = HEAD.after_batch().after_transaction();
        assert_eq!(next, Fence { transaction: 6, commits: 5, ..HEAD });
    }
}
