//! Several writes at several shards.
use crate::call::error::{Error, ErrorKind};
use crate::call::mutation::{BatchError, Fate, Judged, Mutation};
use crate::model::change::Outcome;

/// The writes of a call, by their shards.
#[derive(Debug)]
pub(crate) struct Spread {
    count: usize,
    parts: Vec<PartOfBatch>,
}

/// Those at one shard, in their order.
#[derive(Debug)]
pub(crate) struct PartOfBatch {
    pub shard: usize,
    /// The pin there to which they are bound, if they are.
    pub pin: Option<u64>,
    pub writes: Vec<Mutation>,
    /// The place of each in the call.
    places: Vec<usize>,
}

impl Spread {
    /// Sorts the writes by the shards of their keys. `place_of` finds the shard of a key, and the
    /// pin there, if there is one.
    pub fn new(
        writes: &[Mutation],
        place_of: impl Fn(u64) -> Result<(usize, Option<u64>), Error>,
    ) -> Result<Spread, BatchError> {
        let mut spread = Spread { count: writes.len(), parts: Vec::new() };
        for (place, write) in writes.iter().enumerate() {
            match place_of(write.key()) {
                Ok((shard, pin)) => spread.add(shard, pin, place, *write),
                Err(error) => {
                    return Err(BatchError { fates: vec![Fate::NotMade; writes.len()], error });
                }
            }
        }
        spread.parts.sort_by_key(|part| part.shard);
        Ok(spread)
    }

    fn add(&mut self, shard: usize, pin: Option<u64>, place: usize, write: Mutation) {
        if let Some(part) = self.parts.iter_mut().find(|part| part.shard == shard) {
            part.writes.push(write);
            part.places.push(place);
        } else {
            let (writes, places) = (vec![write], vec![place]);
            self.parts.push(PartOfBatch { shard, pin, writes, places });
        }
    }

    /// Adds the pin at a shard to which no write is bound.
    pub fn add_none(&mut self, shard: usize, pin: u64) {
        let (writes, places) = (Vec::new(), Vec::new());
        self.parts.push(PartOfBatch { shard, pin: Some(pin), writes, places });
    }

    /// The parts, the first shard first. Their writes may be taken.
    pub fn parts(&mut self) -> &mut [PartOfBatch] {
        &mut self.parts
    }

    /// The outcomes in the order of the call, of one answer for each part. The error is that of the
    /// first shard that has one.
    pub fn joined(
        &self,
        answers: &[Judged],
        error_at: impl Fn(usize, ErrorKind) -> Error,
    ) -> Result<Vec<Outcome>, BatchError> {
        let mut fates = vec![Fate::NotMade; self.count];
        let mut first_error = None;
        for (part, judged) in self.parts.iter().zip(answers) {
            for (place, fate) in part.places.iter().zip(judged.fates(part.places.len())) {
                fates[*place] = fate;
            }
            let error = judged.ended.map(|why| error_at(part.shard, why));
            first_error = first_error.or(error);
        }
        match first_error {
            Some(error) => Err(BatchError { fates, error }),
            None => Ok(fates.into_iter().filter_map(Fate::outcome).collect()),
        }
    }
}

#[cfg(test)]
mod tests {
    use super::*;
    use Outcome::{Absent, Applied};

    /// Keys below 100 are the first shard's, those below 200 the second's.
    fn spread(keys: &[u64]) -> Result<Spread, BatchError> {
        let writes: Vec<_> = keys.iter().copied().map(Mutation::Delete).collect();
        let shard_of =
            |key| if key < 200 { Ok(usize::from(key >= 100)) } else { Err(ErrorKind::BadKey) };
        Spread::new(&writes, |key| Ok((shard_of(key)?, None)))
    }

    fn at(shard: usize, kind: ErrorKind) -> Error {
        Error { kind, shard: u8::try_from(shard).ok() }
    }

    fn judged(outcomes: &[Outcome], ended: Option<ErrorKind>) -> Judged {
        Judged { outcomes: outcomes.to_vec(), ended }
    }

    #[test]
    fn each_shard_has_its_writes_in_order_and_each_write_its_own_outcome() {
        let mut spread = spread(&[150, 1, 101, 2]).unwrap();
        let keys = |part: &PartOfBatch| part.writes.iter().map(Mutation::key).collect::<Vec<_>>();
        assert_eq!(spread.parts().iter().map(keys).collect::<Vec<_>>(), [[1, 2], [150, 101]]);
        let all = [judged(&[Applied, Absent], None), judged(&[Absent, Applied], None)];
        assert_eq!(spread.joined(&all, at), Ok(vec![Absent, Applied, Applied, Absent]));
    }

    #[test]
    fn the_fate_of_each_write_is_reported_where_one_shard_does_not_answer() {
        let spread = spread(&[150, 1, 101, 2]).unwrap();
        let lost = judged(&[Applied], Some(ErrorKind::TimedOut));
        let error = spread.joined(&[judged(&[Applied, Applied], None), lost], at).unwrap_err();
        let applied = Fate::Judged(Applied);
        assert_eq!(error.fates, [applied, applied, Fate::Unknown, applied]);
        assert_eq!(error.error, at(1, ErrorKind::TimedOut));
        let both = [Judged::nothing(ErrorKind::TurnedAway), judged(&[], Some(ErrorKind::TimedOut))];
        let error = spread.joined(&both, at).unwrap_err();
        assert_eq!(error.error, at(0, ErrorKind::TurnedAway));
        assert_eq!(error.unknown().collect::<Vec<_>>(), [0]);
        assert_eq!(error.not_made().collect::<Vec<_>>(), [1, 2, 3]);
    }

    #[test]
    fn a_pin_is_refused_where_it_is_void_though_there_is_no_write() {
        let mut spread = spread(&[]).unwrap();
        (0..2).for_each(|shard| spread.add_none(shard, 7));
        assert!(spread.parts().iter().all(|part| part.pin == Some(7) && part.writes.is_empty()));
        assert_eq!(spread.joined(&[judged(&[], None), judged(&[], None)], at), Ok(vec![]));
        let void = Judged::nothing(ErrorKind::PinIsVoid);
        let error = spread.joined(&[judged(&[], None), void], at).unwrap_err();
        assert_eq!((error.fates, error.error), (vec![], at(1, ErrorKind::PinIsVoid)));
    }

    #[test]
    fn if_a_key_is_of_no_shard_nothing_is_written() {
        let error = spread(&[1, 200]).unwrap_err();
        assert_eq!((error.fates.len(), error.not_made().count()), (2, 2));
        assert_eq!(error.error, Error::from(ErrorKind::BadKey));
    }
}
