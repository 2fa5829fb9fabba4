//! Several writes of one call, as C names them, and what became of each.
use crate::code::Code;
use crate::fault::Fault;
use crate::input::{GivenRow, row_of};
use krl::error::Fate;
use krl::{BatchError, Mutation, Outcome};
use std::slice;

/// The most writes of a call: this many fit into memory.
const MAX_WRITES: usize = 1 << 27;

/// A `krlc_write` of the header, as a caller writes it: its kind and its length may be anything.
#[derive(Clone, Copy, Debug)]
#[repr(C)]
#[allow(missing_docs, reason = "the header has it")]
pub struct GivenWrite {
    pub kind: u32,
    pub outcome: u32,
    pub row: GivenRow,
}

/// How several writes were judged.
type Judged = Result<Vec<Outcome>, BatchError>;

/// The writes that a caller names. From now on each is one that was not made.
///
/// # Safety
///
/// `at` points to `count` writes, or `count` is 0 or too great; and nothing else uses them as long
/// as the answer lives.
pub unsafe fn writes<'a>(at: *mut GivenWrite, count: usize) -> Result<&'a mut [GivenWrite], Fault> {
    if count == 0 {
        return Ok(&mut []);
    }
    if at.is_null() || count > MAX_WRITES {
        return Err(Fault::misuse("the pointer to writes is null, or they are more than 2^27"));
    }
    // SAFETY: the caller vouches for this many writes, which are less than half of all memory.
    let given = unsafe { slice::from_raw_parts_mut(at, count) };
    note(given, Code::NotMade);
    Ok(given)
}

fn note(given: &mut [GivenWrite], outcome: Code) {
    for write in given {
        write.outcome = outcome as u32;
    }
}

/// Makes the writes by `make`, and notes in each what became of it.
pub fn write_all(
    given: &mut [GivenWrite],
    make: impl FnOnce(Vec<Mutation>) -> Judged,
) -> Result<Code, Fault> {
    let wanted = given.iter().map(mutation_of).collect::<Result<Vec<_>, _>>()?;
    // So they stay if a fault of the library ends the call.
    note(given, Code::Unknown);
    let (fates, fault) = match make(wanted) {
        Ok(outcomes) => (outcomes.into_iter().map(Fate::Judged).collect(), None),
        Err(failed) => (failed.fates, Some(Fault::from(failed.error))),
    };
    for (write, fate) in given.iter_mut().zip(fates) {
        write.outcome = Code::from(fate) as u32;
    }
    fault.map_or(Ok(Code::Ok), Err)
}

fn mutation_of(given: &GivenWrite) -> Result<Mutation, Fault> {
    // The numbers of a `krlc_kind`.
    match given.kind {
        0 => Ok(Mutation::Insert(row_of(&given.row)?)),
        1 => Ok(Mutation::Put(row_of(&given.row)?)),
        2 => Ok(Mutation::Set(row_of(&given.row)?)),
        3 => Ok(Mutation::Delete(given.row.key)),
        kind => Err(Fault::misuse(format!("the kind of a write is 0 to 3, and not {kind}"))),
    }
}

#[cfg(test)]
mod tests {
    use super::*;
    use krl::ErrorKind;
    use std::ptr;

    fn given(kind: u32, key: u64, length: u64) -> GivenWrite {
        GivenWrite { kind, outcome: 7, row: GivenRow { key, length, bytes: [b'v'; 32] } }
    }

    fn outcomes(given: &[GivenWrite]) -> Vec<u32> {
        given.iter().map(|write| write.outcome).collect()
    }

    /// The writes as the call takes them.
    fn taken(given: &mut [GivenWrite]) -> &mut [GivenWrite] {
        // SAFETY: they are the caller's own.
        unsafe { writes(given.as_mut_ptr(), given.len()) }.unwrap()
    }

    #[test]
    fn each_write_has_its_kind_and_gets_its_own_outcome() {
        let mut given = [given(0, 5, 1), given(1, 6, 0), given(2, 7, 32), given(3, 8, 99)];
        let answered = write_all(taken(&mut given), |wanted| {
            assert_eq!(wanted.iter().map(Mutation::key).collect::<Vec<_>>(), [5, 6, 7, 8]);
            assert!(matches!(wanted[0], Mutation::Insert(row) if row.value.as_bytes() == b"v"));
            assert!(matches!(wanted[1], Mutation::Put(row) if row.value.as_bytes().is_empty()));
            assert!(matches!(wanted[2], Mutation::Set(row) if row.value.as_bytes().len() == 32));
            assert!(matches!(wanted[3], Mutation::Delete(8)));
            Ok(vec![Outcome::Exists, Outcome::Applied, Outcome::Full, Outcome::Absent])
        });
        assert_eq!(answered.unwrap(), Code::Ok);
        assert_eq!(outcomes(&given), [1, 0, 3, 2]);
    }

    #[test]
    fn an_error_leaves_with_each_write_what_became_of_it() {
        let mut given = [given(3, 5, 0), given(3, 6, 0), given(3, 7, 0)];
        let fates = vec![Fate::Judged(Outcome::Applied), Fate::Unknown, Fate::NotMade];
        let failed = |_| Err(lost(fates));
        let fault = write_all(taken(&mut given), failed).unwrap_err();
        assert_eq!(fault.code, Code::TimedOut);
        assert_eq!(outcomes(&given), [0, Code::Unknown as u32, Code::NotMade as u32]);
    }

    fn lost(fates: Vec<Fate>) -> BatchError {
        BatchError::new(fates, ErrorKind::TimedOut.into())
    }

    #[test]
    fn nothing_is_made_if_one_write_is_none() {
        for (bad, code) in [(given(4, 5, 0), Code::Misuse), (given(1, 5, 33), Code::TooLong)] {
            let mut given = [given(0, 4, 0), bad];
            let fault = write_all(taken(&mut given), |_| panic!("it is made")).unwrap_err();
            assert_eq!(fault.code, code);
            assert_eq!(outcomes(&given), [Code::NotMade as u32; 2]);
        }
        // SAFETY: no write is looked at.
        unsafe {
            assert_eq!(writes(ptr::null_mut(), 0).unwrap().len(), 0);
            assert_eq!(writes(ptr::null_mut(), 1).unwrap_err().code, Code::Misuse);
            assert_eq!(writes(ptr::dangling_mut(), usize::MAX).unwrap_err().code, Code::Misuse);
        }
    }
}
