//! Whether rows in memory may be returned. What the readers promise rests on these functions;
//! `docs/CACHE_PROTOCOL.md` has the argument.
use crate::key::Stripe;
use smallvec::SmallVec;
use std::collections::BTreeSet;

/// Something for each key of a read. That of a read of one key lies in place.
pub(crate) type Few<T> = SmallVec<[T; 1]>;

/// By what the rows of a stripe are held at one moment.
#[derive(Clone, Copy, Debug, PartialEq, Eq)]
pub(crate) struct Held {
    /// The number of the definition of the table by which they are read. No two have the same one,
    /// also if they are of different clients of krl.
    pub definition: u64,
    pub marks: MarkTenures,
    /// The tenure of the stripe.
    pub stripe: u64,
}

/// The tenures of krl's marks, which a reader holds with each stripe.
#[derive(Clone, Copy, Debug, PartialEq, Eq)]
pub(crate) struct MarkTenures {
    /// That of the mark of all tables.
    pub cluster: u64,
    /// That of the mark of the table.
    pub table: u64,
}

/// What the marks and a stripe are held by now, by a definition that was found while the marks were
/// held by `marks`. `stripe` is a tenure that the stripe had. None if one of the three was lost since.
pub(crate) fn held_since(
    definition: u64,
    marks: MarkTenures,
    stripe: u64,
    are_unbroken: [bool; 3],
) -> Option<Held> {
    are_unbroken.iter().all(|is| *is).then_some(Held { definition, marks, stripe })
}

/// Whether rows in memory are those of the database at the moment at which they are held by `now`.
/// They were loaded while they were held by `then`.
pub(crate) fn may_return(then: Held, now: Option<Held>) -> bool {
    now.is_some_and(|now| {
        let (marks, marks_then) = (now.marks, then.marks);
        now.definition == then.definition
            && marks.cluster == marks_then.cluster
            && marks.table == marks_then.table
            && now.stripe == then.stripe
    })
}

/// Finds rows in memory, and returns with them the places of those that are missing or may not be
/// returned. The others are those of the database at one moment: the first one at which `held_now`
/// looks, since all of them were loaded before it, and each is held without a break until after it.
pub(crate) fn find<R>(
    found: impl FnOnce() -> Few<Option<(Held, R)>>,
    held_now: impl FnOnce(&[Option<(Held, R)>]) -> Few<Option<Held>>,
) -> (Few<Option<(Held, R)>>, Missing) {
    let found = found();
    let held = held_now(&found);
    let is_here = |place: &usize| {
        found[*place].as_ref().is_some_and(|(then, _)| may_return(*then, held[*place]))
    };
    let places = (0..found.len()).filter(|place| !is_here(place)).collect();
    (found, Missing { places, held })
}

/// The places of rows that are missing, and by what each row is held.
#[derive(Debug)]
pub(crate) struct Missing {
    pub places: Vec<usize>,
    pub held: Few<Option<Held>>,
}

/// Loads rows of these stripes. Returns them with what each stripe was held by, if its rows may be
/// kept: it was held before the database was asked whether the stripe is quiet, and it was quiet.
///
/// `held_now` returns by what a stripe is held. `load` asks the database which of the stripes that
/// it gets are quiet, and selects the rows after that.
pub(crate) fn load<R, E>(
    stripes: &[Stripe],
    held_now: impl Fn(Stripe) -> Option<Held>,
    load: impl FnOnce(&BTreeSet<Stripe>) -> Result<(BTreeSet<Stripe>, R), E>,
) -> Result<(R, Vec<Option<Held>>), E> {
    let held: Vec<_> = stripes.iter().map(|stripe| held_now(*stripe)).collect();
    let with_held = || stripes.iter().zip(&held);
    let asked = with_held().filter(|(_, held)| held.is_some()).map(|(stripe, _)| *stripe);
    let (quiet, rows) = load(&asked.collect())?;
    let kept = with_held().map(|(stripe, held)| held.filter(|_| quiet.contains(stripe)));
    Ok((rows, kept.collect()))
}

#[cfg(test)]
mod tests {
    use super::*;
    use smallvec::smallvec;
    use std::cell::Cell;
    use std::convert::Infallible;

    const MARKS: MarkTenures = MarkTenures { cluster: 4, table: 5 };
    const HELD: Held = Held { definition: 3, marks: MARKS, stripe: 7 };

    #[test]
    fn rows_are_returned_while_they_are_held_without_a_break() {
        assert!(may_return(HELD, Some(HELD)));
        assert!(!may_return(HELD, None), "they are not held");
    }

    #[test]
    fn no_row_is_returned_after_the_tenure_of_its_stripe() {
        for stripe in [6, 8] {
            assert!(!may_return(HELD, Some(Held { stripe, ..HELD })));
        }
    }

    #[test]
    fn no_row_is_returned_after_the_tenure_of_the_mark_of_all_tables() {
        for cluster in [3, 5] {
            let marks = MarkTenures { cluster, ..MARKS };
            assert!(!may_return(HELD, Some(Held { marks, ..HELD })));
        }
    }

    #[test]
    fn no_row_is_returned_after_the_tenure_of_the_mark_of_its_table() {
        for table in [4, 6] {
            let marks = MarkTenures { table, ..MARKS };
            assert!(!may_return(HELD, Some(Held { marks, ..HELD })));
        }
    }

    #[test]
    fn what_was_lost_since_is_not_held() {
        let held = |are_unbroken| held_since(3, MARKS, 7, are_unbroken);
        assert_eq!(held([true; 3]), Some(HELD));
        for lost in 0..3 {
            assert_eq!(held(std::array::from_fn(|part| part != lost)), None, "{lost}");
        }
    }

    #[test]
    fn no_row_of_another_definition_is_returned() {
        for definition in [2, 4] {
            assert!(!may_return(HELD, Some(Held { definition, ..HELD })));
        }
    }

    #[test]
    fn what_is_not_here_or_was_lost_is_missing() {
        let (found, missing) = find(
            || smallvec![Some((HELD, 1)), Some((HELD, 2)), None, Some((HELD, 4))],
            |_| smallvec![Some(HELD), Some(Held { stripe: 8, ..HELD }), Some(HELD), None],
        );
        assert_eq!(found[0], Some((HELD, 1)));
        assert_eq!(missing.places, [1, 2, 3]);
    }

    #[test]
    fn rows_are_found_before_it_is_asked_what_is_held() {
        let is_found = Cell::new(false);
        let found = || {
            is_found.set(true);
            smallvec![Some((HELD, 1))]
        };
        let (_, missing) = find(found, |_| smallvec![is_found.get().then_some(HELD)]);
        assert_eq!(missing.places, []);
    }

    /// Loads the stripes 0 and 1, of which these are quiet.
    fn load_two(
        held: impl Fn(Stripe) -> Option<Held>,
        quiet: &[u32],
        meanwhile: impl FnOnce(&BTreeSet<Stripe>),
    ) -> Vec<Option<Held>> {
        let quiet = quiet.iter().copied().map(Stripe).collect();
        let asked = |asked: &BTreeSet<Stripe>| {
            meanwhile(asked);
            Ok::<_, Infallible>((quiet, ()))
        };
        let Ok(((), kept)) = load(&[Stripe(0), Stripe(1)], held, asked);
        kept
    }

    #[test]
    fn what_was_not_quiet_is_not_kept() {
        assert_eq!(load_two(|_| Some(HELD), &[0, 1], |_| ()), [Some(HELD); 2]);
        assert_eq!(load_two(|_| Some(HELD), &[1], |_| ()), [None, Some(HELD)]);
        assert_eq!(load_two(|_| Some(HELD), &[], |_| ()), [None; 2]);
    }

    #[test]
    fn what_was_not_held_before_the_load_is_not_kept() {
        let tenure = Cell::new(0);
        let held = |_| match tenure.get() {
            0 => None,
            stripe => Some(Held { stripe, ..HELD }),
        };
        assert_eq!(load_two(held, &[0, 1], |_| tenure.set(7)), [None; 2], "held meanwhile");
        let kept = load_two(held, &[0, 1], |_| tenure.set(8));
        assert_eq!(kept, [Some(HELD); 2], "lost meanwhile, which a read finds by the tenure");
    }

    #[test]
    fn only_what_is_held_is_to_be_quiet() {
        let held = |stripe| (stripe == Stripe(1)).then_some(HELD);
        let asked = |asked: &BTreeSet<Stripe>| assert_eq!(*asked, [Stripe(1)].into());
        assert_eq!(load_two(held, &[0, 1], asked), [None, Some(HELD)]);
    }
}
