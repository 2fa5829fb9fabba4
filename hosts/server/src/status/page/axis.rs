//! Where points lie in a picture.
use super::markup::number;
use crate::status::clients::end_in_words;
use std::ops::Range;

/// The width of a character of a label, in units of the picture.
const CHARACTER: f64 = 6.6;

/// The least space between two labels.
const SPACE: f64 = 12.0;

/// The share of the width that parts get which are in nobody's way, at most, if there are others.
const SHARE_OF_REST: f64 = 1.0 / 3.0;

/// What has its edges on the axis, and how many clients have it in common.
#[derive(Clone, Debug, PartialEq, Eq)]
pub struct Span {
    pub points: Range<u64>,
    pub clients: usize,
}

/// An axis on which each part between two neighboring edges that several clients share is as wide as
/// any other such part: a gap of 2^63 points would hide all else if points were as wide. The other
/// parts are as wide or narrower, so that a client with many keys of its own does not hide those
/// that are contended.
#[derive(Debug)]
pub struct Axis {
    /// In ascending order, each once; the first and the last are the ends of the axis.
    edges: Vec<u64>,
    /// Where each edge lies, from 0 to 1.
    places: Vec<f64>,
    left: f64,
    width: f64,
}

impl Axis {
    /// An axis of these points with the edges of these spans. Edges outside are left out.
    pub fn new(points: &Range<u64>, spans: &[Span], left: f64, width: f64) -> Axis {
        let edges = spans.iter().flat_map(|span| [span.points.start, span.points.end]);
        let inside = edges.filter(|edge| points.contains(edge));
        let mut edges: Vec<u64> = inside.chain([points.start, points.end]).collect();
        edges.sort_unstable();
        edges.dedup();
        let places = places(&shared(&edges, spans));
        Axis { edges, places, left, width }
    }

    /// Where an edge lies; another point lies where its part begins.
    pub fn x(&self, point: u64) -> f64 {
        let rank = self.edges.partition_point(|edge| *edge <= point).saturating_sub(1);
        self.left + self.width * self.places[rank]
    }

    /// The edges that have labels, from left to right: as many as there is space for.
    pub fn labels(&self) -> Vec<u64> {
        let (mut labels, mut free) = (Vec::new(), self.left);
        let last = self.edges.last().copied();
        for edge in self.edges.iter().copied().filter(|edge| Some(*edge) != last) {
            if self.begins(edge) >= free
                && self.ends(edge) + SPACE <= last.map_or(0.0, |it| self.begins(it))
            {
                free = self.ends(edge) + SPACE;
                labels.push(edge);
            }
        }
        labels.extend(last);
        labels
    }

    /// Whether there is an edge between these two.
    pub fn has_between(&self, lo: u64, hi: u64) -> bool {
        self.edges.iter().any(|edge| lo < *edge && *edge < hi)
    }

    /// Where a label begins. That of the first edge begins there, that of the last one ends there,
    /// and the others have theirs in their middle.
    pub fn begins(&self, edge: u64) -> f64 {
        let width = number(end_in_words(edge).len()) * CHARACTER;
        let x = self.x(edge);
        if edge == self.edges[0] {
            x
        } else if Some(&edge) == self.edges.last() {
            x - width
        } else {
            x - width / 2.0
        }
    }

    fn ends(&self, edge: u64) -> f64 {
        self.begins(edge) + number(end_in_words(edge).len()) * CHARACTER
    }
}

/// Whether each part between two neighboring edges is shared by several clients.
fn shared(edges: &[u64], spans: &[Span]) -> Vec<bool> {
    // By how much the clients of each part are more than those of the part before.
    let mut steps = vec![0_isize; edges.len()];
    for Span { points, clients } in spans {
        let place = |point| edges.partition_point(|edge| *edge < point).min(edges.len() - 1);
        let clients = isize::try_from(*clients).unwrap_or(isize::MAX);
        steps[place(points.start)] += clients;
        steps[place(points.end)] -= clients;
    }
    let clients = steps.iter().scan(0, |sum, step| {
        *sum += step;
        Some(*sum)
    });
    clients.take(edges.len() - 1).map(|clients| clients > 1).collect()
}

/// Where the parts begin and the last one ends, from 0 to 1.
fn places(shared: &[bool]) -> Vec<f64> {
    let most = number(shared.iter().filter(|is_shared| **is_shared).count());
    let rest = number(shared.len()) - most;
    let share = if most > 0.0 { SHARE_OF_REST.min(rest / (most + rest)) } else { 1.0 };
    let width = |is_shared: &bool| if *is_shared { (1.0 - share) / most } else { share / rest };
    let widths = shared.iter().map(width);
    let places = widths.scan(0.0, |place, width| {
        *place += width;
        Some(*place)
    });
    [0.0].into_iter().chain(places).collect()
}

#[cfg(test)]
mod tests {
    use super::*;

    fn span(points: Range<u64>, clients: usize) -> Span {
        Span { points, clients }
    }

    fn places_of(axis: &Axis, points: &[u64]) -> String {
        let places: Vec<_> = points.iter().map(|point| format!("{:.1}", axis.x(*point))).collect();
        places.join(" ")
    }

    #[test]
    fn parts_that_nobody_shares_are_as_wide_as_each_other() {
        let spans = [span(10..20, 1), span(20..1 << 63, 1)];
        let axis = Axis::new(&(0..1 << 63), &spans, 100.0, 300.0);
        let places = places_of(&axis, &[0, 10, 15, 20, 1 << 40, 1 << 63]);
        assert_eq!(places, "100.0 200.0 200.0 300.0 300.0 400.0");
        let empty = Axis::new(&(5..6), &[span(0..7, 3)], 0.0, 300.0);
        assert_eq!(places_of(&empty, &[5, 6]), "0.0 300.0");
        assert!(axis.has_between(0, 20) && !axis.has_between(10, 20));
    }

    #[test]
    fn parts_that_several_clients_share_have_most_of_the_width() {
        let own = (0..1000).map(|key| span(10 * key..10 * key + 1, 1));
        let spans: Vec<_> = own.chain([span(9_000..9_001, 2)]).collect();
        let axis = Axis::new(&(0..1 << 63), &spans, 0.0, 300.0);
        assert_eq!(places_of(&axis, &[9_000, 9_001]), "90.0 290.0");
        // Two clients on one key, and neither of them waits.
        let axis = Axis::new(&(0..30), &[span(0..20, 1), span(10..20, 1)], 0.0, 300.0);
        assert_eq!(places_of(&axis, &[0, 10, 20, 30]), "0.0 50.0 250.0 300.0");
        // They are no narrower than they were if nothing is to be hidden.
        let axis = Axis::new(&(0..3), &[span(0..1, 2), span(1..2, 2)], 0.0, 300.0);
        assert_eq!(places_of(&axis, &[0, 1, 2, 3]), "0.0 100.0 200.0 300.0");
    }

    #[test]
    fn labels_do_not_overlap() {
        let spans: Vec<_> =
            (0..200).map(|at| span((1 << 40) + at..(1 << 40) + at + 1, 1)).collect();
        let axis = Axis::new(&(0..1 << 63), &spans, 0.0, 600.0);
        let labels = axis.labels();
        assert!(labels.len() > 4, "{labels:?}");
        for pair in labels.windows(2) {
            assert!(axis.ends(pair[0]) + SPACE <= axis.begins(pair[1]), "{labels:?}");
        }
        assert_eq!((labels[0], labels.last()), (0, Some(&(1 << 63))));
    }
}
