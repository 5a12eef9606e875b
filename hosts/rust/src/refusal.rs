//! Why a call is refused: the table of document 01 as an enum.

use std::fmt;

/// Why a call was refused, with its place where the reason has one.
///
/// A later version of the library that refuses for a new reason comes with a new case here, and the compiler shows every `match` that lacks it, unless a
/// catch-all arm hides it.
///
/// ```
/// use varddohas::{prepare, Refusal};
///
/// let refusal = prepare(b"no map", &mut []).unwrap_err();
/// assert_eq!(refusal, Refusal::Malformed);
/// assert_eq!((refusal.number(), refusal.place()), (1, 0));
/// assert_eq!(refusal.to_string(), "the map's length, distances or mark are wrong");
/// ```
///
/// It is an error, so `?` hands it on:
///
/// ```
/// fn lines(map: &[u8]) -> Result<u64, Box<dyn std::error::Error>> {
///     Ok(varddohas::prepare(map, &mut [0; varddohas::LARGEST_AREA])?)
/// }
/// assert!(lines(b"no map").is_err());
/// ```
#[derive(Clone, Copy, Debug, PartialEq, Eq)]
pub enum Refusal {
    /// 1: the map's length, distances or mark are wrong.
    Malformed,
    /// 2: the map passes a size limit.
    TooLarge,
    /// 3: the area has fewer words than the map needs ([`area_words`](crate::area_words)).
    NoRoom,
    /// 4: a link starts or ends at a node or port that is missing.
    MissingEnd { link: usize },
    /// 5: a link is the second one on its input.
    SecondLink { link: usize },
    /// 6: the links run in a cycle; the lowest node that is never ordered. Preparing only.
    Cycle { node: usize },
    /// 7: the area does not hold tables of this map, as preparing writes them. Never in preparing.
    NotAccepted,
    /// 8: an empty list, or no records, where the line checker needs some.
    Empty,
    /// 9: an entry of the list is no node of the map. A node given alone is entry 0.
    UnknownNode { entry: usize },
    /// 10: an entry of the list is equal to an earlier one.
    RepeatedNode { entry: usize },
    /// 11: the result is longer than the lent room; the records, nodes or steps that it needs room for.
    TooLong { needed: usize },
    /// 12: a record stands outside the buffer, has an unknown line or one used before, or ends that are not on it or in the wrong order.
    BadRecord { record: usize },
    /// 13: a node is inside the records on one line and outside on another; the lowest such node.
    Straddling { node: usize },
    /// 14: an entry of the inputs, or else of the outputs, is no port of the map. A port given alone is entry 0.
    UnknownPort { entry: usize },
    /// A number and place that this crate has no name for. The library that it is written for never gives them: they come from another one linked in its place.
    Other { number: u64, place: usize },
}

impl Refusal {
    /// What the library told: nothing that it tells is lost, as `number` and `place` give both back.
    pub(crate) fn told(number: u64, place: u64) -> Self {
        let place = place as usize;
        match (number, place) {
            (1, 0) => Refusal::Malformed,
            (2, 0) => Refusal::TooLarge,
            (3, 0) => Refusal::NoRoom,
            (4, link) => Refusal::MissingEnd { link },
            (5, link) => Refusal::SecondLink { link },
            (6, node) => Refusal::Cycle { node },
            (7, 0) => Refusal::NotAccepted,
            (8, 0) => Refusal::Empty,
            (9, entry) => Refusal::UnknownNode { entry },
            (10, entry) => Refusal::RepeatedNode { entry },
            (11, needed) => Refusal::TooLong { needed },
            (12, record) => Refusal::BadRecord { record },
            (13, node) => Refusal::Straddling { node },
            (14, entry) => Refusal::UnknownPort { entry },
            (number, place) => Refusal::Other { number, place },
        }
    }

    /// The number in document 01's table.
    pub fn number(&self) -> u64 {
        match *self {
            Refusal::Malformed => 1,
            Refusal::TooLarge => 2,
            Refusal::NoRoom => 3,
            Refusal::MissingEnd { .. } => 4,
            Refusal::SecondLink { .. } => 5,
            Refusal::Cycle { .. } => 6,
            Refusal::NotAccepted => 7,
            Refusal::Empty => 8,
            Refusal::UnknownNode { .. } => 9,
            Refusal::RepeatedNode { .. } => 10,
            Refusal::TooLong { .. } => 11,
            Refusal::BadRecord { .. } => 12,
            Refusal::Straddling { .. } => 13,
            Refusal::UnknownPort { .. } => 14,
            Refusal::Other { number, .. } => number,
        }
    }

    /// The place that document 01's table gives: 0 where the reason has none.
    pub fn place(&self) -> usize {
        match *self {
            Refusal::Malformed | Refusal::TooLarge | Refusal::NoRoom | Refusal::NotAccepted | Refusal::Empty => 0,
            Refusal::MissingEnd { link } | Refusal::SecondLink { link } => link,
            Refusal::Cycle { node } | Refusal::Straddling { node } => node,
            Refusal::UnknownNode { entry } | Refusal::RepeatedNode { entry } | Refusal::UnknownPort { entry } => entry,
            Refusal::TooLong { needed } => needed,
            Refusal::BadRecord { record } => record,
            Refusal::Other { place, .. } => place,
        }
    }
}

impl fmt::Display for Refusal {
    fn fmt(&self, out: &mut fmt::Formatter<'_>) -> fmt::Result {
        match *self {
            Refusal::Malformed => write!(out, "the map's length, distances or mark are wrong"),
            Refusal::TooLarge => write!(out, "the map passes a size limit"),
            Refusal::NoRoom => write!(out, "the area has fewer words than the map needs"),
            Refusal::MissingEnd { link } => write!(out, "link {link} has an end at a missing node or port"),
            Refusal::SecondLink { link } => write!(out, "link {link} is the second one on its input"),
            Refusal::Cycle { node } => write!(out, "the links run in a cycle, and node {node} is never ordered"),
            Refusal::NotAccepted => write!(out, "the area does not hold the tables of this map"),
            Refusal::Empty => write!(out, "there is no node or record to check"),
            Refusal::UnknownNode { entry } => write!(out, "entry {entry} is no node of the map"),
            Refusal::RepeatedNode { entry } => write!(out, "entry {entry} is equal to an earlier one"),
            Refusal::TooLong { needed } => write!(out, "the result needs room for {needed} records, nodes or steps"),
            Refusal::BadRecord { record } => write!(out, "record {record} is bad"),
            Refusal::Straddling { node } => write!(out, "node {node} is inside on one line and outside on another"),
            Refusal::UnknownPort { entry } => write!(out, "entry {entry} is no port of the map"),
            Refusal::Other { number, place } => write!(out, "refused for reason {number} at {place}"),
        }
    }
}

impl std::error::Error for Refusal {}

#[cfg(test)]
mod tests {
    use super::Refusal;

    #[test]
    fn nothing_told_is_lost() {
        for number in (0..20).chain([u64::MAX]) {
            for place in [0, 1, 7, u64::MAX] {
                let refusal = Refusal::told(number, place);
                assert_eq!((refusal.number(), refusal.place() as u64), (number, place));
            }
        }
    }

    #[test]
    fn every_number_of_the_table_has_a_name() {
        for number in 1..=14 {
            assert!(!matches!(Refusal::told(number, 0), Refusal::Other { .. }));
        }
        assert_eq!(Refusal::told(15, 0), Refusal::Other { number: 15, place: 0 });
        assert_eq!(Refusal::told(7, 1), Refusal::Other { number: 7, place: 1 });
    }
}
