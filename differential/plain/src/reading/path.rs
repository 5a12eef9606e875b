//! 02, No. 1: the path that a no shows. Ways out of the list grow by a link at a time, and those of one length are compared as the rule says.

use super::questions::Question;
use oracle::step_map::Link;
use std::cmp::Ordering;
use std::collections::BTreeMap;

/// Of each step at which a way of some length ends, the way that comes first.
type Ways = BTreeMap<usize, Vec<usize>>;

impl Question<'_> {
    /// "a path that starts in the list, ends in it and has at least one step between, all of those outside the list, each linked to the next.
    /// No shorter one may exist"
    pub fn path(&self, list: &[usize]) -> Option<Vec<usize>> {
        let mut listed = vec![false; self.steps.nodes.len()];
        list.iter().for_each(|&node| listed[node] = true);
        let mut ways: Ways = list.iter().map(|&node| (node, vec![node])).collect();
        // a link goes forward in the order, so ways come to an end
        while !ways.is_empty() {
            ways = self.longer(&ways, |link| !listed[link.to]);
            let back = self.longer(&ways, |link| listed[link.to]);
            if let Some(path) = back.into_values().min_by(|one, other| backwards(one, other)) {
                return Some(path);
            }
        }
        None
    }

    /// The ways with a link more, of those links that fit. Of two ways to one step, what may follow is the same: the one that comes first stays.
    fn longer(&self, ways: &Ways, fits: impl Fn(&Link) -> bool) -> Ways {
        let mut longer = Ways::new();
        for link in self.steps.links.iter().filter(|link| fits(link)) {
            let Some(way) = ways.get(&link.from) else {
                continue;
            };
            let way = [way, &[link.to][..]].concat();
            match longer.get(&link.to) {
                Some(other) if backwards(other, &way).is_le() => (),
                _ => drop(longer.insert(link.to, way)),
            }
        }
        longer
    }
}

/// "among equals, read from the end backwards, the one with the smaller step number at the first difference"
fn backwards(one: &[usize], other: &[usize]) -> Ordering {
    one.iter().rev().cmp(other.iter().rev())
}
