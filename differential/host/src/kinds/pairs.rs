//! All maps of up to 5 nodes with at most one link between any two of them, and the paths of all their lists.

use crate::bench::{Bench, Compared};
use crate::subject::Subject;
use oracle::step_map::{Link, Node, StepMap};

/// Nodes in such a map, at most.
const MOST_NODES: usize = 5;

/// The maps in turn: between the two nodes of a pair there is no link, one forth, or one back.
#[derive(Default)]
pub struct PairMaps {
    nodes: usize,
    /// The map of so many nodes that comes next: a digit to the base 3 for each pair.
    next: usize,
}

impl PairMaps {
    /// Which of them have been asked.
    pub fn complete(&self) -> String {
        match self.nodes {
            nodes if nodes > MOST_NODES => format!("all maps of up to {MOST_NODES} nodes"),
            nodes => format!("{} of the {} maps of {nodes} nodes, all of fewer", self.next, many(nodes)),
        }
    }

    fn next(&mut self) -> Option<StepMap> {
        if self.nodes > MOST_NODES {
            return None;
        }
        let map = map(self.nodes, self.next);
        self.next += 1;
        if self.next == many(self.nodes) {
            (self.nodes, self.next) = (self.nodes + 1, 0);
        }
        Some(map)
    }
}

/// How many maps of so many nodes there are.
fn many(nodes: usize) -> usize {
    3usize.pow((nodes * nodes.saturating_sub(1) / 2) as u32)
}

fn map(nodes: usize, number: usize) -> StepMap {
    let mut links = Vec::new();
    let mut digits = number;
    for (one, other) in (0..nodes).flat_map(|one| (one + 1..nodes).map(move |other| (one, other))) {
        match digits % 3 {
            0 => (),
            1 => links.push((one, other)),
            _ => links.push((other, one)),
        }
        digits /= 3;
    }
    linked(nodes, &links, number % 2 == 0)
}

/// A map with links from node to node. Each has an input of its own; its output is its own too, or the one that all links of its node are on.
pub fn linked(count: usize, pairs: &[(usize, usize)], apart: bool) -> StepMap {
    let mut nodes = vec![Node { inputs: 0, outputs: 0 }; count];
    let mut links = Vec::new();
    for &(from, to) in pairs {
        let output = if apart { nodes[from].outputs } else { 0 };
        links.push(Link { from, output, to, input: nodes[to].inputs });
        nodes[from].outputs = output + 1;
        nodes[to].inputs += 1;
    }
    StepMap::new(nodes, links)
}

/// The next maps, until so many calls were compared or there is none left.
pub fn round(bench: &mut Bench, maps: &mut PairMaps, calls: usize) -> Compared<()> {
    bench.kind("all links between up to 5 nodes");
    let end = bench.calls() + calls;
    while bench.calls() < end {
        let Some(map) = maps.next() else {
            return Ok(());
        };
        if let Some(subject) = Subject::prepare(bench, &map, 0)? {
            paths(bench, &subject)?;
        }
    }
    Ok(())
}

/// The path of every list that has two nodes or more and leaves one out, as a set: only such a one can have a path.
fn paths(bench: &mut Bench, subject: &Subject) -> Compared<()> {
    let nodes = subject.step_map().nodes().len();
    for set in 0..1 << nodes {
        let list: Vec<usize> = (0..nodes).filter(|node| set >> node & 1 == 1).collect();
        if list.len() > 1 && list.len() < nodes {
            subject.path(bench, &list, |_| 0..0)?;
        }
    }
    Ok(())
}
