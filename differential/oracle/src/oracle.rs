//! Document 01's questions, put to the given Rust.
//!
//! Outside its domain the Rust panics, answers wrongly or never returns: on an empty list or on repeats (line
//! checker), and on records that no list has. Every call here that could leave the domain asserts that it does not.

use crate::step_map::StepMap;
use portgraph::algorithms::{toposort, TopoSort};
use portgraph::algorithms::{ConvexChecker, LineConvexChecker, LineIndex, LineIntervals, TopoConvexChecker};
use portgraph::{Direction, LinkView, NodeIndex, PortIndex, PortView};

/// What a walk says: yes or no, and how many nodes it counted.
#[derive(Debug, Clone, Copy, PartialEq, Eq)]
pub struct Walked {
    pub yes: bool,
    pub count: usize,
}

impl Walked {
    /// A no without a walk.
    const REFUTED: Walked = Walked { yes: false, count: 0 };
}

/// A port's lines, and the first one's place in the list of its node.
#[derive(Debug, Clone, PartialEq, Eq)]
pub struct PortLines {
    pub first: usize,
    pub lines: Vec<usize>,
}

/// Both checkers over one map.
pub struct Oracle<'m> {
    map: &'m StepMap,
    line: LineConvexChecker<&'m StepMap>,
    topo: TopoConvexChecker<&'m StepMap>,
}

impl<'m> Oracle<'m> {
    /// Both checkers, for a map without a cycle.
    pub fn new(map: &'m StepMap) -> Self {
        let oracle = Self { map, line: LineConvexChecker::new(map), topo: TopoConvexChecker::new(map) };
        assert_eq!(oracle.order().len(), map.node_count(), "a cycle");
        oracle
    }

    pub fn map(&self) -> &'m StepMap {
        self.map
    }

    /// The order, from all nodes without linked inputs.
    pub fn order(&self) -> Vec<usize> {
        order(self.map)
    }

    pub fn position(&self, node: usize) -> usize {
        self.line.get_position(NodeIndex::new(node)).0 as usize
    }

    /// The lines of a node, in the order of its list.
    pub fn lines_of(&self, node: usize) -> Vec<usize> {
        numbers(self.line.get_lines(NodeIndex::new(node)))
    }

    /// Document 01's K. The checker keeps its lines to itself, but no line is without a node.
    pub fn line_count(&self) -> usize {
        let all = (0..self.map.node_count()).flat_map(|node| self.lines_of(node));
        all.max().map_or(0, |highest| highest + 1)
    }

    /// The nodes of a line: those that list it, in the order.
    pub fn nodes_of(&self, line: usize) -> Vec<usize> {
        let mut nodes = self.order();
        nodes.retain(|&node| self.lines_of(node).contains(&line));
        nodes
    }

    /// Records, or nothing for "not contiguous".
    pub fn intervals(&self, list: &[usize]) -> Option<LineIntervals> {
        assert!(is_set(list), "repeats for the line checker: {list:?}");
        self.line.get_intervals_from_nodes(nodes(list))
    }

    pub fn line_check(&self, list: &[usize]) -> Walked {
        assert!(!list.is_empty(), "an empty list for the line checker");
        let said = || self.line.is_node_convex(nodes(list));
        if self.intervals(list).is_none() {
            assert!(!said());
            return Walked::REFUTED;
        }
        self.observe(said)
    }

    pub fn check_by_records(&self, records: &LineIntervals) -> Walked {
        assert!(self.is_usable(records), "records of no list: {records:?}");
        self.observe(|| self.line.is_convex_by_intervals(records))
    }

    /// The records with one node more, or nothing for "not extendable".
    pub fn extend(&self, records: &LineIntervals, node: usize) -> Option<LineIntervals> {
        assert!(self.is_usable(records), "records of no list: {records:?}");
        let mut extended = records.clone();
        if self.line.try_extend_intervals(&mut extended, NodeIndex::new(node)) {
            return Some(extended);
        }
        assert_eq!(&extended, records, "not extendable, yet changed");
        None
    }

    pub fn nodes_in(&self, records: &LineIntervals) -> Vec<usize> {
        assert!(self.is_usable(records), "records of no list: {records:?}");
        let inside = self.line.nodes_in_intervals(records);
        inside.map(|node| node.index()).collect()
    }

    pub fn lines_at_port(&self, port: usize) -> PortLines {
        let all = self.line.get_lines(NodeIndex::new(self.map.owner(port)));
        let part = self.line.lines_at_port(PortIndex::new(port));
        // The Rust answers a part of the node's list. Where it starts shows in its address, also when it is empty.
        let bytes = part.as_ptr() as usize - all.as_ptr() as usize;
        PortLines { first: bytes / size_of::<LineIndex>(), lines: numbers(part) }
    }

    pub fn order_check(&self, list: &[usize]) -> bool {
        self.topo.is_node_convex(nodes(list))
    }

    pub fn line_check_with_ports(&self, list: &[usize], inputs: &[usize], outputs: &[usize]) -> Walked {
        assert!(!list.is_empty(), "an empty list for the line checker");
        let said = |list: &[usize]| self.line.is_convex(nodes(list), ports(inputs), ports(outputs));
        if self.have_conflict(inputs, outputs) || self.intervals(list).is_none() {
            assert!(!said(list));
            return Walked::REFUTED;
        }
        self.observe(|| said(list))
    }

    pub fn order_check_with_ports(&self, list: &[usize], inputs: &[usize], outputs: &[usize]) -> bool {
        self.topo.is_convex(nodes(list), ports(inputs), ports(outputs))
    }

    /// Whether the ports alone make the answer no. Nothing else speaks against no nodes, so the order checker's
    /// answer for them tells.
    pub fn have_conflict(&self, inputs: &[usize], outputs: &[usize]) -> bool {
        !self.order_check_with_ports(&[], inputs, outputs)
    }

    /// Whether record calls may be asked about these records: there is one, and rule 13 of document 01 does not
    /// refuse them, that is no node is inside on one of its lines and outside on another.
    pub fn is_usable(&self, records: &LineIntervals) -> bool {
        let inside = |node: usize, line: usize| {
            let record = records.get(LineIndex(line as u32));
            let position = self.position(node) as u32;
            record.is_some_and(|record| (record.min.0..=record.max.0).contains(&position))
        };
        let agrees = |node: usize| {
            let lines = self.lines_of(node);
            let count = lines.iter().filter(|&&line| inside(node, line)).count();
            count == 0 || count == lines.len()
        };
        !records.is_empty() && (0..self.map.node_count()).all(agrees)
    }

    /// Runs a walk and observes its count: the Rust asks for the neighbours of every node that it counts, except of
    /// the one at which it says no.
    fn observe(&self, walk: impl FnOnce() -> bool) -> Walked {
        self.map.forget_walks();
        let yes = walk();
        let count = self.map.walked_from() + usize::from(!yes);
        Walked { yes, count }
    }
}

/// The order of a map's nodes, from all nodes without linked inputs; those behind or on a cycle are not in it.
pub fn order(map: &StepMap) -> Vec<usize> {
    let free = |&node: &NodeIndex| map.input_neighbours(node).count() == 0;
    let sorted: TopoSort<_> = toposort(map, map.nodes_iter().filter(free), Direction::Outgoing);
    sorted.map(|node| node.index()).collect()
}

/// Records as document 01 writes them: line, lowest, highest.
pub fn flat(records: &LineIntervals) -> Vec<usize> {
    let words = |(line, record): (LineIndex, portgraph::algorithms::LineInterval)| {
        [line.0, record.min.0, record.max.0].map(|word| word as usize)
    };
    records.iter().flat_map(words).collect()
}

fn is_set(list: &[usize]) -> bool {
    (0..list.len()).all(|at| !list[..at].contains(&list[at]))
}

fn nodes(list: &[usize]) -> impl Iterator<Item = NodeIndex> + '_ {
    list.iter().map(|&node| NodeIndex::new(node))
}

fn ports(list: &[usize]) -> impl Iterator<Item = PortIndex> + '_ {
    list.iter().map(|&port| PortIndex::new(port))
}

fn numbers(lines: &[LineIndex]) -> Vec<usize> {
    lines.iter().map(|line| line.0 as usize).collect()
}
