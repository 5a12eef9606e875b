//! What is recorded of a map: its tables, and questions with their answers.

use crate::oracle::{Oracle, PortLines, Walked};
use crate::step_map::{Link, Node};

/// A map with all that the Rust said of it.
pub struct Recording {
    pub nodes: Vec<Node>,
    pub links: Vec<Link>,
    pub lines: usize,
    pub order: Vec<usize>,
    pub positions: Vec<usize>,
    pub lines_of_nodes: Vec<Vec<usize>>,
    pub nodes_of_lines: Vec<Vec<usize>>,
    pub asked: Vec<Asked>,
}

/// A question of document 01 and the Rust's answer. Records are flat: line, lowest, highest, one after the other.
pub enum Asked {
    Line {
        list: Vec<usize>,
        said: Walked,
    },
    Order {
        list: Vec<usize>,
        yes: bool,
    },
    /// Nothing given: not contiguous.
    Intervals {
        list: Vec<usize>,
        given: Option<Vec<usize>>,
    },
    Records {
        records: Vec<usize>,
        said: Walked,
    },
    /// Nothing given: not extendable.
    Extend {
        records: Vec<usize>,
        node: usize,
        given: Option<Vec<usize>>,
    },
    NodesIn {
        records: Vec<usize>,
        nodes: Vec<usize>,
    },
    Port {
        port: usize,
        said: PortLines,
    },
    LinePorts {
        list: Vec<usize>,
        ports: Ports,
        said: Walked,
    },
    OrderPorts {
        list: Vec<usize>,
        ports: Ports,
        yes: bool,
    },
}

/// The ports of a check with ports.
#[derive(Clone)]
pub struct Ports {
    pub inputs: Vec<usize>,
    pub outputs: Vec<usize>,
    /// Whether they alone make the answer no. Kept for the figures, not written.
    pub conflict: bool,
}

impl Recording {
    /// The tables of a map, with nothing asked yet.
    pub fn of_tables(oracle: &Oracle) -> Self {
        let count = oracle.map().nodes().len();
        let lines = oracle.line_count();
        let order = oracle.order();
        let lines_of_nodes: Vec<Vec<usize>> = (0..count).map(|node| oracle.lines_of(node)).collect();
        let mut nodes_of_lines = vec![Vec::new(); lines];
        for &node in &order {
            lines_of_nodes[node].iter().for_each(|&line| nodes_of_lines[line].push(node));
        }
        Self {
            nodes: oracle.map().nodes().to_vec(),
            links: oracle.map().links().to_vec(),
            lines,
            order,
            positions: (0..count).map(|node| oracle.position(node)).collect(),
            lines_of_nodes,
            nodes_of_lines,
            asked: Vec::new(),
        }
    }
}
