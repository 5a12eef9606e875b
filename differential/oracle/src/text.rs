//! Recordings as text, one question a line.
//!
//! Words stand between single spaces; a number is decimal. A recording is these lines, each once, in this order
//! (`..` is any number of numbers, none included), and then its questions in any order:
//!
//! ```text
//! map I                         the recording's number
//! nodes ..                      inputs and outputs of each node
//! links ..                      from node, output offset, to node, input offset of each link, in listing order
//! lines = K
//! order = ..                    nodes
//! positions = ..                by node
//! node-lines V = ..             for each node V
//! line-nodes L = ..             for each line L
//! ```
//!
//! A question is a word, numbers, ` = ` and the answer. Lists in one question are parted by ` ; `. Records are three
//! numbers each: line, lowest, highest.
//!
//! ```text
//! line-check NODES = ANSWER COUNT             ANSWER: yes, no
//! order-check NODES = ANSWER
//! intervals NODES = RECORDS                   or: not contiguous
//! records RECORDS = ANSWER COUNT
//! extend RECORDS ; NODE = RECORDS             or: not extendable
//! nodes-in RECORDS = NODES
//! port PORT = FIRST COUNT ; LINES             FIRST: the first line's place in the list of the port's node
//! line-ports NODES ; INPUTS ; OUTPUTS = ANSWER COUNT
//! order-ports NODES ; INPUTS ; OUTPUTS = ANSWER
//! ```

use crate::oracle::Walked;
use crate::recording::{Asked, Recording};

/// A recording's lines.
pub fn lines(number: usize, recording: &Recording) -> Vec<String> {
    let nodes: Vec<usize> = recording.nodes.iter().flat_map(|n| [n.inputs, n.outputs]).collect();
    let links: Vec<usize> = recording.links.iter().flat_map(|l| [l.from, l.output, l.to, l.input]).collect();
    let mut lines = vec![
        line(&["map", &number.to_string()]),
        line(&["nodes", &list(&nodes)]),
        line(&["links", &list(&links)]),
        line(&["lines =", &recording.lines.to_string()]),
        line(&["order =", &list(&recording.order)]),
        line(&["positions =", &list(&recording.positions)]),
    ];
    lines.extend(table("node-lines", &recording.lines_of_nodes));
    lines.extend(table("line-nodes", &recording.nodes_of_lines));
    lines.extend(recording.asked.iter().map(question));
    lines
}

/// A line for each row, by number.
fn table<'a>(name: &'a str, rows: &'a [Vec<usize>]) -> impl Iterator<Item = String> + 'a {
    let row = move |(number, row): (usize, &Vec<usize>)| line(&[name, &number.to_string(), "=", &list(row)]);
    rows.iter().enumerate().map(row)
}

fn question(asked: &Asked) -> String {
    match asked {
        Asked::Line { list: nodes, said } => line(&["line-check", &list(nodes), "=", &walked(said)]),
        Asked::Order { list: nodes, yes } => line(&["order-check", &list(nodes), "=", answer(*yes)]),
        Asked::Intervals { list: nodes, given } => {
            line(&["intervals", &list(nodes), "=", &records(given, "not contiguous")])
        }
        Asked::Records { records, said } => line(&["records", &list(records), "=", &walked(said)]),
        Asked::Extend { records: before, node, given } => {
            let after = records(given, "not extendable");
            line(&["extend", &list(before), ";", &node.to_string(), "=", &after])
        }
        Asked::NodesIn { records, nodes } => line(&["nodes-in", &list(records), "=", &list(nodes)]),
        Asked::Port { port, said } => {
            let place = list(&[said.first, said.lines.len()]);
            line(&["port", &port.to_string(), "=", &place, ";", &list(&said.lines)])
        }
        Asked::LinePorts { list: nodes, ports, said } => {
            let lists = [list(nodes), list(&ports.inputs), list(&ports.outputs)];
            line(&["line-ports", &lists[0], ";", &lists[1], ";", &lists[2], "=", &walked(said)])
        }
        Asked::OrderPorts { list: nodes, ports, yes } => {
            let lists = [list(nodes), list(&ports.inputs), list(&ports.outputs)];
            line(&["order-ports", &lists[0], ";", &lists[1], ";", &lists[2], "=", answer(*yes)])
        }
    }
}

/// Words with single spaces between; an empty list is no word.
fn line(words: &[&str]) -> String {
    let there: Vec<&str> = words.iter().copied().filter(|word| !word.is_empty()).collect();
    there.join(" ")
}

fn list(numbers: &[usize]) -> String {
    let words: Vec<String> = numbers.iter().map(usize::to_string).collect();
    words.join(" ")
}

fn answer(yes: bool) -> &'static str {
    if yes {
        "yes"
    } else {
        "no"
    }
}

fn walked(said: &Walked) -> String {
    format!("{} {}", answer(said.yes), said.count)
}

fn records(given: &Option<Vec<usize>>, otherwise: &str) -> String {
    given.as_ref().map_or_else(|| otherwise.to_string(), |records| list(records))
}
