//! The Rust's answers as lines. Each of them is held against the reading's first.

use crate::line::{list, map, question, read_answer, Line};
use oracle::oracle::Walked;
use oracle::random::Random;
use oracle::recording::{Asked, Recording};
use plain::call::{number_bytes, Call, Name};
use std::rc::Rc;

/// Words of a buffer behind the result, at most.
const SPARE: usize = 6;

/// The lines of the map with its tables.
pub fn tables(recording: &Recording) -> Vec<Line> {
    let answer = vec![1, recording.lines, 0, 0];
    let map = [map(&recording.nodes, &recording.links), answer].concat();
    let (of_nodes, of_lines) = (&recording.lines_of_nodes, &recording.nodes_of_lines);
    let tables = [
        recording.order.clone(),
        recording.positions.clone(),
        starts(of_nodes),
        of_nodes.concat(),
        starts(of_lines),
        of_lines.concat(),
    ];
    let tables = tables.iter().enumerate().map(|(number, table)| [vec![2 + number], list(table)].concat());
    [map].into_iter().chain(tables).collect()
}

/// Where each list starts, and where the last one ends.
fn starts(lists: &[Vec<usize>]) -> Vec<usize> {
    let ends = lists.iter().scan(0, |end, list| {
        *end += list.len();
        Some(*end)
    });
    [0].into_iter().chain(ends).collect()
}

/// The line of a question. Buffers are longer than the result, and full of words that are not 0.
pub fn line(random: &mut Random, map: &Rc<[u8]>, area: &Rc<[u8]>, asked: &Asked) -> Line {
    let call = |name: Name| Call::new(name, map, area);
    let with = |name: Name, nodes: &[usize]| call(name).list(number_bytes(nodes));
    let (call, said) = match asked {
        Asked::Line { list: nodes, said } => (with(Name::LineIsNodeConvex, nodes), walked(said)),
        Asked::Order { list: nodes, yes } => (with(Name::TopoIsNodeConvex, nodes), replied(*yes)),
        Asked::Records { records, said } => {
            (call(Name::IsConvexByIntervals).records(number_bytes(records), records.len() / 3), walked(said))
        }
        Asked::Intervals { list: nodes, given } => {
            let buffer = marks(random, given.as_ref().map_or(0, Vec::len));
            let said = written(given, &buffer);
            (with(Name::GetIntervalsFromNodes, nodes).buffer(number_bytes(&buffer)), said)
        }
        Asked::Extend { records, node, given } => {
            let more = given.as_ref().map_or(0, |given| given.len() - records.len());
            let buffer = [records.clone(), marks(random, more)].concat();
            let said = written(given, &buffer);
            let call = call(Name::TryExtendIntervals).records(number_bytes(&buffer), records.len() / 3);
            (call.index(*node), said)
        }
        Asked::NodesIn { records, nodes } => {
            let buffer = marks(random, nodes.len());
            let said = [vec![1, nodes.len(), 0, 0], list(&over(&buffer, nodes))].concat();
            let call = call(Name::NodesInIntervals).records(number_bytes(records), records.len() / 3);
            (call.buffer(number_bytes(&buffer)), said)
        }
        Asked::Port { port, said } => {
            let answer = [vec![1, said.first, said.lines.len(), 0, 0], list(&said.lines)].concat();
            (call(Name::LinesAtPort).index(*port), answer)
        }
        Asked::LinePorts { list: nodes, ports, said } => {
            let [inputs, outputs] = [&ports.inputs, &ports.outputs].map(|list| number_bytes(list));
            (with(Name::LineIsConvex, nodes).ports(inputs, outputs), walked(said))
        }
        Asked::OrderPorts { list: nodes, ports, yes } => {
            let [inputs, outputs] = [&ports.inputs, &ports.outputs].map(|list| number_bytes(list));
            (with(Name::TopoIsConvex, nodes).ports(inputs, outputs), replied(*yes))
        }
    };
    assert_eq!(said, read_answer(&call), "the Rust and the reading differ: {:?}", question(&call));
    [question(&call), said].concat()
}

/// So many words for a result, and a few more, none of them 0.
fn marks(random: &mut Random, result: usize) -> Vec<usize> {
    (0..result + 1 + random.below(SPARE)).map(|_| 1 + random.below(99)).collect()
}

/// A buffer with a result written from its first word on.
fn over(buffer: &[usize], result: &[usize]) -> Vec<usize> {
    [result, &buffer[result.len()..]].concat()
}

fn walked(said: &Walked) -> Line {
    vec![if said.yes { 1 } else { 2 }, said.count, 0, 0]
}

fn replied(yes: bool) -> Line {
    vec![if yes { 1 } else { 2 }, 0, 0]
}

/// Records and the buffer then; or none, and the buffer as it was.
fn written(given: &Option<Vec<usize>>, buffer: &[usize]) -> Line {
    match given {
        Some(records) => [vec![1, records.len() / 3, 0, 0], list(&over(buffer, records))].concat(),
        None => [vec![2, 0, 0, 0], list(buffer)].concat(),
    }
}
