//! All small maps, by size, and all their lists.

use crate::bench::{Bench, Compared};
use crate::call::{number_bytes, Call, Name};
use crate::subject::{about, up_to, Subject};
use oracle::step_map::{Link, Node, StepMap};

/// Nodes in a small map, at most: its lists are all asked.
const MOST_NODES: usize = 4;

/// All maps of up to [`MOST_NODES`] nodes: first those of size 0, then those of size 1, .. A map's size is its nodes, its links and its
/// unlinked ports together. The links of different outputs are listed by output, those of one output in every order.
pub struct SmallMaps {
    size: usize,
    /// The shapes of this size that are still to come.
    shapes: Vec<Shape>,
    /// The maps of the last shape that are still to come.
    maps: Vec<Vec<Link>>,
    nodes: Vec<Node>,
    pub count: usize,
}

/// A map's nodes, and how many of their outputs have no link.
struct Shape {
    nodes: Vec<Node>,
    unlinked: usize,
}

impl SmallMaps {
    pub fn new() -> Self {
        Self { size: 0, shapes: shapes(0), maps: Vec::new(), nodes: Vec::new(), count: 0 }
    }

    /// All maps up to this size have been asked.
    pub fn complete(&self) -> Option<usize> {
        self.size.checked_sub(1)
    }

    fn next(&mut self) -> StepMap {
        while self.maps.is_empty() {
            match self.shapes.pop() {
                Some(shape) => {
                    self.maps = link_lists(&shape);
                    self.nodes = shape.nodes;
                }
                None => {
                    self.size += 1;
                    self.shapes = shapes(self.size);
                }
            }
        }
        self.count += 1;
        StepMap::new(self.nodes.clone(), self.maps.pop().expect("a map"))
    }
}

/// Every shape of this size: an input counts 1, linked or not; an output counts 1 if it has no link, else its links count.
fn shapes(size: usize) -> Vec<Shape> {
    let mut shapes = Vec::new();
    for count in 0..=size.min(MOST_NODES) {
        for inputs in 0..=size - count {
            let unlinked = size - count - inputs;
            for outputs in unlinked..=unlinked + inputs {
                let with = |ins: &Vec<usize>, outs: &Vec<usize>| {
                    let node = |(&inputs, &outputs)| Node { inputs, outputs };
                    Shape { nodes: ins.iter().zip(outs).map(node).collect(), unlinked }
                };
                let outs = sums(count, outputs);
                shapes.extend(sums(count, inputs).iter().flat_map(|ins| outs.iter().map(|outs| with(ins, outs))));
            }
        }
    }
    shapes
}

/// Every list of so many numbers with this sum.
fn sums(length: usize, sum: usize) -> Vec<Vec<usize>> {
    if length == 0 {
        return if sum == 0 { vec![Vec::new()] } else { Vec::new() };
    }
    let with_last = |last: usize| {
        let lists = sums(length - 1, sum - last).into_iter();
        lists.map(move |list| [list, vec![last]].concat())
    };
    (0..=sum).flat_map(with_last).collect()
}

/// Every way to link the ports: each input with one of the outputs or with none.
fn link_lists(shape: &Shape) -> Vec<Vec<Link>> {
    let outputs = ports(&shape.nodes, |node| node.outputs);
    let mut lists: Vec<Vec<Link>> = vec![Vec::new()];
    for (to, input) in ports(&shape.nodes, |node| node.inputs) {
        let mut longer = Vec::new();
        for list in &lists {
            for &(from, output) in &outputs {
                // at each place among the links of its output, so that these come in every order
                let before = list.partition_point(|link| (link.from, link.output) < (from, output));
                let upto = list.partition_point(|link| (link.from, link.output) <= (from, output));
                let link = Link { from, output, to, input };
                longer.extend((before..=upto).map(|at| [&list[..at], &[link], &list[at..]].concat()));
            }
        }
        lists.extend(longer);
    }
    let is_linked = |list: &[Link], port: (usize, usize)| list.iter().any(|link| (link.from, link.output) == port);
    lists.retain(|list| outputs.iter().filter(|&&port| !is_linked(list, port)).count() == shape.unlinked);
    lists
}

/// All ports of one direction, each by its node and its offset there.
fn ports(nodes: &[Node], count: fn(&Node) -> usize) -> Vec<(usize, usize)> {
    let mut ports = Vec::new();
    for (number, node) in nodes.iter().enumerate() {
        ports.extend((0..count(node)).map(|offset| (number, offset)));
    }
    ports
}

/// Every list of entries below `bound`, of up to so many entries.
fn all_lists(bound: usize, most: usize) -> Vec<Vec<usize>> {
    let mut lists = vec![Vec::new()];
    let mut last = lists.clone();
    for _ in 0..most {
        let longer = |list: &Vec<usize>| {
            let list = list.clone();
            (0..bound).map(move |entry| [list.clone(), vec![entry]].concat())
        };
        last = last.iter().flat_map(longer).collect();
        lists.extend(last.iter().cloned());
    }
    lists
}

/// The next maps, until so many calls were compared.
pub fn round(bench: &mut Bench, maps: &mut SmallMaps, calls: usize) -> Compared<()> {
    bench.kind("all small maps");
    let end = bench.calls() + calls;
    while bench.calls() < end {
        let map = maps.next();
        if let Some(subject) = Subject::prepare(bench, &map, maps.count % 7)? {
            ask_all(bench, &subject)?;
        }
    }
    Ok(())
}

/// All lists of up to N entries without repeats and of up to 2 with them, all ports, all pairs of ports.
fn ask_all(bench: &mut Bench, subject: &Subject) -> Compared<()> {
    let count = subject.step_map().nodes().len();
    let nodes: Vec<usize> = (0..count).collect();
    for list in all_lists(count, count) {
        let is_set = (0..list.len()).all(|at| !list[..at].contains(&list[at]));
        if is_set && !list.is_empty() {
            // records are the same for every order of a list, but for their own order, and the path is the same
            match list.windows(2).all(|pair| pair[0] < pair[1]) {
                true => {
                    subject.list_and_records(bench, &list, &nodes)?;
                    subject.path(bench, &list, up_to)?;
                }
                false => {
                    subject.list(bench, &list)?;
                    subject.path(bench, &list, about)?;
                }
            }
        } else if list.len() <= 2 {
            subject.loose_list(bench, &list)?;
            let call = |name| Call::new(name, &subject.map, &subject.area).list(number_bytes(&list));
            bench.ask(&call(Name::LineIsNodeConvex))?;
            bench.ask(&call(Name::GetIntervalsFromNodes))?;
            bench.ask(&call(Name::ShowPath))?;
        }
    }
    let ports: usize = subject.step_map().nodes().iter().map(|node| node.inputs + node.outputs).sum();
    for port in 0..ports {
        subject.port(bench, port)?;
        for other in 0..ports {
            let list = &nodes[..1 + (port + other) % count];
            subject.with_ports(bench, list, [&[port], &[other]])?;
        }
    }
    Ok(())
}
