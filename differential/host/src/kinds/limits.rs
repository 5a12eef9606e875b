//! Maps at the limits and past them by one; areas about the largest; lists and counts longer than a word counts.

use super::tables::Drawn;
use crate::bench::{Bench, Compared};
use crate::call::{junk, number_bytes, Call, Name};
use crate::lists;
use crate::subject::{about, area_words, up_to, Subject};
use oracle::drawing;
use oracle::map_bytes;
use oracle::random::Random;
use oracle::step_map::{Link, Node, StepMap};
use std::rc::Rc;

/// More entries than a word counts.
const LONG: usize = 70_000;

pub fn all(bench: &mut Bench, random: &mut Random) -> Compared<()> {
    bench.kind("maps at the limits");
    for (nodes, links) in at_the_limits() {
        ask(bench, random, &StepMap::new(nodes, links))?;
    }
    longest_path(bench)?;
    for _ in 0..3 {
        let largest = drawing::largest(random);
        ask(bench, random, &largest)?;
        areas_about_the_largest(bench, random, largest)?;
    }
    bench.kind("maps past the limits");
    for (nodes, links) in past_the_limits() {
        refused(bench, random, map_bytes::write(&nodes, &links).into())?;
    }
    bench.kind("lists and counts past a word");
    for _ in 0..4 {
        let drawn = Drawn::new(random, 9);
        long_lists(bench, random, &drawn)?;
        long_buffers(bench, random, &drawn)?;
    }
    Ok(())
}

type Map = (Vec<Node>, Vec<Link>);

fn nodes(count: usize, inputs: usize, outputs: usize) -> Vec<Node> {
    vec![Node { inputs, outputs }; count]
}

/// A node whose one output has so many links, to nodes with 255 inputs.
fn port_with_links(count: usize) -> Map {
    let mut all = nodes(1, 0, 1);
    all.extend(nodes(count.div_ceil(255), 255, 0));
    (all, (0..count).map(|k| Link { from: 0, output: 0, to: 1 + k / 255, input: k % 255 }).collect())
}

/// All nodes in a row, the last one first.
fn chain() -> Map {
    let links = (1..512).rev().map(|node| Link { from: node, output: 0, to: node - 1, input: 0 });
    (nodes(512, 1, 1), links.collect())
}

fn at_the_limits() -> Vec<Map> {
    let crossed = |k: usize| {
        [Link { from: 1, output: k, to: 2, input: 254 - k }, Link { from: 0, output: k, to: 1, input: 7 * k % 255 }]
    };
    let three = [nodes(1, 0, 255), nodes(1, 255, 255), nodes(1, 255, 0)].concat();
    vec![
        (nodes(512, 0, 0), Vec::new()),
        (nodes(512, 4, 4), Vec::new()),
        chain(),
        (three, (0..255).flat_map(crossed).collect()),
        ([nodes(8, 255, 255), nodes(1, 16, 0)].concat(), Vec::new()),
        port_with_links(2048),
    ]
}

fn past_the_limits() -> Vec<Map> {
    vec![
        (nodes(513, 0, 0), Vec::new()),
        (nodes(512, 4, 4).into_iter().chain(nodes(1, 0, 0)).collect(), Vec::new()),
        ([nodes(8, 255, 255), nodes(1, 17, 0)].concat(), Vec::new()),
        (nodes(1, 256, 0), Vec::new()),
        (nodes(1, 0, 256), Vec::new()),
        (nodes(1, 65535, 65535), Vec::new()),
        (nodes(16383, 0, 0), Vec::new()),
        port_with_links(2049),
        (nodes(0, 0, 0), vec![Link { from: 0, output: 0, to: 0, input: 0 }; 8191]),
    ]
}

/// Questions on a large map, beside the Rust.
fn ask(bench: &mut Bench, random: &mut Random, map: &StepMap) -> Compared<()> {
    let subject = Subject::prepare(bench, map, 5)?.expect("no cycle");
    let order = subject.order();
    for _ in 0..8 {
        let list = lists::draw(random, map, &order);
        let others = [0; 3].map(|_| random.below(order.len()));
        subject.list_and_records(bench, &list, &others)?;
        subject.path(bench, &list, about)?;
        let [inputs, outputs] = drawing::ports(random, map);
        subject.with_ports(bench, &list, [&inputs, &outputs])?;
    }
    let ports: usize = map.nodes().iter().map(|node| node.inputs + node.outputs).sum();
    for _ in 0..8.min(ports) {
        subject.port(bench, random.below(ports))?;
    }
    Ok(())
}

/// The two ends of the chain: the path has every node of the map.
fn longest_path(bench: &mut Bench) -> Compared<()> {
    let (nodes, links) = chain();
    let map = StepMap::new(nodes, links);
    let subject = Subject::prepare(bench, &map, 1)?.expect("no cycle");
    subject.path(bench, &[0, 511], up_to)
}

/// W is 31,751 words: one word less, as many, and more.
fn areas_about_the_largest(bench: &mut Bench, random: &mut Random, largest: StepMap) -> Compared<()> {
    let drawn = Drawn::over(random, largest);
    let area = drawn.area(random);
    let whole = [&area, &junk(9)[..]].concat();
    let bytes = 2 * area_words(&drawn.map);
    assert_eq!(bytes, 63_502);
    for length in [bytes - 2, bytes - 1, bytes, bytes + 1, bytes + 2, bytes + 9] {
        let area: Rc<[u8]> = whole[..length].into();
        bench.ask(&Call::new(Name::Prepare, &drawn.map, &area))?;
        for _ in 0..6 {
            let call = drawn.asker().call(random, &drawn.map, &area);
            bench.ask(&call)?;
        }
    }
    Ok(())
}

/// Every function on a map that is too large, in areas short and long.
fn refused(bench: &mut Bench, random: &mut Random, map: Rc<[u8]>) -> Compared<()> {
    let drawn = Drawn::new(random, 5);
    for length in [0, 100, 64_000, 140_000] {
        let area: Rc<[u8]> = junk(length).into();
        bench.ask(&Call::new(Name::Prepare, &map, &area))?;
        for _ in 0..12 {
            let call = drawn.asker().call(random, &map, &area);
            bench.ask(&call)?;
        }
    }
    Ok(())
}

/// Lists of nodes and of ports with so many entries: good ones, and ones whose last entry is unknown.
fn long_lists(bench: &mut Bench, random: &mut Random, drawn: &Drawn) -> Compared<()> {
    let area: Rc<[u8]> = drawn.area(random).into();
    let mut list = |bound: usize, last: usize| {
        let mut list: Vec<usize> = (1..LONG).map(|_| random.below(bound)).collect();
        list.push(last);
        number_bytes(&list)
    };
    let (count, ports) = (drawn.steps.nodes.len(), drawn.steps.port_count());
    for last in [0, count] {
        for name in [Name::LineIsNodeConvex, Name::TopoIsNodeConvex, Name::GetIntervalsFromNodes, Name::ShowPath] {
            bench.ask(&Call::new(name, &drawn.map, &area).list(list(count, last)))?;
        }
    }
    if ports == 0 {
        return Ok(());
    }
    for (inputs_last, outputs_last) in [(0, 0), (ports, 0), (0, ports), (ports, ports)] {
        for name in [Name::LineIsConvex, Name::TopoIsConvex] {
            let call = Call::new(name, &drawn.map, &area).list(number_bytes(&[0]));
            bench.ask(&call.ports(list(ports, inputs_last), list(ports, outputs_last)))?;
        }
    }
    Ok(())
}

/// Buffers with room for more records than a word counts, and counts about that number.
fn long_buffers(bench: &mut Bench, random: &mut Random, drawn: &Drawn) -> Compared<()> {
    let area: Rc<[u8]> = drawn.area(random).into();
    let room = junk(6 * LONG + 1);
    for many in [0, LONG, LONG + 1, 65_536, usize::MAX] {
        let call = |name| Call::new(name, &drawn.map, &area).records(room.clone(), many);
        bench.ask(&call(Name::IsConvexByIntervals))?;
        bench.ask(&call(Name::TryExtendIntervals))?;
        bench.ask(&call(Name::NodesInIntervals).buffer(room.clone()))?;
    }
    let list = number_bytes(&[drawn.tables.order[0]]);
    bench.ask(&Call::new(Name::GetIntervalsFromNodes, &drawn.map, &area).list(list).buffer(room.clone()))?;
    for _ in 0..8 {
        let list = number_bytes(&lists::draw(random, &drawn.step_map, &drawn.tables.order));
        bench.ask(&Call::new(Name::ShowPath, &drawn.map, &area).list(list).buffer(room.clone()))?;
    }
    Ok(())
}
