//! Chooses the questions about a map and records the answers.

use crate::drawing;
use crate::oracle::{flat, Oracle};
use crate::random::Random;
use crate::recording::{Asked, Ports, Recording};
use crate::step_map::StepMap;
use portgraph::algorithms::LineIntervals;

/// How much is asked about a map.
#[derive(Debug, Clone, Copy)]
pub struct Amount {
    /// Lists of nodes, and as many with ports.
    pub lists: usize,
    /// Ports, at most.
    pub ports: usize,
}

/// Extensions in a row, each from the records of the one before.
const CHAIN: usize = 2;

/// How many lists are drawn for one that is taken.
const DRAWS: usize = 20;

/// A map's tables and random questions about it.
pub fn record(random: &mut Random, map: &StepMap, amount: Amount) -> Recording {
    let oracle = &Oracle::new(map);
    let mut recording = Recording::of_tables(oracle);
    let asked = &mut recording.asked;
    for _ in 0..amount.lists {
        ask_list(random, oracle, asked);
    }
    ask_loose_list(random, oracle, asked);
    for _ in 0..amount.lists {
        ask_with_ports(random, oracle, asked);
    }
    ask_ports(random, oracle, amount.ports, asked);
    recording
}

/// A random list. To most of them a constant yes would be the right answer, so out of many one is taken that has a
/// gap on a line, or a walk that counts, where there is one; every fourth is taken as it comes.
fn telling_list(random: &mut Random, oracle: &Oracle) -> Vec<usize> {
    let drawn: Vec<Vec<usize>> = (0..DRAWS).map(|_| drawing::list(random, oracle.map())).collect();
    let mut telling = [(false, false), (false, true), (true, true)]; // (yes, with a count)
    random.shuffle(&mut telling);
    if random.one_in(4) {
        return drawn[0].clone();
    }
    let outcome = |list: &Vec<usize>| {
        let said = oracle.line_check(list);
        (said.yes, said.count > 0)
    };
    let found = telling.iter().find_map(|kind| drawn.iter().find(|list| outcome(list) == *kind));
    found.unwrap_or(&drawn[0]).clone()
}

/// One list through all checks, and its records, where it has them, through all record calls.
fn ask_list(random: &mut Random, oracle: &Oracle, asked: &mut Vec<Asked>) {
    let list = telling_list(random, oracle);
    let said = oracle.line_check(&list);
    asked.push(Asked::Line { list: list.clone(), said });
    let yes = oracle.order_check(&list);
    asked.push(Asked::Order { list: list.clone(), yes });
    let records = oracle.intervals(&list);
    let given = records.as_ref().map(flat);
    asked.push(Asked::Intervals { list, given });
    if let Some(records) = records {
        ask_records(oracle, &records, asked);
        ask_extensions(random, oracle, records, asked);
    }
}

fn ask_records(oracle: &Oracle, records: &LineIntervals, asked: &mut Vec<Asked>) {
    let said = oracle.check_by_records(records);
    asked.push(Asked::Records { records: flat(records), said });
    let nodes = oracle.nodes_in(records);
    asked.push(Asked::NodesIn { records: flat(records), nodes });
}

/// Extends by random nodes, and asks about the records that come out. A node that cannot join is passed over.
fn ask_extensions(random: &mut Random, oracle: &Oracle, start: LineIntervals, asked: &mut Vec<Asked>) {
    let mut records = start.clone();
    let inside = oracle.nodes_in(&start);
    let mut nodes = random.permutation(oracle.map().nodes().len());
    nodes.retain(|node| !inside.contains(node) || random.one_in(6)); // of the nodes inside only a few
    for node in nodes.into_iter().take(CHAIN) {
        let extended = oracle.extend(&records, node);
        let given = extended.as_ref().map(flat);
        asked.push(Asked::Extend { records: flat(&records), node, given });
        // Only records that rule 13 lets pass are put to the Rust again.
        if let Some(extended) = extended.filter(|extended| oracle.is_usable(extended)) {
            records = extended;
        }
    }
    if records != start {
        ask_records(oracle, &records, asked);
    }
}

/// Repeats and the empty list are for the order checker alone.
fn ask_loose_list(random: &mut Random, oracle: &Oracle, asked: &mut Vec<Asked>) {
    let list = drawing::loose_list(random, oracle.map());
    let yes = oracle.order_check(&list);
    asked.push(Asked::Order { list, yes });
}

/// Both checks with the same ports; the order check at times with a list that only it may be asked.
fn ask_with_ports(random: &mut Random, oracle: &Oracle, asked: &mut Vec<Asked>) {
    let mut list = telling_list(random, oracle);
    let [inputs, outputs] = drawing::ports(random, oracle.map());
    let said = oracle.line_check_with_ports(&list, &inputs, &outputs);
    let conflict = oracle.have_conflict(&inputs, &outputs);
    let ports = Ports { inputs, outputs, conflict };
    asked.push(Asked::LinePorts { list: list.clone(), ports: ports.clone(), said });
    if random.one_in(4) {
        list = drawing::loose_list(random, oracle.map());
    }
    let yes = oracle.order_check_with_ports(&list, &ports.inputs, &ports.outputs);
    asked.push(Asked::OrderPorts { list, ports, yes });
}

/// The lines at ports: at all, or at a random few, by number.
fn ask_ports(random: &mut Random, oracle: &Oracle, most: usize, asked: &mut Vec<Asked>) {
    let nodes = oracle.map().nodes().iter();
    let count = nodes.map(|node| node.inputs + node.outputs).sum();
    let mut ports = random.permutation(count);
    ports.truncate(most);
    ports.sort();
    for port in ports {
        let said = oracle.lines_at_port(port);
        asked.push(Asked::Port { port, said });
    }
}
