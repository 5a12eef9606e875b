//! Random maps of every size up to the limits, with random questions.

use crate::bench::{Bench, Compared};
use crate::lists;
use crate::subject::{about, Subject};
use oracle::drawing;
use oracle::random::Random;
use oracle::step_map::StepMap;

/// How many of the random lists, ports and pairs of port lists a map is asked.
struct Amount {
    lists: usize,
    ports: usize,
}

/// Several small maps, and at times larger ones.
pub fn round(bench: &mut Bench, random: &mut Random, round: usize) -> Compared<()> {
    bench.kind("random maps, up to 12 nodes");
    for _ in 0..8 {
        let map = drawing::map(random, 12);
        ask(bench, random, &map, Amount { lists: 12, ports: 12 })?;
    }
    bench.kind("random maps, up to 100 nodes");
    let map = drawing::map(random, 100);
    ask(bench, random, &map, Amount { lists: 8, ports: 8 })?;
    if round % 4 == 0 {
        bench.kind("random maps, up to the limits");
        let map = up_to_the_limits(random);
        ask(bench, random, &map, Amount { lists: 8, ports: 8 })?;
    }
    Ok(())
}

/// Any number of nodes up to 512, any number of links up to what their inputs allow and up to 2048.
fn up_to_the_limits(random: &mut Random) -> StepMap {
    let nodes = 2 + random.below(511);
    let most = (nodes * nodes.min(20)).min(2048);
    let links = random.below(most + 1);
    let ports = random.below(4096.min(60 * nodes) + 1); // never more than 255 on one side of a node
    drawing::of_size(random, nodes, links, ports)
}

fn ask(bench: &mut Bench, random: &mut Random, map: &StepMap, amount: Amount) -> Compared<()> {
    let more = random.below(9);
    let subject = Subject::prepare(bench, map, more)?.expect("no cycle in a drawn map");
    ask_lists(bench, random, &subject, amount.lists)?;
    let ports: usize = map.nodes().iter().map(|node| node.inputs + node.outputs).sum();
    for port in random.permutation(ports).into_iter().take(amount.ports) {
        subject.port(bench, port)?;
    }
    Ok(())
}

/// Lists with and without ports, each with its path and extended by a few nodes; and lists for the order check alone.
fn ask_lists(bench: &mut Bench, random: &mut Random, subject: &Subject, count: usize) -> Compared<()> {
    let map = subject.step_map();
    let order = subject.order();
    for _ in 0..count {
        let list = lists::draw(random, map, &order);
        let mut others = random.permutation(order.len());
        others.truncate(3);
        subject.list_and_records(bench, &list, &others)?;
        subject.path(bench, &list, about)?;
        let [inputs, outputs] = drawing::ports(random, map);
        subject.with_ports(bench, &list, [&inputs, &outputs])?;
        let list = drawing::loose_list(random, map);
        subject.loose_list(bench, &list)?;
        subject.loose_with_ports(bench, &list, [&inputs, &outputs])?;
    }
    Ok(())
}
