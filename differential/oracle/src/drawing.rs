//! Random maps, and random lists of nodes and ports for them.

use crate::random::Random;
use crate::step_map::{Link, Node, StepMap};
use portgraph::{LinkView, NodeIndex};

/// A map with 1 to `steps` nodes and no cycle.
///
/// Links go forward in a random line-up, so that numbers tell nothing of the order. There are outputs with several
/// links, several links between two nodes, unlinked ports between linked ones, and nodes without links; links are
/// listed in a random order.
pub fn map(random: &mut Random, steps: usize) -> StepMap {
    let draws = [0; 3].map(|_| random.below(steps));
    let count = 1 + draws.into_iter().max().unwrap_or(0); // the largest of three: a small map has little to ask
    let mut nodes = vec![Node { inputs: 0, outputs: 0 }; count];
    let mut line_up = random.permutation(count);
    line_up.retain(|_| !random.one_in(12)); // the others stay without links

    let count = link_count(random, line_up.len());
    let mut links = links_along(random, &line_up, &mut nodes, count);
    mix_ports(random, &mut nodes, &mut links);
    random.shuffle(&mut links);
    StepMap::new(nodes, links)
}

/// A map of the largest size: 512 nodes, 2048 links, 4096 ports. Like those of [`map`] otherwise.
pub fn largest(random: &mut Random) -> StepMap {
    of_size(random, 512, 2048, 4096)
}

/// A map with so many nodes and links, and with so many ports or, where its links need more, with those. Like those of [`map`] otherwise.
pub fn of_size(random: &mut Random, nodes: usize, links: usize, ports: usize) -> StepMap {
    let count = nodes;
    let mut nodes = vec![Node { inputs: 0, outputs: 0 }; count];
    let line_up = random.permutation(count);
    let mut links = links_along(random, &line_up, &mut nodes, links);
    let mut so_far: usize = nodes.iter().map(|node| node.inputs + node.outputs).sum();
    while so_far < ports {
        let node = &mut nodes[random.below(count)];
        *(if random.one_in(2) { &mut node.inputs } else { &mut node.outputs }) += 1;
        so_far += 1;
    }
    for (number, &node) in nodes.iter().enumerate() {
        permute_ports(random, number, node, &mut links);
    }
    random.shuffle(&mut links);
    StepMap::new(nodes, links)
}

/// So many links forward in the line-up, each with an input of its own, and often with an output of its own.
fn links_along(random: &mut Random, line_up: &[usize], nodes: &mut [Node], count: usize) -> Vec<Link> {
    let mut links: Vec<Link> = Vec::new();
    for _ in 0..count {
        let (from, to) = link_nodes(random, line_up, &links);
        let output = match nodes[from].outputs {
            0 => 0,
            some if random.one_in(3) => random.below(some), // one more link on an output
            some => some,
        };
        let input = nodes[to].inputs;
        nodes[from].outputs = nodes[from].outputs.max(output + 1);
        nodes[to].inputs += 1;
        links.push(Link { from, output, to, input });
    }
    links
}

/// How many links among so many nodes: few in every other map, since among many links each list that is not convex
/// has a gap on some line, and the walk then finds nothing.
fn link_count(random: &mut Random, nodes: usize) -> usize {
    match nodes {
        0 | 1 => 0,
        some if random.one_in(2) => some - 1 - random.below(some / 2),
        some => some - 1 + random.below(some),
    }
}

/// The two nodes of a new link: those of an earlier one, or two near each other, or any two.
fn link_nodes(random: &mut Random, line_up: &[usize], links: &[Link]) -> (usize, usize) {
    if !links.is_empty() && random.one_in(6) {
        let Link { from, to, .. } = random.pick(links);
        return (from, to);
    }
    let from = random.below(line_up.len() - 1);
    let mut ahead = line_up.len() - 1 - from;
    if !random.one_in(4) {
        ahead = ahead.min(2); // near links make long lines
    }
    (line_up[from], line_up[from + 1 + random.below(ahead)])
}

/// Gives nodes some unlinked ports, and every node's ports a random order.
fn mix_ports(random: &mut Random, nodes: &mut [Node], links: &mut [Link]) {
    for (number, node) in nodes.iter_mut().enumerate() {
        node.inputs += usize::from(random.one_in(3));
        node.outputs += usize::from(random.one_in(3));
        permute_ports(random, number, *node, links);
    }
}

/// Gives one node's ports a random order.
fn permute_ports(random: &mut Random, number: usize, node: Node, links: &mut [Link]) {
    let new_inputs = random.permutation(node.inputs);
    let new_outputs = random.permutation(node.outputs);
    for link in links.iter_mut() {
        if link.to == number {
            link.input = new_inputs[link.input];
        }
        if link.from == number {
            link.output = new_outputs[link.output];
        }
    }
}

/// A list of nodes without repeats, and not empty: any nodes, or two, or a group held together by links.
pub fn list(random: &mut Random, map: &StepMap) -> Vec<usize> {
    let count = map.nodes().len();
    let mut any = random.permutation(count);
    match random.below(3) {
        0 => any.truncate(1 + random.below(count)),
        1 => any.truncate(2),
        _ => {
            let size = 1 + random.below(count);
            any = group(random, map, any[0], size);
        }
    }
    any
}

/// A node and others around it, each linked to one before it; at most `size`.
pub fn group(random: &mut Random, map: &StepMap, start: usize, size: usize) -> Vec<usize> {
    let mut group = vec![start];
    while group.len() < size {
        let around = group.iter().flat_map(|&node| map.all_neighbours(NodeIndex::new(node)));
        let mut around: Vec<usize> = around.map(|node| node.index()).collect();
        around.retain(|node| !group.contains(node));
        if around.is_empty() {
            break;
        }
        group.push(random.pick(&around));
    }
    random.shuffle(&mut group);
    group
}

/// A list of nodes as only the order checker may be asked: repeats, and at times no node.
pub fn loose_list(random: &mut Random, map: &StepMap) -> Vec<usize> {
    let count = map.nodes().len();
    let length = random.below(count + 2);
    (0..length).map(|_| random.below(count)).collect()
}

/// Port lists, inputs and outputs, with ports of either direction in both. Often with both ends of a link among
/// them: the conflict that a check with ports looks for, or a near miss where it is not the port's first link.
pub fn ports(random: &mut Random, map: &StepMap) -> [Vec<usize>; 2] {
    let count: usize = map.nodes().iter().map(|node| node.inputs + node.outputs).sum();
    let mut lists = [Vec::new(), Vec::new()];
    if count == 0 {
        return lists;
    }
    for list in &mut lists {
        let length = random.below(3);
        list.extend((0..length).map(|_| random.below(count)));
    }
    if !map.links().is_empty() && random.one_in(3) {
        let link = random.pick(map.links());
        let [output, input] = map.link_ports(link);
        let backwards = random.one_in(3); // the input listed as an output, and the reverse
        let [end, start] = if backwards { [output, input] } else { [input, output] };
        lists[0].push(end);
        lists[1].push(start);
        lists.iter_mut().for_each(|list| random.shuffle(list));
    }
    lists
}
