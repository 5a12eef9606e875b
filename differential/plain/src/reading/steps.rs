//! A map whose links are good: its ports, and the links at each.

use oracle::map_bytes::Records;
use oracle::step_map::{Link, Node};
use std::collections::VecDeque;
use std::ops::Range;

pub struct Steps {
    pub nodes: Vec<Node>,
    pub links: Vec<Link>,
    /// The number of each node's first port, and of no port after the last.
    first_ports: Vec<usize>,
    /// The links at each port, in listing order.
    links_at: Vec<Vec<usize>>,
}

impl Steps {
    /// "Ports are numbered node by node, inputs before outputs"
    pub fn new(map: Records) -> Self {
        let Records { nodes, links } = map;
        let mut first_ports = vec![0];
        for node in &nodes {
            first_ports.push(first_ports[first_ports.len() - 1] + node.inputs + node.outputs);
        }
        let links_at = vec![Vec::new(); first_ports[nodes.len()]];
        let mut steps = Self { nodes, links, first_ports, links_at };
        for number in 0..steps.links.len() {
            let [output, input] = steps.ends(number);
            steps.links_at[output].push(number);
            steps.links_at[input].push(number);
        }
        steps
    }

    pub fn port_count(&self) -> usize {
        self.links_at.len()
    }

    pub fn inputs(&self, node: usize) -> Range<usize> {
        let first = self.first_ports[node];
        first..first + self.nodes[node].inputs
    }

    pub fn outputs(&self, node: usize) -> Range<usize> {
        self.inputs(node).end..self.first_ports[node + 1]
    }

    /// The node of a port.
    pub fn owner(&self, port: usize) -> usize {
        self.first_ports.partition_point(|&first| first <= port) - 1
    }

    /// A link's output port and input port.
    pub fn ends(&self, link: usize) -> [usize; 2] {
        let Link { from, output, to, input } = self.links[link];
        [self.outputs(from).start + output, self.inputs(to).start + input]
    }

    pub fn links_at(&self, port: usize) -> &[usize] {
        &self.links_at[port]
    }

    /// The links into a node, by input port.
    pub fn links_in(&self, node: usize) -> impl Iterator<Item = usize> + '_ {
        self.inputs(node).flat_map(|port| self.links_at(port).iter().copied())
    }

    /// The links out of a node, by port and listing order.
    pub fn links_out(&self, node: usize) -> impl Iterator<Item = usize> + '_ {
        self.outputs(node).flat_map(|port| self.links_at(port).iter().copied())
    }

    /// "Output neighbours go by port, then link, repeats kept."
    pub fn output_neighbours(&self, node: usize) -> impl Iterator<Item = usize> + '_ {
        self.links_out(node).map(|link| self.links[link].to)
    }

    /// "A queue starts with the nodes without linked inputs, by number. The front is taken; its links are followed by port and listing
    /// order; a target joins at the link that fills its last linked input."
    pub fn order(&self) -> Vec<usize> {
        let mut open: Vec<usize> = (0..self.nodes.len()).map(|node| self.links_in(node).count()).collect();
        let mut queue: VecDeque<usize> = (0..self.nodes.len()).filter(|&node| open[node] == 0).collect();
        let mut order = Vec::new();
        while let Some(node) = queue.pop_front() {
            order.push(node);
            for target in self.output_neighbours(node) {
                open[target] -= 1;
                if open[target] == 0 {
                    queue.push_back(target);
                }
            }
        }
        order
    }
}
