//! The step map of document 01 as a graph for the source's checkers.
//!
//! An output port may have many links, in listing order; an input port has at most one. Ports are numbered node by
//! node, inputs before outputs.

use portgraph::{Direction, LinkView, NodeIndex, PortIndex, PortOffset, PortView};
use std::cell::Cell;
use std::ops::Range;

/// A node, by its numbers of ports.
#[derive(Debug, Clone, Copy, PartialEq, Eq)]
pub struct Node {
    pub inputs: usize,
    pub outputs: usize,
}

/// A link, by the offsets of its two ports in their nodes.
#[derive(Debug, Clone, Copy, PartialEq, Eq)]
pub struct Link {
    pub from: usize,
    pub output: usize,
    pub to: usize,
    pub input: usize,
}

/// Both ends of a link, seen from the port that was asked.
type Ends = (PortIndex, PortIndex);

/// A port's place: its node, direction and offset.
#[derive(Debug, Clone, Copy, PartialEq)]
struct Place {
    node: usize,
    direction: Direction,
    offset: usize,
}

/// The graph. The last field is no part of the map: it counts what the checkers ask, see [`StepMap::walked_from`].
#[derive(Debug, Clone, PartialEq)]
pub struct StepMap {
    nodes: Vec<Node>,
    links: Vec<Link>,
    /// The number of each node's first port.
    first_ports: Vec<usize>,
    /// Each port's place.
    places: Vec<Place>,
    /// Each port's links, in listing order.
    ends: Vec<Vec<Ends>>,
    walked_from: Cell<usize>,
}

impl StepMap {
    /// The map with these nodes and links. Panics where refusals 4 and 5 of document 01 would be given: such maps
    /// are no question for the Rust.
    pub fn new(nodes: Vec<Node>, links: Vec<Link>) -> Self {
        let mut first_ports = Vec::new();
        let mut places = Vec::new();
        for (node, &Node { inputs, outputs }) in nodes.iter().enumerate() {
            first_ports.push(places.len());
            let place = |direction| move |offset| Place { node, direction, offset };
            places.extend((0..inputs).map(place(Direction::Incoming)));
            places.extend((0..outputs).map(place(Direction::Outgoing)));
        }
        let mut map = Self {
            ends: vec![Vec::new(); places.len()],
            nodes,
            links: Vec::new(),
            first_ports,
            places,
            walked_from: Cell::new(0),
        };
        for link in links {
            map.push_link(link);
        }
        map
    }

    fn push_link(&mut self, link: Link) {
        let [output, input] = self.link_ports(link);
        assert!(self.ends[input].is_empty(), "second link on an input: {link:?}");
        let (from, to) = (PortIndex::new(output), PortIndex::new(input));
        self.ends[output].push((from, to));
        self.ends[input].push((to, from));
        self.links.push(link);
    }

    /// The numbers of a link's output port and input port.
    pub fn link_ports(&self, link: Link) -> [usize; 2] {
        let output = self.node_ports(link.from, Direction::Outgoing).nth(link.output);
        let input = self.node_ports(link.to, Direction::Incoming).nth(link.input);
        [output, input].map(|port| port.unwrap_or_else(|| panic!("missing port: {link:?}")))
    }

    pub fn nodes(&self) -> &[Node] {
        &self.nodes
    }

    pub fn links(&self) -> &[Link] {
        &self.links
    }

    /// The node that a port belongs to.
    pub fn owner(&self, port: usize) -> usize {
        self.places[port].node
    }

    /// How often `output_neighbours` was called since [`StepMap::forget_walks`]: the walk's count shows itself here.
    pub fn walked_from(&self) -> usize {
        self.walked_from.get()
    }

    pub fn forget_walks(&self) {
        self.walked_from.set(0);
    }

    /// The numbers of a node's ports of one direction.
    fn node_ports(&self, node: usize, direction: Direction) -> Range<usize> {
        let Node { inputs, outputs } = self.nodes[node];
        let first = self.first_ports[node];
        match direction {
            Direction::Incoming => first..first + inputs,
            Direction::Outgoing => first + inputs..first + inputs + outputs,
        }
    }

    fn place(&self, port: impl Into<PortIndex>) -> Option<Place> {
        self.places.get(port.into().index()).copied()
    }
}

impl PortView for StepMap {
    type NodeIndexBase = u32;
    type PortIndexBase = u32;
    type PortOffsetBase = u16;

    fn port_direction(&self, port: impl Into<PortIndex>) -> Option<Direction> {
        self.place(port).map(|place| place.direction)
    }

    fn port_node(&self, port: impl Into<PortIndex>) -> Option<NodeIndex> {
        self.place(port).map(|place| NodeIndex::new(place.node))
    }

    fn port_offset(&self, port: impl Into<PortIndex>) -> Option<PortOffset> {
        self.place(port).map(|place| PortOffset::new(place.direction, place.offset))
    }

    fn port_index(&self, node: NodeIndex, offset: PortOffset) -> Option<PortIndex> {
        self.ports(node, offset.direction()).nth(offset.index())
    }

    fn ports(&self, node: NodeIndex, direction: Direction) -> impl Iterator<Item = PortIndex> + Clone {
        self.node_ports(node.index(), direction).map(PortIndex::new)
    }

    fn all_ports(&self, node: NodeIndex) -> impl Iterator<Item = PortIndex> + Clone {
        self.inputs(node).chain(self.outputs(node))
    }

    fn input(&self, node: NodeIndex, offset: usize) -> Option<PortIndex> {
        self.inputs(node).nth(offset)
    }

    fn output(&self, node: NodeIndex, offset: usize) -> Option<PortIndex> {
        self.outputs(node).nth(offset)
    }

    fn num_ports(&self, node: NodeIndex, direction: Direction) -> usize {
        self.node_ports(node.index(), direction).len()
    }

    fn port_offsets(&self, node: NodeIndex, direction: Direction) -> impl Iterator<Item = PortOffset> + Clone {
        (0..self.num_ports(node, direction)).map(move |offset| PortOffset::new(direction, offset))
    }

    fn all_port_offsets(&self, node: NodeIndex) -> impl Iterator<Item = PortOffset> + Clone {
        self.input_offsets(node).chain(self.output_offsets(node))
    }

    fn contains_node(&self, node: NodeIndex) -> bool {
        node.index() < self.nodes.len()
    }

    fn contains_port(&self, port: PortIndex) -> bool {
        port.index() < self.places.len()
    }

    fn is_empty(&self) -> bool {
        self.nodes.is_empty()
    }

    fn node_count(&self) -> usize {
        self.nodes.len()
    }

    fn port_count(&self) -> usize {
        self.places.len()
    }

    fn nodes_iter(&self) -> impl Iterator<Item = NodeIndex> + Clone {
        (0..self.nodes.len()).map(NodeIndex::new)
    }

    fn ports_iter(&self) -> impl Iterator<Item = PortIndex> + Clone {
        (0..self.places.len()).map(PortIndex::new)
    }

    fn node_capacity(&self) -> usize {
        self.nodes.len()
    }

    fn port_capacity(&self) -> usize {
        self.places.len()
    }

    fn node_port_capacity(&self, node: NodeIndex) -> usize {
        self.all_ports(node).count()
    }
}

impl LinkView for StepMap {
    type LinkEndpoint = PortIndex;

    fn get_connections(&self, from: NodeIndex, to: NodeIndex) -> impl Iterator<Item = Ends> + Clone {
        self.output_links(from).filter(move |&(_, end)| self.port_node(end) == Some(to))
    }

    fn port_links(&self, port: PortIndex) -> impl Iterator<Item = Ends> + Clone {
        self.ends[port.index()].iter().copied()
    }

    fn links(&self, node: NodeIndex, direction: Direction) -> impl Iterator<Item = Ends> + Clone {
        self.ports(node, direction).flat_map(|port| self.port_links(port))
    }

    fn all_links(&self, node: NodeIndex) -> impl Iterator<Item = Ends> + Clone {
        self.input_links(node).chain(self.output_links(node))
    }

    fn neighbours(&self, node: NodeIndex, direction: Direction) -> impl Iterator<Item = NodeIndex> + Clone {
        let owner = |(_, end): Ends| NodeIndex::new(self.owner(end.index()));
        LinkView::links(self, node, direction).map(owner)
    }

    fn all_neighbours(&self, node: NodeIndex) -> impl Iterator<Item = NodeIndex> + Clone {
        self.input_neighbours(node).chain(self.neighbours(node, Direction::Outgoing))
    }

    /// By port, then link, repeats kept. Each call is counted.
    fn output_neighbours(&self, node: NodeIndex) -> impl Iterator<Item = NodeIndex> + Clone {
        self.walked_from.set(self.walked_from.get() + 1);
        self.neighbours(node, Direction::Outgoing)
    }

    fn link_count(&self) -> usize {
        self.links.len()
    }
}
