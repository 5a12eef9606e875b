//! Glue: a reference to a graph is a graph. Both checkers hand `&graph` to `toposort`.
//!
//! Every call goes to the graph's own, the ones with a default body too: a graph that counts calls of
//! `output_neighbours` must see them through a reference as well.

use crate::{Direction, LinkView, NodeIndex, PortIndex, PortOffset, PortView};

type Node<G> = NodeIndex<<G as PortView>::NodeIndexBase>;
type Port<G> = PortIndex<<G as PortView>::PortIndexBase>;
type Offset<G> = PortOffset<<G as PortView>::PortOffsetBase>;
type Ends<G> = (<G as LinkView>::LinkEndpoint, <G as LinkView>::LinkEndpoint);

impl<G: PortView> PortView for &G {
    type NodeIndexBase = G::NodeIndexBase;
    type PortIndexBase = G::PortIndexBase;
    type PortOffsetBase = G::PortOffsetBase;

    fn port_direction(&self, port: impl Into<Port<G>>) -> Option<Direction> {
        (**self).port_direction(port)
    }

    fn port_node(&self, port: impl Into<Port<G>>) -> Option<Node<G>> {
        (**self).port_node(port)
    }

    fn port_offset(&self, port: impl Into<Port<G>>) -> Option<Offset<G>> {
        (**self).port_offset(port)
    }

    fn port_index(&self, node: Node<G>, offset: Offset<G>) -> Option<Port<G>> {
        (**self).port_index(node, offset)
    }

    fn ports(&self, node: Node<G>, direction: Direction) -> impl Iterator<Item = Port<G>> + Clone {
        (**self).ports(node, direction)
    }

    fn all_ports(&self, node: Node<G>) -> impl Iterator<Item = Port<G>> + Clone {
        (**self).all_ports(node)
    }

    fn inputs(&self, node: Node<G>) -> impl Iterator<Item = Port<G>> + Clone {
        (**self).inputs(node)
    }

    fn outputs(&self, node: Node<G>) -> impl Iterator<Item = Port<G>> + Clone {
        (**self).outputs(node)
    }

    fn input(&self, node: Node<G>, offset: usize) -> Option<Port<G>> {
        (**self).input(node, offset)
    }

    fn output(&self, node: Node<G>, offset: usize) -> Option<Port<G>> {
        (**self).output(node, offset)
    }

    fn num_inputs(&self, node: Node<G>) -> usize {
        (**self).num_inputs(node)
    }

    fn num_outputs(&self, node: Node<G>) -> usize {
        (**self).num_outputs(node)
    }

    fn num_ports(&self, node: Node<G>, direction: Direction) -> usize {
        (**self).num_ports(node, direction)
    }

    fn port_offsets(&self, node: Node<G>, direction: Direction) -> impl Iterator<Item = Offset<G>> + Clone {
        (**self).port_offsets(node, direction)
    }

    fn all_port_offsets(&self, node: Node<G>) -> impl Iterator<Item = Offset<G>> + Clone {
        (**self).all_port_offsets(node)
    }

    fn input_offsets(&self, node: Node<G>) -> impl Iterator<Item = Offset<G>> + Clone {
        (**self).input_offsets(node)
    }

    fn output_offsets(&self, node: Node<G>) -> impl Iterator<Item = Offset<G>> + Clone {
        (**self).output_offsets(node)
    }

    fn contains_node(&self, node: Node<G>) -> bool {
        (**self).contains_node(node)
    }

    fn contains_port(&self, port: Port<G>) -> bool {
        (**self).contains_port(port)
    }

    fn is_empty(&self) -> bool {
        (**self).is_empty()
    }

    fn node_count(&self) -> usize {
        (**self).node_count()
    }

    fn port_count(&self) -> usize {
        (**self).port_count()
    }

    fn nodes_iter(&self) -> impl Iterator<Item = Node<G>> + Clone {
        (**self).nodes_iter()
    }

    fn ports_iter(&self) -> impl Iterator<Item = Port<G>> + Clone {
        (**self).ports_iter()
    }

    fn node_capacity(&self) -> usize {
        (**self).node_capacity()
    }

    fn port_capacity(&self) -> usize {
        (**self).port_capacity()
    }

    fn node_port_capacity(&self, node: Node<G>) -> usize {
        (**self).node_port_capacity(node)
    }
}

impl<G: LinkView> LinkView for &G {
    type LinkEndpoint = G::LinkEndpoint;

    fn get_connections(&self, from: Node<G>, to: Node<G>) -> impl Iterator<Item = Ends<G>> + Clone {
        (**self).get_connections(from, to)
    }

    fn get_connection(&self, from: Node<G>, to: Node<G>) -> Option<Ends<G>> {
        (**self).get_connection(from, to)
    }

    fn connected(&self, from: Node<G>, to: Node<G>) -> bool {
        (**self).connected(from, to)
    }

    fn port_links(&self, port: Port<G>) -> impl Iterator<Item = Ends<G>> + Clone {
        (**self).port_links(port)
    }

    fn port_link(&self, port: Port<G>) -> Option<Self::LinkEndpoint> {
        (**self).port_link(port)
    }

    fn links(&self, node: Node<G>, direction: Direction) -> impl Iterator<Item = Ends<G>> + Clone {
        (**self).links(node, direction)
    }

    fn all_links(&self, node: Node<G>) -> impl Iterator<Item = Ends<G>> + Clone {
        (**self).all_links(node)
    }

    fn input_links(&self, node: Node<G>) -> impl Iterator<Item = Ends<G>> + Clone {
        (**self).input_links(node)
    }

    fn output_links(&self, node: Node<G>) -> impl Iterator<Item = Ends<G>> + Clone {
        (**self).output_links(node)
    }

    fn neighbours(&self, node: Node<G>, direction: Direction) -> impl Iterator<Item = Node<G>> + Clone {
        (**self).neighbours(node, direction)
    }

    fn all_neighbours(&self, node: Node<G>) -> impl Iterator<Item = Node<G>> + Clone {
        (**self).all_neighbours(node)
    }

    fn input_neighbours(&self, node: Node<G>) -> impl Iterator<Item = Node<G>> + Clone {
        (**self).input_neighbours(node)
    }

    fn output_neighbours(&self, node: Node<G>) -> impl Iterator<Item = Node<G>> + Clone {
        (**self).output_neighbours(node)
    }

    fn link_count(&self) -> usize {
        (**self).link_count()
    }
}
