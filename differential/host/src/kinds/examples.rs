//! The examples in the doc comments of the source's `toposort.rs` and `view.rs`, as far as they concern what we take. What they assert of the
//! graph shows itself in our calls: an order, the known ports, the links of a port, and the other end of its first link.

use crate::bench::{Bench, Compared};
use crate::written::{map, refuse, Prepared, Tables};

const NO: u64 = 2;

pub fn all(bench: &mut Bench) -> Compared<()> {
    bench.kind("the source's examples");
    toposort(bench)?;
    nodes_and_ports(bench)?;
    connections(bench)?;
    links_and_neighbours(bench)
}

/// `toposort`: from node a, which alone has no linked input, the order is a, b, c.
fn toposort(bench: &mut Bench) -> Compared<()> {
    let bytes = map(&[(2, 2), (2, 2), (2, 2)], &[[0, 0, 1, 0], [0, 1, 2, 0]]);
    Prepared::new(bench, bytes, 2, Tables { order: &[0, 1, 2], ..Tables::default() })?;
    Ok(())
}

fn nodes_and_ports(bench: &mut Bench) -> Compared<()> {
    // `port_offsets`: a node with two outputs and no link
    let alone = Prepared::new(bench, map(&[(0, 2)], &[]), 1, Tables::default())?;
    alone.port(bench, 0, 0, &[])?;
    alone.port(bench, 1, 0, &[])?;
    alone.port_refused(bench, 2)?;
    // `add_node`: four inputs, three outputs, and the node is there
    let wide = Prepared::new(bench, map(&[(4, 3)], &[]), 1, Tables::default())?;
    wide.port(bench, 6, 0, &[])?;
    wide.port_refused(bench, 7)?;
    wide.order(bench, &[0], 1)
}

/// `get_connections`, `get_connection`: output 0 of a with input 0 of b, output 1 with input 1; `connected`: one link is enough.
fn connections(bench: &mut Bench) -> Compared<()> {
    let bytes = map(&[(0, 2), (2, 0)], &[[0, 0, 1, 0], [0, 1, 1, 1]]);
    let both =
        Prepared::new(bench, bytes, 2, Tables { order: &[0, 1], lines: &[&[0, 1], &[0, 1]], ..Tables::default() })?;
    both.with_ports(bench, &[0, 1], [2, 0], NO)?;
    both.with_ports(bench, &[0, 1], [3, 1], NO)?;
    both.with_ports(bench, &[0, 1], [3, 0], 1)?;
    let one = map(&[(0, 2), (2, 0)], &[[0, 0, 1, 0]]);
    Prepared::new(bench, one, 1, Tables { lines: &[&[0, 1]], ..Tables::default() })?;
    Ok(())
}

fn links_and_neighbours(bench: &mut Bench) -> Compared<()> {
    // `links`: the one link of a, whose other output has none
    let bytes = map(&[(0, 2), (1, 0)], &[[0, 0, 1, 0]]);
    let links = Prepared::new(bench, bytes, 1, Tables { order: &[0, 1], ..Tables::default() })?;
    links.port(bench, 0, 0, &[0])?;
    links.port(bench, 1, 1, &[])?;
    links.port(bench, 2, 0, &[0])?;
    // `link_ports`: each of the two ports is the other's link
    let bytes = map(&[(0, 1), (1, 0)], &[[0, 0, 1, 0]]);
    let linked = Prepared::new(bench, bytes, 1, Tables::default())?;
    linked.with_ports(bench, &[0, 1], [1, 0], NO)?;
    linked.with_ports(bench, &[0, 1], [0, 1], NO)?;
    // `neighbours`: b is its own neighbour, so there is a cycle, which we refuse
    refuse(bench, &map(&[(0, 1), (2, 1)], &[[0, 0, 1, 0], [1, 0, 1, 1]]), 6, 1)
}
