//! The step map of document 01 as bytes: written, and read with refusals 1 and 2.

use crate::preparing::Refusal;
use crate::step_map::{Link, Node};

/// A map's nodes and links, as they stand in its bytes: nothing is known of the links yet.
pub struct Records {
    pub nodes: Vec<Node>,
    pub links: Vec<Link>,
}

/// "bytes back from the trailer to the first node record, node count N, bytes back to the first link record, link count L, and the
/// four ASCII bytes `PGT1`"
const TRAILER: usize = 12;

/// A map with these records.
pub fn write(nodes: &[Node], links: &[Link]) -> Vec<u8> {
    let (n, l) = (nodes.len(), links.len());
    let mut fields: Vec<usize> = nodes.iter().flat_map(|node| [node.inputs, node.outputs]).collect();
    fields.extend(links.iter().flat_map(|link| [link.from, link.output, link.to, link.input]));
    fields.extend([4 * n + 8 * l, n, 8 * l, l]);
    let field = |field: usize| u16::try_from(field).expect("a field has 16 bits").to_le_bytes();
    let mut bytes: Vec<u8> = fields.into_iter().flat_map(field).collect();
    bytes.extend(b"PGT1");
    bytes
}

/// Reads a map: refusal 1, then refusal 2, else its records.
pub fn read(bytes: &[u8]) -> Result<Records, Refusal> {
    let field = |at: usize| usize::from(u16::from_le_bytes([bytes[at], bytes[at + 1]]));
    let trailer = bytes.len().checked_sub(TRAILER).ok_or(Refusal { number: 1, place: 0 })?;
    let [to_nodes, n, to_links, l] = [0, 2, 4, 6].map(|at| field(trailer + at));
    if to_nodes != 4 * n + 8 * l || to_links != 8 * l || trailer != 4 * n + 8 * l || !bytes.ends_with(b"PGT1") {
        return Err(Refusal { number: 1, place: 0 });
    }
    let node = |v: usize| Node { inputs: field(4 * v), outputs: field(4 * v + 2) };
    let link = |k: usize| {
        let [from, output, to, input] = [0, 2, 4, 6].map(|at| field(4 * n + 8 * k + at));
        Link { from, output, to, input }
    };
    let nodes: Vec<Node> = (0..n).map(node).collect();
    let ports: usize = nodes.iter().map(|node| node.inputs + node.outputs).sum();
    let many = nodes.iter().any(|node| node.inputs > 255 || node.outputs > 255);
    if n > 512 || l > 2048 || ports > 4096 || many {
        return Err(Refusal { number: 2, place: 0 });
    }
    Ok(Records { nodes, links: (0..l).map(link).collect() })
}
