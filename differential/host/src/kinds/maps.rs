//! Damaged maps, and areas of every length.

use super::tables::Drawn;
use crate::bench::{Bench, Compared};
use crate::call::{junk, Call, Name};
use oracle::map_bytes;
use oracle::random::Random;
use oracle::step_map::{Link, Node};
use std::rc::Rc;

/// The trailer's four numbers, in bytes from the map's end.
const FIELDS: [usize; 4] = [12, 10, 8, 6];

pub fn round(bench: &mut Bench, random: &mut Random) -> Compared<()> {
    for _ in 0..4 {
        let drawn = Drawn::new(random, 9);
        bench.kind("damaged maps");
        for map in broken(random, &drawn.map) {
            ask(bench, random, &drawn, map)?;
        }
        for _ in 0..24 {
            let map = another(random, &drawn);
            ask(bench, random, &drawn, map)?;
        }
        areas(bench, random, &drawn)?;
    }
    Ok(())
}

/// Preparing, and any two calls, on another map than the area is for; the area is long enough for most of them.
fn ask(bench: &mut Bench, random: &mut Random, drawn: &Drawn, map: Vec<u8>) -> Compared<()> {
    let map: Rc<[u8]> = map.into();
    let area: Rc<[u8]> = [drawn.area(random), junk(120)].concat().into();
    bench.ask(&Call::new(Name::Prepare, &map, &area))?;
    for _ in 0..2 {
        let call = drawn.asker().call(random, &map, &area);
        bench.ask(&call)?;
    }
    Ok(())
}

/// Every field of the trailer off by one and otherwise wrong, every letter of the mark, and bytes too many or too few at either end.
fn broken(random: &mut Random, map: &[u8]) -> Vec<Vec<u8>> {
    let mut all = Vec::new();
    for back in FIELDS {
        let at = map.len() - back;
        let field = u16::from_le_bytes([map[at], map[at + 1]]);
        for wrong in [field.wrapping_add(1), field.wrapping_sub(1), field ^ 0x100, random.below(1 << 16) as u16] {
            all.push(with(map, at, &wrong.to_le_bytes()));
        }
    }
    for back in 1..=4 {
        let at = map.len() - back;
        all.push(with(map, at, &[map[at].wrapping_add(1)]));
    }
    for more in 1..=4 {
        all.push([&junk(more), map].concat());
        all.push([map, &junk(more)].concat());
        all.push(map[more..].to_vec());
        all.push(map[..map.len() - more].to_vec());
    }
    all.push(map[map.len() - 12 + random.below(13)..].to_vec()); // only some of the trailer
    all
}

fn with(map: &[u8], at: usize, bytes: &[u8]) -> Vec<u8> {
    let mut map = map.to_vec();
    map[at..at + bytes.len()].copy_from_slice(bytes);
    map
}

/// A map of the right form with other nodes or links: ports or nodes may be missing, inputs linked twice, links may go round in a ring, and
/// where the map is good the tables are those of a neighbour.
fn another(random: &mut Random, drawn: &Drawn) -> Vec<u8> {
    let mut nodes = drawn.step_map.nodes().to_vec();
    let mut links = drawn.step_map.links().to_vec();
    for _ in 0..1 + random.below(2) {
        if links.is_empty() || random.one_in(5) {
            change_nodes(random, &mut nodes);
        } else {
            change_links(random, &nodes, &mut links);
        }
    }
    map_bytes::write(&nodes, &links)
}

/// One more, as long as a field has it.
fn next(number: usize) -> usize {
    (number + 1).min(65535)
}

fn change_nodes(random: &mut Random, nodes: &mut Vec<Node>) {
    let count = nodes.len();
    if count == 0 || random.one_in(5) {
        let ports = [0; 2].map(|_| random.below(3));
        return nodes.insert(random.below(count + 1), Node { inputs: ports[0], outputs: ports[1] });
    }
    let at = random.below(count);
    let node = &mut nodes[at];
    let ports = if random.one_in(2) { &mut node.inputs } else { &mut node.outputs };
    match random.below(6) {
        0 => drop(nodes.remove(at)),
        1 | 2 => *ports = next(*ports),
        3 => *ports = random.pick(&[0, 255, 256, 65535]),
        _ => *ports = ports.saturating_sub(1),
    }
}

fn change_links(random: &mut Random, nodes: &[Node], links: &mut Vec<Link>) {
    let [at, other] = [0; 2].map(|_| random.below(links.len()));
    let anywhere = random.below(nodes.len() + 1);
    let copy = links[other];
    let link = &mut links[at];
    match random.below(10) {
        0 => drop(links.remove(at)),
        1 => links.insert(at, copy),
        2 => *link = Link { from: link.to, to: link.from, ..*link },
        3 => links.swap(at, other),
        4 => link.from = anywhere,
        5 => link.to = anywhere,
        6 => link.output = random.pick(&[0, next(link.output), 65535]),
        7 => link.input = random.pick(&[0, next(link.input), 65535]),
        8 => *link = Link { to: copy.to, input: copy.input, ..*link },
        _ => {
            let end = (link.to, link.input);
            (link.to, link.input) = (copy.to, copy.input);
            (links[other].to, links[other].input) = end; // two links exchange their ends
        }
    }
}

/// W-1 words, W, more, and every odd length between, none, and any.
fn areas(bench: &mut Bench, random: &mut Random, drawn: &Drawn) -> Compared<()> {
    bench.kind("areas of every length");
    let whole = [drawn.area(random), junk(20)].concat();
    let bytes = 2 * drawn.sections.words();
    let any = random.below(bytes);
    for length in [bytes - 2, bytes - 1, bytes, bytes + 1, bytes + 2, bytes + 17, 0, 1, any] {
        let area: Rc<[u8]> = whole[..length].into();
        bench.ask(&Call::new(Name::Prepare, &drawn.map, &area))?;
        for _ in 0..3 {
            let call = drawn.asker().call(random, &drawn.map, &area);
            bench.ask(&call)?;
        }
    }
    Ok(())
}
