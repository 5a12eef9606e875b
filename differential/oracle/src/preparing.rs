//! Document 01's preparing, on bytes and words. The order and the lines are the given Rust's; the refusals, the layout of
//! the area and the words that are set to 0 are a plain reading of 01.

use crate::map_bytes::{self, Records};
use crate::oracle::{order, Oracle};
use crate::recording::Recording;
use crate::step_map::StepMap;
use std::collections::BTreeSet;

/// A refusal of document 01.
#[derive(Debug, Clone, Copy, PartialEq, Eq)]
pub struct Refusal {
    pub number: usize,
    pub place: usize,
}

/// A section of the area: its name and how many words it has.
pub type Section = (&'static str, usize);

/// The eight sections, in their order.
pub fn sections(map: &Records) -> [Section; 8] {
    let (n, l) = (map.nodes.len(), map.links.len());
    let p: usize = map.nodes.iter().map(|node| node.inputs + node.outputs).sum();
    let sections = [
        ("line count", 1),
        ("order", n),
        ("positions", n),
        ("node starts", n + 1),
        ("lines of nodes", 2 * l + n),
        ("line starts", l + n + 1),
        ("nodes of lines", 2 * l + n),
        ("scratch", 4 * n + 4 * l + 2 * p + 4),
    ];
    assert_eq!(words(&sections), 7 + 10 * n + 9 * l + 2 * p, "W");
    sections
}

/// Document 01's W.
pub fn words(sections: &[Section]) -> usize {
    sections.iter().map(|section| section.1).sum()
}

/// Prepares the area: K, or one of refusals 1 to 6.
pub fn prepare(bytes: &[u8], area: &mut [u16]) -> Result<usize, Refusal> {
    let map = map_bytes::read(bytes)?;
    let sections = sections(&map);
    let words = words(&sections);
    if area.len() < words {
        return Err(Refusal { number: 3, place: 0 });
    }
    area[..words].fill(0); // all that stays after 4, 5 and 6
    check_links(&map)?;
    let map = StepMap::new(map.nodes, map.links);
    check_order(&map)?;

    let tables = Recording::of_tables(&Oracle::new(&map));
    let mut start = 0;
    for ((_, size), contents) in sections.iter().zip(contents(&tables)) {
        assert!(contents.len() <= *size);
        for (word, number) in area[start..].iter_mut().zip(contents) {
            *word = u16::try_from(number).expect("a word has 16 bits");
        }
        start += size;
    }
    Ok(tables.lines)
}

/// What preparing writes to each section, from its first word on.
fn contents(tables: &Recording) -> [Vec<usize>; 8] {
    [
        vec![tables.lines],
        tables.order.clone(),
        tables.positions.clone(),
        starts(&tables.lines_of_nodes),
        tables.lines_of_nodes.concat(),
        starts(&tables.nodes_of_lines),
        tables.nodes_of_lines.concat(),
        Vec::new(),
    ]
}

/// Where each list starts, and where the last one ends.
fn starts(lists: &[Vec<usize>]) -> Vec<usize> {
    let mut starts = vec![0];
    for list in lists {
        starts.push(starts[starts.len() - 1] + list.len());
    }
    starts
}

/// Refusals 4 and 5: the first bad link decides, and for one link 4 comes before 5.
pub fn check_links(map: &Records) -> Result<(), Refusal> {
    let mut linked = BTreeSet::new();
    for (place, link) in map.links.iter().enumerate() {
        let from = map.nodes.get(link.from).is_some_and(|node| link.output < node.outputs);
        let to = map.nodes.get(link.to).is_some_and(|node| link.input < node.inputs);
        if !from || !to {
            return Err(Refusal { number: 4, place });
        }
        if !linked.insert((link.to, link.input)) {
            return Err(Refusal { number: 5, place });
        }
    }
    Ok(())
}

/// Refusal 6: the given Rust's order has not every node.
fn check_order(map: &StepMap) -> Result<(), Refusal> {
    let order = order(map);
    let lost = (0..map.nodes().len()).find(|node| !order.contains(node));
    lost.map_or(Ok(()), |place| Err(Refusal { number: 6, place }))
}
