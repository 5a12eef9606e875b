//! Asks of map B of document 01 whether a group of steps may run as one block: 0 3, which is a no. The path that shows why leaves the group at step 1, and the
//! group with that step is a yes.

use varddohas::line_convex_checker::{is_node_convex, Checked};
use varddohas::path::{show_path, Shown};
use varddohas::{area_words, prepare, Refusal};

/// Inputs and outputs of each step, then the links (from step, output, to step, input), then the trailer.
fn map_bytes(nodes: &[[u16; 2]], links: &[[u16; 4]]) -> Vec<u8> {
    let (all, behind) = (4 * nodes.len() + 8 * links.len(), 8 * links.len());
    let trailer = [all as u16, nodes.len() as u16, behind as u16, links.len() as u16];
    let fields = nodes.iter().flatten().chain(links.iter().flatten()).chain(&trailer);
    fields.flat_map(|field| field.to_le_bytes()).chain(*b"PGT1").collect()
}

fn ask(map: &[u8], area: &mut [u16], group: &[u16]) {
    match is_node_convex(map, area, group) {
        Ok(Checked::Yes { count }) => println!("steps {group:?}: yes, {count} counted"),
        Ok(Checked::No { count }) => println!("steps {group:?}: no, {count} counted"),
        Err(Refusal::UnknownNode { entry }) => println!("steps {group:?}: there is no step {}", group[entry]),
        Err(refusal) => println!("steps {group:?}: {refusal}"),
    }
}

/// Adds the steps that a group's path has between its ends.
fn add_path(map: &[u8], area: &mut [u16], group: &mut Vec<u16>) -> Result<(), Refusal> {
    let mut buffer = [0; 7];
    match show_path(map, area, group, &mut buffer)? {
        Shown::Path(count) => {
            let path = &buffer[..count as usize];
            println!("path {path:?}");
            group.extend(&path[1..path.len() - 1]);
        }
        Shown::NoPath => println!("no path"),
    }
    Ok(())
}

fn main() -> Result<(), Refusal> {
    let nodes = [[0, 1], [1, 2], [1, 0], [1, 0], [0, 1], [1, 1], [1, 0]];
    let links = [[0, 0, 1, 0], [1, 0, 2, 0], [1, 1, 3, 0], [4, 0, 5, 0], [5, 0, 6, 0]];
    let map = map_bytes(&nodes, &links);
    let mut area = vec![0; area_words(7, 5, 10)];
    println!("lines: {}", prepare(&map, &mut area)?);
    let mut group = vec![0, 3];
    ask(&map, &mut area, &group);
    add_path(&map, &mut area, &mut group)?;
    ask(&map, &mut area, &group);
    add_path(&map, &mut area, &mut group)?;
    ask(&map, &mut area, &[0, 7]);
    ask(&map, &mut area, &[]);
    Ok(())
}
