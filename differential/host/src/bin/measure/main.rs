//! How long our calls take beside the Rust's, on the same maps and lists and in the same process.
//!
//! `measure [SEED]`

mod rows;

use oracle::drawing;
use oracle::map_bytes;
use oracle::random::Random;
use oracle::step_map::{Link, Node, StepMap};
use rows::Rows;

/// Nodes of the measured maps; each has 4 links and 8 ports for each node, the largest proportions of document 01.
const SIZES: [usize; 4] = [64, 128, 256, 512];

/// How many lists are asked about each map.
const LISTS: usize = 8;

fn main() {
    let seed = std::env::args().nth(1).and_then(|word| word.parse().ok()).unwrap_or(1);
    let mut random = Random::new(seed);
    println!("machine: {}", machine());
    println!(
        "seed {seed}; microseconds, the middle of the measurements; {LISTS} lists a map, a quarter of its nodes each"
    );
    let measured: Vec<Rows> = SIZES.map(|nodes| measure(&mut random, nodes)).into();
    rows::print(&measured, &measure_chain());
}

fn measure(random: &mut Random, nodes: usize) -> Rows {
    let map = drawing::of_size(random, nodes, 4 * nodes, 8 * nodes);
    let lists = lists(random, &map);
    Rows::measure(&map, &map_bytes::write(map.nodes(), map.links()), &lists)
}

/// The longest path there is: all nodes in a row, and the list of both ends.
fn measure_chain() -> Rows {
    let links = (1..512).map(|node| Link { from: node - 1, output: 0, to: node, input: 0 }).collect();
    let map = StepMap::new(vec![Node { inputs: 1, outputs: 1 }; 512], links);
    Rows::measure(&map, &map_bytes::write(map.nodes(), map.links()), &[vec![0, 511]])
}

/// Parts of the order, most of which are convex, and lists drawn at random, most of which are not: as many of each.
fn lists(random: &mut Random, map: &StepMap) -> Vec<Vec<usize>> {
    let order = oracle::oracle::order(map);
    let count = order.len() / 4;
    let part = |random: &mut Random| {
        let start = random.below(order.len() - count);
        order[start..start + count].to_vec()
    };
    let drawn = |random: &mut Random| random.permutation(order.len())[..count].to_vec();
    (0..LISTS).map(|list| if list % 2 == 0 { part(random) } else { drawn(random) }).collect()
}

/// What this runs on. An emulator that stands below the whole program shows itself in the name of the machine.
fn machine() -> String {
    let about = std::fs::read_to_string("/proc/cpuinfo").unwrap_or_default();
    let model = about.lines().find(|line| line.starts_with("model name")).and_then(|line| line.split(": ").nth(1));
    format!("{}, {}", std::env::consts::ARCH, model.unwrap_or("no name of the processor"))
}
