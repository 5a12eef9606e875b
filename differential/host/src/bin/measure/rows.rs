//! What is measured of one map, and the table of it.

use oracle::step_map::StepMap;
use portgraph::algorithms::{LineConvexChecker, TopoConvexChecker};
use portgraph::NodeIndex;
use std::hint::black_box;
use std::time::Instant;

type Bytes = *const u8;
type MutBytes = *mut u8;
type Value = *mut u64;

// A slice of bytes crosses as its address and its length.
#[rustfmt::skip]
extern "C" {
    fn varddohas_prepare(map: Bytes, m: usize, area: MutBytes, a: usize, lines: Value, number: Value, place: Value) -> u64;
    fn varddohas_line_is_node_convex(map: Bytes, m: usize, area: MutBytes, a: usize, list: Bytes, l: usize,
        count: Value, number: Value, place: Value) -> u64;
    fn varddohas_topo_is_node_convex(map: Bytes, m: usize, area: MutBytes, a: usize, list: Bytes, l: usize,
        number: Value, place: Value) -> u64;
    fn varddohas_show_path(map: Bytes, m: usize, area: MutBytes, a: usize, list: Bytes, l: usize,
        buffer: MutBytes, b: usize, count: Value, number: Value, place: Value) -> u64;
}

/// How often something is measured; the middle one counts.
const MEASUREMENTS: usize = 15;

/// Microseconds for one call.
pub struct Rows {
    nodes: usize,
    /// N + L + P
    size: usize,
    /// The line checker: ours, the Rust's bare check, its construction.
    line: [f64; 3],
    /// The order checker, likewise.
    order: [f64; 3],
    preparing: f64,
    path: f64,
    /// How many of the lists have a path, and the steps of the longest one.
    paths: usize,
    longest: u64,
}

/// Our side of a map: its bytes, an area of W words and a buffer of N, as bytes.
struct Ours<'a> {
    map: &'a [u8],
    area: Vec<u8>,
    buffer: Vec<u8>,
}

impl Ours<'_> {
    fn prepare(&mut self) -> u64 {
        let mut values = [0; 3];
        let [lines, number, place] = values.each_mut();
        // SAFETY: the slices and values outlive the call, and none of them overlaps another.
        unsafe {
            let (area, a) = (self.area.as_mut_ptr(), self.area.len());
            varddohas_prepare(self.map.as_ptr(), self.map.len(), area, a, lines, number, place)
        }
    }

    fn line(&mut self, list: &[u8]) -> u64 {
        let mut values = [0; 3];
        let [count, number, place] = values.each_mut();
        // SAFETY: as above.
        unsafe {
            let (area, a) = (self.area.as_mut_ptr(), self.area.len());
            let (list, l) = (list.as_ptr(), list.len());
            varddohas_line_is_node_convex(self.map.as_ptr(), self.map.len(), area, a, list, l, count, number, place)
        }
    }

    fn order(&mut self, list: &[u8]) -> u64 {
        let mut values = [0; 2];
        let [number, place] = values.each_mut();
        // SAFETY: as above.
        unsafe {
            let (area, a) = (self.area.as_mut_ptr(), self.area.len());
            let (list, l) = (list.as_ptr(), list.len());
            varddohas_topo_is_node_convex(self.map.as_ptr(), self.map.len(), area, a, list, l, number, place)
        }
    }

    /// The case, and how many steps the path has.
    fn path(&mut self, list: &[u8]) -> (u64, u64) {
        let mut values = [0; 3];
        let [count, number, place] = values.each_mut();
        // SAFETY: as above.
        let case = unsafe {
            let (area, a) = (self.area.as_mut_ptr(), self.area.len());
            let (list, l) = (list.as_ptr(), list.len());
            let (buffer, b) = (self.buffer.as_mut_ptr(), self.buffer.len());
            varddohas_show_path(self.map.as_ptr(), self.map.len(), area, a, list, l, buffer, b, count, number, place)
        };
        (case, values[0])
    }
}

impl Rows {
    pub fn measure(map: &StepMap, bytes: &[u8], lists: &[Vec<usize>]) -> Self {
        let (nodes, links) = (map.nodes().len(), map.links().len());
        let ports: usize = map.nodes().iter().map(|node| node.inputs + node.outputs).sum();
        let area = vec![0; 2 * (7 + 10 * nodes + 9 * links + 2 * ports)];
        let mut ours = Ours { map: bytes, area, buffer: vec![0; 2 * nodes] };
        assert_eq!(ours.prepare(), 1, "preparing refuses the map");
        let (line, topo) = (LineConvexChecker::new(map), TopoConvexChecker::new(map));
        let as_bytes = |list: &Vec<usize>| list.iter().flat_map(|&node| (node as u16).to_le_bytes()).collect();
        let given: Vec<Vec<u8>> = lists.iter().map(as_bytes).collect();
        let mut shown = Vec::new();
        for (list, bytes) in lists.iter().zip(&given) {
            assert_eq!(ours.line(bytes) == 1, line.is_node_convex(indices(list)), "the answers differ");
            assert_eq!(ours.order(bytes) == 1, topo.is_node_convex(indices(list)), "the answers differ");
            let (case, steps) = ours.path(bytes);
            assert_eq!(case == 2, line.is_node_convex(indices(list)), "the answers differ");
            shown.extend((case == 1).then_some(steps));
        }

        let each = |call: &mut dyn FnMut(usize)| time(lists.len(), |turn| call(turn));
        Self {
            nodes,
            size: nodes + links + ports,
            line: [
                each(&mut |turn| {
                    black_box(ours.line(&given[turn]));
                }),
                each(&mut |turn| {
                    black_box(line.is_node_convex(indices(&lists[turn])));
                }),
                time(1, |_| drop(black_box(LineConvexChecker::new(black_box(map))))),
            ],
            order: [
                each(&mut |turn| {
                    black_box(ours.order(&given[turn]));
                }),
                each(&mut |turn| {
                    black_box(topo.is_node_convex(indices(&lists[turn])));
                }),
                time(1, |_| drop(black_box(TopoConvexChecker::new(black_box(map))))),
            ],
            path: each(&mut |turn| {
                black_box(ours.path(&given[turn]));
            }),
            paths: shown.len(),
            longest: shown.into_iter().max().unwrap_or(0),
            preparing: time(1, |_| {
                black_box(ours.prepare());
            }),
        }
    }
}

fn indices(list: &[usize]) -> impl Iterator<Item = NodeIndex> + '_ {
    list.iter().map(|&node| NodeIndex::new(node))
}

/// Microseconds for one of so many calls, which are made in turn for about 20 milliseconds a measurement.
fn time(calls: usize, mut call: impl FnMut(usize)) -> f64 {
    let mut turns = |times: usize| {
        let start = Instant::now();
        (0..times).for_each(|_| (0..calls).for_each(&mut call));
        start.elapsed().as_secs_f64() * 1e6
    };
    turns(2); // so that caches are warm
    let times = (20_000.0 / (turns(1) + 0.1)) as usize + 1;
    let mut measured: Vec<f64> = (0..MEASUREMENTS).map(|_| turns(times) / (times * calls) as f64).collect();
    measured.sort_by(f64::total_cmp);
    measured[MEASUREMENTS / 2]
}

type Ratio = fn(&Rows) -> (f64, f64);

/// The rows, those that flatter us least first.
const RATIOS: [(&str, Ratio); 5] = [
    ("line check: our call, tables tested / the Rust's bare check on tables it trusts", |row| {
        (row.line[0], row.line[1])
    }),
    ("order check: our call, tables tested / the Rust's bare check on an order it trusts", |row| {
        (row.order[0], row.order[1])
    }),
    ("line check: our call, tables tested / the Rust's construction and check", |row| {
        (row.line[0], row.line[1] + row.line[2])
    }),
    ("order check: our call, tables tested / the Rust's construction and check", |row| {
        (row.order[0], row.order[1] + row.order[2])
    }),
    ("preparing / `LineConvexChecker::new`", |row| (row.preparing, row.line[2])),
];

pub fn print(measured: &[Rows], chain: &Rows) {
    for (name, ratio) in RATIOS {
        println!("\n{name}");
        println!("{:>6} {:>10} {:>12} {:>8}", "N", "ours", "the Rust's", "ratio");
        for row in measured {
            let (ours, theirs) = ratio(row);
            println!("{:>6} {ours:>10.1} {theirs:>12.1} {:>8.3}", row.nodes, ours / theirs);
        }
    }
    println!("\nthe path / our own line check, on the same lists; at the end a chain, and the list of its two ends");
    println!("{:>6} {:>10} {:>12} {:>8} {:>8} {:>8}", "N", "path", "line check", "ratio", "paths", "longest");
    for row in measured.iter().chain([chain]) {
        let Rows { nodes, path, line: [line, ..], paths, longest, .. } = row;
        println!("{nodes:>6} {path:>10.1} {line:>12.1} {:>8.3} {paths:>8} {longest:>8}", path / line);
    }
    println!("\ngrowth: nanoseconds for each of N + L + P; at the end the chain");
    println!("{:>6} {:>10} {:>12} {:>12} {:>10}", "N", "preparing", "line check", "order check", "path");
    for row in measured.iter().chain([chain]) {
        let each = |time: f64| 1000.0 * time / row.size as f64;
        println!(
            "{:>6} {:>10.1} {:>12.1} {:>12.1} {:>10.1}",
            row.nodes,
            each(row.preparing),
            each(row.line[0]),
            each(row.order[0]),
            each(row.path)
        );
    }
}
