//! Every call through the safe crate: P1 to P12 of document 01 as far as a call answers them, paths, refusals, and words that must stand.

use varddohas::line_convex_checker::{self as line, Checked, Extended, Intervals, PortLines};
use varddohas::path::{show_path, Shown};
use varddohas::topo_convex_checker::{self as topo, Ordered};
use varddohas::{area_words, prepare, Refusal, LARGEST_AREA};

type Nodes<'a> = &'a [[u16; 2]];
type Links<'a> = &'a [[u16; 4]];

const A: (Nodes, Links) =
    (&[[0, 2], [1, 1], [1, 1], [2, 0]], &[[0, 0, 1, 0], [0, 1, 2, 0], [1, 0, 3, 0], [2, 0, 3, 1]]);
const B: (Nodes, Links) = (
    &[[0, 1], [1, 2], [1, 0], [1, 0], [0, 1], [1, 1], [1, 0]],
    &[[0, 0, 1, 0], [1, 0, 2, 0], [1, 1, 3, 0], [4, 0, 5, 0], [5, 0, 6, 0]],
);
const C: (Nodes, Links) = (&[[0, 1], [1, 0], [1, 0]], &[[0, 0, 1, 0], [0, 0, 2, 0]]);
const RING: (Nodes, Links) = (&[[1, 1], [1, 1]], &[[0, 0, 1, 0], [1, 0, 0, 0]]);

fn bytes((nodes, links): (Nodes, Links)) -> Vec<u8> {
    let (all, behind) = (4 * nodes.len() + 8 * links.len(), 8 * links.len());
    let trailer = [all as u16, nodes.len() as u16, behind as u16, links.len() as u16];
    let fields = nodes.iter().flatten().chain(links.iter().flatten()).chain(&trailer);
    fields.flat_map(|field| field.to_le_bytes()).chain(*b"PGT1").collect()
}

fn words((nodes, links): (Nodes, Links)) -> usize {
    let ports: u16 = nodes.iter().flatten().sum();
    area_words(nodes.len(), links.len(), ports as usize)
}

/// A map with its area, prepared, which has three words more than it needs.
fn prepared(map: (Nodes, Links), lines: u64) -> (Vec<u8>, Vec<u16>) {
    let (bytes, mut area) = (bytes(map), vec![0x55aa; words(map) + 3]);
    assert_eq!(prepare(&bytes, &mut area), Ok(lines));
    assert_eq!(area[words(map)..], [0x55aa; 3]);
    (bytes, area)
}

#[test]
fn map_a() {
    let (map, mut area) = prepared(A, 2);
    assert_eq!(area[1..9], [0, 1, 2, 3, 0, 1, 1, 2]);
    assert_eq!(line::is_node_convex(&map, &mut area, &[0, 3]), Ok(Checked::No { count: 0 }));
    assert_eq!(line::is_node_convex(&map, &mut area, &[1, 2]), Ok(Checked::Yes { count: 0 }));
    assert_eq!(line::is_node_convex(&map, &mut area, &[0, 1, 3]), Ok(Checked::No { count: 0 }));
    assert_eq!(topo::is_node_convex(&map, &mut area, &[0, 1, 3]), Ok(Ordered::No));
    assert_eq!(topo::is_node_convex(&map, &mut area, &[]), Ok(Ordered::Yes));
    assert_eq!(line::lines_at_port(&map, &mut area, 7), Ok(PortLines { first: 1, count: 1 }));
    assert_eq!(line::view_lines_at_port(&map, &area, 7), Ok(&[1][..]));
}

#[test]
fn map_b() {
    let (map, mut area) = prepared(B, 3);
    assert_eq!(area[1..8], [0, 4, 1, 5, 2, 3, 6]);
    assert_eq!(line::is_node_convex(&map, &mut area, &[0, 3]), Ok(Checked::No { count: 1 }));
    assert_eq!(line::is_node_convex(&map, &mut area, &[0, 6]), Ok(Checked::Yes { count: 3 }));
    let mut records = [9; 7];
    assert_eq!(line::get_intervals_from_nodes(&map, &mut area, &[0], &mut records), Ok(Intervals::Records(1)));
    assert_eq!(records, [0, 0, 0, 9, 9, 9, 9]);
    assert_eq!(line::try_extend_intervals(&map, &mut area, &mut records, 1, 2), Ok(Extended::NotExtendable));
    assert_eq!(line::try_extend_intervals(&map, &mut area, &mut records, 1, 3), Ok(Extended::Records(2)));
    assert_eq!(records, [0, 0, 0, 2, 2, 2, 9]);
    assert_eq!(line::is_convex_by_intervals(&map, &mut area, &[0, 0, 0], 1), Ok(Checked::Yes { count: 0 }));
    let mut nodes = [9; 3];
    assert_eq!(line::nodes_in_intervals(&map, &mut area, &[0, 0, 1, 2, 1, 1], 2, &mut nodes), Ok(2));
    assert_eq!(nodes, [0, 1, 9]);
    assert_eq!(line::get_intervals_from_nodes(&map, &mut area, &[0, 2], &mut records), Ok(Intervals::NotContiguous));
}

#[test]
fn map_c_with_ports() {
    let (map, mut area) = prepared(C, 2);
    assert_eq!(line::is_convex(&map, &mut area, &[0, 2], &[2], &[0]), Ok(Checked::Yes { count: 0 }));
    assert_eq!(line::is_convex(&map, &mut area, &[0, 2], &[1], &[0]), Ok(Checked::No { count: 0 }));
    assert_eq!(topo::is_convex(&map, &mut area, &[0, 2], &[2], &[0]), Ok(Ordered::Yes));
    assert_eq!(topo::is_convex(&map, &mut area, &[0, 2], &[1], &[0]), Ok(Ordered::No));
}

#[test]
fn the_path_of_a_no() {
    let (map, mut area) = prepared(A, 2);
    let before = area.clone();
    let mut steps = [9; 4];
    assert_eq!(show_path(&map, &mut area, &[0, 3], &mut steps), Ok(Shown::Path(3)));
    assert_eq!(steps, [0, 1, 3, 9]);
    assert_eq!(show_path(&map, &mut area, &[0, 1, 3], &mut steps), Ok(Shown::Path(3)));
    assert_eq!(steps, [0, 2, 3, 9]);
    assert_eq!(show_path(&map, &mut area, &[1, 2], &mut []), Ok(Shown::NoPath));
    assert_eq!(show_path(&map, &mut area, &[0, 1, 2, 3], &mut steps), Ok(Shown::NoPath));
    assert_eq!(show_path(&map, &mut area, &[0, 3], &mut steps[..2]), Err(Refusal::TooLong { needed: 3 }));
    assert_eq!(show_path(&map, &mut area, &[], &mut steps), Err(Refusal::Empty));
    assert_eq!(show_path(&map, &mut area, &[0, 4], &mut steps), Err(Refusal::UnknownNode { entry: 1 }));
    assert_eq!(show_path(&map, &mut area, &[0, 3, 0], &mut steps), Err(Refusal::RepeatedNode { entry: 2 }));
    assert_eq!((steps, area), ([0, 2, 3, 9], before));
}

/// 512 steps in a row, and the list of the first and the last: each step is on the path.
#[test]
fn the_longest_path() {
    let links: Vec<[u16; 4]> = (1..512).map(|step| [step - 1, 0, step, 0]).collect();
    let (map, mut area) = prepared((&[[1, 1]; 512], &links), 1);
    let mut steps = [9; 513];
    assert_eq!(show_path(&map, &mut area, &[511, 0], &mut steps[..511]), Err(Refusal::TooLong { needed: 512 }));
    assert_eq!(steps, [9; 513]);
    assert_eq!(show_path(&map, &mut area, &[511, 0], &mut steps), Ok(Shown::Path(512)));
    assert!((0..512).eq(steps[..512].iter().copied()) && steps[512] == 9);
}

#[test]
fn refusals_of_maps() {
    let (map, area) = prepared(B, 3);
    let (nodes, mut links) = (B.0, B.1.to_vec());
    assert_eq!(prepare(&bytes((&[], &[])), &mut [1; 7]), Ok(0));
    assert_eq!(prepare(&map[1..], &mut area.clone()), Err(Refusal::Malformed));
    assert_eq!(prepare(&bytes((&[[0, 0]; 513], &[])), &mut area.clone()), Err(Refusal::TooLarge));
    assert_eq!(prepare(&map, &mut vec![0; words(B) - 1]), Err(Refusal::NoRoom));
    links[4][2] = 7;
    assert_eq!(prepare(&bytes((nodes, &links)), &mut area.clone()), Err(Refusal::MissingEnd { link: 4 }));
    links[4][2] = 5;
    assert_eq!(prepare(&bytes((nodes, &links)), &mut area.clone()), Err(Refusal::SecondLink { link: 4 }));
    assert_eq!(prepare(&bytes(RING), &mut area.clone()), Err(Refusal::Cycle { node: 0 }));
}

#[test]
fn refusals_of_questions() {
    let (map, mut area) = prepared(B, 3);
    assert_eq!(line::is_node_convex(&map, &mut vec![0; LARGEST_AREA], &[0]), Err(Refusal::NotAccepted));
    assert_eq!(line::is_node_convex(&map, &mut area, &[]), Err(Refusal::Empty));
    assert_eq!(line::is_node_convex(&map, &mut area, &[0, 0, 7]), Err(Refusal::UnknownNode { entry: 2 }));
    assert_eq!(line::is_node_convex(&map, &mut area, &[3, 3]), Err(Refusal::RepeatedNode { entry: 1 }));
    assert_eq!(line::is_convex(&map, &mut area, &[3], &[1], &[2, 10]), Err(Refusal::UnknownPort { entry: 1 }));
    assert_eq!(line::get_intervals_from_nodes(&map, &mut area, &[1], &mut [0; 5]), Err(Refusal::TooLong { needed: 2 }));
    assert_eq!(line::is_convex_by_intervals(&map, &mut area, &[0; 8], 3), Err(Refusal::BadRecord { record: 2 }));
    assert_eq!(line::is_convex_by_intervals(&map, &mut area, &[0, 0, 1], 1), Err(Refusal::Straddling { node: 1 }));
    assert_eq!(line::view_lines_at_port(&map, &area, 10), Err(Refusal::UnknownPort { entry: 0 }));
}

/// Prepares a map and checks a list of it, handing every refusal on.
fn lines_and_check(map: &[u8], area: &mut [u16], list: &[u16]) -> Result<(u64, Checked), Box<dyn std::error::Error>> {
    Ok((prepare(map, area)?, line::is_node_convex(map, area, list)?))
}

#[test]
fn a_refusal_is_an_error() {
    let mut area = vec![0; words(B)];
    assert_eq!(lines_and_check(&bytes(B), &mut area, &[0, 3]).ok(), Some((3, Checked::No { count: 1 })));
    let error = lines_and_check(&bytes(B), &mut area, &[0, 7]).unwrap_err();
    assert_eq!(error.to_string(), "entry 1 is no node of the map");
    assert_eq!(error.downcast_ref(), Some(&Refusal::UnknownNode { entry: 1 }));
}

/// The header's figure of a name, as it stands there.
fn promised(name: &str) -> Option<usize> {
    let start = format!("#define VARDDOHAS_STACK{name} ");
    let line = include_str!("../../c/varddohas.h").lines().find_map(|line| line.strip_prefix(&start));
    line.and_then(|figure| figure.parse().ok())
}

#[test]
fn stack_figures_are_those_of_the_header() {
    use varddohas::stack::*;
    let figures = [
        ("", LARGEST),
        ("_PREPARE", PREPARE),
        ("_LINE_IS_NODE_CONVEX", LINE_IS_NODE_CONVEX),
        ("_LINE_IS_CONVEX", LINE_IS_CONVEX),
        ("_TOPO_IS_NODE_CONVEX", TOPO_IS_NODE_CONVEX),
        ("_TOPO_IS_CONVEX", TOPO_IS_CONVEX),
        ("_GET_INTERVALS_FROM_NODES", GET_INTERVALS_FROM_NODES),
        ("_IS_CONVEX_BY_INTERVALS", IS_CONVEX_BY_INTERVALS),
        ("_TRY_EXTEND_INTERVALS", TRY_EXTEND_INTERVALS),
        ("_NODES_IN_INTERVALS", NODES_IN_INTERVALS),
        ("_LINES_AT_PORT", LINES_AT_PORT),
        ("_VIEW_LINES_AT_PORT", VIEW_LINES_AT_PORT),
        ("_SHOW_PATH", SHOW_PATH),
    ];
    for (name, figure) in figures {
        assert_eq!(promised(name), Some(figure), "{name}");
    }
}
