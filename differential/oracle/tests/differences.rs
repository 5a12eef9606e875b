//! What the given Rust does outside document 01's domain: the rows of docs/DIFFERENCES.md, seen.

use oracle::step_map::{Link, Node, StepMap};
use portgraph::algorithms::{ConvexChecker, LineConvexChecker};
use portgraph::NodeIndex;
use std::panic::{catch_unwind, AssertUnwindSafe};
use std::sync::mpsc;
use std::time::Duration;

fn map(nodes: &[(usize, usize)], links: &[[usize; 4]]) -> StepMap {
    let node = |&(inputs, outputs): &(usize, usize)| Node { inputs, outputs };
    let link = |&[from, output, to, input]: &[usize; 4]| Link { from, output, to, input };
    StepMap::new(nodes.iter().map(node).collect(), links.iter().map(link).collect())
}

fn map_a() -> StepMap {
    map(&[(0, 2), (1, 1), (1, 1), (2, 0)], &[[0, 0, 1, 0], [0, 1, 2, 0], [1, 0, 3, 0], [2, 0, 3, 1]])
}

/// The line checker's answer on map A, or nothing where it panics.
fn line_check(list: &[usize]) -> Option<bool> {
    let map = map_a();
    let checker = LineConvexChecker::new(&map);
    let nodes = list.iter().map(|&node| NodeIndex::new(node));
    catch_unwind(AssertUnwindSafe(|| checker.is_node_convex(nodes))).ok()
}

#[test]
fn an_empty_list_panics() {
    assert_eq!(line_check(&[]), None);
}

/// The list is the set 0 3, which is not convex; with 3 counted twice three nodes seem to stand on line 0.
#[test]
fn a_repeat_gives_a_wrong_yes_or_panics() {
    assert_eq!(line_check(&[0, 3]), Some(false));
    assert_eq!(line_check(&[0, 3, 3]), Some(true));
    assert_eq!(line_check(&[3, 3]), None);
}

/// With a port conflict the Rust answers no before it looks at the list; ours refuses the list, 8 or 10.
#[test]
fn a_port_conflict_answers_for_an_unfit_list() {
    let map = map_a();
    let checker = LineConvexChecker::new(&map);
    let port = portgraph::PortIndex::new;
    assert!(!checker.is_convex([], [port(2)], [port(0)]));
    assert!(!checker.is_convex([0, 0].map(NodeIndex::new), [port(2)], [port(0)]));
}

/// Two nodes in a ring: the Rust orders none of them and leaves both at position 0, on no line.
#[test]
fn a_cycle_leaves_defaults() {
    let ring = map(&[(1, 1), (1, 1)], &[[0, 0, 1, 0], [1, 0, 0, 0]]);
    let checker = LineConvexChecker::new(&ring);
    for node in [0, 1].map(NodeIndex::new) {
        assert_eq!(checker.get_position(node).0, 0);
        assert!(checker.get_lines(node).is_empty());
    }
}

#[test]
fn two_nodes_with_three_links_have_three_lines() {
    let wide = map(&[(0, 3), (3, 0)], &[[0, 0, 1, 0], [0, 1, 1, 1], [0, 2, 1, 2]]);
    let checker = LineConvexChecker::new(&wide);
    assert_eq!(checker.get_lines(NodeIndex::new(1)).len(), 3);
}

/// Line 1 of the map is 0 2, at positions 0 and 2. Records of another map name position 1 there, and the lookup does not end.
#[test]
fn an_absent_position_between_the_ends_is_looked_up_without_end() {
    let (answer, answered) = mpsc::channel();
    std::thread::spawn(move || {
        let other = map(&[(0, 1), (1, 0), (0, 1), (1, 0)], &[[0, 0, 1, 0], [2, 0, 3, 0]]);
        let records = LineConvexChecker::new(&other).get_intervals_from_nodes([NodeIndex::new(3)]).expect("one record");
        let map = map(&[(0, 2), (1, 1), (2, 0)], &[[0, 0, 1, 0], [0, 1, 2, 0], [1, 0, 2, 1]]);
        let _ = answer.send(LineConvexChecker::new(&map).is_convex_by_intervals(&records));
    });
    let said = answered.recv_timeout(Duration::from_secs(2));
    assert_eq!(said, Err(mpsc::RecvTimeoutError::Timeout));
}
