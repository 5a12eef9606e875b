//! Document 01's maps and cases, P1 to P10 and P12, asked of the Rust. (P11 is a refusal, which the Rust has not.)

use oracle::oracle::{flat, Oracle, PortLines, Walked};
use oracle::step_map::{Link, Node, StepMap};

fn map(nodes: &[(usize, usize)], links: &[[usize; 4]]) -> StepMap {
    let node = |&(inputs, outputs): &(usize, usize)| Node { inputs, outputs };
    let link = |&[from, output, to, input]: &[usize; 4]| Link { from, output, to, input };
    StepMap::new(nodes.iter().map(node).collect(), links.iter().map(link).collect())
}

fn map_a() -> StepMap {
    let links = [[0, 0, 1, 0], [0, 1, 2, 0], [1, 0, 3, 0], [2, 0, 3, 1]];
    map(&[(0, 2), (1, 1), (1, 1), (2, 0)], &links)
}

fn map_b() -> StepMap {
    let links = [[0, 0, 1, 0], [1, 0, 2, 0], [1, 1, 3, 0], [4, 0, 5, 0], [5, 0, 6, 0]];
    map(&[(0, 1), (1, 2), (1, 0), (1, 0), (0, 1), (1, 1), (1, 0)], &links)
}

fn map_c() -> StepMap {
    map(&[(0, 1), (1, 0), (1, 0)], &[[0, 0, 1, 0], [0, 0, 2, 0]])
}

fn yes(count: usize) -> Walked {
    Walked { yes: true, count }
}

fn no(count: usize) -> Walked {
    Walked { yes: false, count }
}

/// Every line's nodes.
fn lines(oracle: &Oracle) -> Vec<Vec<usize>> {
    (0..oracle.line_count()).map(|line| oracle.nodes_of(line)).collect()
}

#[test]
fn map_a_tables() {
    let map = map_a();
    let oracle = Oracle::new(&map);
    assert_eq!(oracle.order(), [0, 1, 2, 3]);
    assert_eq!([0, 1, 2, 3].map(|node| oracle.position(node)), [0, 1, 1, 2]);
    assert_eq!(lines(&oracle), [[0, 1, 3], [0, 2, 3]]);
}

#[test]
fn p1_to_p4() {
    let map = map_a();
    let oracle = Oracle::new(&map);
    assert_eq!(oracle.line_check(&[0, 3]), no(0), "P1");
    assert_eq!(oracle.line_check(&[1, 2]), yes(0), "P2");
    assert_eq!(oracle.line_check(&[0, 1, 3]), no(0), "P3");
    let lines = vec![1];
    assert_eq!(oracle.lines_at_port(7), PortLines { first: 1, lines }, "P4");
}

#[test]
fn p5_to_p8() {
    let map = map_b();
    let oracle = Oracle::new(&map);
    assert_eq!(oracle.order(), [0, 4, 1, 5, 2, 3, 6], "P5");
    assert_eq!(lines(&oracle), [vec![0, 1, 2], vec![4, 5, 6], vec![1, 3]], "P5");
    assert_eq!(oracle.line_check(&[0, 3]), no(1), "P6");
    assert_eq!(oracle.line_check(&[0, 6]), yes(3), "P7");
    let record = oracle.intervals(&[0]).expect("one node is contiguous");
    assert_eq!(oracle.extend(&record, 2), None, "P8");
    let extended = oracle.extend(&record, 3).expect("P8");
    assert_eq!(flat(&extended), [0, 0, 0, 2, 2, 2], "P8");
}

#[test]
fn p9_and_p10() {
    let map = map_c();
    let oracle = Oracle::new(&map);
    assert_eq!(lines(&oracle), [[0, 2], [0, 1]], "P9");
    assert_eq!(oracle.line_check_with_ports(&[0, 2], &[2], &[0]), yes(0), "P10");
    assert_eq!(oracle.line_check_with_ports(&[0, 2], &[1], &[0]), no(0), "P10");
    assert!(oracle.order_check_with_ports(&[0, 2], &[2], &[0]), "P10");
    assert!(!oracle.order_check_with_ports(&[0, 2], &[1], &[0]), "P10");
}

#[test]
fn p12() {
    let map = map(&[], &[]);
    let oracle = Oracle::new(&map);
    assert_eq!(oracle.line_count(), 0);
    assert!(oracle.order().is_empty());
}

/// The listing of the program `ask`, as far as the Rust answers it.
#[test]
fn listing_of_ask() {
    let map = map_b();
    let oracle = Oracle::new(&map);
    assert_eq!(oracle.line_count(), 3);
    let order_checks = [&[0, 3][..], &[0, 6], &[], &[3, 3]].map(|list| oracle.order_check(list));
    assert_eq!(order_checks, [false, true, true, true]);
}
