//! 01's cases P1 to P12 and the checks of its listing, with the outcomes that 01 writes down; and paths by the rule of 02, No. 1, worked out by hand.

use crate::bench::{Bench, Compared};
use crate::written::{map, refuse, Prepared, Tables};

const YES: u64 = 1;
const NO: u64 = 2;

pub fn all(bench: &mut Bench) -> Compared<()> {
    bench.kind("01's own cases");
    map_a(bench)?;
    map_b(bench)?;
    map_c(bench)?;
    refuse(bench, &map(&[(1, 1), (1, 1)], &[[0, 0, 1, 0], [1, 0, 0, 0]]), 6, 0)?; // P11
    Prepared::new(bench, map(&[], &[]), 0, Tables::default())?; // P12
    bench.kind("paths worked out by hand");
    paths_that_part(bench)?;
    shorter_and_second(bench)
}

/// P1 to P4.
fn map_a(bench: &mut Bench) -> Compared<()> {
    let links = [[0, 0, 1, 0], [0, 1, 2, 0], [1, 0, 3, 0], [2, 0, 3, 1]];
    let bytes = map(&[(0, 2), (1, 1), (1, 1), (2, 0)], &links);
    let tables = Tables { order: &[0, 1, 2, 3], positions: &[0, 1, 1, 2], lines: &[&[0, 1, 3], &[0, 2, 3]] };
    let a = Prepared::new(bench, bytes, 2, tables)?;
    a.line(bench, &[0, 3], NO, 0)?;
    a.line(bench, &[1, 2], YES, 0)?;
    a.line(bench, &[0, 1, 3], NO, 0)?;
    a.port(bench, 7, 1, &[1])?;
    a.path(bench, &[0, 3], 3, &[0, 1, 3])?;
    a.path(bench, &[0, 1, 3], 4, &[0, 2, 3])?;
    a.path(bench, &[1, 2], 0, &[])
}

/// P5 to P8, and the four lines of the listing.
fn map_b(bench: &mut Bench) -> Compared<()> {
    let links = [[0, 0, 1, 0], [1, 0, 2, 0], [1, 1, 3, 0], [4, 0, 5, 0], [5, 0, 6, 0]];
    let bytes = map(&[(0, 1), (1, 2), (1, 0), (1, 0), (0, 1), (1, 1), (1, 0)], &links);
    let lines: &[&[u16]] = &[&[0, 1, 2], &[4, 5, 6], &[1, 3]];
    let b = Prepared::new(bench, bytes, 3, Tables { order: &[0, 4, 1, 5, 2, 3, 6], lines, ..Tables::default() })?;
    b.line(bench, &[0, 3], NO, 1)?;
    b.line(bench, &[0, 6], YES, 3)?;
    b.extend(bench, [0, 0, 0], 2, &[])?;
    b.extend(bench, [0, 0, 0], 3, &[0, 0, 0, 2, 2, 2])?;
    b.line_refused(bench, &[], 8, 0)?;
    b.line_refused(bench, &[3, 3], 10, 1)?;
    for (list, case) in [(&[0, 3][..], NO), (&[0, 6], YES), (&[], YES), (&[3, 3], YES)] {
        b.order(bench, list, case)?;
    }
    b.path(bench, &[0, 3], 3, &[0, 1, 3])?;
    b.path(bench, &[0, 1, 3], 0, &[])?;
    b.path(bench, &[0, 6], 1, &[])?;
    b.path_refused(bench, &[0, 3], 2, [11, 3])?;
    b.path_refused(bench, &[], 3, [8, 0])?;
    b.path_refused(bench, &[0, 7], 3, [9, 1])?;
    b.path_refused(bench, &[0, 3, 0], 3, [10, 2])
}

/// P9 and P10.
fn map_c(bench: &mut Bench) -> Compared<()> {
    let bytes = map(&[(0, 1), (1, 0), (1, 0)], &[[0, 0, 1, 0], [0, 0, 2, 0]]);
    let c = Prepared::new(bench, bytes, 2, Tables { lines: &[&[0, 2], &[0, 1]], ..Tables::default() })?;
    c.with_ports(bench, &[0, 2], [2, 0], YES)?;
    c.with_ports(bench, &[0, 2], [1, 0], NO)
}

/// Two shortest paths that part at the end, at the start, and between.
fn paths_that_part(bench: &mut Bench) -> Compared<()> {
    // 0 2 3 and 0 1 4
    let links = [[0, 0, 1, 0], [0, 1, 2, 0], [1, 0, 4, 0], [2, 0, 3, 0]];
    let bytes = map(&[(0, 2), (1, 1), (1, 1), (1, 0), (1, 0)], &links);
    Prepared::new(bench, bytes, 2, Tables::default())?.path(bench, &[4, 3, 0], 4, &[0, 2, 3])?;
    // 0 2 3 and 1 2 3
    let bytes = map(&[(0, 1), (0, 1), (2, 1), (1, 0)], &[[1, 0, 2, 1], [0, 0, 2, 0], [2, 0, 3, 0]]);
    Prepared::new(bench, bytes, 2, Tables::default())?.path(bench, &[3, 1, 0], 3, &[0, 2, 3])?;
    // 0 1 4 5 and 0 2 3 5
    let links = [[0, 0, 1, 0], [1, 0, 4, 0], [4, 0, 5, 0], [0, 0, 2, 0], [2, 0, 3, 0], [3, 0, 5, 1]];
    let bytes = map(&[(0, 1), (1, 1), (1, 1), (1, 1), (1, 1), (2, 0)], &links);
    Prepared::new(bench, bytes, 2, Tables::default())?.path(bench, &[0, 5], 4, &[0, 2, 3, 5])
}

/// A shorter path behind a longer one, and a path along a fan-out's second link.
fn shorter_and_second(bench: &mut Bench) -> Compared<()> {
    let links = [[0, 0, 1, 0], [1, 0, 2, 0], [2, 0, 3, 0], [3, 0, 4, 0], [4, 0, 5, 0]];
    let bytes = map(&[(0, 1), (1, 1), (1, 1), (1, 1), (1, 1), (1, 0)], &links);
    Prepared::new(bench, bytes, 1, Tables::default())?.path(bench, &[0, 3, 5], 3, &[3, 4, 5])?;
    let bytes = map(&[(0, 1), (1, 0), (1, 1), (1, 0)], &[[0, 0, 1, 0], [0, 0, 2, 0], [2, 0, 3, 0]]);
    Prepared::new(bench, bytes, 2, Tables::default())?.path(bench, &[0, 3], 3, &[0, 2, 3])
}
