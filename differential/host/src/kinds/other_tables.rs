//! Accepted tables that preparing did not write: any lines along the links, in any numbering, any order, any rising positions.

use crate::call::{bytes, junk};
use crate::reading::steps::Steps;
use crate::reading::tables::{Sections, Tables};
use oracle::random::Random;

/// The highest position.
const HIGHEST: usize = (1 << 16) - 1;

/// Tables for a map without a cycle.
pub fn draw(random: &mut Random, steps: &Steps) -> Tables {
    let order = order(random, steps);
    let positions = positions(random, steps, &order);
    let mut nodes_of = lines(random, steps, &order);
    add_short_lines(random, steps, &mut nodes_of);
    random.shuffle(&mut nodes_of);
    let mut lines_of = vec![Vec::new(); steps.nodes.len()];
    for (line, nodes) in nodes_of.iter().enumerate() {
        nodes.iter().for_each(|&node| lines_of[node].push(line));
    }
    lines_of.iter_mut().for_each(|list| random.shuffle(list));
    Tables { lines: nodes_of.len(), order, positions, lines_of, nodes_of }
}

/// An area with these tables, random words where they have none, and some bytes more.
pub fn area(random: &mut Random, tables: &Tables, sections: &Sections, more: usize) -> Vec<u8> {
    let mut words: Vec<u16> = (0..sections.words()).map(|_| random.below(1 << 16) as u16).collect();
    tables.write(sections, &mut words);
    [bytes(&words), junk(more)].concat()
}

/// Any order in which every link goes forward.
fn order(random: &mut Random, steps: &Steps) -> Vec<usize> {
    let count = steps.nodes.len();
    let mut open: Vec<usize> = (0..count).map(|node| steps.links_in(node).count()).collect();
    let mut free: Vec<usize> = (0..count).filter(|&node| open[node] == 0).collect();
    let mut order = Vec::new();
    while !free.is_empty() {
        let node = free.swap_remove(random.below(free.len()));
        order.push(node);
        for target in steps.output_neighbours(node) {
            open[target] -= 1;
            if open[target] == 0 {
                free.push(target);
            }
        }
    }
    assert_eq!(order.len(), count, "a cycle");
    order
}

/// Positions that rise along every link, with no gaps or with small or large ones.
fn positions(random: &mut Random, steps: &Steps, order: &[usize]) -> Vec<usize> {
    let gap = random.pick(&[1, 1, 3, HIGHEST / (order.len() + 1)]);
    let mut positions = vec![0; order.len()];
    for &node in order {
        let met = steps.links_in(node).map(|link| positions[steps.links[link].from] + 1).max();
        positions[node] = met.unwrap_or(0) + random.below(gap);
    }
    if random.one_in(4) {
        let most = positions.iter().max().copied().unwrap_or(0);
        positions.iter_mut().for_each(|position| *position += HIGHEST - most); // up to the highest word
    }
    positions
}

/// Lines along all links: at each node any of the lines that come in go on along any of the links that go out, each at most once.
fn lines(random: &mut Random, steps: &Steps, order: &[usize]) -> Vec<Vec<usize>> {
    let mut lines: Vec<Vec<usize>> = Vec::new();
    let mut line_of = vec![0; steps.links.len()];
    let ends_here = random.pick(&[2, 5, usize::MAX >> 33]);
    for &node in order {
        let mut coming: Vec<usize> = steps.links_in(node).map(|link| line_of[link]).collect();
        coming.iter().for_each(|&line| lines[line].push(node));
        coming.retain(|_| !random.one_in(ends_here));
        random.shuffle(&mut coming);
        for link in steps.links_out(node) {
            line_of[link] = coming.pop().unwrap_or_else(|| {
                lines.push(vec![node]);
                lines.len() - 1
            });
        }
    }
    lines
}

/// Each node without a line gets one of its own; others may get one too, as long as K ≤ L+N.
fn add_short_lines(random: &mut Random, steps: &Steps, lines: &mut Vec<Vec<usize>>) {
    let linked = |node: &usize| steps.links_in(*node).chain(steps.links_out(*node)).next().is_some();
    let (others, bare): (Vec<usize>, Vec<usize>) = (0..steps.nodes.len()).partition(linked);
    lines.extend(bare.iter().map(|&node| vec![node]));
    let most = steps.links.len() + steps.nodes.len();
    if !others.is_empty() && random.one_in(2) {
        let more = random.below(most - lines.len() + 1);
        lines.extend((0..more).map(|_| vec![random.pick(&others)]));
    }
}
