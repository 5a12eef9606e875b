//! All paths that 02, No. 1 speaks of, found by trying every way out of the list; and the first of them, by its rule. For small maps alone.

use oracle::step_map::Link;

/// Nodes of a map whose paths are all tried, at most.
pub const MOST_NODES: usize = 12;

/// "No shorter one may exist; among equals, read from the end backwards, the one with the smaller step number at the first difference."
pub fn first(links: &[Link], list: &[usize]) -> Option<Vec<usize>> {
    let mut paths = Vec::new();
    for &start in list {
        follow(links, list, &[start], &mut paths);
    }
    let backwards = |path: &Vec<usize>| path.iter().rev().copied().collect::<Vec<usize>>();
    paths.into_iter().min_by_key(|path| (path.len(), backwards(path)))
}

/// All paths that begin with these steps: "at least one step between, all of those outside the list, each linked to the next".
fn follow(links: &[Link], list: &[usize], steps: &[usize], paths: &mut Vec<Vec<usize>>) {
    for link in links.iter().filter(|link| steps.ends_with(&[link.from])) {
        let longer = [steps, &[link.to]].concat();
        match list.contains(&link.to) {
            false => follow(links, list, &longer, paths),
            true if longer.len() > 2 => paths.push(longer),
            true => (),
        }
    }
}
