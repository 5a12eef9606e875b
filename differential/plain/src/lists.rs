//! Random lists of nodes without repeats, for maps of every size.

use oracle::drawing;
use oracle::random::Random;
use oracle::step_map::StepMap;
use portgraph::{Direction, LinkView, NodeIndex};

/// Links on a way whose ends are a list, at most.
const WAY: usize = 5;

/// A list that is not empty: a few nodes, or many; a group held together by links; the ends of a way along links; the nodes between two places
/// of an order, all or all but one.
pub fn draw(random: &mut Random, map: &StepMap, order: &[usize]) -> Vec<usize> {
    let count = order.len();
    let mut any = random.permutation(count);
    match random.below(7) {
        0 => any.truncate(1 + random.below(count)),
        1 => any.truncate(1 + random.below(count.min(3))),
        2 => {
            let size = 1 + random.below(count.min(12));
            any = drawing::group(random, map, any[0], size);
        }
        3 | 4 => any = ends(random, map, any[0]),
        kind => {
            let start = random.below(count);
            let end = start + 1 + random.below(count - start);
            any = order[start..end].to_vec();
            random.shuffle(&mut any);
            if kind == 6 && any.len() > 2 {
                any.pop();
            }
        }
    }
    any
}

/// A node and one some links behind it. If the way between them leaves the lines of both, only a walk can tell that they are not convex.
fn ends(random: &mut Random, map: &StepMap, start: usize) -> Vec<usize> {
    let mut end = start;
    for _ in 0..2 + random.below(WAY - 1) {
        let behind: Vec<NodeIndex> = map.neighbours(NodeIndex::new(end), Direction::Outgoing).collect();
        if !behind.is_empty() {
            end = random.pick(&behind).index();
        }
    }
    if end == start {
        vec![start]
    } else {
        vec![end, start]
    }
}
