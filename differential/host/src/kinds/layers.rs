//! Random maps in layers, each linked to the next, and lists of what stands at both ends: long paths, and many of one length.

use super::pairs::linked;
use crate::bench::{Bench, Compared};
use crate::subject::{about, Subject};
use oracle::random::Random;

pub fn round(bench: &mut Bench, random: &mut Random) -> Compared<()> {
    bench.kind("random maps in layers");
    for _ in 0..8 {
        let layers = layers(random);
        let mut links: Vec<(usize, usize)> = layers.windows(2).flat_map(|pair| between(random, pair)).collect();
        random.shuffle(&mut links);
        let map = linked(layers.concat().len(), &links, random.one_in(2));
        let subject = Subject::prepare(bench, &map, 1)?.expect("no cycle in layers");
        for _ in 0..4 {
            let list = ends(random, &layers);
            subject.path(bench, &list, about)?;
        }
    }
    Ok(())
}

/// From 3 to 9 layers of up to 4 nodes, which have any numbers.
fn layers(random: &mut Random) -> Vec<Vec<usize>> {
    let widths: Vec<usize> = (0..3 + random.below(7)).map(|_| 1 + random.below(4)).collect();
    let mut numbers = random.permutation(widths.iter().sum()).into_iter();
    widths.iter().map(|&width| numbers.by_ref().take(width).collect()).collect()
}

/// Most of the links from one layer to the next.
fn between(random: &mut Random, pair: &[Vec<usize>]) -> Vec<(usize, usize)> {
    let all = pair[0].iter().flat_map(|&from| pair[1].iter().map(move |&to| (from, to)));
    all.filter(|_| !random.one_in(4)).collect()
}

/// Some of the first layer and some of the last, in any order; at times a node that stands anywhere.
fn ends(random: &mut Random, layers: &[Vec<usize>]) -> Vec<usize> {
    let mut list: Vec<usize> = Vec::new();
    for layer in [&layers[0], &layers[layers.len() - 1]] {
        list.extend(&layer[..1 + random.below(layer.len())]);
    }
    let anywhere = random.pick(&layers.concat());
    if random.one_in(4) && !list.contains(&anywhere) {
        list.push(anywhere);
    }
    random.shuffle(&mut list);
    list
}
