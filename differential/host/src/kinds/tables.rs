//! Tables that preparing did not write: accepted ones, and damaged ones.

use super::other_tables;
use crate::asker::Asker;
use crate::bench::{Bench, Compared};
use crate::call::{bytes, words};
use crate::reading::steps::Steps;
use crate::reading::tables::{Sections, Tables};
use oracle::drawing;
use oracle::map_bytes::{self, Records};
use oracle::random::Random;
use oracle::step_map::StepMap;
use std::rc::Rc;

/// Areas longer than this many words are lent too: no map has a larger W.
const LARGEST_AREA: usize = 31_751;

/// A map with tables of any kind that 01 accepts.
pub struct Drawn {
    pub step_map: StepMap,
    pub map: Rc<[u8]>,
    pub steps: Steps,
    pub sections: Sections,
    pub tables: Tables,
}

impl Drawn {
    pub fn new(random: &mut Random, nodes: usize) -> Self {
        let step_map = drawing::map(random, nodes);
        Self::over(random, step_map)
    }

    /// The tables that preparing writes, for every third map.
    pub fn over(random: &mut Random, step_map: StepMap) -> Self {
        let records = || Records { nodes: step_map.nodes().to_vec(), links: step_map.links().to_vec() };
        let map = map_bytes::write(step_map.nodes(), step_map.links()).into();
        let (steps, sections) = (Steps::new(records()), Sections::of(&records()));
        let tables = match random.one_in(3) {
            true => Tables::prepared(&steps).unwrap_or_else(|refusal| panic!("not prepared: {refusal:?}")),
            false => other_tables::draw(random, &steps),
        };
        Self { step_map, map, steps, sections, tables }
    }

    pub fn asker(&self) -> Asker<'_> {
        Asker { map: &self.step_map, steps: &self.steps, tables: &self.tables }
    }

    pub fn area(&self, random: &mut Random) -> Vec<u8> {
        let more = match random.below(40) {
            0 => (2 * LARGEST_AREA + random.below(9)).saturating_sub(4 + 2 * self.sections.words()), // about the largest W
            1 => 2 * LARGEST_AREA,
            _ => random.below(9),
        };
        other_tables::area(random, &self.tables, &self.sections, more)
    }
}

pub fn round(bench: &mut Bench, random: &mut Random, round: usize) -> Compared<()> {
    for _ in 0..16 {
        accepted(bench, random, 12, 40)?;
    }
    if round % 4 == 0 {
        accepted(bench, random, 100, 20)?;
    }
    if round % 16 == 0 {
        let nodes = 100 + random.below(413);
        accepted(bench, random, nodes, 20)?;
    }
    for _ in 0..5 {
        word_by_word(bench, random)?;
        several_words(bench, random)?;
        lost_line(bench, random)?;
    }
    Ok(())
}

/// Calls on tables that 01 accepts, whoever wrote them, with good and bad inputs.
fn accepted(bench: &mut Bench, random: &mut Random, nodes: usize, calls: usize) -> Compared<()> {
    bench.kind("accepted tables, any inputs");
    let drawn = Drawn::new(random, nodes);
    let area = drawn.area(random).into();
    for _ in 0..calls {
        let call = drawn.asker().call(random, &drawn.map, &area);
        let left = bench.ask(&call)?;
        assert!((left.case, left.number) != (3, 7), "tables that were to be accepted");
    }
    Ok(())
}

/// Each word of the tables in turn gets another value, and then each word of scratch.
fn word_by_word(bench: &mut Bench, random: &mut Random) -> Compared<()> {
    bench.kind("damaged tables, word by word");
    let drawn = Drawn::new(random, 7);
    let area = drawn.area(random);
    let good = words(&area[..2 * drawn.sections.words()]);
    for at in 0..good.len() {
        let mut damaged = area.clone();
        let word = other_word(random, &good, at).to_le_bytes();
        damaged[2 * at..2 * at + 2].copy_from_slice(&word);
        let call = drawn.asker().call(random, &drawn.map, &damaged.into());
        bench.ask(&call)?;
    }
    Ok(())
}

/// A value near the word's own, or that of another word, or an end of the range.
fn other_word(random: &mut Random, words: &[u16], at: usize) -> u16 {
    let word = words[at];
    let elsewhere = random.pick(words);
    let neighbour = words[(at + 1) % words.len()];
    random.pick(&[word.wrapping_add(1), word.wrapping_sub(1), elsewhere, neighbour, 0, u16::MAX])
}

/// Two words change places, or one is copied over another, once or several times: tables that are nearly right.
fn several_words(bench: &mut Bench, random: &mut Random) -> Compared<()> {
    bench.kind("damaged tables, several words");
    let drawn = Drawn::new(random, 7);
    let area = drawn.area(random);
    let in_use = drawn.sections.scratch().start;
    for _ in 0..80 {
        let mut damaged = words(&area[..2 * drawn.sections.words()]);
        for _ in 0..1 + random.below(3) {
            let [one, other] = [0; 2].map(|_| random.below(in_use));
            let near = (one + 1 + random.below(3)).min(in_use - 1);
            let other = if random.one_in(2) { near } else { other };
            match random.one_in(4) {
                true => damaged[one] = damaged[other],
                false => damaged.swap(one, other),
            }
        }
        let call = drawn.asker().call(random, &drawn.map, &bytes(&damaged).into());
        bench.ask(&call)?;
    }
    Ok(())
}

/// A line with one node only is gone from all tables: they are accepted still, unless the node has no other.
fn lost_line(bench: &mut Bench, random: &mut Random) -> Compared<()> {
    bench.kind("damaged tables, a line less");
    let drawn = Drawn::new(random, 7);
    let short = (0..drawn.tables.lines).filter(|&line| drawn.tables.nodes_of[line].len() == 1);
    for lost in short {
        let area = other_tables::area(random, &drawn.tables.without(lost), &drawn.sections, 0).into();
        for _ in 0..4 {
            let call = drawn.asker().call(random, &drawn.map, &area);
            bench.ask(&call)?;
        }
    }
    Ok(())
}
