//! Random calls about a map and an area, good and bad: any function, with lists, ports, records and rooms as they may come.

use crate::call::{bytes, junk, number_bytes, Call, Name};
use crate::lists;
use crate::reading::questions::{Question, Record};
use crate::reading::steps::Steps;
use crate::reading::tables::Tables;
use oracle::drawing;
use oracle::random::Random;
use oracle::step_map::StepMap;
use std::rc::Rc;

/// What the calls are drawn for. The map and the area that are lent may be others, damaged ones.
pub struct Asker<'a> {
    pub map: &'a StepMap,
    pub steps: &'a Steps,
    pub tables: &'a Tables,
}

impl Asker<'_> {
    /// A call of any function, preparing only at times.
    pub fn call(&self, random: &mut Random, map: &Rc<[u8]>, area: &Rc<[u8]>) -> Call {
        self.call_among(Name::ALL.len(), random, map, area)
    }

    /// A call of any of the first so many functions, preparing only at times.
    pub fn call_among(&self, names: usize, random: &mut Random, map: &Rc<[u8]>, area: &Rc<[u8]>) -> Call {
        let name = if random.one_in(24) { Name::Prepare } else { Name::ALL[1 + random.below(names - 1)].0 };
        let call = Call::new(name, map, area);
        match name {
            Name::Prepare => call,
            Name::LineIsNodeConvex | Name::TopoIsNodeConvex => call.list(self.list(random)),
            Name::LineIsConvex | Name::TopoIsConvex => {
                let [inputs, outputs] = self.ports(random);
                call.list(self.list(random)).ports(inputs, outputs)
            }
            Name::GetIntervalsFromNodes => self.intervals(random, call),
            Name::IsConvexByIntervals => self.records(random, call),
            Name::TryExtendIntervals => self.extension(random, call),
            Name::NodesInIntervals => self.nodes_in(random, call),
            Name::LinesAtPort | Name::ViewLinesAtPort => call.index(index(random, self.steps.port_count())),
            Name::ShowPath => self.path(random, call),
        }
    }

    fn question(&self) -> Question<'_> {
        Question { steps: self.steps, tables: self.tables }
    }

    fn good_list(&self, random: &mut Random) -> Vec<usize> {
        match self.tables.order.is_empty() {
            true => Vec::new(),
            false => lists::draw(random, self.map, &self.tables.order),
        }
    }

    /// A list without repeats, at times with a repeat or an unknown node put in, at times empty.
    fn list(&self, random: &mut Random) -> Vec<u8> {
        let mut list = self.good_list(random);
        let kind = random.below(10);
        if kind <= 1 && !list.is_empty() {
            let again = random.pick(&list);
            list.insert(random.below(list.len() + 1), again);
        }
        if (1..=2).contains(&kind) {
            let unknown = unknown(random, self.steps.nodes.len());
            list.insert(random.below(list.len() + 1), unknown);
        }
        if kind == 3 {
            list.clear();
        }
        odd(random, number_bytes(&list))
    }

    /// Two lists of ports, at times with an unknown one in either.
    fn ports(&self, random: &mut Random) -> [Vec<u8>; 2] {
        drawing::ports(random, self.map).map(|mut list| {
            if random.one_in(6) {
                let unknown = unknown(random, self.steps.port_count());
                list.insert(random.below(list.len() + 1), unknown);
            }
            odd(random, number_bytes(&list))
        })
    }

    fn intervals(&self, random: &mut Random, call: Call) -> Call {
        if random.one_in(3) {
            let room = junk(random.below(40));
            return call.list(self.list(random)).buffer(room);
        }
        let list = self.good_list(random);
        let records = self.question().intervals(&list).map_or(0, |records| records.len());
        let room = room(random, 3 * records);
        call.list(number_bytes(&list)).buffer(room)
    }

    fn path(&self, random: &mut Random, call: Call) -> Call {
        if random.one_in(3) {
            let room = junk(random.below(40));
            return call.list(self.list(random)).buffer(room);
        }
        let list = self.good_list(random);
        let steps = self.question().path(&list).map_or(0, |steps| steps.len());
        let room = room(random, steps);
        call.list(number_bytes(&list)).buffer(room)
    }

    /// Good records, or bad ones.
    fn some_records(&self, random: &mut Random) -> Vec<Record> {
        let list = self.good_list(random);
        let mut records = match self.question().intervals(&list) {
            Some(records) if !random.one_in(4) => records,
            _ => self.any_records(random),
        };
        if random.one_in(3) {
            random.shuffle(&mut records);
        }
        if random.one_in(3) && !records.is_empty() {
            self.spoil(random, &mut records);
        }
        records
    }

    /// Some lines, each from one of its nodes to another: most such records are refused by 13.
    fn any_records(&self, random: &mut Random) -> Vec<Record> {
        let mut lines = random.permutation(self.tables.lines);
        lines.truncate(1 + random.below(3));
        let record = |line: usize| {
            let nodes = &self.tables.nodes_of[line];
            let ends = [random.pick(nodes), random.pick(nodes)].map(|node| self.tables.positions[node]);
            Record { line, lowest: ends[0].min(ends[1]), highest: ends[0].max(ends[1]) }
        };
        lines.into_iter().map(record).collect()
    }

    /// Makes one record bad, or two of them the same.
    fn spoil(&self, random: &mut Random, records: &mut Vec<Record>) {
        let at = random.below(records.len());
        let other = random.pick(records);
        let record = &mut records[at];
        match random.below(7) {
            0 => record.lowest = near(random, record.lowest),
            1 => record.highest = near(random, record.highest),
            2 => std::mem::swap(&mut record.lowest, &mut record.highest),
            3 => record.line = unknown(random, self.tables.lines),
            4 => record.line = random.below(self.tables.lines),
            5 => records.insert(at, other),
            _ => {
                *record = Record {
                    line: random.below(1 << 16),
                    lowest: random.below(1 << 16),
                    highest: random.below(1 << 16),
                }
            }
        }
    }

    fn records(&self, random: &mut Random, call: Call) -> Call {
        let records = self.some_records(random);
        let tail = random.below(16);
        call.records(laid(&records, tail), many(random, records.len()))
    }

    /// The records' own buffer, with room for the result or with a little less or more.
    fn extension(&self, random: &mut Random, call: Call) -> Call {
        let records = self.some_records(random);
        let node = index(random, self.steps.nodes.len());
        let lines = self.tables.lines_of.get(node).map_or(&[][..], |lines| lines);
        let new = lines.iter().filter(|&&line| records.iter().all(|record| record.line != line)).count();
        let tail = room(random, 3 * new).len();
        call.records(laid(&records, tail), many(random, records.len())).index(node)
    }

    fn nodes_in(&self, random: &mut Random, call: Call) -> Call {
        let call = self.records(random, call);
        let list = self.good_list(random);
        if let (Some(records), false) = (self.question().intervals(&list), random.one_in(3)) {
            let buffer = room(random, list.len());
            return call.records(laid(&records, 0), records.len()).buffer(buffer);
        }
        let buffer = junk(random.below(40));
        call.buffer(buffer)
    }
}

/// A number that is no index below the bound, as a word.
fn unknown(random: &mut Random, bound: usize) -> usize {
    let above = bound + random.below((1 << 16) - bound);
    random.pick(&[bound, bound + 1, above, (1 << 16) - 1])
}

/// An index mostly below the bound; else one that would be below it if its high bits were lost, or the bound, or a large number.
fn index(random: &mut Random, bound: usize) -> usize {
    let good = random.below(bound.max(1));
    match random.below(12) {
        0 => random.pick(&[good + (1 << 16), good + (1 << 32), good + (1 << 63)]),
        1 => random.pick(&[bound, bound + 1, usize::MAX]),
        _ => good,
    }
}

/// Mostly as many records as there are; else fewer, more, or numbers that overflow when multiplied.
fn many(random: &mut Random, count: usize) -> usize {
    match random.below(12) {
        0 => count + 1 + random.below(4),
        1 => random.below(count + 1),
        2 => random.pick(&[
            count + (1 << 16),
            count + (1 << 32),
            count + (1 << 63),
            usize::MAX,
            usize::MAX / 3 + 1,
            usize::MAX / 6 + 1,
        ]),
        _ => count,
    }
}

/// Room for so many words, or for a few less or more.
fn room(random: &mut Random, words: usize) -> Vec<u8> {
    let length = 2 * words;
    match random.below(4) {
        0 => junk(length.saturating_sub(1 + random.below(6))),
        1 => junk(length + random.below(9)),
        2 => junk(random.below(length + 1)),
        _ => junk(length),
    }
}

/// Records one after the other, and some bytes after them.
fn laid(records: &[Record], tail: usize) -> Vec<u8> {
    let words: Vec<u16> = records.iter().flat_map(|record| record.words()).collect();
    [bytes(&words), junk(tail)].concat()
}

fn near(random: &mut Random, number: usize) -> usize {
    let other = random.below(1 << 16);
    random.pick(&[number.saturating_sub(1), (number + 1).min((1 << 16) - 1), 0, other])
}

/// At times with an odd last byte.
fn odd(random: &mut Random, mut bytes: Vec<u8>) -> Vec<u8> {
    if random.one_in(4) {
        bytes.push(0xa5);
    }
    bytes
}
