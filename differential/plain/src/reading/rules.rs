//! The refusals that concern a question's own inputs, each "given exactly when" 01's table says.

use super::questions::{Question, Record};
use crate::call::{words, Call};
use oracle::preparing::Refusal;
use std::collections::BTreeSet;

/// A refusal's number, if it is to be given.
pub struct Rule(Option<usize>);

pub fn rule(number: usize, given: bool) -> Rule {
    Rule(given.then_some(number))
}

impl Rule {
    pub fn at(self, place: usize) -> Result<(), Refusal> {
        self.0.map_or(Ok(()), |number| Err(Refusal { number, place }))
    }
}

/// The earliest bad entry decides.
fn earliest(number: usize, bad: Option<usize>) -> Result<(), Refusal> {
    bad.map_or(Ok(()), |place| Err(Refusal { number, place }))
}

/// 9: unknown node.
pub fn known_nodes(question: &Question, list: &[usize]) -> Result<(), Refusal> {
    earliest(9, list.iter().position(|&node| node >= question.steps.nodes.len()))
}

/// 10: entry equal to an earlier one.
pub fn no_repeats(list: &[usize]) -> Result<(), Refusal> {
    let mut seen = BTreeSet::new();
    earliest(10, list.iter().position(|&entry| !seen.insert(entry)))
}

/// 14: unknown port.
pub fn known_ports(question: &Question, list: &[usize]) -> Result<(), Refusal> {
    earliest(14, list.iter().position(|&port| port >= question.steps.port_count()))
}

/// Records as they are lent: a buffer's words, and how many records are said to be in it.
pub struct LentRecords {
    words: Vec<usize>,
    many: usize,
}

impl LentRecords {
    pub fn of(call: &Call) -> Self {
        Self { words: words(&call.records).into_iter().map(usize::from).collect(), many: call.many }
    }

    /// The records, or 12 or 13.
    pub fn records(&self, question: &Question) -> Result<Vec<Record>, Refusal> {
        // "A record count beyond the buffer gives 12 with the number of whole records as place, before any record is read"
        let whole = self.words.len() / 3;
        rule(12, self.many > whole).at(whole)?;
        let record = |words: &[usize]| Record { line: words[0], lowest: words[1], highest: words[2] };
        let records: Vec<Record> = self.words.chunks_exact(3).take(self.many).map(record).collect();
        let mut used = vec![false; question.tables.lines];
        earliest(12, records.iter().position(|record| !is_good(question, &mut used, record)))?;
        earliest(13, straddling(question, &records))?;
        Ok(records)
    }
}

/// "line ≥ K, line used before, ends not on the line, lowest above highest"
fn is_good(question: &Question, used: &mut [bool], record: &Record) -> bool {
    let &Record { line, lowest, highest } = record;
    if line >= used.len() || std::mem::replace(&mut used[line], true) {
        return false;
    }
    let tables = question.tables;
    let on_line = |position: usize| tables.nodes_of[line].iter().any(|&node| tables.positions[node] == position);
    on_line(lowest) && on_line(highest) && lowest <= highest
}

/// "a node inside on one line and outside on another; a line with no record is outside": the lowest such node.
fn straddling(question: &Question, records: &[Record]) -> Option<usize> {
    let tables = question.tables;
    let by_line = question.by_line(records);
    let inside = |node: usize, line: usize| by_line[line].is_some_and(|record| record.holds(tables.positions[node]));
    (0..tables.order.len()).find(|&node| {
        let count = tables.lines_of[node].iter().filter(|&&line| inside(node, line)).count();
        count != 0 && count != tables.lines_of[node].len()
    })
}
