//! What was compared, in numbers.

use crate::call::{Name, Outcome};
use std::collections::BTreeMap;

#[derive(Default, Clone, Copy)]
struct Row {
    calls: usize,
    beside_the_rust: usize,
    /// Of each case: 1, 2, 3.
    cases: [usize; 3],
}

impl Row {
    fn add(&mut self, outcome: &Outcome, beside_the_rust: bool) {
        self.calls += 1;
        self.beside_the_rust += usize::from(beside_the_rust);
        self.cases[outcome.case as usize - 1] += 1;
    }
}

#[derive(Default)]
pub struct Figures {
    current: usize,
    /// By kind, in the order in which the kinds first came.
    kinds: Vec<(&'static str, Row)>,
    exports: BTreeMap<Name, Row>,
    refusals: BTreeMap<u64, usize>,
    /// Line checks whose walk counted nodes: those that said yes, those that said no.
    walks: [usize; 2],
    /// Paths by their number of steps.
    paths: BTreeMap<u64, usize>,
}

impl Figures {
    pub fn kind(&mut self, kind: &'static str) {
        let known = self.kinds.iter().position(|(name, _)| *name == kind);
        self.current = known.unwrap_or(self.kinds.len());
        if known.is_none() {
            self.kinds.push((kind, Row::default()));
        }
    }

    /// A call whose outcome, case 1 to 3, was compared.
    pub fn add(&mut self, name: Name, outcome: &Outcome, beside_the_rust: bool) {
        self.kinds[self.current].1.add(outcome, beside_the_rust);
        self.exports.entry(name).or_default().add(outcome, beside_the_rust);
        let walks = matches!(name, Name::LineIsNodeConvex | Name::LineIsConvex | Name::IsConvexByIntervals);
        match outcome.case {
            3 => *self.refusals.entry(outcome.number).or_default() += 1,
            case if walks && outcome.values[0] > 0 => self.walks[case as usize - 1] += 1,
            1 if name == Name::ShowPath => *self.paths.entry(outcome.values[0]).or_default() += 1,
            _ => (),
        }
    }

    pub fn calls(&self) -> usize {
        self.kinds.iter().map(|(_, row)| row.calls).sum()
    }

    pub fn lines(&self) -> Vec<String> {
        let mut lines = vec![head("kind of input")];
        lines.extend(self.kinds.iter().map(|(kind, row)| line(kind, row)));
        lines.push(head("export"));
        lines.extend(self.exports.iter().map(|(name, row)| line(name.text(), row)));
        lines.push(format!("refusals by number: {}", counts(&self.refusals)));
        let [yes, no] = self.walks;
        lines.push(format!("line checks whose walk counted: {yes} yes, {no} no"));
        lines.push(format!("paths by their steps: {}", counts(&self.paths)));
        lines
    }
}

fn counts(by_number: &BTreeMap<u64, usize>) -> String {
    let counts = by_number.iter().map(|(number, count)| format!("{number}: {count}"));
    counts.collect::<Vec<String>>().join(", ")
}

fn head(first: &str) -> String {
    format!("{first:<44} {:>9} {:>9} {:>9} {:>9} {:>9}", "calls", "with Rust", "case 1", "case 2", "refused")
}

fn line(first: &str, row: &Row) -> String {
    let Row { calls, beside_the_rust, cases: [one, two, three] } = row;
    format!("{first:<44} {calls:>9} {beside_the_rust:>9} {one:>9} {two:>9} {three:>9}")
}
