//! How many questions of each kind were recorded, and how they were answered.

use crate::oracle::Walked;
use crate::recording::{Asked, Recording};
use std::collections::BTreeMap;

/// Counts by name.
#[derive(Default)]
pub struct Figures {
    counts: BTreeMap<&'static str, BTreeMap<&'static str, usize>>,
}

impl Figures {
    /// Counts a recording in.
    pub fn add(&mut self, recording: &Recording) {
        self.count("maps", "all");
        self.count("maps", if recording.links.is_empty() { "without links" } else { "with links" });
        for asked in &recording.asked {
            self.add_asked(asked);
        }
    }

    fn add_asked(&mut self, asked: &Asked) {
        match asked {
            Asked::Line { said, .. } => self.count("line-check", walked(said)),
            Asked::Order { yes, .. } => self.count("order-check", answer(*yes)),
            Asked::Intervals { given, .. } => {
                self.count("intervals", if given.is_some() { "given" } else { "not contiguous" });
            }
            Asked::Records { said, .. } => self.count("records", walked(said)),
            Asked::Extend { records, given, .. } => self.count("extend", extended(records, given)),
            Asked::NodesIn { .. } => self.count("nodes-in", "all"),
            Asked::Port { said, .. } => {
                self.count("port", if said.lines.is_empty() { "without lines" } else { "with lines" });
            }
            Asked::LinePorts { ports, said, .. } => {
                self.count("line-ports", if ports.conflict { "conflict" } else { walked(said) });
            }
            Asked::OrderPorts { ports, yes, .. } => {
                self.count("order-ports", if ports.conflict { "conflict" } else { answer(*yes) });
            }
        }
    }

    fn count(&mut self, kind: &'static str, outcome: &'static str) {
        *self.counts.entry(kind).or_default().entry(outcome).or_default() += 1;
    }

    /// A line for each kind.
    pub fn lines(&self) -> Vec<String> {
        let line = |(kind, outcomes): (&&str, &BTreeMap<&str, usize>)| {
            let parts: Vec<String> = outcomes.iter().map(|(outcome, count)| format!("{outcome} {count}")).collect();
            format!("{kind}: {}", parts.join(", "))
        };
        self.counts.iter().map(line).collect()
    }
}

fn answer(yes: bool) -> &'static str {
    if yes {
        "yes"
    } else {
        "no"
    }
}

fn walked(said: &Walked) -> &'static str {
    match (said.yes, said.count) {
        (true, 0) => "yes with count 0",
        (true, _) => "yes with a count",
        (false, 0) => "no with count 0",
        (false, _) => "no with a count",
    }
}

fn extended(records: &[usize], given: &Option<Vec<usize>>) -> &'static str {
    match given {
        None => "not extendable",
        Some(after) if after == records => "already inside",
        Some(after) if after.len() > records.len() => "with new records",
        Some(_) => "longer records only",
    }
}
