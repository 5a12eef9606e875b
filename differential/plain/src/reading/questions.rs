//! 01's questions about a map and accepted tables, on inputs that are not refused.

use super::steps::Steps;
use super::tables::Tables;
use std::collections::VecDeque;

/// "a record of three words (line, lowest, highest position)"
#[derive(Debug, Clone, Copy, PartialEq, Eq)]
pub struct Record {
    pub line: usize,
    pub lowest: usize,
    pub highest: usize,
}

impl Record {
    pub fn words(self) -> [u16; 3] {
        [self.line, self.lowest, self.highest].map(|number| number as u16)
    }

    pub fn holds(self, position: usize) -> bool {
        (self.lowest..=self.highest).contains(&position)
    }
}

/// What is asked about.
pub struct Question<'a> {
    pub steps: &'a Steps,
    pub tables: &'a Tables,
}

impl Question<'_> {
    /// "for each line touched, first seen first, a record (..); or "not contiguous" when the line has an unlisted node between"
    pub fn intervals(&self, list: &[usize]) -> Option<Vec<Record>> {
        let mut records: Vec<Record> = Vec::new();
        let mut places = vec![None; self.tables.lines];
        let mut listed = vec![false; self.steps.nodes.len()];
        for &node in list {
            listed[node] = true;
            let position = self.tables.positions[node];
            for &line in &self.tables.lines_of[node] {
                let place = *places[line].get_or_insert(records.len());
                if place == records.len() {
                    records.push(Record { line, lowest: position, highest: position });
                }
                let record = &mut records[place];
                record.lowest = record.lowest.min(position);
                record.highest = record.highest.max(position);
            }
        }
        let contiguous = |record: &Record| self.between(record).all(|node| listed[node]);
        records.iter().all(contiguous).then_some(records)
    }

    /// The nodes of a record's line from its lowest to its highest position.
    fn between<'q>(&'q self, record: &'q Record) -> impl Iterator<Item = usize> + 'q {
        let nodes = self.tables.nodes_of[record.line].iter().copied();
        nodes.filter(|&node| record.holds(self.tables.positions[node]))
    }

    /// The queue walk: yes or no, and the count.
    pub fn walk(&self, records: &[Record]) -> (bool, usize) {
        let Tables { positions, lines_of, .. } = self.tables;
        let most = records.iter().map(|record| record.lowest).max().expect("a record");
        let on_line = self.by_line(records);
        // "Start, record by record, with the node after the highest on its line."
        let mut queue: VecDeque<usize> = records.iter().filter_map(|record| self.after(record)).collect();
        let mut seen = vec![false; self.steps.nodes.len()];
        let mut count = 0;
        while let Some(node) = queue.pop_front() {
            // "skip a node above M (the largest of the lowest positions) or seen before; count it"
            if positions[node] > most || seen[node] {
                continue;
            }
            seen[node] = true;
            count += 1;
            // "if it stands below a record's lowest on one of its lines, no; else append its output neighbours"
            let below = |&line: &usize| on_line[line].is_some_and(|record: Record| positions[node] < record.lowest);
            if lines_of[node].iter().any(below) {
                return (false, count);
            }
            queue.extend(self.steps.output_neighbours(node));
        }
        (true, count)
    }

    /// The node after a record's highest on its line.
    fn after(&self, record: &Record) -> Option<usize> {
        let nodes = self.tables.nodes_of[record.line].iter();
        nodes.copied().find(|&node| self.tables.positions[node] > record.highest)
    }

    /// The node before a record's lowest on its line.
    fn before(&self, record: &Record) -> Option<usize> {
        let nodes = self.tables.nodes_of[record.line].iter();
        nodes.copied().rfind(|&node| self.tables.positions[node] < record.lowest)
    }

    /// Each line's record.
    pub fn by_line(&self, records: &[Record]) -> Vec<Option<Record>> {
        let mut by_line = vec![None; self.tables.lines];
        for &record in records {
            by_line[record.line] = Some(record);
        }
        by_line
    }

    /// "one node, on all its lines, each next to the interval or inside it or new, (..) new records last in the node's line order; else
    /// "not extendable""
    pub fn extension(&self, records: &[Record], node: usize) -> Option<Vec<Record>> {
        let position = self.tables.positions[node];
        let mut extended = records.to_vec();
        for &line in &self.tables.lines_of[node] {
            let Some(place) = records.iter().position(|record| record.line == line) else {
                extended.push(Record { line, lowest: position, highest: position });
                continue;
            };
            let record = &records[place];
            if self.before(record) == Some(node) {
                extended[place].lowest = position;
            } else if self.after(record) == Some(node) {
                extended[place].highest = position;
            } else if !record.holds(position) {
                return None;
            }
        }
        Some(extended)
    }

    /// "by position, then number, each once"
    pub fn nodes_in(&self, records: &[Record]) -> Vec<usize> {
        let mut nodes: Vec<usize> = records.iter().flat_map(|record| self.between(record)).collect();
        nodes.sort_unstable_by_key(|&node| (self.tables.positions[node], node));
        nodes.dedup();
        nodes
    }

    /// The order check: no unlisted node lies behind one listed node and before another.
    pub fn is_convex(&self, list: &[usize]) -> bool {
        let links = &self.steps.links;
        let mut listed = vec![false; self.steps.nodes.len()];
        list.iter().for_each(|&node| listed[node] = true);
        let (mut behind, mut before) = (listed.clone(), listed.clone());
        // every link goes forward in the order, so one pass in it, and one against it, finds all
        for &node in &self.tables.order {
            behind[node] |= self.steps.links_in(node).any(|link| behind[links[link].from]);
        }
        for &node in self.tables.order.iter().rev() {
            before[node] |= self.steps.links_out(node).any(|link| before[links[link].to]);
        }
        (0..listed.len()).all(|node| listed[node] || !behind[node] || !before[node])
    }

    /// "in its node's list, skip one line for each link on earlier ports of the same direction, then take one for each link of the port"
    pub fn port_lines(&self, port: usize) -> (usize, usize) {
        let node = self.steps.owner(port);
        let inputs = self.steps.inputs(node);
        let earlier = if inputs.contains(&port) { inputs.start..port } else { inputs.end..port };
        let skipped = earlier.map(|port| self.steps.links_at(port).len()).sum();
        (skipped, self.steps.links_at(port).len())
    }

    /// "any listed input is the other end of the FIRST link of a listed output (..) either list may name ports of either direction"
    pub fn have_conflict(&self, inputs: &[usize], outputs: &[usize]) -> bool {
        let other_end = |&port: &usize| {
            let [output, input] = self.steps.ends(*self.steps.links_at(port).first()?);
            Some(if port == output { input } else { output })
        };
        outputs.iter().filter_map(other_end).any(|end| inputs.contains(&end))
    }
}
