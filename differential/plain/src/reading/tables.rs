//! The tables in the area: what preparing writes, and when tables that are found there are accepted.

use super::steps::Steps;
use oracle::map_bytes::Records;
use oracle::preparing::{sections, Refusal};
use std::ops::Range;

/// Where the sections of a map's area lie.
pub struct Sections([Range<usize>; 8]);

impl Sections {
    pub fn of(map: &Records) -> Self {
        let mut end = 0;
        Self(sections(map).map(|(_, words)| {
            end += words;
            end - words..end
        }))
    }

    /// W.
    pub fn words(&self) -> usize {
        self.0[7].end
    }

    pub fn order(&self) -> Range<usize> {
        self.0[1].clone()
    }

    pub fn positions(&self) -> Range<usize> {
        self.0[2].clone()
    }

    pub fn lines_of_nodes(&self) -> Range<usize> {
        self.0[4].clone()
    }

    pub fn nodes_of_lines(&self) -> Range<usize> {
        self.0[6].clone()
    }

    pub fn scratch(&self) -> Range<usize> {
        self.0[7].clone()
    }
}

#[derive(Debug, Clone)]
pub struct Tables {
    /// K.
    pub lines: usize,
    pub order: Vec<usize>,
    pub positions: Vec<usize>,
    /// Each node's lines, and each line's nodes.
    pub lines_of: Vec<Vec<usize>>,
    pub nodes_of: Vec<Vec<usize>>,
}

impl Tables {
    /// The tables of preparing, or refusal 6.
    pub fn prepared(steps: &Steps) -> Result<Self, Refusal> {
        let count = steps.nodes.len();
        let order = steps.order();
        if let Some(place) = (0..count).find(|node| !order.contains(node)) {
            return Err(Refusal { number: 6, place });
        }
        let (positions, lines_of) = (vec![0; count], vec![Vec::new(); count]);
        let mut tables = Self { lines: 0, order, positions, lines_of, nodes_of: Vec::new() };
        let mut standing = vec![Vec::new(); steps.port_count()];
        for node in tables.order.clone() {
            tables.place(steps, node, &mut standing);
        }
        tables.nodes_of = vec![Vec::new(); tables.lines];
        for &node in &tables.order {
            tables.lines_of[node].iter().for_each(|&line| tables.nodes_of[line].push(node));
        }
        Ok(tables)
    }

    /// Gives one node its lines and its position. The lines pushed at each output port and not yet taken are standing there.
    fn place(&mut self, steps: &Steps, node: usize, standing: &mut [Vec<usize>]) {
        // "a node takes, by input port, one line from each linked output port: the line pushed there last of those still there"
        let mut list = Vec::new();
        for link in steps.links_in(node) {
            let [output, _] = steps.ends(link);
            list.push(standing[output].pop().expect("a line for each link"));
            // "Its position is 0, or 1 above the largest position met."
            let met = self.positions[steps.links[link].from];
            self.positions[node] = self.positions[node].max(met + 1);
        }
        // "Its outgoing links reuse the taken lines in turn, then get new lines, numbered from 0."
        for (turn, link) in steps.links_out(node).enumerate() {
            if turn == list.len() {
                list.push(self.new_line());
            }
            standing[steps.ends(link)[0]].push(list[turn]);
        }
        // "A node with no link at all gets one new line."
        if list.is_empty() {
            list.push(self.new_line());
        }
        self.lines_of[node] = list;
    }

    fn new_line(&mut self) -> usize {
        self.lines += 1;
        self.lines - 1
    }

    /// The tables without one line; those above it move down.
    pub fn without(&self, lost: usize) -> Self {
        let mut tables = self.clone();
        tables.lines -= 1;
        tables.nodes_of.remove(lost);
        for list in &mut tables.lines_of {
            list.retain(|&line| line != lost);
            list.iter_mut().for_each(|line| *line -= usize::from(*line > lost));
        }
        tables
    }

    /// Writes what is in use; the other words stay.
    pub fn write(&self, sections: &Sections, area: &mut [u16]) {
        let contents = [
            vec![self.lines],
            self.order.clone(),
            self.positions.clone(),
            starts(&self.lines_of),
            self.lines_of.concat(),
            starts(&self.nodes_of),
            self.nodes_of.concat(),
        ];
        for (section, content) in sections.0.iter().zip(contents) {
            assert!(content.len() <= section.len());
            for (word, number) in area[section.clone()].iter_mut().zip(content) {
                *word = u16::try_from(number).expect("a word has 16 bits");
            }
        }
    }

    /// The tables that stand in the area, if they are accepted: 01's paragraph, sentence by sentence.
    pub fn accepted(steps: &Steps, sections: &Sections, area: &[u16]) -> Option<Self> {
        let section = |at: usize| area[sections.0[at].clone()].iter().map(|&word| usize::from(word));
        let (nodes, links) = (steps.nodes.len(), steps.links.len());
        // "K ≤ L+N."
        let lines = section(0).next().filter(|&lines| lines <= links + nodes)?;
        // "The order holds each node once."
        let order: Vec<usize> = section(1).collect();
        let mut sorted = order.clone();
        sorted.sort_unstable();
        (sorted == (0..nodes).collect::<Vec<usize>>()).then_some(())?;
        let positions = section(2).collect();
        // "Both start lists begin at 0, strictly rise and end at L+K. Entries are below K and N."
        let entries = links + lines;
        let lines_of = lists(section(3).collect(), section(4).take(entries).collect(), lines)?;
        let nodes_of = lists(section(5).take(lines + 1).collect(), section(6).take(entries).collect(), nodes)?;
        let tables = Self { lines, order, positions, lines_of, nodes_of };
        (tables.rise() && tables.agree() && tables.follow(steps) && tables.go_forward(steps)).then_some(tables)
    }

    /// "Positions strictly rise along a line."
    fn rise(&self) -> bool {
        let rises = |pair: &[usize]| self.positions[pair[0]] < self.positions[pair[1]];
        self.nodes_of.iter().all(|line| line.windows(2).all(rises))
    }

    /// "A node lists a line once exactly if the line lists it." No line lists a node twice, since positions rise, and both sides have as
    /// many entries: the pairs of the one are those of the other.
    fn agree(&self) -> bool {
        let mut from_nodes = pairs(&self.lines_of, |node, line| (node, line));
        let mut from_lines = pairs(&self.nodes_of, |line, node| (node, line));
        from_nodes.sort_unstable();
        from_lines.sort_unstable();
        from_nodes == from_lines
    }

    /// "For two nodes a and b, as many links run from a to b as there are lines on which b comes right after a."
    fn follow(&self, steps: &Steps) -> bool {
        let mut linked: Vec<(usize, usize)> = steps.links.iter().map(|link| (link.from, link.to)).collect();
        let neighbours = self.nodes_of.iter().flat_map(|line| line.windows(2));
        let mut along: Vec<(usize, usize)> = neighbours.map(|pair| (pair[0], pair[1])).collect();
        linked.sort_unstable();
        along.sort_unstable();
        linked == along
    }

    /// "Every link goes forward in the order."
    fn go_forward(&self, steps: &Steps) -> bool {
        let mut places = vec![0; self.order.len()];
        for (place, &node) in self.order.iter().enumerate() {
            places[node] = place;
        }
        steps.links.iter().all(|link| places[link.from] < places[link.to])
    }
}

/// Where each list starts, and where the last one ends.
fn starts(lists: &[Vec<usize>]) -> Vec<usize> {
    let mut starts = vec![0];
    for list in lists {
        starts.push(starts[starts.len() - 1] + list.len());
    }
    starts
}

/// The lists between the starts, if these are good and every entry is below the bound.
fn lists(starts: Vec<usize>, entries: Vec<usize>, bound: usize) -> Option<Vec<Vec<usize>>> {
    let rise = starts.windows(2).all(|pair| pair[0] < pair[1]);
    let good = starts[0] == 0 && rise && starts[starts.len() - 1] == entries.len();
    let below = entries.iter().all(|&entry| entry < bound);
    (good && below).then(|| starts.windows(2).map(|pair| entries[pair[0]..pair[1]].to_vec()).collect())
}

/// All pairs of a list's number and an entry.
fn pairs(lists: &[Vec<usize>], pair: impl Fn(usize, usize) -> (usize, usize)) -> Vec<(usize, usize)> {
    let mut all = Vec::new();
    for (number, list) in lists.iter().enumerate() {
        all.extend(list.iter().map(|&entry| pair(number, entry)));
    }
    all
}
