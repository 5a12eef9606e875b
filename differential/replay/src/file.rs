//! The recorded answers that the program `replay` holds the port against: maps, their tables, and questions, in lines of decimal
//! numbers. What each line means stands in the file's head, which is written here ([`GRAMMAR`]).

use crate::asked;
use crate::line::Line;
use crate::refused::{self, Refused};
use crate::Drawn;
use oracle::asking::record;
use oracle::drawing;
use oracle::map_bytes;
use oracle::oracle::Oracle;
use oracle::random::Random;
use oracle::recording::Recording;
use oracle::step_map::StepMap;
use plain::call::{Call, Name};
use plain::reading;
use std::collections::BTreeMap;
use std::fs;
use std::io;
use std::path::Path;
use std::rc::Rc;

/// The kinds of lines by their numbers, as the program reports them.
const KINDS: [&str; 17] = [
    "unreadable lines",
    "maps",
    "orders",
    "positions",
    "node starts",
    "lines of nodes",
    "line starts",
    "nodes of lines",
    "line checks",
    "order checks",
    "checks by records",
    "intervals",
    "extensions",
    "nodes in records",
    "lines at a port",
    "line checks with ports",
    "order checks with ports",
];

const GRAMMAR: &str = "\
# Every other line is a question and its answer, in decimal numbers: its kind, the question, the answer. In [ ] stands a list, with its
# length before it. A question is about the last map before it. Records are three numbers each: line, lowest, highest.
#
# An answer is told as the exports tell it: the case, its values, number, place; what a case does not have is 0. Case 1 is an answer or
# yes; 2 is no, not contiguous or not extendable; 3 is refused, with the number and the place of 01's table. Answers of case 1 and 2 are
# the Rust's, on 01's domain. The Rust has no refusals: those are a plain reading of 01. A buffer is given with all its words, and stands
# behind the answer with all its words afterwards: past the result they are as they were.
#
#  1 N L, inputs and outputs of each node, from node, output offset, to node, input offset of each link; case, K, number, place
#  2 [order]
#  3 [positions, by node]
#  4 [node starts]
#  5 [lines of nodes]
#  6 [line starts]
#  7 [nodes of lines]
#  8 line check: [list]; case, count, number, place
#  9 order check: [list]; case, number, place
# 10 check by records: how many records [their words]; case, count, number, place
# 11 intervals: [list] [buffer]; case, records, number, place [buffer]
# 12 extension: how many records, node [buffer with the records]; case, records, number, place [buffer]
# 13 nodes in records: how many records [their words] [buffer]; case, nodes, number, place [buffer]
# 14 lines at a port: port; case, the first one's place in its node's list, count, number, place [lines]
# 15 line check with ports: [list] [inputs] [outputs]; case, count, number, place
# 16 order check with ports: [list] [inputs] [outputs]; case, number, place
#
";

/// Steps of the large maps, of which there are two.
const LARGE: usize = 200;

/// Maps of several sizes in turn, two large ones, and the map without a node.
fn maps(random: &mut Random, drawn: &Drawn) -> Vec<StepMap> {
    let sizes = [drawn.steps / 15, drawn.steps / 6, drawn.steps / 3, drawn.steps];
    let mut steps: Vec<usize> = (0..drawn.maps).map(|number| sizes[number % sizes.len()].max(1)).collect();
    steps.extend([LARGE; 2]);
    let mut maps: Vec<StepMap> = steps.into_iter().map(|steps| drawing::map(random, steps)).collect();
    maps.push(StepMap::new(Vec::new(), Vec::new()));
    maps
}

/// What is recorded: all lines, and how many refusals there are of each kind of question and number.
#[derive(Default)]
struct Recorded {
    lines: Vec<Line>,
    refusals: BTreeMap<(usize, u64), usize>,
}

impl Recorded {
    fn new(drawn: &Drawn) -> Self {
        let random = &mut Random::new(drawn.seed);
        let mut recorded = Self::default();
        for map in maps(random, drawn) {
            recorded.ask(random, &map, drawn);
        }
        refused::maps(random).into_iter().for_each(|refused| recorded.refuse(refused));
        recorded
    }

    /// A map with its tables, the Rust's answers, and refusals. Of a map without a node there is nothing to ask but its tables.
    fn ask(&mut self, random: &mut Random, map: &StepMap, drawn: &Drawn) {
        assert!(map.nodes().iter().all(|node| node.inputs <= 255 && node.outputs <= 255), "a limit of 01");
        let recording = match map.nodes() {
            [] => Recording::of_tables(&Oracle::new(map)),
            _ => record(random, map, drawn.amount),
        };
        self.lines.extend(asked::tables(&recording));
        let bytes: Rc<[u8]> = map_bytes::write(map.nodes(), map.links()).into();
        let area: Rc<[u8]> = reading::outcome(&Call::new(Name::Prepare, &bytes, &vec![0; 80_000].into())).area.into();
        for asked in &recording.asked {
            self.lines.push(asked::line(random, &bytes, &area, asked));
        }
        if !map.nodes().is_empty() {
            let refused = refused::questions(random, map, &bytes, &area, drawn.refusals);
            refused.into_iter().for_each(|refused| self.refuse(refused));
        }
    }

    fn refuse(&mut self, Refused { line, number }: Refused) {
        *self.refusals.entry((line[0], number)).or_insert(0) += 1;
        self.lines.push(line);
    }
}

/// Writes the file of answers, and what the program is to write of it, below the program's folder.
pub fn write(folder: &Path, drawn: &Drawn) -> io::Result<()> {
    let Recorded { lines, refusals } = Recorded::new(drawn);
    eprintln!("{} lines, {} of them refusals", lines.len(), refusals.values().sum::<usize>());
    for ((kind, number), count) in refusals {
        eprintln!("{}: {count} refused by {number}", KINDS[kind]);
    }
    fs::create_dir_all(folder.join("data"))?;
    fs::write(folder.join("data/answers.txt"), head(drawn) + &text(&lines))?;
    fs::write(folder.join("stdout"), report(&lines))
}

/// How the file was made, and what its lines mean.
fn head(drawn: &Drawn) -> String {
    let Drawn { seed, maps, steps, amount, refusals } = drawn;
    let (lists, ports) = (amount.lists, amount.ports);
    let words =
        format!("--seed {seed} --maps {maps} --steps {steps} --lists {lists} --ports {ports} --refusals {refusals}");
    format!(
        "# Answers of the given Rust (portgraph 88172a3c8e) on random maps, and refusals of 01, for the program `replay`. Made with\n\
         # `differential/record --replay {words}`\n#\n{GRAMMAR}"
    )
}

fn text(lines: &[Line]) -> String {
    let line = |words: &Line| {
        let words: Vec<String> = words.iter().map(usize::to_string).collect();
        words.join(" ") + "\n"
    };
    lines.iter().map(line).collect()
}

/// What the program writes if every answer is the port's too: how many of each kind, and the checksum of all numbers.
fn report(lines: &[Line]) -> String {
    let rows = KINDS.iter().enumerate().map(|(kind, name)| {
        let count = lines.iter().filter(|words| words[0] == kind).count();
        format!("{name} {count}, 0 differ\n")
    });
    let report: String = rows.collect();
    format!("{report}checksum {}\n", checksum(lines))
}

/// Each number is added to 257 times what stands before it, modulo a prime: one changed number always shows.
fn checksum(lines: &[Line]) -> usize {
    lines.iter().flatten().fold(0, |sum, &word| {
        assert!(word <= 65535, "a word has 16 bits");
        (sum * 257 + word) % 4294967291
    })
}
