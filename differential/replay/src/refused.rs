//! Refused questions. The Rust has no refusals, so these answers are the reading's: number and place, and what stands in the lent words.

use crate::line::{map, question, read_answer, Line};
use oracle::drawing;
use oracle::map_bytes::{self, Records};
use oracle::random::Random;
use oracle::step_map::{Link, Node, StepMap};
use plain::asker::Asker;
use plain::call::{Call, Name};
use plain::reading;
use plain::reading::steps::Steps;
use plain::reading::tables::Tables;
use std::collections::BTreeMap;
use std::rc::Rc;

/// Calls drawn for a map's refusals.
const DRAWS: usize = 400;

/// Numbers on a line with a refusal, at most.
const LONGEST: usize = 60;

/// A line that records a refusal, and its number.
pub struct Refused {
    pub line: Line,
    pub number: u64,
}

/// A refused question of each kind and number that is found, and of these at most so many.
pub fn questions(
    random: &mut Random,
    step_map: &StepMap,
    map: &Rc<[u8]>,
    area: &Rc<[u8]>,
    most: usize,
) -> Vec<Refused> {
    let steps = Steps::new(Records { nodes: step_map.nodes().to_vec(), links: step_map.links().to_vec() });
    let tables = Tables::prepared(&steps).unwrap_or_else(|refusal| panic!("not prepared: {refusal:?}"));
    let asker = Asker { map: step_map, steps: &steps, tables: &tables };
    let mut found = BTreeMap::new();
    for _ in 0..DRAWS {
        let call = asker.call_among(Name::OF_01, random, map, area);
        if let Some(refused) = asked_once(call).and_then(refused) {
            found.entry((refused.line[0], refused.number)).or_insert(refused);
        }
    }
    let mut questions: Vec<Refused> = found.into_values().collect();
    random.shuffle(&mut questions);
    questions.truncate(most);
    questions
}

/// Both calls about a port are one question; preparing is a map's line.
fn asked_once(mut call: Call) -> Option<Call> {
    if call.name == Name::ViewLinesAtPort {
        call.name = Name::LinesAtPort;
    }
    (call.name != Name::Prepare).then_some(call)
}

/// A call that is refused, if every number on its line is a word and it is not too long.
fn refused(call: Call) -> Option<Refused> {
    let outcome = reading::outcome(&call);
    let line = [question(&call), read_answer(&call)].concat();
    let fits = line.len() <= LONGEST && line.iter().all(|&word| word <= 65535);
    (fits && outcome.case == 3).then_some(Refused { line, number: outcome.number })
}

/// Maps that are refused, and every question about each: number 2, 4 or 5 again, and 7 after 6, since a ring leaves no tables.
pub fn maps(random: &mut Random) -> Vec<Refused> {
    let mut lines = Vec::new();
    for number in [2, 4, 5, 6] {
        for _ in 0..3 {
            let (nodes, links) = damage(random, number);
            let (bytes, area) = (map_bytes::write(&nodes, &links).into(), vec![0xa5; 80_000].into());
            let prepared = Call::new(Name::Prepare, &bytes, &area);
            let outcome = reading::outcome(&prepared);
            assert_eq!((outcome.case, outcome.number), (3, number), "a map refused by {number}");
            lines.push(Refused { line: [map(&nodes, &links), read_answer(&prepared)].concat(), number });
            let area = outcome.area.into();
            lines.extend(every_question(&bytes, &area));
        }
    }
    lines
}

/// A small map with one fault.
fn damage(random: &mut Random, number: u64) -> (Vec<Node>, Vec<Link>) {
    let drawn = drawing::map(random, 6);
    let (mut nodes, mut links) = (drawn.nodes().to_vec(), drawn.links().to_vec());
    let first = nodes.len();
    nodes.extend([Node { inputs: 1, outputs: 1 }; 2]);
    links.push(Link { from: first, output: 0, to: first + 1, input: 0 });
    let bad = match number {
        2 => {
            nodes[first].inputs = 256;
            return (nodes, links);
        }
        4 => Link { from: first + 1, output: 0, to: first + random.below(3), input: 1 + random.below(2) },
        5 => Link { from: random.below(2) + first, output: 0, to: first + 1, input: 0 },
        _ => Link { from: first + 1, output: 0, to: first, input: 0 },
    };
    links.push(bad);
    (nodes, links)
}

/// One question of each kind.
fn every_question(map: &Rc<[u8]>, area: &Rc<[u8]>) -> Vec<Refused> {
    let call = |name: Name| {
        let call = Call::new(name, map, area);
        let call = if matches!(name, Name::LineIsConvex | Name::TopoIsConvex) {
            call.ports(vec![0, 0], vec![1, 0])
        } else {
            call
        };
        match name {
            Name::IsConvexByIntervals | Name::NodesInIntervals | Name::TryExtendIntervals => {
                call.records(vec![0, 0, 0, 0, 0, 0, 7, 0], 1).buffer(vec![9, 0, 8, 0])
            }
            _ => call.list(vec![0, 0]).buffer(vec![9, 0, 8, 0, 7, 0, 6, 0]),
        }
    };
    let names = Name::ALL[..Name::OF_01].iter().map(|pair| pair.0);
    let asked = names.filter(|&name| !matches!(name, Name::Prepare | Name::ViewLinesAtPort));
    asked.map(|name| refused(call(name)).expect("a refusal")).collect()
}
