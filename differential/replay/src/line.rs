//! A call as a line of the file: its kind, the question, the answer.

use oracle::step_map::{Link, Node};
use plain::call::{words, Call, Name, Outcome, BEFORE};
use plain::reading;

pub type Line = Vec<usize>;

/// The kind of a call's line. Both calls about a port are one line.
pub fn kind(name: Name) -> usize {
    match name {
        Name::Prepare => 1,
        Name::LineIsNodeConvex => 8,
        Name::TopoIsNodeConvex => 9,
        Name::IsConvexByIntervals => 10,
        Name::GetIntervalsFromNodes => 11,
        Name::TryExtendIntervals => 12,
        Name::NodesInIntervals => 13,
        Name::LinesAtPort | Name::ViewLinesAtPort => 14,
        Name::LineIsConvex => 15,
        Name::TopoIsConvex => 16,
        Name::ShowPath => unreachable!("a call of 02, of which there is no line"),
    }
}

/// The kind and the question; not of preparing, whose question is a map.
pub fn question(call: &Call) -> Line {
    let [nodes, inputs, outputs, records, buffer] =
        [&call.list, &call.inputs, &call.outputs, &call.records, &call.buffer].map(|bytes| list(&numbers(bytes)));
    let asked = match call.name {
        Name::Prepare => unreachable!("a map's line"),
        Name::LineIsNodeConvex | Name::TopoIsNodeConvex => nodes,
        Name::LineIsConvex | Name::TopoIsConvex => [nodes, inputs, outputs].concat(),
        Name::GetIntervalsFromNodes => [nodes, buffer].concat(),
        Name::IsConvexByIntervals => [vec![call.many], records].concat(),
        Name::TryExtendIntervals => [vec![call.many, call.index], records].concat(),
        Name::NodesInIntervals => [vec![call.many], records, buffer].concat(),
        Name::LinesAtPort | Name::ViewLinesAtPort => vec![call.index],
        Name::ShowPath => unreachable!("a call of 02, of which there is no line"),
    };
    [vec![kind(call.name)], asked].concat()
}

/// The kind and the question of a map.
pub fn map(nodes: &[Node], links: &[Link]) -> Line {
    let mut line = vec![1, nodes.len(), links.len()];
    line.extend(nodes.iter().flat_map(|node| [node.inputs, node.outputs]));
    line.extend(links.iter().flat_map(|link| [link.from, link.output, link.to, link.input]));
    line
}

/// What the reading answers: case, values, number and place, then the buffer afterwards or the lines viewed.
pub fn read_answer(call: &Call) -> Line {
    let outcome = reading::outcome(call);
    let behind = match call.name {
        Name::GetIntervalsFromNodes | Name::TryExtendIntervals | Name::NodesInIntervals => {
            list(&numbers(&outcome.room))
        }
        Name::LinesAtPort => list(&view(call, &outcome)),
        _ => Vec::new(),
    };
    [told(call.name, &outcome), behind].concat()
}

/// The lines viewed in the area that the first call leaves; none on refusal.
fn view(call: &Call, left: &Outcome) -> Vec<usize> {
    let area = left.area.clone().into();
    let seen = reading::outcome(&Call::new(Name::ViewLinesAtPort, &call.map, &area).index(call.index));
    if seen.case != 1 {
        return Vec::new();
    }
    let [start, count] = seen.values.map(|value| value as usize);
    numbers(&left.area)[start..start + count].to_vec()
}

/// What a case does not have is 0.
fn told(name: Name, outcome: &Outcome) -> Line {
    let values = match name {
        Name::TopoIsNodeConvex | Name::TopoIsConvex => 0,
        Name::LinesAtPort => 2,
        _ => 1,
    };
    let all = [outcome.values[0], outcome.values[1], outcome.number, outcome.place];
    let all: Vec<usize> = all.iter().zip(BEFORE).map(|(&x, before)| if x == before { 0 } else { x as usize }).collect();
    [&[outcome.case as usize], &all[..values], &all[2..]].concat()
}

/// A list with its length before it.
pub fn list(numbers: &[usize]) -> Line {
    [&[numbers.len()], numbers].concat()
}

pub fn numbers(bytes: &[u8]) -> Vec<usize> {
    words(bytes).into_iter().map(usize::from).collect()
}
