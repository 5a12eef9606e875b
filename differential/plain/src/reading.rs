//! Documents 01 and 02 (No. 1) read plainly: the whole outcome of every call, refusals, places and lent words included.
//!
//! Written from their text alone, for looking at and not for speed. Refusals 1, 2, 4 and 5 and the sizes of the sections are the oracle's
//! (`map_bytes.rs`, `preparing.rs`), which read them from 01 too.
//!
//! - [`steps`]: a map's ports and links, its order and its lines;
//! - [`tables`]: the tables in the area: written, and read if 01 accepts them;
//! - [`questions`]: the questions;
//! - [`path`]: the path that a no shows, of 02;
//! - [`rules`]: refusals 8 to 14.

pub mod path;
pub mod questions;
pub mod rules;
pub mod steps;
pub mod tables;

use crate::call::{put, words, Call, Name, Outcome};
use oracle::map_bytes;
use oracle::preparing::{check_links, Refusal};
use questions::{Question, Record};
use rules::{rule, LentRecords};
use steps::Steps;
use tables::{Sections, Tables};

/// An answer: its case (1 is an answer or yes; 2 is no, not contiguous, not extendable or no path), its values, its result's words.
struct Said {
    case: u64,
    values: Vec<usize>,
    result: Vec<u16>,
}

/// What the call must leave.
pub fn outcome(call: &Call) -> Outcome {
    let mut area = words(&call.area);
    let said = answer(call, &mut area);
    let mut outcome = match said {
        Ok(Said { case, values, result }) => {
            let values: Vec<u64> = values.into_iter().map(|value| value as u64).collect();
            Outcome::said(call, case, &values, &result)
        }
        Err(Refusal { number, place }) => Outcome::refused(call, number as u64, place as u64),
    };
    put(&mut outcome.area, &area);
    outcome
}

/// The answer or the refusal; the area's words are left as 01 says.
fn answer(call: &Call, area: &mut [u16]) -> Result<Said, Refusal> {
    let map = map_bytes::read(&call.map)?; // 1, 2
    let sections = Sections::of(&map);
    rule(3, area.len() < sections.words()).at(0)?;
    if call.name == Name::Prepare {
        area[..sections.words()].fill(0); // "After 4, 5, 6 in preparing the first W words are 0."
        check_links(&map)?; // 4, 5
        let steps = Steps::new(map);
        let tables = Tables::prepared(&steps)?; // 6
        tables.write(&sections, area);
        return Ok(Said::one(tables.lines));
    }
    if call.name != Name::ViewLinesAtPort {
        area[sections.scratch()].fill(0); // "past 3 they leave scratch 0, the view of a port's lines excepted"
    }
    check_links(&map)?; // 4, 5
    let steps = Steps::new(map);
    let Some(tables) = Tables::accepted(&steps, &sections, area) else {
        return Err(Refusal { number: 7, place: 0 });
    };
    let question = Question { steps: &steps, tables: &tables };
    match call.name {
        Name::Prepare => unreachable!("answered above"),
        Name::LineIsNodeConvex | Name::LineIsConvex => line_check(call, &question),
        Name::TopoIsNodeConvex | Name::TopoIsConvex => order_check(call, &question),
        Name::IsConvexByIntervals => check_by_records(call, &question),
        Name::GetIntervalsFromNodes => intervals(call, &question),
        Name::TryExtendIntervals => extension(call, &question),
        Name::NodesInIntervals => nodes_in_records(call, &question),
        Name::LinesAtPort | Name::ViewLinesAtPort => port_lines(call, &sections, &question),
        Name::ShowPath => path_shown(call, &question),
    }
}

/// Refusal 14, and then whether the ports alone make the answer no; without ports they do not.
fn conflict(call: &Call, question: &Question) -> Result<bool, Refusal> {
    if !matches!(call.name, Name::LineIsConvex | Name::TopoIsConvex) {
        return Ok(false);
    }
    let [inputs, outputs] = [&call.inputs, &call.outputs].map(|list| numbers(list));
    rules::known_ports(question, &inputs)?;
    rules::known_ports(question, &outputs)?;
    Ok(question.have_conflict(&inputs, &outputs))
}

/// The list of a line check, or 8, 9 or 10.
fn checked_list(call: &Call, question: &Question) -> Result<Vec<usize>, Refusal> {
    let list = numbers(&call.list);
    rule(8, list.is_empty()).at(0)?;
    rules::known_nodes(question, &list)?;
    rules::no_repeats(&list)?;
    Ok(list)
}

fn line_check(call: &Call, question: &Question) -> Result<Said, Refusal> {
    let list = checked_list(call, question)?;
    if conflict(call, question)? {
        return Ok(Said::walked((false, 0)));
    }
    match question.intervals(&list) {
        Some(records) => Ok(Said::walked(question.walk(&records))),
        None => Ok(Said::walked((false, 0))),
    }
}

fn order_check(call: &Call, question: &Question) -> Result<Said, Refusal> {
    let list = numbers(&call.list);
    rules::known_nodes(question, &list)?;
    let yes = !conflict(call, question)? && question.is_convex(&list);
    Ok(Said { case: if yes { 1 } else { 2 }, values: Vec::new(), result: Vec::new() })
}

fn check_by_records(call: &Call, question: &Question) -> Result<Said, Refusal> {
    rule(8, call.many == 0).at(0)?;
    let records = LentRecords::of(call).records(question)?;
    Ok(Said::walked(question.walk(&records)))
}

fn intervals(call: &Call, question: &Question) -> Result<Said, Refusal> {
    let list = numbers(&call.list);
    rules::known_nodes(question, &list)?;
    rules::no_repeats(&list)?;
    written(call, question.intervals(&list))
}

fn extension(call: &Call, question: &Question) -> Result<Said, Refusal> {
    rules::known_nodes(question, &[call.index])?;
    let records = LentRecords::of(call).records(question)?;
    written(call, question.extension(&records, call.index))
}

/// Records as a result, or none: "11 is not given for "not contiguous" or "not extendable"".
fn written(call: &Call, records: Option<Vec<Record>>) -> Result<Said, Refusal> {
    let Some(records) = records else {
        return Ok(Said { case: 2, values: Vec::new(), result: Vec::new() });
    };
    rule(11, records.len() > words(call.room()).len() / 3).at(records.len())?;
    let result = records.iter().flat_map(|record| record.words()).collect();
    Ok(Said { case: 1, values: vec![records.len()], result })
}

fn nodes_in_records(call: &Call, question: &Question) -> Result<Said, Refusal> {
    let records = LentRecords::of(call).records(question)?;
    nodes_written(call, &question.nodes_in(&records))
}

/// Nodes as a result.
fn nodes_written(call: &Call, nodes: &[usize]) -> Result<Said, Refusal> {
    rule(11, nodes.len() > words(call.room()).len()).at(nodes.len())?;
    let result = nodes.iter().map(|&node| node as u16).collect();
    Ok(Said { case: 1, values: vec![nodes.len()], result })
}

/// "Refusals: those of the line check, then 11 with the steps needed."
fn path_shown(call: &Call, question: &Question) -> Result<Said, Refusal> {
    let list = checked_list(call, question)?;
    let Some(steps) = question.path(&list) else {
        return Ok(Said { case: 2, values: Vec::new(), result: Vec::new() });
    };
    nodes_written(call, &steps)
}

/// The first line's place in its node's list; of the view, its place in the area.
fn port_lines(call: &Call, sections: &Sections, question: &Question) -> Result<Said, Refusal> {
    rules::known_ports(question, &[call.index])?;
    let (first, count) = question.port_lines(call.index);
    let mut values = vec![first, count];
    if call.name == Name::ViewLinesAtPort {
        let node = question.steps.owner(call.index);
        let before: usize = question.tables.lines_of[..node].iter().map(Vec::len).sum();
        values[0] += sections.lines_of_nodes().start + before;
    }
    Ok(Said { case: 1, values, result: Vec::new() })
}

impl Said {
    fn one(value: usize) -> Self {
        Self { case: 1, values: vec![value], result: Vec::new() }
    }

    fn walked((yes, count): (bool, usize)) -> Self {
        Self { case: if yes { 1 } else { 2 }, values: vec![count], result: Vec::new() }
    }
}

/// A list's entries.
fn numbers(list: &[u8]) -> Vec<usize> {
    words(list).into_iter().map(usize::from).collect()
}
