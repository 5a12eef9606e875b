//! Recordings as definitions in the prover's language: one `Recording` a map, and the list of all.

use crate::recording::{Asked, Recording};

/// Lines are filled up to this many columns.
const WIDTH: usize = 120;

/// Before a line that goes on with a field.
const INDENT: &str = "      ";

/// A recording's definition.
pub fn definition(number: usize, recording: &Recording) -> Vec<String> {
    let nodes = recording.nodes.iter();
    let links = recording.links.iter();
    let fields = [
        ("nodes", long_list(nodes.map(|n| format!("node {} {}", n.inputs, n.outputs)))),
        ("links", long_list(links.map(|l| format!("link {} {} {} {}", l.from, l.output, l.to, l.input)))),
        ("lines", vec![recording.lines.to_string()]),
        ("order", vec![list(&recording.order)]),
        ("positions", vec![list(&recording.positions)]),
        ("lines_of_nodes", long_list(recording.lines_of_nodes.iter().map(|row| argument(row)))),
        ("nodes_of_lines", long_list(recording.nodes_of_lines.iter().map(|row| argument(row)))),
        ("asked", long_list(recording.asked.iter().map(question))),
    ];
    let mut lines = vec![format!("map_{number} : Recording"), format!("map_{number} = record")];
    for (place, (name, pieces)) in fields.iter().enumerate() {
        let sign = if place == 0 { '{' } else { ';' };
        lines.extend(filled(&format!("  {sign} {name} ="), pieces));
    }
    add(&mut lines, "}");
    lines
}

/// What the file uses, below its two lines of head.
pub const USES: &str = "use mathlib.Core.List.{List, [], ◌∷◌}
use lib.Dec.{T}
use Rattle.lists.specs.Lists.{all}
use Rattle.paper.specs.Intervals.{Yes, No}
use Rattle.paper.proofs.Everything.{everything}
use Rattle.paper.proofs.Recording.{
  Recording, node, link, line, order, intervals, by_records, extend, nodes_in, port, line_ports, order_ports, given, none, holds,
}";

/// The list of all recordings, and the theorem that the definitions agree with each.
pub fn list_of_all(count: usize) -> Vec<String> {
    let names: Vec<String> = (0..count).map(|number| format!("map_{number}")).collect();
    let mut lines = vec!["recorded : List Recording".to_string()];
    lines.extend(filled("recorded =", &long_list(names.iter().cloned())));
    lines.push(String::new());
    lines.push("agreed : T (all holds recorded)".to_string());
    lines.push(format!("unfolding everything holds recorded {}", names.join(" ")));
    lines.push("agreed = tt".to_string());
    lines
}

/// The one table of the questions' names and the order of their parts.
fn question(asked: &Asked) -> String {
    match asked {
        Asked::Line { list, said } => format!("line {} {} {}", argument(list), answer(said.yes), said.count),
        Asked::Order { list, yes } => format!("order {} {}", argument(list), answer(*yes)),
        Asked::Intervals { list, given } => format!("intervals {} {}", argument(list), records_given(given)),
        Asked::Records { records, said } => {
            format!("by_records {} {} {}", argument(records), answer(said.yes), said.count)
        }
        Asked::Extend { records, node, given } => {
            format!("extend {} {node} {}", argument(records), records_given(given))
        }
        Asked::NodesIn { records, nodes } => format!("nodes_in {} {}", argument(records), argument(nodes)),
        Asked::Port { port, said } => {
            format!("port {port} {} {} {}", said.first, said.lines.len(), argument(&said.lines))
        }
        Asked::LinePorts { list, ports, said } => {
            let [list, inputs, outputs] = [list, &ports.inputs, &ports.outputs].map(|part| argument(part));
            format!("line_ports {list} {inputs} {outputs} {} {}", answer(said.yes), said.count)
        }
        Asked::OrderPorts { list, ports, yes } => {
            let [list, inputs, outputs] = [list, &ports.inputs, &ports.outputs].map(|part| argument(part));
            format!("order_ports {list} {inputs} {outputs} {}", answer(*yes))
        }
    }
}

fn answer(yes: bool) -> &'static str {
    if yes {
        "Yes"
    } else {
        "No"
    }
}

fn records_given(given: &Option<Vec<usize>>) -> String {
    let case = |records: &Vec<usize>| format!("(given {})", argument(records));
    given.as_ref().map_or_else(|| "none".to_string(), case)
}

/// `0 ∷ 3 ∷ []`
fn list(numbers: &[usize]) -> String {
    let mut text: String = numbers.iter().map(|number| format!("{number} ∷ ")).collect();
    text.push_str("[]");
    text
}

/// A list as an argument: in brackets, unless it is empty.
fn argument(numbers: &[usize]) -> String {
    match numbers {
        [] => "[]".to_string(),
        some => format!("({})", list(some)),
    }
}

/// A list in pieces between which a line may end.
fn long_list(entries: impl Iterator<Item = String>) -> Vec<String> {
    let mut pieces: Vec<String> = entries.map(|entry| format!("{entry} ∷")).collect();
    pieces.push("[]".to_string());
    pieces
}

/// The head and the pieces, line by line. A piece that is too long for a line starts one, and is cut after its signs.
fn filled(head: &str, pieces: &[String]) -> Vec<String> {
    let mut lines = vec![head.to_string()];
    for piece in pieces {
        if columns(INDENT) + columns(piece) <= WIDTH {
            add(&mut lines, piece);
            continue;
        }
        let mut parts = piece.split_inclusive("∷ ").map(str::trim_end);
        lines.extend(parts.next().map(|part| format!("{INDENT}{part}")));
        parts.for_each(|part| add(&mut lines, part));
    }
    lines
}

/// Adds a piece to the last line, or as a new line where it has no room.
fn add(lines: &mut Vec<String>, piece: &str) {
    let last = lines.last_mut().expect("a head");
    if columns(last) + 1 + columns(piece) <= WIDTH {
        last.push(' ');
        last.push_str(piece);
    } else {
        lines.push(format!("{INDENT}{piece}"));
    }
}

fn columns(text: &str) -> usize {
    text.chars().count()
}
