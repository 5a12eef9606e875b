//! The library's exports, each called on lent bytes with guards around them.

use crate::call::{Call, Name, Outcome, BEFORE};

type Bytes = *const u8;
type MutBytes = *mut u8;
type Value = *mut u64;

// A slice of bytes crosses as its address and its length.
#[rustfmt::skip]
extern "C" {
    fn varddohas_prepare(map: Bytes, m: usize, area: MutBytes, a: usize, lines: Value, number: Value, place: Value) -> u64;
    fn varddohas_line_is_node_convex(map: Bytes, m: usize, area: MutBytes, a: usize, list: Bytes, l: usize,
        count: Value, number: Value, place: Value) -> u64;
    fn varddohas_line_is_convex(map: Bytes, m: usize, area: MutBytes, a: usize, list: Bytes, l: usize,
        inputs: Bytes, i: usize, outputs: Bytes, o: usize, count: Value, number: Value, place: Value) -> u64;
    fn varddohas_is_convex_by_intervals(map: Bytes, m: usize, area: MutBytes, a: usize, records: Bytes, r: usize, many: usize,
        count: Value, number: Value, place: Value) -> u64;
    fn varddohas_get_intervals_from_nodes(map: Bytes, m: usize, area: MutBytes, a: usize, list: Bytes, l: usize,
        buffer: MutBytes, b: usize, count: Value, number: Value, place: Value) -> u64;
    fn varddohas_try_extend_intervals(map: Bytes, m: usize, area: MutBytes, a: usize, records: MutBytes, r: usize, many: usize,
        node: usize, count: Value, number: Value, place: Value) -> u64;
    fn varddohas_nodes_in_intervals(map: Bytes, m: usize, area: MutBytes, a: usize, records: Bytes, r: usize, many: usize,
        buffer: MutBytes, b: usize, count: Value, number: Value, place: Value) -> u64;
    fn varddohas_lines_at_port(map: Bytes, m: usize, area: MutBytes, a: usize, port: usize,
        first: Value, count: Value, number: Value, place: Value) -> u64;
    fn varddohas_view_lines_at_port(map: Bytes, m: usize, area: Bytes, a: usize, port: usize,
        offset: Value, count: Value, number: Value, place: Value) -> u64;
    fn varddohas_topo_is_node_convex(map: Bytes, m: usize, area: MutBytes, a: usize, list: Bytes, l: usize,
        number: Value, place: Value) -> u64;
    fn varddohas_topo_is_convex(map: Bytes, m: usize, area: MutBytes, a: usize, list: Bytes, l: usize,
        inputs: Bytes, i: usize, outputs: Bytes, o: usize, number: Value, place: Value) -> u64;
    fn varddohas_show_path(map: Bytes, m: usize, area: MutBytes, a: usize, list: Bytes, l: usize,
        buffer: MutBytes, b: usize, count: Value, number: Value, place: Value) -> u64;
}

/// A guard stands before and after each lent part. Its length is odd, so that parts begin at odd addresses too.
const GUARD: [u8; 17] = *b"\xa5guard of 17 byte";

/// What stands between the parameters for values, number and place.
const BETWEEN: u64 = 0x5a5a_5a5a_5a5a_5a5a;

/// The parts that are lent, in their order.
const PARTS: [&str; 7] = ["map", "area", "list", "inputs", "outputs", "records", "buffer"];

/// One stretch of memory: guard, part, guard, part, .., guard.
struct Lent {
    memory: Vec<u8>,
    /// Where each part begins, and its length.
    parts: [(usize, usize); 7],
}

impl Lent {
    fn new(contents: [&[u8]; 7]) -> Self {
        let mut memory = Vec::from(GUARD);
        let parts = contents.map(|content| {
            let start = memory.len();
            memory.extend_from_slice(content);
            memory.extend_from_slice(&GUARD);
            (start, content.len())
        });
        Self { memory, parts }
    }

    fn part(&self, part: usize) -> &[u8] {
        let (start, length) = self.parts[part];
        &self.memory[start..start + length]
    }

    /// Whether the guards before and after a part stand.
    fn is_guarded(&self, part: usize) -> bool {
        let (start, length) = self.parts[part];
        self.memory[..start].ends_with(&GUARD) && self.memory[start + length..].starts_with(&GUARD)
    }
}

/// Calls the library.
pub fn outcome(call: &Call) -> Outcome {
    let contents: [&[u8]; 7] =
        [&call.map, &call.area, &call.list, &call.inputs, &call.outputs, &call.records, &call.buffer];
    let mut lent = Lent::new(contents);
    let mut values = [BETWEEN; 9];
    for (at, before) in BEFORE.into_iter().enumerate() {
        values[2 * at + 1] = before;
    }
    let case = run(call, &mut lent, &mut values);

    let written = match call.name {
        Name::TryExtendIntervals => 5,
        _ => 6,
    };
    let mut stray: Vec<&str> = Vec::new();
    for part in 0..7 {
        let may_change = part == 1 || part == written;
        if !lent.is_guarded(part) || !may_change && lent.part(part) != contents[part] {
            stray.push(PARTS[part]);
        }
    }
    if values.iter().step_by(2).any(|&between| between != BETWEEN) {
        stray.push("values");
    }
    let (area, room) = (lent.part(1).to_vec(), lent.part(written).to_vec());
    Outcome { case, values: [values[1], values[3]], number: values[5], place: values[7], area, room, stray }
}

fn run(call: &Call, lent: &mut Lent, values: &mut [u64; 9]) -> u64 {
    let [m, a, l, i, o, r, b] = lent.parts.map(|part| part.1);
    let (many, index) = (call.many, call.index);
    let memory = lent.memory.as_mut_ptr();
    // SAFETY: every part lies within the memory, the parts do not overlap, and they and the values outlive the call.
    unsafe {
        let [map, area, list, inputs, outputs, records, buffer] = lent.parts.map(|part| memory.add(part.0));
        let values = values.as_mut_ptr();
        let [first, second, number, place] = [1, 3, 5, 7].map(|at| values.add(at));
        match call.name {
            Name::Prepare => varddohas_prepare(map, m, area, a, first, number, place),
            Name::LineIsNodeConvex => varddohas_line_is_node_convex(map, m, area, a, list, l, first, number, place),
            Name::LineIsConvex => {
                varddohas_line_is_convex(map, m, area, a, list, l, inputs, i, outputs, o, first, number, place)
            }
            Name::IsConvexByIntervals => {
                varddohas_is_convex_by_intervals(map, m, area, a, records, r, many, first, number, place)
            }
            Name::GetIntervalsFromNodes => {
                varddohas_get_intervals_from_nodes(map, m, area, a, list, l, buffer, b, first, number, place)
            }
            Name::TryExtendIntervals => {
                varddohas_try_extend_intervals(map, m, area, a, records, r, many, index, first, number, place)
            }
            Name::NodesInIntervals => {
                varddohas_nodes_in_intervals(map, m, area, a, records, r, many, buffer, b, first, number, place)
            }
            Name::LinesAtPort => varddohas_lines_at_port(map, m, area, a, index, first, second, number, place),
            Name::ViewLinesAtPort => varddohas_view_lines_at_port(map, m, area, a, index, first, second, number, place),
            Name::TopoIsNodeConvex => varddohas_topo_is_node_convex(map, m, area, a, list, l, number, place),
            Name::TopoIsConvex => {
                varddohas_topo_is_convex(map, m, area, a, list, l, inputs, i, outputs, o, number, place)
            }
            Name::ShowPath => varddohas_show_path(map, m, area, a, list, l, buffer, b, first, number, place),
        }
    }
}
