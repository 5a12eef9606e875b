//! A map with the tables that preparing wrote: 01's domain, where the given Rust answers too.

use crate::bench::{Bench, Compared, Difference};
use crate::call::{junk, number_bytes, put, words, Call, Name, Outcome};
use crate::every_path;
use oracle::map_bytes;
use oracle::oracle::{flat, Oracle, Walked};
use oracle::preparing;
use oracle::step_map::StepMap;
use portgraph::algorithms::LineIntervals;
use std::ops::Range;
use std::rc::Rc;

pub struct Subject<'m> {
    pub map: Rc<[u8]>,
    pub area: Rc<[u8]>,
    oracle: Oracle<'m>,
    /// The word of the area at which each node's lines start.
    lists: Vec<usize>,
}

/// W, for a map whose sizes keep the limits.
pub fn area_words(map: &[u8]) -> usize {
    let map = map_bytes::read(map).unwrap_or_else(|refusal| panic!("not a map: {refusal:?}"));
    preparing::words(&preparing::sections(&map))
}

impl<'m> Subject<'m> {
    /// Prepares a map in W words and some bytes more; nothing for a map with a cycle.
    pub fn prepare(bench: &mut Bench, map: &'m StepMap, more: usize) -> Compared<Option<Self>> {
        let bytes: Rc<[u8]> = map_bytes::write(map.nodes(), map.links()).into();
        let before = junk(2 * area_words(&bytes) + more).into();
        let call = Call::new(Name::Prepare, &bytes, &before);
        let mut area = words(&before);
        let said = preparing::prepare(&bytes, &mut area);
        let mut given = match &said {
            Ok(lines) => Outcome::said(&call, 1, &[*lines as u64], &[]),
            Err(refusal) => Outcome::refused(&call, refusal.number as u64, refusal.place as u64),
        };
        put(&mut given.area, &area);
        let left = bench.ask_beside(&call, &given)?;
        Ok(said.is_ok().then(|| Self::over(map, bytes, left.area.into())))
    }

    fn over(map: &'m StepMap, bytes: Rc<[u8]>, area: Rc<[u8]>) -> Self {
        let oracle = Oracle::new(map);
        let count = map.nodes().len();
        let mut next = 2 + 3 * count; // the line count, two sections of N words, one of N + 1
        let lists = (0..count).map(|node| {
            next += oracle.lines_of(node).len();
            next - oracle.lines_of(node).len()
        });
        let lists = lists.collect();
        Self { map: bytes, area, oracle, lists }
    }

    pub fn step_map(&self) -> &'m StepMap {
        self.oracle.map()
    }

    pub fn order(&self) -> Vec<usize> {
        self.oracle.order()
    }

    fn call(&self, name: Name) -> Call {
        Call::new(name, &self.map, &self.area)
    }

    /// A list without repeats and not empty: both checks, and its records.
    pub fn list(&self, bench: &mut Bench, list: &[usize]) -> Compared<Option<LineIntervals>> {
        let bytes = number_bytes(list);
        let call = self.call(Name::LineIsNodeConvex).list(bytes.clone());
        bench.ask_beside(&call, &walked(&call, self.oracle.line_check(list)))?;
        self.loose_list(bench, list)?;
        let records = self.oracle.intervals(list);
        let room = records.as_ref().map_or(0, |records| 2 * flat(records).len());
        let call = self.call(Name::GetIntervalsFromNodes).list(bytes).buffer(junk(room + list.len() % 8));
        bench.ask_beside(&call, &written(&call, &records))?;
        Ok(records)
    }

    /// A list, and where it has records all that is asked about them; they are extended by each of the nodes.
    pub fn list_and_records(&self, bench: &mut Bench, list: &[usize], nodes: &[usize]) -> Compared<()> {
        let Some(records) = self.list(bench, list)? else {
            return Ok(());
        };
        self.records(bench, &records)?;
        self.extensions(bench, &records, nodes)
    }

    /// The path of a list without repeats and not empty: in more room than any path needs, and in each of the rooms that are named for its steps.
    /// The Rust says whether there is one, and on a small map all paths that there are say which.
    pub fn path(&self, bench: &mut Bench, list: &[usize], rooms: fn(usize) -> Range<usize>) -> Compared<()> {
        let call = |room: usize| self.call(Name::ShowPath).list(number_bytes(list)).buffer(junk(room));
        let map = self.step_map();
        let roomy = call(2 * map.nodes().len() + 3);
        let convex = self.oracle.line_check(list).yes;
        let left = match map.nodes().len() <= every_path::MOST_NODES {
            true => {
                let first = every_path::first(map.links(), list);
                assert_eq!(first.is_none(), convex, "the Rust and all paths that there are differ on {list:?}");
                bench.ask_beside(&roomy, &shown(&roomy, first))?
            }
            false => bench.ask_case_beside(&roomy, if convex { 2 } else { 1 })?,
        };
        let steps = if left.case == 1 { left.values[0] as usize } else { 0 };
        for room in rooms(steps) {
            bench.ask(&call(room))?;
        }
        Ok(())
    }

    /// The order check on a list that may be empty or have repeats.
    pub fn loose_list(&self, bench: &mut Bench, list: &[usize]) -> Compared<()> {
        let call = self.call(Name::TopoIsNodeConvex).list(number_bytes(list));
        bench.ask_beside(&call, &replied(&call, self.oracle.order_check(list)))?;
        Ok(())
    }

    /// Check by records, and the nodes in them.
    fn records(&self, bench: &mut Bench, records: &LineIntervals) -> Compared<()> {
        let numbers = flat(records);
        let (bytes, many) = (number_bytes(&numbers), numbers.len() / 3);
        let call = self.call(Name::IsConvexByIntervals).records(bytes.clone(), many);
        bench.ask_beside(&call, &walked(&call, self.oracle.check_by_records(records)))?;
        let nodes = self.oracle.nodes_in(records);
        let room = junk(2 * nodes.len() + many % 4);
        let call = self.call(Name::NodesInIntervals).records(bytes, many).buffer(room);
        let result: Vec<u16> = nodes.iter().map(|&node| node as u16).collect();
        bench.ask_beside(&call, &Outcome::said(&call, 1, &[nodes.len() as u64], &result))?;
        Ok(())
    }

    /// Extends by each node, and asks about the last records that came out.
    fn extensions(&self, bench: &mut Bench, records: &LineIntervals, nodes: &[usize]) -> Compared<()> {
        let mut last = None;
        let numbers = flat(records);
        for &node in nodes {
            let extended = self.oracle.extend(records, node);
            let needed = extended.as_ref().map_or(numbers.len(), |extended| flat(extended).len());
            let mut room = junk(2 * needed + node % 8);
            room[..2 * numbers.len()].copy_from_slice(&number_bytes(&numbers));
            let call = self.call(Name::TryExtendIntervals).records(room, numbers.len() / 3).index(node);
            bench.ask_beside(&call, &written(&call, &extended))?;
            last = extended.filter(|extended| extended != records && self.oracle.is_usable(extended)).or(last);
        }
        last.map_or(Ok(()), |last| self.records(bench, &last))
    }

    /// Both checks with ports, on a list without repeats and not empty.
    pub fn with_ports(&self, bench: &mut Bench, list: &[usize], ports: [&[usize]; 2]) -> Compared<()> {
        let [inputs, outputs] = ports;
        let [input_bytes, output_bytes] = ports.map(number_bytes);
        let call = self.call(Name::LineIsConvex).list(number_bytes(list)).ports(input_bytes, output_bytes);
        bench.ask_beside(&call, &walked(&call, self.oracle.line_check_with_ports(list, inputs, outputs)))?;
        self.loose_with_ports(bench, list, ports)
    }

    /// The order check with ports, on a list that may be empty or have repeats.
    pub fn loose_with_ports(&self, bench: &mut Bench, list: &[usize], ports: [&[usize]; 2]) -> Compared<()> {
        let [inputs, outputs] = ports;
        let [input_bytes, output_bytes] = ports.map(number_bytes);
        let call = self.call(Name::TopoIsConvex).list(number_bytes(list)).ports(input_bytes, output_bytes);
        bench.ask_beside(&call, &replied(&call, self.oracle.order_check_with_ports(list, inputs, outputs)))?;
        Ok(())
    }

    /// The lines at a port, and the view of them.
    pub fn port(&self, bench: &mut Bench, port: usize) -> Compared<()> {
        let said = self.oracle.lines_at_port(port);
        let count = said.lines.len();
        let call = self.call(Name::LinesAtPort).index(port);
        bench.ask_beside(&call, &Outcome::said(&call, 1, &[said.first as u64, count as u64], &[]))?;
        let start = self.lists[self.step_map().owner(port)] + said.first;
        let call = self.call(Name::ViewLinesAtPort).index(port);
        bench.ask_beside(&call, &Outcome::said(&call, 1, &[start as u64, count as u64], &[]))?;
        let area = words(&self.area);
        if area[start..start + count].iter().map(|&word| usize::from(word)).eq(said.lines.iter().copied()) {
            return Ok(());
        }
        Err(Box::new(Difference(format!("the lines of port {port} are not those of the Rust: {:?}", said.lines))))
    }
}

/// Rooms for a path, in bytes: one that just has room for so many steps, and one that is a byte shorter.
pub fn about(steps: usize) -> Range<usize> {
    (2 * steps).saturating_sub(1)..2 * steps + 1
}

/// Every room from none to one that just has room for so many steps.
pub fn up_to(steps: usize) -> Range<usize> {
    0..2 * steps + 1
}

fn shown(call: &Call, path: Option<Vec<usize>>) -> Outcome {
    let Some(steps) = path else {
        return Outcome::said(call, 2, &[], &[]);
    };
    let result: Vec<u16> = steps.iter().map(|&node| node as u16).collect();
    Outcome::said(call, 1, &[steps.len() as u64], &result)
}

fn walked(call: &Call, walked: Walked) -> Outcome {
    Outcome::said(call, if walked.yes { 1 } else { 2 }, &[walked.count as u64], &[])
}

fn replied(call: &Call, yes: bool) -> Outcome {
    Outcome::said(call, if yes { 1 } else { 2 }, &[], &[])
}

fn written(call: &Call, records: &Option<LineIntervals>) -> Outcome {
    let Some(records) = records else {
        return Outcome::said(call, 2, &[], &[]);
    };
    let result: Vec<u16> = flat(records).iter().map(|&number| number as u16).collect();
    Outcome::said(call, 1, &[result.len() as u64 / 3], &result)
}
