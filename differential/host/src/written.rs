//! Maps with outcomes that someone else wrote down: 01, and the given source's examples.

use crate::bench::{Bench, Compared};
use crate::call::{bytes, junk, put, words, Call, Name, Outcome};
use crate::reading::tables::Sections;
use oracle::map_bytes;
use oracle::step_map::{Link, Node};
use std::rc::Rc;

/// A map and its area, in which it was prepared.
pub struct Prepared {
    map: Rc<[u8]>,
    area: Rc<[u8]>,
}

/// What is written down of a map's tables; an empty part says nothing.
#[derive(Default)]
pub struct Tables<'a> {
    pub order: &'a [u16],
    pub positions: &'a [u16],
    pub lines: &'a [&'a [u16]],
}

/// A map as 01 writes it: nodes (inputs, outputs), links from.output→to.input.
pub fn map(nodes: &[(usize, usize)], links: &[[usize; 4]]) -> Rc<[u8]> {
    let node = |&(inputs, outputs): &(usize, usize)| Node { inputs, outputs };
    let link = |&[from, output, to, input]: &[usize; 4]| Link { from, output, to, input };
    let nodes: Vec<Node> = nodes.iter().map(node).collect();
    let links: Vec<Link> = links.iter().map(link).collect();
    map_bytes::write(&nodes, &links).into()
}

fn preparing(map: &Rc<[u8]>) -> (Call, Sections) {
    let records = map_bytes::read(map).unwrap_or_else(|refusal| panic!("not a map: {refusal:?}"));
    let sections = Sections::of(&records);
    (Call::new(Name::Prepare, map, &junk(2 * sections.words()).into()), sections)
}

/// Preparing is refused.
pub fn refuse(bench: &mut Bench, map: &Rc<[u8]>, number: u64, place: u64) -> Compared<()> {
    let (call, _) = preparing(map);
    let mut written = Outcome::refused(&call, number, place);
    written.area.fill(0);
    bench.ask_for(&call, &written)?;
    Ok(())
}

impl Prepared {
    /// Prepares a map; the answer is `lines`, and the tables are those that are written down.
    pub fn new(bench: &mut Bench, map: Rc<[u8]>, lines: u64, tables: Tables) -> Compared<Self> {
        let (call, sections) = preparing(&map);
        let left = bench.ask(&call)?;
        let mut area = words(&left.area);
        let parts = [
            (sections.order(), tables.order.to_vec()),
            (sections.positions(), tables.positions.to_vec()),
            (sections.nodes_of_lines(), tables.lines.concat()),
        ];
        for (section, part) in parts {
            area[section.start..section.start + part.len()].copy_from_slice(&part);
        }
        let mut written = Outcome::said(&call, 1, &[lines], &[]);
        put(&mut written.area, &area);
        bench.ask_for(&call, &written)?;
        Ok(Self { map, area: left.area.into() })
    }

    fn call(&self, name: Name) -> Call {
        Call::new(name, &self.map, &self.area)
    }

    /// The line check: its case and its count.
    pub fn line(&self, bench: &mut Bench, list: &[u16], case: u64, count: u64) -> Compared<()> {
        let call = self.call(Name::LineIsNodeConvex).list(bytes(list));
        bench.ask_for(&call, &Outcome::said(&call, case, &[count], &[]))?;
        Ok(())
    }

    pub fn line_refused(&self, bench: &mut Bench, list: &[u16], number: u64, place: u64) -> Compared<()> {
        let call = self.call(Name::LineIsNodeConvex).list(bytes(list));
        bench.ask_for(&call, &Outcome::refused(&call, number, place))?;
        Ok(())
    }

    pub fn order(&self, bench: &mut Bench, list: &[u16], case: u64) -> Compared<()> {
        let call = self.call(Name::TopoIsNodeConvex).list(bytes(list));
        bench.ask_for(&call, &Outcome::said(&call, case, &[], &[]))?;
        Ok(())
    }

    /// The path, in room for so many words: its steps, or none for "no path".
    pub fn path(&self, bench: &mut Bench, list: &[u16], room: usize, steps: &[u16]) -> Compared<()> {
        let call = self.call(Name::ShowPath).list(bytes(list)).buffer(junk(2 * room));
        let written = match steps.len() as u64 {
            0 => Outcome::said(&call, 2, &[], &[]),
            count => Outcome::said(&call, 1, &[count], steps),
        };
        bench.ask_for(&call, &written)?;
        Ok(())
    }

    pub fn path_refused(
        &self,
        bench: &mut Bench,
        list: &[u16],
        room: usize,
        [number, place]: [u64; 2],
    ) -> Compared<()> {
        let call = self.call(Name::ShowPath).list(bytes(list)).buffer(junk(2 * room));
        bench.ask_for(&call, &Outcome::refused(&call, number, place))?;
        Ok(())
    }

    /// Both checks with ports: the case, with a count of 0.
    pub fn with_ports(&self, bench: &mut Bench, list: &[u16], [input, output]: [u16; 2], case: u64) -> Compared<()> {
        for (name, values) in [(Name::LineIsConvex, &[0][..]), (Name::TopoIsConvex, &[])] {
            let call = self.call(name).list(bytes(list)).ports(bytes(&[input]), bytes(&[output]));
            bench.ask_for(&call, &Outcome::said(&call, case, values, &[]))?;
        }
        Ok(())
    }

    /// Extends the one record by a node: all records then, or none for "not extendable".
    pub fn extend(&self, bench: &mut Bench, record: [u16; 3], node: usize, records: &[u16]) -> Compared<()> {
        let mut room = junk(24);
        put(&mut room, &record);
        let call = self.call(Name::TryExtendIntervals).records(room, 1).index(node);
        let written = match records.len() as u64 / 3 {
            0 => Outcome::said(&call, 2, &[], &[]),
            count => Outcome::said(&call, 1, &[count], records),
        };
        bench.ask_for(&call, &written)?;
        Ok(())
    }

    /// The lines at a port: the first one's place in its node's list, and the lines themselves, which the view shows.
    pub fn port(&self, bench: &mut Bench, port: usize, first: u64, lines: &[u16]) -> Compared<()> {
        let call = self.call(Name::LinesAtPort).index(port);
        bench.ask_for(&call, &Outcome::said(&call, 1, &[first, lines.len() as u64], &[]))?;
        let left = bench.ask(&self.call(Name::ViewLinesAtPort).index(port))?;
        let start = left.values[0] as usize;
        assert_eq!(&words(&self.area)[start..start + left.values[1] as usize], lines, "the view of port {port}");
        Ok(())
    }

    pub fn port_refused(&self, bench: &mut Bench, port: usize) -> Compared<()> {
        for name in [Name::LinesAtPort, Name::ViewLinesAtPort] {
            let call = self.call(name).index(port);
            bench.ask_for(&call, &Outcome::refused(&call, 14, 0))?;
        }
        Ok(())
    }
}
