//! A call of the library: all that is lent to it, and all that it leaves.

use std::rc::Rc;

/// The exported functions, by the name behind `varddohas_`.
#[derive(Debug, Clone, Copy, PartialEq, Eq, PartialOrd, Ord)]
pub enum Name {
    Prepare,
    LineIsNodeConvex,
    LineIsConvex,
    IsConvexByIntervals,
    GetIntervalsFromNodes,
    TryExtendIntervals,
    NodesInIntervals,
    LinesAtPort,
    ViewLinesAtPort,
    TopoIsNodeConvex,
    TopoIsConvex,
    ShowPath,
}

impl Name {
    /// Those of 01 first, then the one of 02.
    pub const ALL: [(Name, &'static str); 12] = [
        (Name::Prepare, "prepare"),
        (Name::LineIsNodeConvex, "line_is_node_convex"),
        (Name::LineIsConvex, "line_is_convex"),
        (Name::IsConvexByIntervals, "is_convex_by_intervals"),
        (Name::GetIntervalsFromNodes, "get_intervals_from_nodes"),
        (Name::TryExtendIntervals, "try_extend_intervals"),
        (Name::NodesInIntervals, "nodes_in_intervals"),
        (Name::LinesAtPort, "lines_at_port"),
        (Name::ViewLinesAtPort, "view_lines_at_port"),
        (Name::TopoIsNodeConvex, "topo_is_node_convex"),
        (Name::TopoIsConvex, "topo_is_convex"),
        (Name::ShowPath, "show_path"),
    ];

    /// How many of them are 01's.
    pub const OF_01: usize = 11;

    pub fn text(self) -> &'static str {
        Self::ALL[self as usize].1
    }
}

/// A call with everything that is lent to it. What a function does not take is empty, or 0.
#[derive(Debug, Clone)]
pub struct Call {
    pub name: Name,
    pub map: Rc<[u8]>,
    pub area: Rc<[u8]>,
    pub list: Vec<u8>,
    pub inputs: Vec<u8>,
    pub outputs: Vec<u8>,
    pub records: Vec<u8>,
    pub buffer: Vec<u8>,
    /// How many records.
    pub many: usize,
    /// The single node or port.
    pub index: usize,
}

impl Call {
    pub fn new(name: Name, map: &Rc<[u8]>, area: &Rc<[u8]>) -> Self {
        let none = Vec::new;
        let (map, area) = (map.clone(), area.clone());
        let (list, inputs, outputs, records, buffer) = (none(), none(), none(), none(), none());
        Self { name, map, area, list, inputs, outputs, records, buffer, many: 0, index: 0 }
    }

    pub fn list(mut self, list: Vec<u8>) -> Self {
        self.list = list;
        self
    }

    pub fn ports(mut self, inputs: Vec<u8>, outputs: Vec<u8>) -> Self {
        self.inputs = inputs;
        self.outputs = outputs;
        self
    }

    pub fn records(mut self, records: Vec<u8>, many: usize) -> Self {
        self.records = records;
        self.many = many;
        self
    }

    pub fn buffer(mut self, buffer: Vec<u8>) -> Self {
        self.buffer = buffer;
        self
    }

    pub fn index(mut self, index: usize) -> Self {
        self.index = index;
        self
    }

    /// The bytes in which the call may write its result: an extension has its records' own.
    pub fn room(&self) -> &[u8] {
        match self.name {
            Name::TryExtendIntervals => &self.records,
            _ => &self.buffer,
        }
    }
}

/// What stands in the parameters for values, number and place before a call.
pub const BEFORE: [u64; 4] =
    [0xd1f2_0000_a5a5_0001, 0xd1f2_0000_a5a5_0002, 0xd1f2_0000_a5a5_0003, 0xd1f2_0000_a5a5_0004];

/// What a call leaves: its case, the parameters for values, and the lent bytes.
#[derive(Debug, Clone, PartialEq, Eq)]
pub struct Outcome {
    pub case: u64,
    pub values: [u64; 2],
    pub number: u64,
    pub place: u64,
    pub area: Vec<u8>,
    pub room: Vec<u8>,
    /// What was changed that no call may change: other lent bytes, or bytes around them.
    pub stray: Vec<&'static str>,
}

impl Outcome {
    /// A case with its values: all that is lent stays as it was, but for the result's words.
    pub fn said(call: &Call, case: u64, values: &[u64], result: &[u16]) -> Self {
        let mut outcome = Self::unchanged(call);
        outcome.case = case;
        outcome.values[..values.len()].copy_from_slice(values);
        put(&mut outcome.room, result);
        outcome
    }

    /// A refusal: all that is lent stays as it was.
    pub fn refused(call: &Call, number: u64, place: u64) -> Self {
        Self { case: 3, number, place, ..Self::unchanged(call) }
    }

    fn unchanged(call: &Call) -> Self {
        let [first, second, number, place] = BEFORE;
        let (area, room) = (call.area.to_vec(), call.room().to_vec());
        Self { case: 0, values: [first, second], number, place, area, room, stray: Vec::new() }
    }
}

/// "words cross as two bytes each, low byte first; an odd last byte is neither read nor written"
pub fn words(bytes: &[u8]) -> Vec<u16> {
    bytes.chunks_exact(2).map(|word| u16::from_le_bytes([word[0], word[1]])).collect()
}

/// Puts words into the first bytes.
pub fn put(bytes: &mut [u8], words: &[u16]) {
    for (place, word) in bytes.chunks_exact_mut(2).zip(words) {
        place.copy_from_slice(&word.to_le_bytes());
    }
}

/// Words as bytes.
pub fn bytes(words: &[u16]) -> Vec<u8> {
    words.iter().flat_map(|word| word.to_le_bytes()).collect()
}

/// Numbers, each of which is a word, as bytes.
pub fn number_bytes(numbers: &[usize]) -> Vec<u8> {
    let word = |&number: &usize| u16::try_from(number).expect("a word has 16 bits").to_le_bytes();
    numbers.iter().flat_map(word).collect()
}

/// Bytes that stand in lent room before a call.
pub fn junk(length: usize) -> Vec<u8> {
    (0..length).map(|at| (at * 37 + 11) as u8).collect()
}
