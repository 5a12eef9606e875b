//! The line checker.

use crate::exported;
use crate::lent::{told, Lent, LentMut, Numbers};
use crate::Refusal;

/// What the line check answers: the steps that the walk counted, on a no too.
#[derive(Clone, Copy, Debug, PartialEq, Eq)]
pub enum Checked {
    Yes { count: u64 },
    No { count: u64 },
}

/// What intervals answer: how many records were written, or that the list is not contiguous.
#[derive(Clone, Copy, Debug, PartialEq, Eq)]
pub enum Intervals {
    Records(u64),
    NotContiguous,
}

/// What extending answers: how many records there are now, or that they are not extendable.
#[derive(Clone, Copy, Debug, PartialEq, Eq)]
pub enum Extended {
    Records(u64),
    NotExtendable,
}

/// Where a port's lines stand in its node's list.
#[derive(Clone, Copy, Debug, PartialEq, Eq)]
pub struct PortLines {
    pub first: u64,
    pub count: u64,
}

fn checked(case: u64, numbers: &Numbers) -> Result<Checked, Refusal> {
    let count = numbers.first;
    told(case, numbers, Checked::Yes { count }, Some(Checked::No { count }))
}

/// Line check of a list.
///
/// ```
/// # let fields = [0u16, 1, 1, 1, 1, 0, 0, 0, 1, 0, 1, 0, 2, 0, 28, 3, 16, 2];
/// # let map: Vec<u8> = fields.iter().flat_map(|field| field.to_le_bytes()).chain(*b"PGT1").collect();
/// # let mut area = [0; varddohas::area_words(3, 2, 4)];
/// # varddohas::prepare(&map, &mut area)?;
/// use varddohas::line_convex_checker::{is_node_convex, Checked};
/// // steps 0, 1 and 2 in a row
/// assert_eq!(is_node_convex(&map, &mut area, &[0, 1])?, Checked::Yes { count: 0 });
/// assert_eq!(is_node_convex(&map, &mut area, &[0, 2])?, Checked::No { count: 0 });
/// # Ok::<(), varddohas::Refusal>(())
/// ```
pub fn is_node_convex(map: &[u8], area: &mut [u16], list: &[u16]) -> Result<Checked, Refusal> {
    let mut numbers = Numbers::default();
    let (map, area, list) = (Lent::bytes(map), LentMut::words(area), Lent::words(list));
    // SAFETY: every pointer is of a slice or a number that is borrowed for the call, with its length in bytes. So in every call below.
    let case = unsafe {
        exported::varddohas_line_is_node_convex(
            map.at,
            map.bytes,
            area.at,
            area.bytes,
            list.at,
            list.bytes,
            &mut numbers.first,
            &mut numbers.number,
            &mut numbers.place,
        )
    };
    checked(case, &numbers)
}

/// Line check with ports.
///
/// ```
/// # let fields = [0u16, 1, 1, 1, 1, 0, 0, 0, 1, 0, 1, 0, 2, 0, 28, 3, 16, 2];
/// # let map: Vec<u8> = fields.iter().flat_map(|field| field.to_le_bytes()).chain(*b"PGT1").collect();
/// # let mut area = [0; varddohas::area_words(3, 2, 4)];
/// # varddohas::prepare(&map, &mut area)?;
/// use varddohas::line_convex_checker::{is_convex, Checked};
/// // steps 0, 1 and 2 in a row: port 0 is the output of step 0, and port 1 the input of step 1 that it feeds
/// assert_eq!(is_convex(&map, &mut area, &[0, 1], &[], &[])?, Checked::Yes { count: 0 });
/// assert_eq!(is_convex(&map, &mut area, &[0, 1], &[1], &[0])?, Checked::No { count: 0 });
/// # Ok::<(), varddohas::Refusal>(())
/// ```
pub fn is_convex(
    map: &[u8],
    area: &mut [u16],
    list: &[u16],
    inputs: &[u16],
    outputs: &[u16],
) -> Result<Checked, Refusal> {
    let mut numbers = Numbers::default();
    let (map, area, list) = (Lent::bytes(map), LentMut::words(area), Lent::words(list));
    let (inputs, outputs) = (Lent::words(inputs), Lent::words(outputs));
    // SAFETY: as above.
    let case = unsafe {
        exported::varddohas_line_is_convex(
            map.at,
            map.bytes,
            area.at,
            area.bytes,
            list.at,
            list.bytes,
            inputs.at,
            inputs.bytes,
            outputs.at,
            outputs.bytes,
            &mut numbers.first,
            &mut numbers.number,
            &mut numbers.place,
        )
    };
    checked(case, &numbers)
}

/// Check by records, of which `many` stand in the words.
///
/// ```
/// # let fields = [0u16, 1, 1, 1, 1, 0, 0, 0, 1, 0, 1, 0, 2, 0, 28, 3, 16, 2];
/// # let map: Vec<u8> = fields.iter().flat_map(|field| field.to_le_bytes()).chain(*b"PGT1").collect();
/// # let mut area = [0; varddohas::area_words(3, 2, 4)];
/// # varddohas::prepare(&map, &mut area)?;
/// use varddohas::line_convex_checker::{is_convex_by_intervals, Checked};
/// // steps 0, 1 and 2 in a row, on line 0 at positions 0, 1 and 2: the record of steps 0 and 1
/// assert_eq!(is_convex_by_intervals(&map, &mut area, &[0, 0, 1], 1)?, Checked::Yes { count: 0 });
/// # Ok::<(), varddohas::Refusal>(())
/// ```
pub fn is_convex_by_intervals(map: &[u8], area: &mut [u16], records: &[u16], many: usize) -> Result<Checked, Refusal> {
    let mut numbers = Numbers::default();
    let (map, area, records) = (Lent::bytes(map), LentMut::words(area), Lent::words(records));
    // SAFETY: as above.
    let case = unsafe {
        exported::varddohas_is_convex_by_intervals(
            map.at,
            map.bytes,
            area.at,
            area.bytes,
            records.at,
            records.bytes,
            many,
            &mut numbers.first,
            &mut numbers.number,
            &mut numbers.place,
        )
    };
    checked(case, &numbers)
}

/// Intervals of a list, written to the buffer as records of three words: line, lowest and highest position.
///
/// ```
/// # let fields = [0u16, 1, 1, 1, 1, 0, 0, 0, 1, 0, 1, 0, 2, 0, 28, 3, 16, 2];
/// # let map: Vec<u8> = fields.iter().flat_map(|field| field.to_le_bytes()).chain(*b"PGT1").collect();
/// # let mut area = [0; varddohas::area_words(3, 2, 4)];
/// # varddohas::prepare(&map, &mut area)?;
/// use varddohas::line_convex_checker::{get_intervals_from_nodes, Intervals};
/// // steps 0, 1 and 2 in a row, on line 0 at positions 0, 1 and 2
/// let mut records = [0; 3];
/// assert_eq!(get_intervals_from_nodes(&map, &mut area, &[1, 2], &mut records)?, Intervals::Records(1));
/// assert_eq!(records, [0, 1, 2]);
/// assert_eq!(get_intervals_from_nodes(&map, &mut area, &[0, 2], &mut records)?, Intervals::NotContiguous);
/// # Ok::<(), varddohas::Refusal>(())
/// ```
pub fn get_intervals_from_nodes(
    map: &[u8],
    area: &mut [u16],
    list: &[u16],
    buffer: &mut [u16],
) -> Result<Intervals, Refusal> {
    let mut numbers = Numbers::default();
    let (map, area, list, buffer) = (Lent::bytes(map), LentMut::words(area), Lent::words(list), LentMut::words(buffer));
    // SAFETY: as above.
    let case = unsafe {
        exported::varddohas_get_intervals_from_nodes(
            map.at,
            map.bytes,
            area.at,
            area.bytes,
            list.at,
            list.bytes,
            buffer.at,
            buffer.bytes,
            &mut numbers.first,
            &mut numbers.number,
            &mut numbers.place,
        )
    };
    told(case, &numbers, Intervals::Records(numbers.first), Some(Intervals::NotContiguous))
}

/// Extends `many` records by a node, in their own buffer.
///
/// ```
/// # let fields = [0u16, 1, 1, 1, 1, 0, 0, 0, 1, 0, 1, 0, 2, 0, 28, 3, 16, 2];
/// # let map: Vec<u8> = fields.iter().flat_map(|field| field.to_le_bytes()).chain(*b"PGT1").collect();
/// # let mut area = [0; varddohas::area_words(3, 2, 4)];
/// # varddohas::prepare(&map, &mut area)?;
/// use varddohas::line_convex_checker::{try_extend_intervals, Extended};
/// // steps 0, 1 and 2 in a row, on line 0 at positions 0, 1 and 2: the record of step 0
/// let mut records = [0, 0, 0];
/// assert_eq!(try_extend_intervals(&map, &mut area, &mut records, 1, 2)?, Extended::NotExtendable);
/// assert_eq!(try_extend_intervals(&map, &mut area, &mut records, 1, 1)?, Extended::Records(1));
/// assert_eq!(records, [0, 0, 1]);
/// # Ok::<(), varddohas::Refusal>(())
/// ```
pub fn try_extend_intervals(
    map: &[u8],
    area: &mut [u16],
    records: &mut [u16],
    many: usize,
    node: usize,
) -> Result<Extended, Refusal> {
    let mut numbers = Numbers::default();
    let (map, area, records) = (Lent::bytes(map), LentMut::words(area), LentMut::words(records));
    // SAFETY: as above.
    let case = unsafe {
        exported::varddohas_try_extend_intervals(
            map.at,
            map.bytes,
            area.at,
            area.bytes,
            records.at,
            records.bytes,
            many,
            node,
            &mut numbers.first,
            &mut numbers.number,
            &mut numbers.place,
        )
    };
    told(case, &numbers, Extended::Records(numbers.first), Some(Extended::NotExtendable))
}

/// Nodes in `many` records, by position, then number, written to the buffer: how many.
///
/// ```
/// # let fields = [0u16, 1, 1, 1, 1, 0, 0, 0, 1, 0, 1, 0, 2, 0, 28, 3, 16, 2];
/// # let map: Vec<u8> = fields.iter().flat_map(|field| field.to_le_bytes()).chain(*b"PGT1").collect();
/// # let mut area = [0; varddohas::area_words(3, 2, 4)];
/// # varddohas::prepare(&map, &mut area)?;
/// use varddohas::line_convex_checker::nodes_in_intervals;
/// // steps 0, 1 and 2 in a row, on line 0 at positions 0, 1 and 2: the record of steps 1 and 2
/// let mut nodes = [0; 3];
/// assert_eq!(nodes_in_intervals(&map, &mut area, &[0, 1, 2], 1, &mut nodes)?, 2);
/// assert_eq!(nodes, [1, 2, 0]);
/// # Ok::<(), varddohas::Refusal>(())
/// ```
pub fn nodes_in_intervals(
    map: &[u8],
    area: &mut [u16],
    records: &[u16],
    many: usize,
    buffer: &mut [u16],
) -> Result<u64, Refusal> {
    let mut numbers = Numbers::default();
    let (map, area) = (Lent::bytes(map), LentMut::words(area));
    let (records, buffer) = (Lent::words(records), LentMut::words(buffer));
    // SAFETY: as above.
    let case = unsafe {
        exported::varddohas_nodes_in_intervals(
            map.at,
            map.bytes,
            area.at,
            area.bytes,
            records.at,
            records.bytes,
            many,
            buffer.at,
            buffer.bytes,
            &mut numbers.first,
            &mut numbers.number,
            &mut numbers.place,
        )
    };
    told(case, &numbers, numbers.first, None)
}

/// Lines at a port: the first one's place in its node's list, and how many.
///
/// ```
/// # let fields = [0u16, 1, 1, 1, 1, 0, 0, 0, 1, 0, 1, 0, 2, 0, 28, 3, 16, 2];
/// # let map: Vec<u8> = fields.iter().flat_map(|field| field.to_le_bytes()).chain(*b"PGT1").collect();
/// # let mut area = [0; varddohas::area_words(3, 2, 4)];
/// # varddohas::prepare(&map, &mut area)?;
/// use varddohas::line_convex_checker::{lines_at_port, PortLines};
/// // steps 0, 1 and 2 in a row: port 0 is the output of step 0, whose only line is line 0
/// assert_eq!(lines_at_port(&map, &mut area, 0)?, PortLines { first: 0, count: 1 });
/// # Ok::<(), varddohas::Refusal>(())
/// ```
pub fn lines_at_port(map: &[u8], area: &mut [u16], port: usize) -> Result<PortLines, Refusal> {
    let mut numbers = Numbers::default();
    let (map, area) = (Lent::bytes(map), LentMut::words(area));
    // SAFETY: as above.
    let case = unsafe {
        exported::varddohas_lines_at_port(
            map.at,
            map.bytes,
            area.at,
            area.bytes,
            port,
            &mut numbers.first,
            &mut numbers.second,
            &mut numbers.number,
            &mut numbers.place,
        )
    };
    let found = PortLines { first: numbers.first, count: numbers.second };
    told(case, &numbers, found, None)
}

/// The lines at a port themselves, as a part of the area. Nothing is written.
///
/// ```
/// # let fields = [0u16, 1, 1, 1, 1, 0, 0, 0, 1, 0, 1, 0, 2, 0, 28, 3, 16, 2];
/// # let map: Vec<u8> = fields.iter().flat_map(|field| field.to_le_bytes()).chain(*b"PGT1").collect();
/// # let mut area = [0; varddohas::area_words(3, 2, 4)];
/// # varddohas::prepare(&map, &mut area)?;
/// use varddohas::line_convex_checker::view_lines_at_port;
/// // steps 0, 1 and 2 in a row: port 0 is the output of step 0, whose only line is line 0
/// assert_eq!(view_lines_at_port(&map, &area, 0)?, &[0]);
/// # Ok::<(), varddohas::Refusal>(())
/// ```
pub fn view_lines_at_port<'a>(map: &[u8], area: &'a [u16], port: usize) -> Result<&'a [u16], Refusal> {
    let mut numbers = Numbers::default();
    let (map, lent) = (Lent::bytes(map), Lent::words(area));
    // SAFETY: as above.
    let case = unsafe {
        exported::varddohas_view_lines_at_port(
            map.at,
            map.bytes,
            lent.at,
            lent.bytes,
            port,
            &mut numbers.first,
            &mut numbers.second,
            &mut numbers.number,
            &mut numbers.place,
        )
    };
    // the part is within the area, as the library is proved to answer; nothing panics if it were not
    let start = numbers.first as usize;
    let part = area.get(start..start.saturating_add(numbers.second as usize)).unwrap_or(&[]);
    told(case, &numbers, part, None)
}
