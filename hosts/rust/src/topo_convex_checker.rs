//! The order checker.

use crate::exported;
use crate::lent::{told, Lent, LentMut, Numbers};
use crate::Refusal;

/// What the order check answers.
#[derive(Clone, Copy, Debug, PartialEq, Eq)]
pub enum Ordered {
    Yes,
    No,
}

/// Order check of a list, taken as a set.
///
/// ```
/// # let fields = [0u16, 1, 1, 1, 1, 0, 0, 0, 1, 0, 1, 0, 2, 0, 28, 3, 16, 2];
/// # let map: Vec<u8> = fields.iter().flat_map(|field| field.to_le_bytes()).chain(*b"PGT1").collect();
/// # let mut area = [0; varddohas::area_words(3, 2, 4)];
/// # varddohas::prepare(&map, &mut area)?;
/// use varddohas::topo_convex_checker::{is_node_convex, Ordered};
/// // steps 0, 1 and 2 in a row
/// assert_eq!(is_node_convex(&map, &mut area, &[1, 0, 1])?, Ordered::Yes);
/// assert_eq!(is_node_convex(&map, &mut area, &[0, 2])?, Ordered::No);
/// # Ok::<(), varddohas::Refusal>(())
/// ```
pub fn is_node_convex(map: &[u8], area: &mut [u16], list: &[u16]) -> Result<Ordered, Refusal> {
    let mut numbers = Numbers::default();
    let (map, area, list) = (Lent::bytes(map), LentMut::words(area), Lent::words(list));
    // SAFETY: every pointer is of a slice or a number that is borrowed for the call, with its length in bytes.
    let case = unsafe {
        exported::varddohas_topo_is_node_convex(
            map.at,
            map.bytes,
            area.at,
            area.bytes,
            list.at,
            list.bytes,
            &mut numbers.number,
            &mut numbers.place,
        )
    };
    told(case, &numbers, Ordered::Yes, Some(Ordered::No))
}

/// Order check with ports.
///
/// ```
/// # let fields = [0u16, 1, 1, 1, 1, 0, 0, 0, 1, 0, 1, 0, 2, 0, 28, 3, 16, 2];
/// # let map: Vec<u8> = fields.iter().flat_map(|field| field.to_le_bytes()).chain(*b"PGT1").collect();
/// # let mut area = [0; varddohas::area_words(3, 2, 4)];
/// # varddohas::prepare(&map, &mut area)?;
/// use varddohas::topo_convex_checker::{is_convex, Ordered};
/// // steps 0, 1 and 2 in a row: port 0 is the output of step 0, and port 1 the input of step 1 that it feeds
/// assert_eq!(is_convex(&map, &mut area, &[0, 1], &[], &[])?, Ordered::Yes);
/// assert_eq!(is_convex(&map, &mut area, &[0, 1], &[1], &[0])?, Ordered::No);
/// # Ok::<(), varddohas::Refusal>(())
/// ```
pub fn is_convex(
    map: &[u8],
    area: &mut [u16],
    list: &[u16],
    inputs: &[u16],
    outputs: &[u16],
) -> Result<Ordered, Refusal> {
    let mut numbers = Numbers::default();
    let (map, area, list) = (Lent::bytes(map), LentMut::words(area), Lent::words(list));
    let (inputs, outputs) = (Lent::words(inputs), Lent::words(outputs));
    // SAFETY: as above.
    let case = unsafe {
        exported::varddohas_topo_is_convex(
            map.at,
            map.bytes,
            area.at,
            area.bytes,
            list.at,
            list.bytes,
            inputs.at,
            inputs.bytes,
            outputs.at,
            outputs.bytes,
            &mut numbers.number,
            &mut numbers.place,
        )
    };
    told(case, &numbers, Ordered::Yes, Some(Ordered::No))
}
