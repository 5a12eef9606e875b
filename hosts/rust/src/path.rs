//! The path that a no shows.

use crate::exported;
use crate::lent::{told, Lent, LentMut, Numbers};
use crate::Refusal;

/// What showing the path answers: how many steps were written, or that there is no path.
#[derive(Clone, Copy, Debug, PartialEq, Eq)]
pub enum Shown {
    Path(u64),
    NoPath,
}

/// Why the line check of a list is a no: a path from the list, out of it and back into it, each step linked to the next. Its steps are written to the
/// buffer. None is shorter; of several as short, read from the end backwards, it is the one with the smaller step at the first difference. There is
/// none exactly where the line check says yes, and then no room is needed. No step stands on a path twice, so a word for each node of the map is
/// room enough.
///
/// ```
/// # let fields = [0u16, 1, 1, 1, 1, 0, 0, 0, 1, 0, 1, 0, 2, 0, 28, 3, 16, 2];
/// # let map: Vec<u8> = fields.iter().flat_map(|field| field.to_le_bytes()).chain(*b"PGT1").collect();
/// # let mut area = [0; varddohas::area_words(3, 2, 4)];
/// # varddohas::prepare(&map, &mut area)?;
/// use varddohas::path::{show_path, Shown};
/// use varddohas::Refusal;
/// // steps 0, 1 and 2 in a row
/// let mut steps = [0; 3];
/// assert_eq!(show_path(&map, &mut area, &[0, 2], &mut steps)?, Shown::Path(3));
/// assert_eq!(steps, [0, 1, 2]);
/// assert_eq!(show_path(&map, &mut area, &[0, 1], &mut [])?, Shown::NoPath);
/// assert_eq!(show_path(&map, &mut area, &[0, 2], &mut steps[..2]), Err(Refusal::TooLong { needed: 3 }));
/// # Ok::<(), Refusal>(())
/// ```
pub fn show_path(map: &[u8], area: &mut [u16], list: &[u16], buffer: &mut [u16]) -> Result<Shown, Refusal> {
    let mut numbers = Numbers::default();
    let (map, area, list, buffer) = (Lent::bytes(map), LentMut::words(area), Lent::words(list), LentMut::words(buffer));
    // SAFETY: every pointer is of a slice or a number that is borrowed for the call, with its length in bytes.
    let case = unsafe {
        exported::varddohas_show_path(
            map.at,
            map.bytes,
            area.at,
            area.bytes,
            list.at,
            list.bytes,
            buffer.at,
            buffer.bytes,
            &mut numbers.first,
            &mut numbers.number,
            &mut numbers.place,
        )
    };
    told(case, &numbers, Shown::Path(numbers.first), Some(Shown::NoPath))
}
