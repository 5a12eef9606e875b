//! Whether a group of steps may run as one block, and if not, along which path it leaves itself: safe calls over the exported functions of
//! `libvarddohas.a`, which are proved to answer as documents 01 and 02 say, on all input. The types say the cases; nothing panics.
//!
//! A map is its bytes. An area is lent words: [`prepare`] lays a map's tables into it, and every other call tests them anew. A call that is refused says
//! why ([`Refusal`]).
//!
//! ```
//! use varddohas::line_convex_checker::{is_node_convex, Checked};
//! use varddohas::path::{show_path, Shown};
//! use varddohas::{area_words, prepare, Refusal};
//!
//! // three steps, each feeding the next: inputs and outputs of each, then the links (from step, output, to step, input)
//! let steps = [0u16, 1, 1, 1, 1, 0];
//! let links = [0u16, 0, 1, 0, 1, 0, 2, 0];
//! // how far back the steps begin, how many they are, how far back the links begin, how many they are; then the mark
//! let trailer = [28u16, 3, 16, 2];
//! let fields = steps.iter().chain(&links).chain(&trailer);
//! let map: Vec<u8> = fields.flat_map(|field| field.to_le_bytes()).chain(*b"PGT1").collect();
//!
//! let mut area = [0; area_words(3, 2, 4)];
//! assert_eq!(prepare(&map, &mut area)?, 1);
//! // step 1 is left out, and stands between the two
//! assert_eq!(is_node_convex(&map, &mut area, &[0, 2])?, Checked::No { count: 0 });
//! let mut path = [0; 3];
//! assert_eq!(show_path(&map, &mut area, &[0, 2], &mut path)?, Shown::Path(3));
//! assert_eq!(path, [0, 1, 2]);
//! assert_eq!(is_node_convex(&map, &mut area, &[0, 1, 2])?, Checked::Yes { count: 0 });
//! assert_eq!(is_node_convex(&map, &mut area, &[0, 3]), Err(Refusal::UnknownNode { entry: 1 }));
//! # Ok::<(), Refusal>(())
//! ```
//!
//! # Stack
//!
//! Nothing is allocated: a call works on what is lent to it and on the stack, up to 163,840 bytes of it whatever is lent. [`stack`] has the figure of each
//! call. The main thread and the threads of `std` have room for that, unless a smaller stack was asked for.

#[cfg(not(all(target_arch = "x86_64", target_endian = "little")))]
compile_error!("libvarddohas.a is built for x86-64");

mod exported;
mod lent;
pub mod line_convex_checker;
pub mod path;
mod refusal;
pub mod stack;
pub mod topo_convex_checker;

use lent::{told, Lent, LentMut, Numbers};
pub use refusal::Refusal;

/// The most words that an area needs, whatever the map.
///
/// ```
/// assert_eq!(varddohas::LARGEST_AREA, varddohas::area_words(512, 2048, 4096));
/// ```
pub const LARGEST_AREA: usize = 31_751;

/// How many words the area of a map needs: W of document 01. A node's ports are its inputs and outputs.
///
/// ```
/// // three steps in a row: two links, and a port at each of their ends
/// assert_eq!(varddohas::area_words(3, 2, 4), 63);
/// ```
pub const fn area_words(nodes: usize, links: usize, ports: usize) -> usize {
    7usize
        .saturating_add(nodes.saturating_mul(10))
        .saturating_add(links.saturating_mul(9))
        .saturating_add(ports.saturating_mul(2))
}

/// Prepares an area for a map, and answers how many lines there are.
///
/// ```
/// use varddohas::{area_words, prepare, Refusal};
///
/// // one step, without ports
/// let map = [0, 0, 0, 0, 4, 0, 1, 0, 0, 0, 0, 0, b'P', b'G', b'T', b'1'];
/// assert_eq!(prepare(&map, &mut [0; area_words(1, 0, 0)]), Ok(1));
/// assert_eq!(prepare(&map, &mut [0; area_words(1, 0, 0) - 1]), Err(Refusal::NoRoom));
/// ```
pub fn prepare(map: &[u8], area: &mut [u16]) -> Result<u64, Refusal> {
    let mut numbers = Numbers::default();
    let (map, area) = (Lent::bytes(map), LentMut::words(area));
    // SAFETY: every pointer is of a slice or a number that is borrowed for the call, with its length in bytes.
    let case = unsafe {
        exported::varddohas_prepare(
            map.at,
            map.bytes,
            area.at,
            area.bytes,
            &mut numbers.first,
            &mut numbers.number,
            &mut numbers.place,
        )
    };
    told(case, &numbers, numbers.first, None)
}
