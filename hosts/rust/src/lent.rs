//! Slices as they cross, and a case's number as a result.

use crate::Refusal;

/// A lent slice: where it starts, and its length in bytes. Words stand low byte first on this machine, as they cross.
pub(crate) struct Lent {
    pub at: *const u8,
    pub bytes: usize,
}

impl Lent {
    pub fn bytes(slice: &[u8]) -> Self {
        Lent { at: slice.as_ptr(), bytes: slice.len() }
    }

    pub fn words(slice: &[u16]) -> Self {
        Lent { at: slice.as_ptr().cast(), bytes: std::mem::size_of_val(slice) }
    }
}

/// A slice lent to be written.
pub(crate) struct LentMut {
    pub at: *mut u8,
    pub bytes: usize,
}

impl LentMut {
    pub fn words(slice: &mut [u16]) -> Self {
        LentMut { bytes: std::mem::size_of_val(slice), at: slice.as_mut_ptr().cast() }
    }
}

/// The parameters that a call writes its values to.
#[derive(Default)]
pub(crate) struct Numbers {
    pub first: u64,
    pub second: u64,
    pub number: u64,
    pub place: u64,
}

/// What a case's number says: the answer, the other answer where the call has one, or the refusal.
pub(crate) fn told<T>(case: u64, numbers: &Numbers, answer: T, other: Option<T>) -> Result<T, Refusal> {
    match (case, other) {
        (1, _) => Ok(answer),
        (2, Some(other)) => Ok(other),
        _ => Err(Refusal::told(numbers.number, numbers.place)),
    }
}
