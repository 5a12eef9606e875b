//! A stand-in for the crate `bitvec`: only the names and calls that portgraph's `secondary.rs` and `toposort.rs` use.
//!
//! A bit is a whole `bool` here. Marks are all the source keeps in it, so the room does not matter.

/// Bits that are lent.
pub mod slice {
    use crate::order::Lsb0;
    use std::marker::PhantomData;

    /// A row of bits. (In the crate itself this is an unsized view.)
    #[derive(Debug, Clone, Default, PartialEq, Eq)]
    pub struct BitSlice {
        pub(crate) bits: Vec<bool>,
    }

    impl BitSlice {
        /// The bit at `index`, or nothing past the end.
        pub fn get(&self, index: usize) -> Option<&bool> {
            self.bits.get(index)
        }

        /// Sets the bit at `index`, which must be there.
        pub fn set(&mut self, index: usize, value: bool) {
            self.bits[index] = value;
        }

        /// Sets the bit at `index`, which must be there, and gives the bit it was.
        pub fn replace(&mut self, index: usize, value: bool) -> bool {
            std::mem::replace(&mut self.bits[index], value)
        }

        /// The places of the bits that are set, rising.
        pub fn iter_ones(&self) -> IterOnes<'_, usize, Lsb0> {
            IterOnes { bits: &self.bits, front: 0, back: self.bits.len(), form: PhantomData }
        }
    }

    /// The places of the bits that are set. The two last parameters are the crate's store and order.
    #[derive(Debug, Clone, Default)]
    pub struct IterOnes<'a, T, O> {
        bits: &'a [bool],
        front: usize,
        back: usize,
        form: PhantomData<(T, O)>,
    }

    impl<T, O> Iterator for IterOnes<'_, T, O> {
        type Item = usize;

        fn next(&mut self) -> Option<usize> {
            let at = (self.front..self.back).find(|&at| self.bits[at]);
            self.front = at.map_or(self.back, |at| at + 1);
            at
        }
    }

    impl<T, O> DoubleEndedIterator for IterOnes<'_, T, O> {
        fn next_back(&mut self) -> Option<usize> {
            let at = (self.front..self.back).rfind(|&at| self.bits[at]);
            self.back = at.unwrap_or(self.front);
            at
        }
    }
}

/// Bits that are owned.
pub mod vec {
    use crate::slice::BitSlice;
    use std::ops::{Deref, DerefMut};

    /// A row of bits that grows.
    #[derive(Debug, Clone, Default, PartialEq, Eq)]
    pub struct BitVec(BitSlice);

    impl BitVec {
        /// No bits.
        pub fn new() -> Self {
            Self::default()
        }

        /// No bits, with room for some.
        pub fn with_capacity(capacity: usize) -> Self {
            let bits = Vec::with_capacity(capacity);
            Self(BitSlice { bits })
        }

        /// The number of bits.
        pub fn len(&self) -> usize {
            self.0.bits.len()
        }

        /// Whether there are no bits.
        pub fn is_empty(&self) -> bool {
            self.0.bits.is_empty()
        }

        /// The number of bits there is room for.
        pub fn capacity(&self) -> usize {
            self.0.bits.capacity()
        }

        /// Makes room for `additional` bits more.
        pub fn reserve(&mut self, additional: usize) {
            self.0.bits.reserve(additional);
        }

        /// Cuts or fills up with `value` to `len` bits.
        pub fn resize(&mut self, len: usize, value: bool) {
            self.0.bits.resize(len, value);
        }
    }

    impl Deref for BitVec {
        type Target = BitSlice;

        fn deref(&self) -> &BitSlice {
            &self.0
        }
    }

    impl DerefMut for BitVec {
        fn deref_mut(&mut self) -> &mut BitSlice {
            &mut self.0
        }
    }
}

/// The order of bits in a store: a name only.
pub mod order {
    /// Lowest bit first.
    #[derive(Debug, Clone, Copy, Default)]
    pub struct Lsb0;
}

/// The names that the crate's users import at once.
pub mod prelude {
    pub use crate::vec::BitVec;
}
