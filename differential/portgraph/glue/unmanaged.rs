//! Glue: the dense map in which both checkers keep a value for each node.

use crate::SecondaryMap;
use std::iter::Enumerate;
use std::marker::PhantomData;
use std::ops::Index;
use std::slice::Iter;

/// A map from indices to values; an index that was never set has the default value.
#[derive(Debug, Clone, PartialEq)]
pub struct UnmanagedDenseMap<K, V> {
    values: Vec<V>,
    default: V,
    keys: PhantomData<K>,
}

impl<K, V> SecondaryMap<K, V> for UnmanagedDenseMap<K, V>
where
    K: Into<usize> + TryFrom<usize>,
    V: Clone + Default + PartialEq,
{
    type Iter<'a>
        = SetEntries<'a, K, V>
    where
        Self: 'a,
        K: 'a,
        V: 'a;

    fn new() -> Self {
        Self::with_capacity(0)
    }

    fn with_capacity(capacity: usize) -> Self {
        Self { values: Vec::with_capacity(capacity), default: V::default(), keys: PhantomData }
    }

    fn default_value(&self) -> V {
        self.default.clone()
    }

    fn ensure_capacity(&mut self, capacity: usize) {
        let missing = capacity.saturating_sub(self.values.len());
        self.values.reserve(missing);
    }

    fn capacity(&self) -> usize {
        self.values.capacity()
    }

    fn get(&self, key: K) -> &V {
        self.values.get(key.into()).unwrap_or(&self.default)
    }

    fn set(&mut self, key: K, val: V) {
        let at = key.into();
        if self.values.len() <= at {
            self.values.resize(at + 1, self.default.clone());
        }
        self.values[at] = val;
    }

    fn take(&mut self, key: K) -> V {
        let at = key.into();
        match self.values.get_mut(at) {
            Some(value) => std::mem::replace(value, self.default.clone()),
            None => self.default.clone(),
        }
    }

    fn iter<'a>(&'a self) -> Self::Iter<'a>
    where
        K: 'a,
        V: 'a,
    {
        SetEntries { entries: self.values.iter().enumerate(), default: &self.default, keys: PhantomData }
    }
}

impl<K, V> Index<K> for UnmanagedDenseMap<K, V>
where
    K: Into<usize>,
{
    type Output = V;

    fn index(&self, key: K) -> &V {
        self.values.get(key.into()).unwrap_or(&self.default)
    }
}

/// The entries that are not the default value, by index.
pub struct SetEntries<'a, K, V> {
    entries: Enumerate<Iter<'a, V>>,
    default: &'a V,
    keys: PhantomData<K>,
}

impl<'a, K, V> Iterator for SetEntries<'a, K, V>
where
    K: TryFrom<usize>,
    V: PartialEq,
{
    type Item = (K, &'a V);

    fn next(&mut self) -> Option<Self::Item> {
        let default = self.default;
        let (at, value) = self.entries.find(|&(_, value)| value != default)?;
        let key = K::try_from(at).ok().expect("an index that was set");
        Some((key, value))
    }
}
