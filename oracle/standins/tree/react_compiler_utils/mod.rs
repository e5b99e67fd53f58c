//! Stand-in for the utilities' root: the given ordered map, and a small
//! insertion-ordered map that only the block driver and configurations use.

pub mod ordered_map;
pub use ordered_map::OrderedMap;

use std::borrow::Borrow;

/// Insertion-ordered map by linear search.
#[derive(Debug, Clone)]
pub struct FxIndexMap<K, V>(Vec<(K, V)>);

impl<K, V> Default for FxIndexMap<K, V> {
    fn default() -> Self {
        Self(Vec::new())
    }
}

impl<K: Eq, V> FxIndexMap<K, V> {
    fn find<Q: Eq + ?Sized>(&self, key: &Q) -> Option<usize>
    where
        K: Borrow<Q>,
    {
        self.0.iter().position(|(k, _)| k.borrow() == key)
    }
    pub fn is_empty(&self) -> bool {
        self.0.is_empty()
    }
    pub fn get<Q: Eq + ?Sized>(&self, key: &Q) -> Option<&V>
    where
        K: Borrow<Q>,
    {
        self.find(key).map(|i| &self.0[i].1)
    }
    pub fn get_mut<Q: Eq + ?Sized>(&mut self, key: &Q) -> Option<&mut V>
    where
        K: Borrow<Q>,
    {
        self.find(key).map(|i| &mut self.0[i].1)
    }
    pub fn insert(&mut self, key: K, value: V) {
        match self.find(&key) {
            Some(i) => self.0[i].1 = value,
            None => self.0.push((key, value)),
        }
    }
    pub fn swap_remove<Q: Eq + ?Sized>(&mut self, key: &Q) -> Option<V>
    where
        K: Borrow<Q>,
    {
        self.find(key).map(|i| self.0.swap_remove(i).1)
    }
}

impl<'i, K, V> IntoIterator for &'i FxIndexMap<K, V> {
    type Item = (&'i K, &'i V);
    type IntoIter = std::iter::Map<std::slice::Iter<'i, (K, V)>, fn(&'i (K, V)) -> (&'i K, &'i V)>;
    fn into_iter(self) -> Self::IntoIter {
        self.0.iter().map(|(k, v)| (k, v))
    }
}
