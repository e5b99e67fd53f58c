//! Stand-in for oxc_allocator: an "arena" that owns nothing, and a vector and a
//! hash map that keep the arena's lifetime in their type but live on the heap.

use std::collections::HashMap as StdHashMap;
use std::fmt;
use std::hash::Hash;
use std::marker::PhantomData;
use std::ops::{Deref, DerefMut};

/// The arena itself. Nothing is kept in it, so one value serves all inputs.
#[derive(Debug, Default)]
pub struct Allocator;

/// Anything that can hand out the arena, such as a reference to it.
pub trait GetAllocator<'a> {
    fn allocator(&self) -> &'a Allocator;
}

impl<'a> GetAllocator<'a> for &'a Allocator {
    fn allocator(&self) -> &'a Allocator {
        self
    }
}

/// Whether a clone keeps semantic ids. No HIR type looks at it.
#[derive(Debug, Clone, Copy)]
pub enum CloneInSemanticIds {
    Drop,
}

/// Cloning into an arena; all types here clone into the same arena.
pub trait CloneIn<'new>: Sized {
    type Cloned;
    fn clone_in_impl(&self, sem: CloneInSemanticIds, alloc: &'new Allocator) -> Self::Cloned;
    fn clone_in(&self, alloc: &'new Allocator) -> Self::Cloned {
        self.clone_in_impl(CloneInSemanticIds::Drop, alloc)
    }
}

/// The arena vector: a plain vector with the arena's lifetime in its type.
pub struct Vec<'a, T> {
    items: std::vec::Vec<T>,
    arena: PhantomData<&'a ()>,
}

impl<'a, T> Vec<'a, T> {
    fn wrap(items: std::vec::Vec<T>) -> Self {
        Self { items, arena: PhantomData }
    }
    pub fn new_in<A: GetAllocator<'a>>(_: &A) -> Self {
        Self::wrap(std::vec::Vec::new())
    }
    pub fn with_capacity_in<A: GetAllocator<'a>>(capacity: usize, _: &A) -> Self {
        Self::wrap(std::vec::Vec::with_capacity(capacity))
    }
    pub fn from_iter_in<A: GetAllocator<'a>, I: IntoIterator<Item = T>>(iter: I, _: &A) -> Self {
        Self::wrap(iter.into_iter().collect())
    }
    pub fn from_array_in<A: GetAllocator<'a>, const N: usize>(array: [T; N], _: &A) -> Self {
        Self::wrap(std::vec::Vec::from(array))
    }
}

impl<T> Deref for Vec<'_, T> {
    type Target = std::vec::Vec<T>;
    fn deref(&self) -> &Self::Target {
        &self.items
    }
}

impl<T> DerefMut for Vec<'_, T> {
    fn deref_mut(&mut self) -> &mut Self::Target {
        &mut self.items
    }
}

impl<T: fmt::Debug> fmt::Debug for Vec<'_, T> {
    fn fmt(&self, f: &mut fmt::Formatter<'_>) -> fmt::Result {
        self.items.fmt(f)
    }
}

impl<T> IntoIterator for Vec<'_, T> {
    type Item = T;
    type IntoIter = std::vec::IntoIter<T>;
    fn into_iter(self) -> Self::IntoIter {
        self.items.into_iter()
    }
}

impl<'i, T> IntoIterator for &'i Vec<'_, T> {
    type Item = &'i T;
    type IntoIter = std::slice::Iter<'i, T>;
    fn into_iter(self) -> Self::IntoIter {
        self.items.iter()
    }
}

impl<'i, T> IntoIterator for &'i mut Vec<'_, T> {
    type Item = &'i mut T;
    type IntoIter = std::slice::IterMut<'i, T>;
    fn into_iter(self) -> Self::IntoIter {
        self.items.iter_mut()
    }
}

impl<'new, T: CloneIn<'new>> CloneIn<'new> for Vec<'_, T> {
    type Cloned = Vec<'new, T::Cloned>;
    fn clone_in_impl(&self, sem: CloneInSemanticIds, alloc: &'new Allocator) -> Self::Cloned {
        Vec::wrap(self.items.iter().map(|item| item.clone_in_impl(sem, alloc)).collect())
    }
}

/// The arena hash map, used only as an index of ordered maps that no
/// instruction reaches.
pub struct HashMap<'a, K, V> {
    map: StdHashMap<K, V>,
    arena: PhantomData<&'a ()>,
}

impl<'a, K: Eq + Hash, V> HashMap<'a, K, V> {
    pub fn new_in(_: &'a Allocator) -> Self {
        Self { map: StdHashMap::new(), arena: PhantomData }
    }
    pub fn with_capacity_in(capacity: usize, _: &'a Allocator) -> Self {
        Self { map: StdHashMap::with_capacity(capacity), arena: PhantomData }
    }
}

impl<K, V> Deref for HashMap<'_, K, V> {
    type Target = StdHashMap<K, V>;
    fn deref(&self) -> &Self::Target {
        &self.map
    }
}

impl<K, V> DerefMut for HashMap<'_, K, V> {
    fn deref_mut(&mut self) -> &mut Self::Target {
        &mut self.map
    }
}
