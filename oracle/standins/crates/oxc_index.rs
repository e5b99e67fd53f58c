//! Stand-in for oxc_index: typed indices and vectors indexed by them.

use std::marker::PhantomData;
use std::ops::{Index, IndexMut};

/// A type that stands for a place in a vector.
pub trait Idx: Copy {
    fn from_index(index: usize) -> Self;
    fn to_index(self) -> usize;
}

/// Makes an index type over u32 whose largest number is left out.
#[macro_export]
macro_rules! define_nonmax_u32_index_type {
    ($(#[$meta:meta])* $vis:vis struct $name:ident;) => {
        $(#[$meta])*
        #[derive(Debug, Clone, Copy, PartialEq, Eq, PartialOrd, Ord, Hash)]
        $vis struct $name(u32);

        #[allow(dead_code)]
        impl $name {
            pub const MAX_INDEX: usize = (u32::MAX - 1) as usize;
            pub const fn from_usize(index: usize) -> Self {
                assert!(index <= Self::MAX_INDEX);
                Self(index as u32)
            }
            pub const fn index(self) -> usize {
                self.0 as usize
            }
        }
        impl $crate::Idx for $name {
            fn from_index(index: usize) -> Self {
                Self::from_usize(index)
            }
            fn to_index(self) -> usize {
                self.index()
            }
        }
        impl std::ops::Add<usize> for $name {
            type Output = Self;
            fn add(self, more: usize) -> Self {
                Self::from_usize(self.index() + more)
            }
        }
    };
}

/// A vector indexed by one index type only.
#[derive(Debug, Clone)]
pub struct IndexVec<I, T> {
    items: Vec<T>,
    index: PhantomData<I>,
}

impl<I: Idx, T> IndexVec<I, T> {
    pub fn new() -> Self {
        Self { items: Vec::new(), index: PhantomData }
    }
    pub fn len(&self) -> usize {
        self.items.len()
    }
    pub fn is_empty(&self) -> bool {
        self.items.is_empty()
    }
    pub fn next_idx(&self) -> I {
        I::from_index(self.items.len())
    }
    pub fn push(&mut self, item: T) -> I {
        let index = self.next_idx();
        self.items.push(item);
        index
    }
    pub fn get(&self, index: I) -> Option<&T> {
        self.items.get(index.to_index())
    }
    pub fn iter(&self) -> std::slice::Iter<'_, T> {
        self.items.iter()
    }
}

impl<I: Idx, T> Default for IndexVec<I, T> {
    fn default() -> Self {
        Self::new()
    }
}

impl<I: Idx, T> Index<I> for IndexVec<I, T> {
    type Output = T;
    fn index(&self, index: I) -> &T {
        &self.items[index.to_index()]
    }
}

impl<I: Idx, T> IndexMut<I> for IndexVec<I, T> {
    fn index_mut(&mut self, index: I) -> &mut T {
        &mut self.items[index.to_index()]
    }
}

impl<'i, I: Idx, T> IntoIterator for &'i IndexVec<I, T> {
    type Item = &'i T;
    type IntoIter = std::slice::Iter<'i, T>;
    fn into_iter(self) -> Self::IntoIter {
        self.items.iter()
    }
}
