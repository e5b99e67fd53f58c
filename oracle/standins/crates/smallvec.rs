//! Stand-in for smallvec: a plain vector under the same name and type form.

use std::ops::{Deref, DerefMut};

/// An array type, named only for its items.
pub trait Array {
    type Item;
}

impl<T, const N: usize> Array for [T; N] {
    type Item = T;
}

/// The vector. Its inline size shows nowhere in behaviour.
pub struct SmallVec<A: Array>(Vec<A::Item>);

impl<A: Array> SmallVec<A> {
    pub fn from_vec(items: Vec<A::Item>) -> Self {
        Self(items)
    }
    pub fn as_slice(&self) -> &[A::Item] {
        &self.0
    }
}

impl<A: Array> Deref for SmallVec<A> {
    type Target = Vec<A::Item>;
    fn deref(&self) -> &Self::Target {
        &self.0
    }
}

impl<A: Array> DerefMut for SmallVec<A> {
    fn deref_mut(&mut self) -> &mut Self::Target {
        &mut self.0
    }
}

impl<A: Array> PartialEq for SmallVec<A>
where
    A::Item: PartialEq,
{
    fn eq(&self, other: &Self) -> bool {
        self.0 == other.0
    }
}

impl<A: Array> Eq for SmallVec<A> where A::Item: Eq {}

impl<A: Array> std::hash::Hash for SmallVec<A>
where
    A::Item: std::hash::Hash,
{
    fn hash<H: std::hash::Hasher>(&self, state: &mut H) {
        self.0.hash(state);
    }
}

impl<A: Array> FromIterator<A::Item> for SmallVec<A> {
    fn from_iter<I: IntoIterator<Item = A::Item>>(iter: I) -> Self {
        Self(iter.into_iter().collect())
    }
}

impl<A: Array> IntoIterator for SmallVec<A> {
    type Item = A::Item;
    type IntoIter = std::vec::IntoIter<A::Item>;
    fn into_iter(self) -> Self::IntoIter {
        self.0.into_iter()
    }
}

#[macro_export]
macro_rules! smallvec {
    ($($item:expr),* $(,)?) => {
        $crate::SmallVec::from_vec(vec![$($item),*])
    };
}
