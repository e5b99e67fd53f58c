//! Stand-in for oxc_str: borrowed names and texts, compared by their text.

use oxc_allocator::{Allocator, CloneIn, CloneInSemanticIds, GetAllocator};
use std::borrow::Borrow;
use std::collections::{HashMap, HashSet};
use std::fmt;
use std::ops::Deref;

/// Makes a borrowed string type with the few traits that the HIR asks for.
macro_rules! text_type {
    ($name:ident) => {
        #[derive(Debug, Clone, Copy, PartialEq, Eq, Hash, PartialOrd, Ord)]
        pub struct $name<'a>(&'a str);

        impl<'a> $name<'a> {
            pub const fn new_const(text: &'a str) -> Self {
                Self(text)
            }
            pub const fn as_str(&self) -> &'a str {
                self.0
            }
            pub fn from_str_in<A: GetAllocator<'a>>(text: &str, _: &A) -> Self {
                Self(Box::leak(text.to_owned().into_boxed_str()))
            }
        }
        impl<'a> From<&'a str> for $name<'a> {
            fn from(text: &'a str) -> Self {
                Self(text)
            }
        }
        impl Deref for $name<'_> {
            type Target = str;
            fn deref(&self) -> &str {
                self.0
            }
        }
        impl Borrow<str> for $name<'_> {
            fn borrow(&self) -> &str {
                self.0
            }
        }
        impl PartialEq<str> for $name<'_> {
            fn eq(&self, other: &str) -> bool {
                self.0 == other
            }
        }
        impl PartialEq<&str> for $name<'_> {
            fn eq(&self, other: &&str) -> bool {
                self.0 == *other
            }
        }
        impl fmt::Display for $name<'_> {
            fn fmt(&self, f: &mut fmt::Formatter<'_>) -> fmt::Result {
                f.write_str(self.0)
            }
        }
        impl<'a> CloneIn<'a> for $name<'a> {
            type Cloned = $name<'a>;
            fn clone_in_impl(&self, _: CloneInSemanticIds, _: &'a Allocator) -> Self {
                *self
            }
        }
    };
}

text_type!(Ident);
text_type!(Str);

pub type IdentHashMap<'a, V> = HashMap<Ident<'a>, V>;
pub type IdentHashSet<'a> = HashSet<Ident<'a>>;

/// Formats a name; only the generator of unique names uses it.
#[macro_export]
macro_rules! format_ident {
    ($alloc:expr, $($arg:tt)*) => {
        $crate::Ident::from_str_in(&format!($($arg)*), &$alloc)
    };
}
