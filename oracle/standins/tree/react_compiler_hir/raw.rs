//! Stand-in: categories of raw types. Only the name is mentioned.

#[derive(Debug, Clone, Copy, PartialEq, Eq)]
pub enum RawTypeCategory {
    Other,
}
