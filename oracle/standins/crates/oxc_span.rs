//! Stand-in for oxc_span: a span and the label made from it.

use std::fmt;

/// A source range. End below start is legal in our inputs.
#[derive(Debug, Clone, Copy, PartialEq, Eq, Hash, Default)]
pub struct Span {
    pub start: u32,
    pub end: u32,
}

impl Span {
    pub const fn new(start: u32, end: u32) -> Self {
        Self { start, end }
    }
    /// The length wraps, as release arithmetic of the original does.
    pub const fn size(&self) -> u32 {
        self.end.wrapping_sub(self.start)
    }
    pub fn label<S: Into<String>>(self, label: S) -> LabeledSpan {
        LabeledSpan { label: Some(label.into()), offset: self.start, len: self.size(), primary: false }
    }
}

impl fmt::Display for Span {
    fn fmt(&self, f: &mut fmt::Formatter<'_>) -> fmt::Result {
        write!(f, "{}..{}", self.start, self.end)
    }
}

/// A label of a diagnostic: text, offset, length and the primary mark.
#[derive(Debug, Clone, PartialEq, Eq)]
pub struct LabeledSpan {
    label: Option<String>,
    offset: u32,
    len: u32,
    primary: bool,
}

impl LabeledSpan {
    pub fn label(&self) -> Option<&str> {
        self.label.as_deref()
    }
    pub fn offset(&self) -> u32 {
        self.offset
    }
    pub fn len(&self) -> u32 {
        self.len
    }
    pub fn is_empty(&self) -> bool {
        self.len == 0
    }
    pub fn primary(&self) -> bool {
        self.primary
    }
}

impl From<Span> for LabeledSpan {
    fn from(span: Span) -> Self {
        Self { label: None, offset: span.start, len: span.size(), primary: false }
    }
}
