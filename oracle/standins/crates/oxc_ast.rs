//! Stand-in for oxc_ast: the few syntax types that the HIR's enums mention.

pub mod ast {
    pub use oxc_span::Span;
    use std::marker::PhantomData;

    #[derive(Debug)]
    pub struct TSType<'a>(pub PhantomData<&'a ()>);

    #[derive(Debug, Clone, Copy, PartialEq, Eq)]
    pub enum BinaryOperator {
        Addition,
    }

    #[derive(Debug, Clone, Copy, PartialEq, Eq)]
    pub enum LogicalOperator {
        And,
    }

    #[derive(Debug, Clone, Copy, PartialEq, Eq)]
    pub enum UpdateOperator {
        Increment,
    }
}
