//! Stand-in for oxc_syntax: two ids and one number format that no instruction reaches.

pub mod number {
    pub trait ToJsString {
        fn to_js_string(&self) -> String;
    }
    impl ToJsString for f64 {
        fn to_js_string(&self) -> String {
            unimplemented!("number texts are not reached")
        }
    }
}

pub mod reference {
    #[derive(Debug, Clone, Copy, PartialEq, Eq, Hash)]
    pub struct ReferenceId(pub u32);
}

pub mod symbol {
    #[derive(Debug, Clone, Copy, PartialEq, Eq, Hash)]
    pub struct SymbolId(pub u32);
}
