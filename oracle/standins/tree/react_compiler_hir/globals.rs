//! Stand-in for the globals: empty registries. Signatures belong to Apply.

use super::Type;
use super::object_shape::{BaseShapes, ShapeRegistry};
use super::type_config::TypeConfig;
use oxc_str::Ident;
use std::collections::HashMap;

pub type Global<'a> = Type<'a>;
pub struct BaseGlobals;

#[derive(Default)]
pub struct GlobalRegistry<'a>(HashMap<String, Global<'a>>);

impl<'a> GlobalRegistry<'a> {
    pub fn with_base(_: BaseGlobals) -> Self {
        Self::default()
    }
    pub fn contains_key(&self, name: &str) -> bool {
        self.0.contains_key(name)
    }
    pub fn get(&self, name: &str) -> Option<&Global<'a>> {
        self.0.get(name)
    }
    pub fn insert(&mut self, name: Ident<'a>, global: Global<'a>) {
        self.0.insert(name.as_str().to_owned(), global);
    }
}

pub fn base_shapes() -> BaseShapes {
    BaseShapes
}

pub fn base_globals() -> BaseGlobals {
    BaseGlobals
}

pub fn get_reanimated_module_type<'a>(_: &mut ShapeRegistry<'a>) -> Global<'a> {
    unimplemented!("module types are not reached")
}

pub fn install_type_config<'a>(
    _: &mut ShapeRegistry<'a>,
    _: &TypeConfig,
    _: &str,
    _: &mut Vec<String>,
) -> Global<'a> {
    unimplemented!("module types are not reached")
}
