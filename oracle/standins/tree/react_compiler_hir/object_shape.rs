//! Stand-in for the object shapes: the shape names, and signatures that only
//! Apply reads. The names need only differ from one another.

use super::type_config::{AliasingSignatureConfig, ValueKind, ValueReason};
use super::{Effect, Type};
use oxc_allocator::Allocator;
use oxc_str::Ident;
use std::collections::HashMap;

/// One constant for each shape name.
macro_rules! shape_names {
    ($($name:ident),* $(,)?) => {
        $(pub const $name: Ident<'static> = Ident::new_const(stringify!($name));)*
    };
}

shape_names!(
    BUILT_IN_ARRAY_ID,
    BUILT_IN_JSX_ID,
    BUILT_IN_MAP_ID,
    BUILT_IN_MIXED_READONLY_ID,
    BUILT_IN_OBJECT_ID,
    BUILT_IN_PROPS_ID,
    BUILT_IN_REF_VALUE_ID,
    BUILT_IN_SET_ID,
    BUILT_IN_SET_STATE_ID,
    BUILT_IN_START_TRANSITION_ID,
    BUILT_IN_USE_EFFECT_EVENT_ID,
    BUILT_IN_USE_EFFECT_HOOK_ID,
    BUILT_IN_USE_INSERTION_EFFECT_HOOK_ID,
    BUILT_IN_USE_LAYOUT_EFFECT_HOOK_ID,
    BUILT_IN_USE_OPERATOR_ID,
    BUILT_IN_USE_REF_ID,
    BUILT_IN_USE_STATE_ID,
    REANIMATED_SHARED_VALUE_ID,
);

#[derive(Debug, Clone, Copy, PartialEq, Eq)]
pub enum HookKind {
    Custom,
}

#[derive(Debug, Clone)]
pub struct FunctionSignature {
    pub positional_params: Vec<Effect>,
    pub rest_param: Option<Effect>,
    pub callee_effect: Effect,
    pub return_value_kind: ValueKind,
    pub return_value_reason: Option<ValueReason>,
    pub canonical_name: Option<String>,
    pub known_incompatible: Option<String>,
    pub mutable_only_if_operands_are_mutable: bool,
    pub impure: bool,
    pub no_alias: bool,
    pub hook_kind: Option<HookKind>,
    pub aliasing: Option<AliasingSignatureConfig>,
}

pub struct ObjectShape<'a> {
    pub properties: HashMap<String, Type<'a>>,
    pub function_type: Option<FunctionSignature>,
}

pub struct BaseShapes;

#[derive(Default)]
pub struct ShapeRegistry<'a>(HashMap<String, ObjectShape<'a>>);

impl<'a> ShapeRegistry<'a> {
    pub fn with_base(_: BaseShapes, _: &'a Allocator) -> Self {
        Self::default()
    }
    pub fn get(&self, id: &str) -> Option<&ObjectShape<'a>> {
        self.0.get(id)
    }
}

pub struct HookSignatureBuilder<'a> {
    pub rest_param: Option<Effect>,
    pub return_type: Type<'a>,
    pub return_value_kind: ValueKind,
    pub hook_kind: HookKind,
    pub no_alias: bool,
}

impl Default for HookSignatureBuilder<'_> {
    fn default() -> Self {
        Self {
            rest_param: None,
            return_type: Type::Poly,
            return_value_kind: ValueKind::Frozen,
            hook_kind: HookKind::Custom,
            no_alias: false,
        }
    }
}

pub fn add_hook<'a>(
    _: &mut ShapeRegistry<'a>,
    _: HookSignatureBuilder<'a>,
    _: Option<&str>,
) -> Type<'a> {
    unimplemented!("hooks are not reached")
}

pub fn default_nonmutating_hook<'a>(_: &mut ShapeRegistry<'a>) -> Type<'a> {
    unimplemented!("hooks are not reached")
}

pub fn default_mutating_hook<'a>(_: &mut ShapeRegistry<'a>) -> Type<'a> {
    unimplemented!("hooks are not reached")
}
