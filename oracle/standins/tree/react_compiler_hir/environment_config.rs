//! Stand-in for the configuration: the switches that the given files read.
//! Two of them are the options of document 01.

use super::Effect;
use super::type_config::{TypeConfig, ValueKind};
use crate::react_compiler_utils::FxIndexMap;

#[derive(Debug, Clone)]
pub struct HookConfig {
    pub effect_kind: Effect,
    pub value_kind: ValueKind,
    pub no_alias: bool,
    pub transitive_mixed_data: bool,
}

#[derive(Debug, Clone, Default)]
pub struct EnvironmentConfig {
    pub custom_hooks: FxIndexMap<String, HookConfig>,
    pub module_type_provider: Option<FxIndexMap<String, TypeConfig>>,
    pub enable_preserve_existing_memoization_guarantees: bool,
    pub enable_transitively_freeze_function_expressions: bool,
    pub enable_assume_hooks_follow_rules_of_react: bool,
    pub enable_custom_type_definition_for_reanimated: bool,
    pub validate_preserve_existing_memoization_guarantees: bool,
    pub validate_no_set_state_in_render: bool,
    pub validate_no_impure_functions_in_render: bool,
}
