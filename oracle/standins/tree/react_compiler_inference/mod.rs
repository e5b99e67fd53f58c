//! Stand-in for the inference root: only the one given pass.

pub mod infer_mutation_aliasing_effects;
