//! The Rust's own objects for one job: environment, context, state, and the
//! numbers that document 01 keeps in the session.

use super::super::*;
use super::diagnostic::{self, Entry};
use super::effect;
use super::job::Job;
use super::{Fail, bad};
use crate::react_compiler_hir::environment_config::EnvironmentConfig;
use crate::react_compiler_hir::object_shape::BUILT_IN_USE_REF_ID;
use crate::react_compiler_hir::{
    AliasingDiagnostic, DiagnosticInstanceId, EvaluationOrder, FunctionExpressionType, HIR,
    LoweredFunction,
};
use std::sync::OnceLock;

static ALLOC: Allocator = Allocator;

/// The arena, which keeps nothing.
pub fn alloc() -> &'static Allocator {
    &ALLOC
}

/// All that instructions of one job share.
pub struct World {
    pub env: Environment<'static>,
    pub context: Context<'static>,
    pub state: InferenceState,
    pub next: u32,
    pub walk: u32,
    pub table: Vec<Entry>,
    pub places: Vec<Place>,
    names: Vec<u32>,
}

/// Builds everything anew from the job; nothing is shared between two worlds.
pub fn build(job: &Job) -> Result<World, Fail> {
    let mut env = Environment::with_config(alloc(), config(job.options));
    for record in &job.identifiers {
        add_identifier(&mut env, record)?;
    }
    let places = job.places.iter().map(effect::place).collect::<Result<Vec<_>, _>>()?;
    if places.iter().any(|place| place.identifier.index() >= job.identifiers.len()) {
        return bad("a place names no identifier");
    }
    for record in &job.functions {
        let function = function(record, &places)?;
        env.add_function(function);
    }
    let table = diagnostic_table(&env, job)?;
    let context = context(job, &places, &table)?;
    let state = state(job.flag, &job.values, &job.pairs, job.access)?;
    let names = job.identifiers.iter().map(|record| record[1]).collect();
    Ok(World { env, context, state, next: job.next, walk: job.walk, table, places, names })
}

/// The table of a job; an empty one needs no forms (they are learnt by probes).
fn diagnostic_table(env: &Environment, job: &Job) -> Result<Vec<Entry>, Fail> {
    if job.diagnostics.is_empty() {
        return Ok(Vec::new());
    }
    diagnostic::intern_table(env, &job.diagnostics)
}

/// The two options of document 01; all other switches are off.
fn config(options: u32) -> EnvironmentConfig {
    EnvironmentConfig {
        enable_preserve_existing_memoization_guarantees: options & 1 != 0,
        enable_transitively_freeze_function_expressions: options & 2 != 0,
        ..EnvironmentConfig::default()
    }
}

/// The text of a name number; the texts live as long as the program.
fn name_text(number: u32) -> Result<&'static str, Fail> {
    static NAMES: OnceLock<Vec<String>> = OnceLock::new();
    let names = NAMES.get_or_init(|| (0..=512).map(|k| format!("n{k}")).collect());
    names.get(number as usize).map_or_else(|| bad("a name above 512"), |name| Ok(name.as_str()))
}

/// One identifier: its own declaration, a name or none, a ref's type or none.
pub fn add_identifier(env: &mut Environment<'static>, record: &[u32; 4]) -> Result<(), Fail> {
    let id = env.next_identifier_id();
    if record[1] != 0 {
        let name = name_text(record[1])?;
        env.identifiers[id].name = Some(IdentifierName::Named(name.into()));
    }
    if record[0] & 1 != 0 {
        let type_id = env.identifiers[id].type_;
        env.types[type_id] = Type::Object { shape_id: Some(BUILT_IN_USE_REF_ID) };
    }
    Ok(())
}

/// A place that nothing looks at.
fn nowhere() -> Place {
    let identifier = IdentifierId::from_usize(0);
    Place { identifier, effect: Effect::Unknown, reactive: false, span: None }
}

/// A function with its own copy of its context and the effects its record implies.
fn function(record: &[u32; 5], places: &[Place]) -> Result<HirFunction<'static>, Fail> {
    let [flags, first, count, first_mutated, mutated] = *record;
    let context = effect::run(places, first, count)?;
    let mutated = effect::run(places, first_mutated, mutated)?;
    Ok(HirFunction {
        span: None,
        id: None,
        name_hint: None,
        fn_type: ReactFunctionType::Other,
        params: ArenaVec::new_in(&alloc()),
        returns: nowhere(),
        context: ArenaVec::from_iter_in(context.iter().copied(), &alloc()),
        body: HIR { entry: BlockId::ENTRY, blocks: OrderedMap::default() },
        instructions: ArenaVec::new_in(&alloc()),
        generator: false,
        is_async: false,
        directives: ArenaVec::new_in(&alloc()),
        aliasing_effects: known_effects(flags, mutated),
    })
}

/// Effects of a function: unknown, or an Impure for a tracked side effect and
/// a Mutate for each place mutated inside.
fn known_effects(flags: u32, mutated: &[Place]) -> Option<ArenaVec<'static, AliasingEffect<'static>>> {
    if flags & 1 == 0 {
        return None;
    }
    let error =
        AliasingDiagnostic::new(DiagnosticId::from_usize(0), DiagnosticInstanceId::from_usize(0));
    let mut effects = ArenaVec::new_in(&alloc());
    if flags & 2 != 0 {
        effects.push(AliasingEffect::Impure { place: nowhere(), error });
    }
    for value in mutated {
        effects.push(AliasingEffect::Mutate { value: *value, reason: None });
    }
    Some(effects)
}

/// The context with its tables filled from the job.
fn context(job: &Job, places: &[Place], table: &[Entry]) -> Result<Context<'static>, Fail> {
    let mut context = empty_context(job.flag != 0);
    for (index, record) in job.identifiers.iter().enumerate() {
        if record[0] & 2 != 0 {
            let span = effect::span(record[2], record[3]);
            let access = Place { identifier: IdentifierId::from_usize(index), span, ..nowhere() };
            context
                .hoisted_context_declarations
                .insert(DeclarationId::from_usize(index), Some(access));
        }
    }
    let errors: Vec<AliasingDiagnostic> = table.iter().map(|entry| entry.error).collect();
    for record in &job.interned {
        let interned = effect::from_record(record, places, &errors, alloc())?;
        if context.interned_effects.insert(effect_key(&interned), interned).is_some() {
            return bad("two interned effects of one key");
        }
    }
    for record in &job.cached {
        let key = effect::cached_key(record, places)?;
        if context.effect_value_id_cache.insert(key, effect::value(record[8])).is_some() {
            return bad("two cached numbers of one key");
        }
    }
    for [value, function] in &job.links {
        let function = FunctionId::from_usize(*function as usize);
        if context.function_values.insert(effect::value(*value), function).is_some() {
            return bad("two links of one value");
        }
    }
    Ok(context)
}

/// A context in which nothing has happened yet.
fn empty_context(is_function_expression: bool) -> Context<'static> {
    Context {
        alloc: alloc(),
        interned_effects: FxHashMap::default(),
        instruction_signature_cache: FxHashMap::default(),
        catch_handlers: FxHashMap::default(),
        is_function_expression,
        hoisted_context_declarations: FxHashMap::default(),
        non_mutating_spreads: FxHashSet::default(),
        effect_value_id_cache: FxHashMap::default(),
        function_values: FxHashMap::default(),
        function_signature_cache: FxHashMap::default(),
        aliasing_config_temp_cache: FxHashMap::default(),
    }
}

/// A state from its value entries and its pairs; value 0 is an empty set.
pub fn state(
    flag: u32,
    values: &[[u32; 3]],
    pairs: &[[u32; 2]],
    access: [u32; 3],
) -> Result<InferenceState, Fail> {
    let mut state = InferenceState::empty(flag != 0);
    for record in values {
        let (value, entry) = value_entry(record)?;
        state.values.insert(value, entry);
    }
    let mut sets: FxHashMap<IdentifierId, FxHashSet<ValueId>> = FxHashMap::default();
    for [identifier, value] in pairs {
        let set = sets.entry(effect::identifier(*identifier)).or_default();
        if *value != 0 {
            set.insert(effect::value(*value));
        }
    }
    state.variables = sets.into_iter().map(|(id, set)| (id, Rc::new(set))).collect();
    if access[0] != 0 {
        let span = effect::span(access[1], access[2]);
        state.uninitialized_access.set(Some((effect::identifier(access[0] - 1), span)));
    }
    Ok(state)
}

/// One value entry from number, kind and reason bits.
pub fn value_entry(record: &[u32; 3]) -> Result<(ValueId, AbstractValue), Fail> {
    if record[2] >= 1 << 12 {
        return bad("a reason bit above 11");
    }
    let reason = ReasonSet(record[2] as u16);
    Ok((effect::value(record[0]), AbstractValue { kind: effect::kind(record[1])?, reason }))
}

impl World {
    /// The errors of the table, for candidate records that name one.
    pub fn errors(&self) -> Vec<AliasingDiagnostic> {
        self.table.iter().map(|entry| entry.error).collect()
    }

    /// Takes up the diagnostics that `effects` brought. The Rust lists an effect
    /// for each one it interns, so none is missed, and they come in order.
    pub fn learn_table(&mut self, effects: &[AliasingEffect<'_>]) {
        for effect in effects {
            let parts = effect::parts(effect);
            let (Some(error), Some(place)) = (parts.error, parts.first) else { continue };
            if error.instance().index() >= self.table.len() {
                assert!(error.instance().index() == self.table.len(), "oracle: a gap in the table");
                let identifier = place.identifier.index() as u32;
                let name = self.names[place.identifier.index()];
                self.table.push(Entry { error, identifier, name });
            }
        }
    }
}

/// An instruction as the Rust wants it: with its own function, or plain.
pub fn instruction(lvalue: Place, own: u32) -> Instruction<'static> {
    let value = if own == 0 {
        InstructionValue::Debugger { span: None }
    } else {
        InstructionValue::FunctionExpression {
            name: None,
            name_hint: None,
            lowered_func: LoweredFunction { func: FunctionId::from_usize(own as usize - 1) },
            expr_type: FunctionExpressionType::ArrowFunctionExpression,
            span: None,
        }
    };
    Instruction { id: EvaluationOrder::UNSET, lvalue, value, span: None, effects: None }
}
