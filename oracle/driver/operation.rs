//! State operations of docs/VECTORS.md: one method of `InferenceState` on a
//! state that is given whole.

use super::super::*;
use super::answer;
use super::diagnostic;
use super::effect;
use super::job::Reader;
use super::world;
use super::{Fail, bad, guarded};
use crate::react_compiler_hir::environment_config::EnvironmentConfig;

/// Reads the operation, runs it, and gives the answer words.
pub fn run(words: &[u32]) -> Result<Vec<u32>, Fail> {
    let mut reader = Reader::new(words, 0);
    let head: [u32; 13] = reader.record()?;
    if head[0] != 2 {
        return bad("word 0 is not 2");
    }
    let mut env = Environment::with_config(world::alloc(), EnvironmentConfig::default());
    for _ in 0..head[7] {
        world::add_identifier(&mut env, &[reader.word()? & 1, 0, 0, 0])?;
    }
    let (values, pairs) = (reader.records(head[8])?, reader.records(head[9])?);
    let mut first = world::state(head[5], &values, &pairs, [head[2], head[3], head[4]])?;
    let (values, pairs) = (reader.records(head[10])?, reader.records(head[11])?);
    let second = world::state(head[6], &values, &pairs, [0; 3])?;
    let arguments: Vec<u32> = (0..head[12]).map(|_| reader.word()).collect::<Result<_, _>>()?;
    reader.end()?;
    let (answer, third) = operate(head[1], &mut first, &second, &env, &arguments)?;
    Ok(answer_words(&answer, &first, third.as_ref().unwrap_or(&first)))
}

/// Answer words, the first state's access, and the resulting state.
fn answer_words(answer: &[u32], first: &InferenceState, result: &InferenceState) -> Vec<u32> {
    let mut words = vec![answer.len() as u32];
    words.extend(answer);
    words.extend(diagnostic::access_words(first.uninitialized_access.get()));
    words.push(u32::from(result.is_function_expression));
    words.extend(answer::table_words(result));
    words
}

/// The answer, and the third state where the operation is `merge`.
type Operated = (Vec<u32>, Option<InferenceState>);

/// Runs one operation by its number. Only `merge` has a third state, which is
/// empty where the Rust answers None.
fn operate(
    number: u32,
    state: &mut InferenceState,
    second: &InferenceState,
    env: &Environment,
    arguments: &[u32],
) -> Result<Operated, Fail> {
    if number == 12 {
        expect(arguments, 0)?;
        let merged = guarded(|| state.merge(second)).map_err(Fail::Panic)?;
        let answer = vec![u32::from(merged.is_some())];
        return Ok((answer, Some(merged.unwrap_or_else(|| InferenceState::empty(false)))));
    }
    Ok((in_place(number, state, second, env, arguments)?, None))
}

/// The number of arguments must fit the operation.
fn expect(arguments: &[u32], count: usize) -> Result<(), Fail> {
    if arguments.len() == count { Ok(()) } else { bad("a wrong count of arguments") }
}

/// All operations that change or ask the first state.
fn in_place(
    number: u32,
    state: &mut InferenceState,
    second: &InferenceState,
    env: &Environment,
    arguments: &[u32],
) -> Result<Vec<u32>, Fail> {
    let counts = [0, 1, 3, 3, 2, 2, 2, 1, 1, 2, 4];
    if let Some(count) = counts.get(number as usize) {
        expect(arguments, *count)?;
    }
    let id = |at: usize| effect::identifier(arguments[at]);
    let caught = match number {
        1 => guarded(|| kind_words(state.kind(id(0)))),
        2 => {
            let span = effect::span(arguments[1], arguments[2]);
            guarded(|| kind_words(state.kind_with_span(id(0), span)))
        }
        3 => {
            let (value, entry) = world::value_entry(&[arguments[0], arguments[1], arguments[2]])?;
            guarded(|| none(state.initialize(value, entry)))
        }
        4 => guarded(|| none(state.define(id(0), effect::value(arguments[1])))),
        5 => guarded(|| none(state.assign(id(0), id(1)))),
        6 => guarded(|| none(state.append_alias(id(0), id(1)))),
        7 => guarded(|| vec![u32::from(state.is_defined(id(0)))]),
        8 => guarded(|| state.values_for(id(0)).into_iter().map(effect::value_number).collect()),
        9 => {
            let reason = effect::reason(arguments[1])?;
            guarded(|| vec![u32::from(state.freeze(id(0), reason))])
        }
        10 => {
            let variant = variant(arguments[0])?;
            let span = effect::span(arguments[2], arguments[3]);
            guarded(|| vec![state.mutate_with_span(variant, id(1), env, span) as u32])
        }
        11 => {
            let Some((place, operands)) = arguments.split_first() else { return bad("no place") };
            let operands = operand_map(operands)?;
            guarded(|| none(state.infer_phi(effect::identifier(*place), &operands)))
        }
        13 => {
            expect(arguments, 0)?;
            guarded(|| none(state.merge_from(second)))
        }
        _ => return bad(format!("operation {number} is unknown")),
    };
    caught.map_err(Fail::Panic)
}

/// An operation without an answer of its own.
fn none(_: ()) -> Vec<u32> {
    Vec::new()
}

/// Kind and reasons of a place.
fn kind_words(value: AbstractValue) -> Vec<u32> {
    vec![value.kind as u32, u32::from(value.reason.0)]
}

/// A variant of mutation by its number.
fn variant(number: u32) -> Result<MutateVariant, Fail> {
    Ok(match number {
        0 => MutateVariant::Mutate,
        1 => MutateVariant::MutateConditionally,
        2 => MutateVariant::MutateTransitive,
        3 => MutateVariant::MutateTransitiveConditionally,
        _ => return bad("a variant above 3"),
    })
}

/// The operands of a phi, each from a block of its own.
fn operand_map(operands: &[u32]) -> Result<OrderedMap<BlockId, Place>, Fail> {
    let mut map = OrderedMap::default();
    for (block, operand) in operands.iter().enumerate() {
        map.insert(BlockId::from_usize(block), effect::place(&[*operand, 0, 0, 0, 0])?);
    }
    Ok(map)
}
