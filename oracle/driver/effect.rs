//! Effects, places and keys as numbers, both ways. The numbers are document
//! 01's: each enum counts from 0 in its declared order.

use super::super::*;
use super::job::ABSENT;
use super::{Fail, bad};
use crate::react_compiler_hir::AliasingDiagnostic;

const KINDS: [ValueKind; 6] = [
    ValueKind::Mutable,
    ValueKind::Frozen,
    ValueKind::Primitive,
    ValueKind::MaybeFrozen,
    ValueKind::Global,
    ValueKind::Context,
];

const EFFECTS: [Effect; 8] = [
    Effect::Unknown,
    Effect::Freeze,
    Effect::Read,
    Effect::Capture,
    Effect::ConditionallyMutateIterator,
    Effect::ConditionallyMutate,
    Effect::Mutate,
    Effect::Store,
];

/// An item by its number; a number outside the table is bad.
fn pick<T: Copy>(table: &[T], number: u32, what: &str) -> Result<T, Fail> {
    match table.get(number as usize) {
        Some(item) => Ok(*item),
        None => bad(format!("{what} {number} is out of range")),
    }
}

/// A kind by its number.
pub fn kind(number: u32) -> Result<ValueKind, Fail> {
    pick(&KINDS, number, "kind")
}

/// A reason by its number.
pub fn reason(number: u32) -> Result<ValueReason, Fail> {
    pick(&ReasonSet::ALL, number, "reason")
}

/// An identifier by its number.
pub fn identifier(number: u32) -> IdentifierId {
    IdentifierId::from_usize(number as usize)
}

/// A value by document 01's number: 512 + i is the Rust's high-bit number.
pub fn value(number: u32) -> ValueId {
    if number < 512 { ValueId(number) } else { ValueId::from_identifier(identifier(number - 512)) }
}

/// Document 01's number of a value.
pub fn value_number(value: ValueId) -> u32 {
    if value.0 < 0x8000_0000 { value.0 } else { 512 + (value.0 - 0x8000_0000) }
}

/// A span from its two words; FFFFFFFF twice is none.
pub fn span(start: u32, end: u32) -> Option<Span> {
    if start == ABSENT && end == ABSENT { None } else { Some(Span::new(start, end)) }
}

/// The two words of a span.
pub fn span_words(span: Option<Span>) -> [u32; 2] {
    span.map_or([ABSENT, ABSENT], |span| [span.start, span.end])
}

/// A place from its five words.
pub fn place(words: &[u32; 5]) -> Result<Place, Fail> {
    Ok(Place {
        identifier: identifier(words[0]),
        effect: pick(&EFFECTS, words[1], "effect")?,
        reactive: words[2] != 0,
        span: span(words[3], words[4]),
    })
}

/// The five words of a place; no place is five zeros.
pub fn place_words(place: Option<&Place>) -> [u32; 5] {
    let Some(place) = place else { return [0; 5] };
    let [start, end] = span_words(place.span);
    [place.identifier.index() as u32, place.effect as u32, u32::from(place.reactive), start, end]
}

/// A run of places.
pub fn run(places: &[Place], first: u32, count: u32) -> Result<&[Place], Fail> {
    if count == 0 {
        return Ok(&[]);
    }
    let end = first as usize + count as usize;
    places.get(first as usize..end).map_or_else(|| bad("a run passes the places"), Ok)
}

/// The effect of a candidate record, by document 01's codes.
pub fn from_record(
    record: &[u32; 8],
    places: &[Place],
    table: &[AliasingDiagnostic],
    alloc: &'static Allocator,
) -> Result<AliasingEffect<'static>, Fail> {
    let [code, first, second, third, fourth, function, from_capture, captures] = *record;
    let one = || pick(places, first, "place");
    let two = || pick(places, second, "place");
    let error = || pick(table, third, "diagnostic");
    Ok(match code {
        0 => AliasingEffect::Freeze { value: one()?, reason: reason(fourth)? },
        1 => AliasingEffect::Mutate { value: one()?, reason: mutation_reason(third)? },
        2 => AliasingEffect::MutateConditionally { value: one()? },
        3 => AliasingEffect::MutateTransitive { value: one()? },
        4 => AliasingEffect::MutateTransitiveConditionally { value: one()? },
        5 => AliasingEffect::Capture { from: one()?, into: two()? },
        6 => AliasingEffect::Alias { from: one()?, into: two()? },
        7 => AliasingEffect::MaybeAlias { from: one()?, into: two()? },
        8 => AliasingEffect::Assign { from: one()?, into: two()? },
        9 => AliasingEffect::Create { into: two()?, value: kind(third)?, reason: reason(fourth)? },
        10 => AliasingEffect::CreateFrom { from: one()?, into: two()? },
        11 => AliasingEffect::ImmutableCapture { from: one()?, into: two()? },
        13 => AliasingEffect::CreateFunction {
            captures: ArenaVec::from_iter_in(
                run(places, from_capture, captures)?.iter().copied(),
                &alloc,
            ),
            function_id: FunctionId::from_usize(function as usize),
            into: two()?,
        },
        14 => AliasingEffect::MutateFrozen { place: one()?, error: error()? },
        15 => AliasingEffect::MutateGlobal { place: one()?, error: error()? },
        16 => AliasingEffect::Impure { place: one()?, error: error()? },
        17 => AliasingEffect::Render { place: one()? },
        _ => return bad(format!("code {code} is no candidate's")),
    })
}

/// A mutation reason: 0 none, 1 the only one.
fn mutation_reason(number: u32) -> Result<Option<MutationReason>, Fail> {
    pick(&[None, Some(MutationReason::AssignCurrentProperty)], number, "mutation reason")
}

/// An effect taken apart, so that every answer prints from one form.
#[derive(Default)]
pub struct Parts {
    pub code: u32,
    pub first: Option<Place>,
    pub second: Option<Place>,
    pub kind: Option<u32>,
    pub reason: Option<u32>,
    pub mutation: Option<u32>,
    pub function: Option<u32>,
    pub error: Option<AliasingDiagnostic>,
    pub captures: Vec<Place>,
}

/// Parts of an effect on one place that is no destination.
fn on(code: u32, place: &Place) -> Parts {
    Parts { code, first: Some(*place), ..Parts::default() }
}

/// Parts of an effect from one place into another.
fn between(code: u32, from: &Place, into: &Place) -> Parts {
    Parts { code, first: Some(*from), second: Some(*into), ..Parts::default() }
}

/// Takes an effect apart. Apply never comes up: no input holds one.
pub fn parts(effect: &AliasingEffect<'_>) -> Parts {
    match effect {
        AliasingEffect::Freeze { value, reason } => {
            Parts { reason: Some(*reason as u32), ..on(0, value) }
        }
        AliasingEffect::Mutate { value, reason } => {
            Parts { mutation: reason.map(|r| 1 + r as u32), ..on(1, value) }
        }
        AliasingEffect::MutateConditionally { value } => on(2, value),
        AliasingEffect::MutateTransitive { value } => on(3, value),
        AliasingEffect::MutateTransitiveConditionally { value } => on(4, value),
        AliasingEffect::Capture { from, into } => between(5, from, into),
        AliasingEffect::Alias { from, into } => between(6, from, into),
        AliasingEffect::MaybeAlias { from, into } => between(7, from, into),
        AliasingEffect::Assign { from, into } => between(8, from, into),
        AliasingEffect::Create { into, value, reason } => Parts {
            code: 9,
            second: Some(*into),
            kind: Some(*value as u32),
            reason: Some(*reason as u32),
            ..Parts::default()
        },
        AliasingEffect::CreateFrom { from, into } => between(10, from, into),
        AliasingEffect::ImmutableCapture { from, into } => between(11, from, into),
        AliasingEffect::Apply { .. } => panic!("oracle: an Apply came up"),
        AliasingEffect::CreateFunction { captures, function_id, into } => Parts {
            code: 13,
            second: Some(*into),
            function: Some(function_id.index() as u32),
            captures: captures.iter().copied().collect(),
            ..Parts::default()
        },
        AliasingEffect::MutateFrozen { place, error } => Parts { error: Some(*error), ..on(14, place) },
        AliasingEffect::MutateGlobal { place, error } => Parts { error: Some(*error), ..on(15, place) },
        AliasingEffect::Impure { place, error } => Parts { error: Some(*error), ..on(16, place) },
        AliasingEffect::Render { place } => on(17, place),
    }
}

/// The answer words of an effect.
pub fn words(effect: &AliasingEffect<'_>) -> Vec<u32> {
    let parts = parts(effect);
    let mut words = vec![parts.code];
    words.extend(place_words(parts.first.as_ref()));
    words.extend(place_words(parts.second.as_ref()));
    let numbers = [parts.kind, parts.reason, parts.mutation, parts.function];
    words.extend(numbers.map(|number| number.unwrap_or(0)));
    words.push(parts.error.map_or(0, |error| error.identity().index() as u32));
    words.push(parts.error.map_or(0, |error| error.instance().index() as u32));
    words.push(parts.captures.len() as u32);
    words.extend(parts.captures.iter().flat_map(|capture| place_words(Some(capture))));
    words
}

/// A key of the Rust as numbers: code, two identifiers, kind, reason, function,
/// identity, captures. What a key lacks is 0, the same for all keys of a code.
#[derive(Default)]
pub struct KeyParts {
    pub code: u32,
    pub from: u32,
    pub into: u32,
    pub kind: u32,
    pub reason: u32,
    pub function: u32,
    pub identity: u32,
    pub captures: Vec<u32>,
}

impl KeyParts {
    /// The words by which keys are put in order.
    pub fn order(&self) -> Vec<u32> {
        let mut words = vec![
            self.code, self.from, self.into, self.kind, self.reason, self.function, self.identity,
        ];
        words.extend(&self.captures);
        words
    }
}

/// A key over two identifiers; a key over one uses the first alone.
fn pair(code: u32, from: &IdentifierId, into: Option<&IdentifierId>) -> KeyParts {
    let into = into.map_or(0, |into| into.index() as u32);
    KeyParts { code, from: from.index() as u32, into, ..KeyParts::default() }
}

/// Takes a key apart; 18 and 19 are the two keys that only numbers are cached under.
pub fn key_parts(key: &EffectKey) -> KeyParts {
    match key {
        EffectKey::Apply { .. } => panic!("oracle: an Apply key came up"),
        EffectKey::Freeze { value, reason } => {
            KeyParts { reason: *reason as u32, ..pair(0, value, None) }
        }
        EffectKey::Mutate { value } => pair(1, value, None),
        EffectKey::MutateConditionally { value } => pair(2, value, None),
        EffectKey::MutateTransitive { value } => pair(3, value, None),
        EffectKey::MutateTransitiveConditionally { value } => pair(4, value, None),
        EffectKey::Capture { from, into } => pair(5, from, Some(into)),
        EffectKey::Alias { from, into } => pair(6, from, Some(into)),
        EffectKey::MaybeAlias { from, into } => pair(7, from, Some(into)),
        EffectKey::Assign { from, into } => pair(8, from, Some(into)),
        EffectKey::Create { into, value, reason } => KeyParts {
            code: 9,
            into: into.index() as u32,
            kind: *value as u32,
            reason: *reason as u32,
            ..KeyParts::default()
        },
        EffectKey::CreateFrom { from, into } => pair(10, from, Some(into)),
        EffectKey::ImmutableCapture { from, into } => pair(11, from, Some(into)),
        EffectKey::CreateFunction { into, function_id, captures } => KeyParts {
            code: 13,
            into: into.index() as u32,
            function: function_id.index() as u32,
            captures: captures.iter().map(|id| id.index() as u32).collect(),
            ..KeyParts::default()
        },
        EffectKey::MutateFrozen { place, diag } => {
            KeyParts { identity: diag.index() as u32, ..pair(14, place, None) }
        }
        EffectKey::MutateGlobal { place, diag } => {
            KeyParts { identity: diag.index() as u32, ..pair(15, place, None) }
        }
        EffectKey::Impure { place } => pair(16, place, None),
        EffectKey::Render { place } => pair(17, place, None),
        EffectKey::AssignFrozen { from, into } => pair(18, from, Some(into)),
        EffectKey::AssignCopy { from, into } => pair(19, from, Some(into)),
    }
}

/// The key of a cached number's record.
pub fn cached_key(record: &[u32; 9], places: &[Place]) -> Result<EffectKey, Fail> {
    let [code, from, into, kind_number, reason_number, function, first, count, _] = *record;
    let (from, into) = (identifier(from), identifier(into));
    Ok(match code {
        9 => EffectKey::Create { into, value: kind(kind_number)?, reason: reason(reason_number)? },
        10 => EffectKey::CreateFrom { from, into },
        13 => EffectKey::CreateFunction {
            into,
            function_id: FunctionId::from_usize(function as usize),
            captures: run(places, first, count)?.iter().map(|place| place.identifier).collect(),
        },
        18 => EffectKey::AssignFrozen { from, into },
        19 => EffectKey::AssignCopy { from, into },
        _ => return bad(format!("key code {code} is never cached")),
    })
}
