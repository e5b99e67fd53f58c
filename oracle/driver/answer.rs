//! Answers: the words of docs/VECTORS.md, document 01's listing, and a text.

use super::super::*;
use super::diagnostic;
use super::effect::{self, Parts};
use super::job::ABSENT;
use super::limits::{AMBIGUOUS, Outcome, Run};
use super::world::World;
use std::fmt::Write;

/// All answer words of a job: each instruction, then what is left behind.
pub fn job_words(run: &Run) -> Vec<u32> {
    let mut words: Vec<u32> = run.outcomes.iter().flat_map(outcome_words).collect();
    words.extend(end_words(&run.world));
    words
}

/// One instruction: result, number of effects, walk entries, the effects.
fn outcome_words(outcome: &Outcome) -> Vec<u32> {
    match outcome {
        Outcome::Refused(number) => vec![*number, 0, 0],
        Outcome::Done { effects, walk } => {
            let mut words = vec![0, effects.len() as u32, *walk];
            words.extend(effects.iter().flat_map(effect::words));
            words
        }
    }
}

/// What a job leaves behind: session, state, context, in that order.
pub fn end_words(world: &World) -> Vec<u32> {
    let access = diagnostic::access_words(world.state.uninitialized_access.get());
    let mut words = vec![u32::from(world.state.is_function_expression), world.next];
    words.extend(access);
    words.push(world.walk);
    words.extend(table_words(&world.state));
    counted(&mut words, contexts(world));
    counted(&mut words, links(world).into_iter().map(Vec::from));
    counted(&mut words, cached(world));
    counted(&mut words, interned(world).into_iter().map(effect::words));
    counted(&mut words, diagnostics(world).into_iter().map(Vec::from));
    words
}

/// A count and then each record.
fn counted(words: &mut Vec<u32>, records: impl IntoIterator<Item = Vec<u32>>) {
    let records: Vec<Vec<u32>> = records.into_iter().collect();
    words.push(records.len() as u32);
    words.extend(records.into_iter().flatten());
}

/// Values and defined identifiers of a state, both ascending.
pub fn table_words(state: &InferenceState) -> Vec<u32> {
    let mut words = Vec::new();
    counted(&mut words, values(state).into_iter().map(Vec::from));
    counted(&mut words, variables(state).into_iter().map(|(id, set)| {
        let mut record = vec![id, set.len() as u32];
        record.extend(set);
        record
    }));
    words
}

/// Number, kind and reasons of each value entry, ascending.
fn values(state: &InferenceState) -> Vec<[u32; 3]> {
    let entry = |(value, entry): (&ValueId, &AbstractValue)| {
        [effect::value_number(*value), entry.kind as u32, u32::from(entry.reason.0)]
    };
    let mut list: Vec<[u32; 3]> = state.values.iter().map(entry).collect();
    list.sort_unstable();
    list
}

/// Each defined identifier with its values, ascending.
fn variables(state: &InferenceState) -> Vec<(u32, Vec<u32>)> {
    let mut list: Vec<(u32, Vec<u32>)> = state
        .variables
        .iter()
        .map(|(id, set)| {
            let mut values: Vec<u32> = set.iter().map(|value| effect::value_number(*value)).collect();
            values.sort_unstable();
            (id.index() as u32, values)
        })
        .collect();
    list.sort_unstable();
    list
}

/// For each function: count of context places and each one's Effect.
fn contexts(world: &World) -> Vec<Vec<u32>> {
    let record = |function: &HirFunction| {
        let mut record = vec![function.context.len() as u32];
        record.extend(function.context.iter().map(|place| place.effect as u32));
        record
    };
    world.env.functions.iter().map(record).collect()
}

/// Each link, ascending by number.
fn links(world: &World) -> Vec<[u32; 2]> {
    let links = &world.context.function_values;
    let mut list: Vec<[u32; 2]> =
        links.iter().map(|(value, f)| [effect::value_number(*value), f.index() as u32]).collect();
    list.sort_unstable();
    list
}

/// Each cached number with its key, ascending by number.
fn cached(world: &World) -> Vec<Vec<u32>> {
    let record = |(key, value): (&EffectKey, &ValueId)| {
        let key = effect::key_parts(key);
        let mut record = vec![effect::value_number(*value), key.code, key.from, key.into];
        record.extend([key.kind, key.reason, key.function, key.captures.len() as u32]);
        record.extend(key.captures);
        record
    };
    let mut list: Vec<Vec<u32>> = world.context.effect_value_id_cache.iter().map(record).collect();
    list.sort_unstable();
    list
}

/// The interned effects, ascending by key.
fn interned(world: &World) -> Vec<&AliasingEffect<'static>> {
    let mut list: Vec<_> = world
        .context
        .interned_effects
        .iter()
        .map(|(key, effect)| (effect::key_parts(key).order(), effect))
        .collect();
    list.sort_by(|one, other| one.0.cmp(&other.0));
    list.into_iter().map(|(_, effect)| effect).collect()
}

/// The diagnostics table, by instance.
fn diagnostics(world: &World) -> Vec<[u32; 9]> {
    world.table.iter().map(|entry| diagnostic::words(&world.env, entry)).collect()
}

/// A number, or `-` for none.
fn shown(number: Option<u32>) -> String {
    number.map_or("-".to_string(), |number| number.to_string())
}

/// The six fields of an E line, separated by spaces.
fn effect_fields(parts: &Parts) -> String {
    let place = |place: &Option<Place>| shown(place.as_ref().map(|p| p.identifier.index() as u32));
    let last = parts.function.or(parts.error.map(|error| error.instance().index() as u32));
    [
        parts.code.to_string(),
        place(&parts.first),
        place(&parts.second),
        shown(parts.kind),
        shown(parts.reason.or(parts.mutation)),
        shown(last),
    ]
    .join(" ")
}

/// What a refusal prints.
fn refusal(number: u32) -> String {
    if number == AMBIGUOUS { "AMBIGUOUS\n".to_string() } else { format!("REFUSED {number}\n") }
}

/// Document 01's listing of an image's only instruction.
pub fn listing(run: &Run) -> String {
    match &run.outcomes[0] {
        Outcome::Refused(number) => refusal(*number),
        Outcome::Done { effects, walk } => {
            let mut text = format!("OK {} {walk}\n", effects.len());
            for effect in effects {
                let _ = writeln!(text, "E {}", effect_fields(&effect::parts(effect)));
            }
            text + &state_lines(&run.world.state)
        }
    }
}

/// The V, P and U lines.
fn state_lines(state: &InferenceState) -> String {
    let mut text = String::new();
    for [number, kind, reasons] in values(state) {
        let _ = writeln!(text, "V {number} {kind} {reasons}");
    }
    for (id, set) in variables(state) {
        let set: Vec<String> = set.iter().map(u32::to_string).collect();
        let set = if set.is_empty() { "-".to_string() } else { set.join(" ") };
        let _ = writeln!(text, "P {id} {set}");
    }
    let access = state.uninitialized_access.get();
    let _ = writeln!(text, "U {}", shown(access.map(|(id, _)| id.index() as u32)));
    text
}

/// A span in a text.
fn span_text(span: [u32; 2]) -> String {
    if span == [ABSENT; 2] { "-".to_string() } else { format!("{}..{}", span[0], span[1]) }
}

/// A place in a text: identifier, Effect, reactive, span.
fn place_text(place: &Place) -> String {
    let [id, effect, reactive, start, end] = effect::place_words(Some(place));
    format!("({id} e{effect} r{reactive} {})", span_text([start, end]))
}

/// An effect in a text: the E fields, then its places whole.
fn effect_text(effect: &AliasingEffect<'_>) -> String {
    let parts = effect::parts(effect);
    let mut text = effect_fields(&parts);
    for (role, place) in [("from", &parts.first), ("into", &parts.second)] {
        if let Some(place) = place {
            let _ = write!(text, "  {role} {}", place_text(place));
        }
    }
    if parts.code == 13 {
        let captures: Vec<String> = parts.captures.iter().map(place_text).collect();
        let _ = write!(text, "  captures [{}]", captures.join(" "));
    }
    if let Some(error) = parts.error {
        let _ = write!(text, "  identity {}", error.identity().index());
    }
    text
}

/// A job for readers: each instruction, then all that is left behind.
pub fn job_text(run: &Run) -> String {
    let mut text = String::new();
    for (index, outcome) in run.outcomes.iter().enumerate() {
        match outcome {
            Outcome::Refused(number) => {
                let _ = write!(text, "instruction {index}: {}", refusal(*number));
            }
            Outcome::Done { effects, walk } => {
                let _ = writeln!(text, "instruction {index}: OK {} {walk}", effects.len());
                for effect in effects {
                    let _ = writeln!(text, "  E {}", effect_text(effect));
                }
            }
        }
    }
    text + &end_text(&run.world)
}

/// State, session and context for readers.
fn end_text(world: &World) -> String {
    let mut text = state_lines(&world.state);
    if let Some((_, span)) = world.state.uninitialized_access.get() {
        let _ = writeln!(text, "access span {}", span_text(effect::span_words(span)));
    }
    let flag = u32::from(world.state.is_function_expression);
    let _ = writeln!(text, "flag {flag}, next {}, walk {}", world.next, world.walk);
    for (index, record) in contexts(world).iter().enumerate() {
        let _ = writeln!(text, "function {index}: context effects {:?}", &record[1..]);
    }
    for [value, function] in links(world) {
        let _ = writeln!(text, "link {value} -> {function}");
    }
    for record in cached(world) {
        let _ = writeln!(
            text,
            "cached {}: key {} from {} into {} kind {} reason {} function {} captures {:?}",
            record[0], record[1], record[2], record[3], record[4], record[5], record[6], &record[8..]
        );
    }
    for effect in interned(world) {
        let _ = writeln!(text, "interned {}", effect_text(effect));
    }
    for (index, d) in diagnostics(world).iter().enumerate() {
        let _ = writeln!(
            text,
            "diagnostic {index}: identity {} identifier {} case {} sentence {} name {} access {} own {}",
            d[0], d[1], d[2], d[3], d[4], span_text([d[5], d[6]]), span_text([d[7], d[8]])
        );
    }
    text
}
