//! Diagnostics as records, both ways. Their texts are not written down here:
//! the forms are learnt once from small runs of the Rust itself.

use super::super::*;
use super::effect::{identifier, span_words};
use super::job::{ABSENT, Job};
use super::world::{self, World};
use super::{Fail, bad};
use crate::react_compiler_hir::AliasingDiagnostic;
use std::sync::OnceLock;

/// A text without a name and the same text with the name `n1`.
type Form = [String; 2];

/// All texts of the two message cases.
pub struct Forms {
    messages: [String; 2],
    sentences: Vec<String>,
    early_help: Form,
    label: Form,
    access_label: Form,
    own_label: Form,
}

/// The order of the sentences: one reason that leads to each, as document 01
/// numbers them (the order in the text of `get_write_error_reason`).
const SENTENCE_REASONS: [ValueReason; 11] = [
    ValueReason::Global,
    ValueReason::JsxCaptured,
    ValueReason::Context,
    ValueReason::KnownReturnSignature,
    ValueReason::ReactiveFunctionArgument,
    ValueReason::State,
    ValueReason::ReducerState,
    ValueReason::Effect,
    ValueReason::HookCaptured,
    ValueReason::HookReturn,
    ValueReason::Other,
];

/// The forms, learnt on first use.
pub fn forms() -> &'static Forms {
    static FORMS: OnceLock<Forms> = OnceLock::new();
    FORMS.get_or_init(learn)
}

/// Mutates four frozen identifiers: named or not, hoisted or not.
fn learn() -> Forms {
    let plain = [probe(0, false), probe(1, false)];
    let hoisted = [probe(0, true), probe(1, true)];
    let label = |at: usize| [0, 1].map(|n| hoisted[n].labels[at].label().unwrap().to_string());
    Forms {
        messages: [plain[0].message.to_string(), hoisted[0].message.to_string()],
        sentences: SENTENCE_REASONS.iter().map(|reason| sentence(*reason)).collect(),
        early_help: [0, 1].map(|n| hoisted[n].help.as_deref().unwrap().to_string()),
        label: [0, 1].map(|n| plain[n].labels[0].label().unwrap().to_string()),
        access_label: label(0),
        own_label: label(1),
    }
}

/// The sentence that one reason leads to.
fn sentence(reason: ValueReason) -> String {
    let value = AbstractValue { kind: ValueKind::Frozen, reason: ReasonSet::single(reason) };
    get_write_error_reason(&value)
}

/// The diagnostic of a Mutate of one frozen identifier.
fn probe(name: u32, hoisted: bool) -> OxcDiagnostic {
    let access = if hoisted { [2, name, 1, 2] } else { [0, name, 0, 0] };
    let mut world = world::build(&Job {
        options: 0,
        flag: 0,
        next: 2,
        access: [0; 3],
        walk: 0,
        identifiers: vec![access],
        values: vec![[1, 1, 1 << 11]],
        pairs: vec![[0, 1]],
        places: vec![[0, 0, 0, 3, 4]],
        functions: Vec::new(),
        diagnostics: Vec::new(),
        interned: Vec::new(),
        cached: Vec::new(),
        links: Vec::new(),
        instructions: Vec::new(),
    })
    .unwrap_or_else(|_| panic!("oracle: the probe is bad"));
    let mutate = AliasingEffect::Mutate { value: world.places[0], reason: None };
    let mut effects = Vec::new();
    let World { context, state, env, .. } = &mut world;
    apply_effect(context, state, mutate, &mut FxHashSet::default(), &mut effects, env).unwrap();
    match effects.first() {
        Some(AliasingEffect::MutateFrozen { error, .. }) => world.env.aliasing_diagnostic(*error),
        _ => panic!("oracle: the probe found no diagnostic"),
    }
}

/// A form with a name number put in.
fn fill(form: &Form, name: u32) -> String {
    if name == 0 { form[0].clone() } else { form[1].replace("`n1`", &format!("`n{name}`")) }
}

/// The name number that a text holds, if the text has this form.
fn read_name(form: &Form, text: &str) -> Option<u32> {
    if text == form[0] {
        return Some(0);
    }
    let (before, after) = form[1].split_once("`n1`")?;
    text.strip_prefix(before)?.strip_prefix("`n")?.strip_suffix(after)?.strip_suffix('`')?.parse().ok()
}

/// The diagnostic that the Rust would build for a record of the job's table.
fn from_record(record: &[u32; 8]) -> Result<OxcDiagnostic, Fail> {
    let [_, case, sentence, name, access_start, access_end, own_start, own_end] = *record;
    let forms = forms();
    let (access, own) =
        (super::effect::span(access_start, access_end), super::effect::span(own_start, own_end));
    match case {
        0 if access.is_none() && sentence < 11 => {
            Ok(OxcDiagnostic::error(forms.messages[0].clone())
                .with_help(forms.sentences[sentence as usize].clone())
                .with_labels(own.map(|span| span.label(fill(&forms.label, name)))))
        }
        1 if sentence == 0 => {
            let labels = access
                .map(|span| span.label(fill(&forms.access_label, name)))
                .into_iter()
                .chain(own.map(|span| span.label(fill(&forms.own_label, name))));
            Ok(OxcDiagnostic::error(forms.messages[1].clone())
                .with_help(fill(&forms.early_help, name))
                .with_labels(labels))
        }
        _ => bad("a diagnostic that the Rust never builds"),
    }
}

/// One line of the table: the Rust's two numbers, and what the Rust's own
/// diagnostic does not say: its identifier, and its name where no label has it.
pub struct Entry {
    pub error: AliasingDiagnostic,
    pub identifier: u32,
    pub name: u32,
}

/// Interns the job's table; the Rust must number it in the job's order.
pub fn intern_table(env: &Environment, records: &[[u32; 8]]) -> Result<Vec<Entry>, Fail> {
    let mut table = Vec::new();
    for record in records {
        let error = env.intern_aliasing_diagnostic(identifier(record[0]), from_record(record)?);
        if error.instance().index() != table.len() {
            return bad(format!("diagnostic {} repeats an earlier one", table.len()));
        }
        table.push(Entry { error, identifier: record[0], name: record[3] });
    }
    Ok(table)
}

/// The words of one table line, read back from the Rust's own diagnostic.
pub fn words(env: &Environment, entry: &Entry) -> [u32; 9] {
    let forms = forms();
    let diagnostic = env.aliasing_diagnostic(entry.error);
    let case = forms.messages.iter().position(|m| *m == diagnostic.message).expect("oracle: message");
    let help = diagnostic.help.as_deref().expect("oracle: help");
    let (sentence, mut name) = match case {
        0 => (forms.sentences.iter().position(|s| s == help).expect("oracle: sentence"), entry.name),
        _ => (0, read_name(&forms.early_help, help).expect("oracle: early help")),
    };
    let (mut access, mut own) = ([ABSENT; 2], [ABSENT; 2]);
    for label in &diagnostic.labels {
        let text = label.label().expect("oracle: label");
        let span = [label.offset(), label.offset().wrapping_add(label.len())];
        let (slot, form) = match (case, read_name(&forms.access_label, text)) {
            (0, _) => (&mut own, &forms.label),
            (_, Some(_)) => (&mut access, &forms.access_label),
            (_, None) => (&mut own, &forms.own_label),
        };
        assert!(*slot == [ABSENT; 2], "oracle: two labels of one role");
        *slot = span;
        name = read_name(form, text).expect("oracle: label form");
    }
    let identity = entry.error.identity().index() as u32;
    let identifier = entry.identifier;
    [identity, identifier, case as u32, sentence as u32, name, access[0], access[1], own[0], own[1]]
}

/// The words of a first undefined access: 1 + identifier and span, or zeros.
pub fn access_words(access: Option<(IdentifierId, Option<Span>)>) -> [u32; 3] {
    let Some((identifier, span)) = access else { return [0; 3] };
    let [start, end] = span_words(span);
    [1 + identifier.index() as u32, start, end]
}
