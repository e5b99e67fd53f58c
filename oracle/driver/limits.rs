//! Runs the instructions of a job. The Rust has no limits 8 to 11, so each
//! instruction is first tried step by step in a world of its own; only if the
//! trial meets no limit does `apply_signature` run in the real world.

use super::super::*;
use super::answer;
use super::effect;
use super::job::{Instr, Job};
use super::world::{self, World};
use super::{Fail, bad, guarded, unwatched};

const MOST_KEYS: usize = 2048;
const MOST_NEXT: u32 = 512;
const MOST_INSTANCES: usize = 256;
const MOST_ENTRIES: u32 = 4096;

/// The result number where two limits fall in one step and no order is known.
pub const AMBIGUOUS: u32 = 0xFFFF_FFFE;

/// What one instruction came to.
pub enum Outcome {
    Done { effects: Vec<AliasingEffect<'static>>, walk: u32 },
    Refused(u32),
}

/// A whole job after its run.
pub struct Run {
    pub outcomes: Vec<Outcome>,
    pub world: World,
}

/// An instruction made ready for the Rust.
struct Prepared {
    instruction: Instruction<'static>,
    bare: Instruction<'static>,
    candidates: Vec<AliasingEffect<'static>>,
}

/// Runs all instructions; a refused one leaves the real world as it was.
pub fn run(job: &Job) -> Result<Run, Fail> {
    super::diagnostic::forms();
    let (mut real, mut trial) = (world::build(job)?, world::build(job)?);
    let (mut outcomes, mut done) = (Vec::new(), Vec::new());
    for instr in &job.instructions {
        let prepared = prepare(&real, instr)?;
        match try_steps(&mut trial, &prepared) {
            Ok((tried, walk)) => {
                let effects = apply(&mut real, &prepared)?;
                compare(&real, &effects, &trial, &tried, walk);
                outcomes.push(Outcome::Done { effects, walk });
                done.push(prepared);
            }
            Err(Stop::Refused(number)) => {
                outcomes.push(Outcome::Refused(number));
                trial = replay(job, &done)?;
                assert_same(&real, &trial);
            }
            Err(Stop::Panic(message)) => return Err(Fail::Panic(message)),
        }
    }
    Ok(Run { outcomes, world: real })
}

/// Nanoseconds that `apply_signature` takes for the job's first instruction, run
/// again and again in one world: the mean of `times` calls after a first one.
pub fn time(job: &Job, times: u32) -> Result<f64, Fail> {
    super::diagnostic::forms();
    let mut world = world::build(job)?;
    let Some(instr) = job.instructions.first() else {
        return bad("no instruction");
    };
    let prepared = prepare(&world, instr)?;
    apply(&mut world, &prepared)?;
    let World { context, state, env, .. } = &mut world;
    let start = std::time::Instant::now();
    for _ in 0..times {
        let effects = apply_signature(context, state, 0, &prepared.instruction, env);
        std::hint::black_box(&effects);
    }
    Ok(start.elapsed().as_nanos() as f64 / f64::from(times))
}

/// Builds the Rust's instruction and effects from a job's record.
fn prepare(world: &World, instr: &Instr) -> Result<Prepared, Fail> {
    let Some(lvalue) = world.places.get(instr.lvalue as usize).copied() else {
        return bad("the lvalue is no place");
    };
    let errors = world.errors();
    let candidates = instr
        .candidates
        .iter()
        .map(|record| effect::from_record(record, &world.places, &errors, world::alloc()))
        .collect::<Result<Vec<_>, _>>()?;
    let (instruction, bare) = (world::instruction(lvalue, instr.own), world::instruction(lvalue, 0));
    Ok(Prepared { instruction, bare, candidates })
}

/// A fresh world in which the instructions that were not refused ran again.
fn replay(job: &Job, done: &[Prepared]) -> Result<World, Fail> {
    let mut world = world::build(job)?;
    for prepared in done {
        apply(&mut world, prepared)?;
    }
    Ok(world)
}

/// Puts a candidate list under index 0, where `apply_signature` looks it up.
fn sign(context: &mut Context<'static>, candidates: &[AliasingEffect<'static>]) {
    let effects = candidates.iter().map(|effect| effect.clone_in(world::alloc())).collect();
    context.instruction_signature_cache.insert(0, Rc::new(InstructionSignature { effects }));
}

/// The real run: `apply_signature`, once, over the whole candidate list.
fn apply(world: &mut World, prepared: &Prepared) -> Result<Vec<AliasingEffect<'static>>, Fail> {
    NEXT_VALUE_ID.store(world.next, Ordering::Relaxed);
    crate::walk::start(u32::MAX);
    sign(&mut world.context, &prepared.candidates);
    let World { context, state, env, .. } = world;
    let answer = guarded(|| apply_signature(context, state, 0, &prepared.instruction, env));
    let effects = answer.map_err(Fail::Panic)?.expect("oracle: an error without Apply");
    let effects = effects.unwrap_or_default();
    world.next = NEXT_VALUE_ID.load(Ordering::Relaxed);
    world.walk = crate::walk::count();
    world.learn_table(&effects);
    Ok(effects)
}

/// Why a trial ended early.
enum Stop {
    Refused(u32),
    Panic(String),
}

/// The trial: early test, each candidate by itself, then the lvalue step.
fn try_steps(
    world: &mut World,
    prepared: &Prepared,
) -> Result<(Vec<AliasingEffect<'static>>, u32), Stop> {
    NEXT_VALUE_ID.store(world.next, Ordering::Relaxed);
    let mut effects = early_test(world, prepared)?;
    let mut initialized = FxHashSet::default();
    let mut walk = 0;
    for candidate in &prepared.candidates {
        walk += step(world, candidate, &mut initialized, &mut effects)?;
    }
    world.next = NEXT_VALUE_ID.load(Ordering::Relaxed);
    world.walk = walk;
    lvalue_step(world, prepared)?;
    Ok((effects, walk))
}

/// The early MutateFrozen: the instruction with no candidates, on a copy of the
/// state, so that the lvalue step of this call touches nothing.
fn early_test(
    world: &mut World,
    prepared: &Prepared,
) -> Result<Vec<AliasingEffect<'static>>, Stop> {
    sign(&mut world.context, &[]);
    let mut copy = world.state.clone();
    let World { context, env, .. } = world;
    let answer = unwatched(|| apply_signature(context, &mut copy, 0, &prepared.instruction, env));
    let effects = answer.map_err(Stop::Panic)?.expect("oracle: an error without Apply");
    let effects = effects.unwrap_or_default();
    world.learn_table(&effects);
    if world.table.len() > MOST_INSTANCES { Err(Stop::Refused(10)) } else { Ok(effects) }
}

/// The lvalue step alone: no own function, no candidates.
fn lvalue_step(world: &mut World, prepared: &Prepared) -> Result<(), Stop> {
    sign(&mut world.context, &[]);
    let World { context, state, env, .. } = world;
    let answer = unwatched(|| apply_signature(context, state, 0, &prepared.bare, env));
    let effects = answer.map_err(Stop::Panic)?.expect("oracle: an error without Apply");
    assert!(effects.is_none(), "oracle: the lvalue step listed an effect");
    Ok(())
}

/// One candidate. Its own key is tested first, because interning comes before
/// the asserts 6 and 7; a candidate holds at most one acting Freeze.
fn step(
    world: &mut World,
    candidate: &AliasingEffect<'static>,
    initialized: &mut FxHashSet<IdentifierId>,
    effects: &mut Vec<AliasingEffect<'static>>,
) -> Result<u32, Stop> {
    let interned = &world.context.interned_effects;
    if interned.len() >= MOST_KEYS && !interned.contains_key(&effect_key(candidate)) {
        return Err(Stop::Refused(8));
    }
    crate::walk::start(MOST_ENTRIES);
    let World { context, state, env, .. } = world;
    let effect = candidate.clone_in(world::alloc());
    let answer = guarded(|| apply_effect(context, state, effect, initialized, effects, env));
    match answer {
        Ok(result) => result.expect("oracle: an error without Apply"),
        Err(message) => return Err(known_panic(message)),
    }
    world.learn_table(effects);
    match limits_hit(world)[..] {
        [] => Ok(crate::walk::count()),
        ref hit => Err(Stop::Refused(first_met(effect::parts(candidate).code, hit))),
    }
}

/// The three panics with a number: the two asserts and the counter's.
fn known_panic(message: String) -> Stop {
    if message.contains("Cannot re-initialize variable within an instruction") {
        Stop::Refused(6)
    } else if message.contains("Expected destination to already be initialized") {
        Stop::Refused(7)
    } else if message == crate::walk::PASSED {
        Stop::Refused(11)
    } else {
        Stop::Panic(message)
    }
}

/// The limits that the world is beyond after a candidate.
fn limits_hit(world: &World) -> Vec<u32> {
    let mut hit = Vec::new();
    if world.context.interned_effects.len() > MOST_KEYS {
        hit.push(8);
    }
    if NEXT_VALUE_ID.load(Ordering::Relaxed) > MOST_NEXT {
        hit.push(9);
    }
    if world.table.len() > MOST_INSTANCES {
        hit.push(10);
    }
    hit
}

/// Which of several limits the Rust's steps meet first. The candidate's own key
/// is out of the question here, so an 8 comes from a derived effect: after the
/// diagnostic of a mutation, before the number of an Assign from Frozen, after
/// the number of CreateFrom and CreateFunction.
fn first_met(code: u32, hit: &[u32]) -> u32 {
    let order: &[u32] = match (code, hit) {
        (_, [_]) => hit,
        (1 | 3, [8, 10]) => &[10],
        (8, [8, 9]) => &[8],
        (10 | 13, [8, 9]) => &[9],
        _ => &[AMBIGUOUS],
    };
    order[0]
}

/// The trial and the real run must agree in everything they leave behind.
fn compare(
    real: &World,
    effects: &[AliasingEffect<'static>],
    trial: &World,
    tried: &[AliasingEffect<'static>],
    walk: u32,
) {
    let words = |list: &[AliasingEffect<'static>]| list.iter().flat_map(effect::words).collect::<Vec<_>>();
    assert!(words(effects) == words(tried), "oracle: the trial listed other effects");
    assert!(real.walk == walk, "oracle: the trial counted other entries");
    assert_same(real, trial);
}

/// Two worlds print the same.
fn assert_same(one: &World, other: &World) {
    assert!(answer::end_words(one) == answer::end_words(other), "oracle: the trial ended otherwise");
}
