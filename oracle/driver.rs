//! The driver: a child module of the given inference file, so that it sees the
//! file's private items. It reads inputs, sets the Rust up, runs it, and turns
//! what the Rust leaves behind into the answers of docs/VECTORS.md.

mod answer;
mod diagnostic;
mod effect;
mod job;
mod limits;
mod operation;
mod world;

use super::*;

/// Why an input has no proper answer.
pub(crate) enum Fail {
    /// The input breaks the rules of docs/VECTORS.md.
    Bad(String),
    /// The Rust panicked, and not with one of the two known messages.
    Panic(String),
}

/// A shorthand for a broken input.
fn bad<T>(what: impl Into<String>) -> Result<T, Fail> {
    Err(Fail::Bad(what.into()))
}

/// Little-endian words of an input; a length that is no multiple of 4 is bad.
fn words_of(bytes: &[u8]) -> Result<Vec<u32>, Fail> {
    if bytes.len() % 4 != 0 {
        return bad("length is no multiple of 4");
    }
    Ok(bytes.chunks_exact(4).map(|c| u32::from_le_bytes([c[0], c[1], c[2], c[3]])).collect())
}

/// Document 01's listing of a job image.
pub(crate) fn image_listing(bytes: &[u8]) -> Result<String, Fail> {
    let job = job::from_image(&words_of(bytes)?)?;
    Ok(answer::listing(&limits::run(&job)?))
}

/// The answer words of a library job.
pub(crate) fn job_words(bytes: &[u8]) -> Result<Vec<u32>, Fail> {
    let job = job::from_words(&words_of(bytes)?)?;
    Ok(answer::job_words(&limits::run(&job)?))
}

/// The same job as a text for readers, with all that a listing hides.
pub(crate) fn job_text(bytes: &[u8]) -> Result<String, Fail> {
    let job = job::from_words(&words_of(bytes)?)?;
    Ok(answer::job_text(&limits::run(&job)?))
}

/// Nanoseconds of `apply_signature` for the first instruction of a library job.
pub(crate) fn job_time(bytes: &[u8], times: u32) -> Result<f64, Fail> {
    limits::time(&job::from_words(&words_of(bytes)?)?, times)
}

/// The answer words of a state operation.
pub(crate) fn operation_words(bytes: &[u8]) -> Result<Vec<u32>, Fail> {
    operation::run(&words_of(bytes)?)
}

/// Runs the Rust under watch of the coverage, and catches its panics.
fn guarded<T>(call: impl FnOnce() -> T) -> Result<T, String> {
    crate::cover::watch(true);
    let answer = unwatched(call);
    crate::cover::watch(false);
    answer
}

/// Catches panics alone: for calls of the Rust that only help the driver, so
/// that the coverage counts no arm which the input itself doesn't reach.
fn unwatched<T>(call: impl FnOnce() -> T) -> Result<T, String> {
    let answer = std::panic::catch_unwind(std::panic::AssertUnwindSafe(call));
    answer.map_err(|payload| match payload.downcast::<String>() {
        Ok(text) => *text,
        Err(payload) => match payload.downcast::<&'static str>() {
            Ok(text) => text.to_string(),
            Err(_) => "a panic without text".to_string(),
        },
    })
}
