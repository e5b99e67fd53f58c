//! The counter of the freeze walk: one call stands at the entry of
//! `freeze_function_captures_transitive`, repeats and leaves included.

use std::cell::Cell;

/// What the counter panics with when a walk passes its limit.
pub const PASSED: &str = "oracle: the walk made one entry too many";

thread_local! {
    static COUNT: Cell<u32> = const { Cell::new(0) };
    static LIMIT: Cell<u32> = const { Cell::new(u32::MAX) };
}

/// Counts from zero again and panics above `limit`, so endless walks are cut off.
pub fn start(limit: u32) {
    COUNT.with(|count| count.set(0));
    LIMIT.with(|most| most.set(limit));
}

/// The entries since `start`.
pub fn count() -> u32 {
    COUNT.with(Cell::get)
}

/// One entry of the walk. (The build without the counter never calls this.)
#[allow(dead_code)]
pub fn enter() {
    let entries = count() + 1;
    COUNT.with(|count| count.set(entries));
    if entries > LIMIT.with(Cell::get) {
        panic!("{PASSED}");
    }
}
