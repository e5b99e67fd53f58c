//! Which arms an input reaches. Only the build of coverage.sh has calls of
//! `hit`; in the plain oracle all of this does nothing.

use std::cell::{Cell, RefCell};

thread_local! {
    static WATCHING: Cell<bool> = const { Cell::new(false) };
    static REACHED: RefCell<Vec<bool>> = const { RefCell::new(Vec::new()) };
    static INPUTS: RefCell<Vec<u32>> = const { RefCell::new(Vec::new()) };
}

/// Watches only while the tested functions run, not while the driver sets up.
pub fn watch(on: bool) {
    WATCHING.with(|watching| watching.set(on));
}

/// Arm `arm` is reached in the present input.
#[allow(dead_code)]
pub fn hit(arm: usize) {
    if WATCHING.with(Cell::get) {
        REACHED.with(|reached| {
            let mut reached = reached.borrow_mut();
            if reached.len() <= arm {
                reached.resize(arm + 1, false);
            }
            reached[arm] = true;
        });
    }
}

/// Ends an input: adds its arms to the number of inputs that reach each arm.
pub fn end_input() {
    watch(false);
    REACHED.with(|reached| {
        INPUTS.with(|inputs| {
            let (mut reached, mut inputs) = (reached.borrow_mut(), inputs.borrow_mut());
            if inputs.len() < reached.len() {
                inputs.resize(reached.len(), 0);
            }
            for (arm, hit) in reached.iter_mut().enumerate() {
                inputs[arm] += u32::from(std::mem::take(hit));
            }
        });
    });
}

/// Writes "arm inputs" lines to the file that ORACLE_COVER names, if it names one.
pub fn write_out() {
    let Ok(path) = std::env::var("ORACLE_COVER") else { return };
    let lines = INPUTS.with(|inputs| {
        inputs.borrow().iter().enumerate().map(|(arm, n)| format!("{arm} {n}\n")).collect::<String>()
    });
    std::fs::write(path, lines).expect("cannot write the coverage file");
}
