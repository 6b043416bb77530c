//! What the lines added by the patch count. In the plain build nothing calls them.
use std::cell::Cell;

#[derive(Clone, Copy, Default)]
pub struct Counts {
    pub openings: u64,
    pub solver: u64,
    pub trials: u64,
    pub converged: bool,
}

thread_local!(static NOW: Cell<Counts> = Cell::default());

fn change(f: impl Fn(&mut Counts)) {
    NOW.with(|now| {
        let mut counts = now.get();
        f(&mut counts);
        now.set(counts);
    });
}

pub fn opening() {
    change(|c| c.openings += 1);
}
pub fn solver_round() {
    change(|c| c.solver += 1);
}
pub fn trial() {
    change(|c| c.trials += 1);
}
pub fn converged() {
    change(|c| c.converged = true);
}

/// The counts since the last call.
pub fn take() -> Counts {
    NOW.with(|now| now.take())
}
