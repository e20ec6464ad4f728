//! A stand-in for the Rust's thread bands: one worker, and what is spawned runs at once, in order.

pub struct Scope;

impl Scope {
    pub fn spawn(&self, body: impl FnOnce(&Scope)) {
        body(self);
    }
}

pub fn workers() -> usize {
    1
}

pub fn scope<R>(body: impl FnOnce(&Scope) -> R) -> R {
    body(&Scope)
}
