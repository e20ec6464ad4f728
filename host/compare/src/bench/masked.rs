//! What apply and hold are measured on: a plane that both sides write over in turn.

use std::hint::black_box;
use std::mem::swap;

use super::Sides;

/// What both sides are lent, with our output in it; and the Rust's output, which takes its place for the Rust's turn.
pub struct Masked<T> {
    pub lent: T,
    pub rust: Vec<u8>,
    pub output: fn(&mut T) -> &mut Vec<u8>,
    pub ours: fn(&mut T) -> u64,
    pub theirs: fn(&mut T),
}

impl<T> Masked<T> {
    fn change(&mut self) {
        swap((self.output)(&mut self.lent), &mut self.rust);
    }
}

impl<T> Sides for Masked<T> {
    fn pixels(&self) -> usize {
        self.rust.len()
    }

    fn ours(&mut self) {
        black_box((self.ours)(black_box(&mut self.lent)));
    }

    fn theirs(&mut self) {
        self.change();
        (self.theirs)(black_box(&mut self.lent));
        self.change();
    }

    fn same(&mut self) -> bool {
        *(self.output)(&mut self.lent) == self.rust
    }
}
