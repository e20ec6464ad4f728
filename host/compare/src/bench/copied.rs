//! What stands beside a call that the Rust does not have: a plain copy of as many bytes.

use std::hint::black_box;

pub struct Copied {
    from: Vec<u8>,
    to: Vec<u8>,
}

impl Copied {
    pub fn new(from: &[u8]) -> Self {
        Self {
            from: from.to_vec(),
            to: vec![0; from.len()],
        }
    }

    pub fn turn(&mut self) {
        black_box(&mut self.to).copy_from_slice(black_box(&self.from));
    }
}
