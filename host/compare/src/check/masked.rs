//! What apply and hold have in common: planes under a mask, and the same arguments on both sides.

use super::expected::{plane_bytes, times, wrong_pitch, wrong_size, wrong_time, Length};

/// The numbers that lengths and refusals depend on.
pub struct Masked<const PLANES: usize> {
    /// Of each byte plane, in order.
    pub pitches: [usize; PLANES],
    /// Width and length.
    pub mask: (usize, usize),
    pub size: (usize, usize),
    /// 0 where the call has none.
    pub time: f32,
}

impl<const PLANES: usize> Masked<PLANES> {
    /// The mask width of the next whole step below.
    pub fn whole_width(&self) -> usize {
        let step = (self.mask.0 / self.size.0.max(1)).clamp(1, 8);
        step.saturating_mul(self.size.0)
    }

    /// What each slice must have: the planes, then the mask, whose wrong length is row 2's matter and never row 4's.
    pub fn lengths(&self) -> Vec<Length> {
        let (width, height) = self.size;
        let planes = self.pitches.map(|pitch| plane_bytes(pitch, width, height));
        let mask = Length::Usually(times(self.whole_width() as u128, height));
        planes.into_iter().chain([mask]).collect()
    }

    /// Row 2: "a mask width or mask length with no whole step of 1..8".
    fn wrong_step(&self) -> bool {
        let step = |whole: usize, of: u128| (1..=8).any(|step| whole as u128 == step * of);
        let ((across, length), (width, height)) = (self.mask, self.size);
        !step(across, width as u128) || !step(length, across as u128 * height as u128)
    }

    /// The first fitting row; `misfits` is row 4.
    pub fn refusal(&self, misfits: impl FnOnce() -> bool) -> u64 {
        let (width, height) = self.size;
        if wrong_size(width, height) {
            1
        } else if self.wrong_step() {
            2
        } else if self.pitches.iter().any(|&pitch| wrong_pitch(pitch, width)) {
            3
        } else if misfits() {
            4
        } else if wrong_time(self.time) {
            6
        } else {
            0
        }
    }
}

/// The methods of `Case` that follow from `masked` and `put_to`.
macro_rules! masked {
    ($call:ident, $mask_width:ident) => {
        type Answer = u64;

        fn tidy(&mut self) {
            self.$mask_width = self.masked().whole_width();
        }

        fn lengths(&self) -> Vec<$crate::check::expected::Length> {
            self.masked().lengths()
        }

        fn ours(&mut self) -> u64 {
            self.put_to(safeteal::ffi::$call)
        }

        fn refusal(&self) -> u64 {
            self.masked().refusal(|| self.misfits())
        }

        fn theirs(&mut self) -> u64 {
            self.put_to($crate::oracle::still::$call);
            0
        }
    };
}
