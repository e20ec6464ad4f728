#![doc = include_str!("../README.md")]
#![deny(unsafe_code)]
#![warn(missing_docs)]

#[macro_use]
mod numbered;
#[macro_use]
mod numbers;

mod answer;
mod brief;
mod bytes;
mod calls;
mod cells;
mod census;
mod difference;
mod error;
mod layer;
mod motion;
mod plane;
mod records;
mod refusal;
mod sums;
mod texels;
mod walk;
mod words;

pub use calls::*;
pub use cells::Cells;
pub use census::{Census, Passed};
pub use difference::{Difference, Dot, Fate, Fates};
pub use error::{Error, Result};
pub use layer::{Layer, LayerBuf, LayerBytes, LayerMut, LayerOf};
pub use motion::{Frames, Motion, MotionBuf, Pair};
pub use plane::{Channel, Frame, Mask, Plane, PlaneBuf, PlaneMut, Ratio, Size};
pub use refusal::Refusal;
pub use sums::{Part, Parts, Sums};
pub use texels::{Texel, Texels};
pub use walk::{Progress, Slot, Walk};

#[doc(hidden)]
#[allow(missing_docs)]
pub mod ffi;

#[doc(hidden)]
#[allow(missing_docs)]
pub mod groups;
