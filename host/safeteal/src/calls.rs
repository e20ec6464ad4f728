//! The calls, a file for each. A call that is a method of a layer, of sums or of a walk needs its first line only.

mod whole;
pub use whole::Counts;

mod distances;
pub use distances::distances;

mod mask;
pub use mask::{mask, Limits};

mod apply;
pub use apply::apply;

mod hold;
pub use hold::hold;

mod peel;
mod unpeel;

mod empty;

mod stats;
pub use stats::stats;

mod assemble;
pub use assemble::assemble;

mod fit;
pub use fit::{fit, Settings, Work};
pub(crate) use fit::{fitted, parts, WorkBuf};

mod walk;

mod render;

mod parcel;
pub use parcel::{parcel_sizes, read_parcel};
