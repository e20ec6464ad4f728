//! The differential run: every call against the Rust, or against a second implementation of what the Rust does not
//! have, on inputs made at random, at boundaries and with damage.
//!
//! A call's own file says what the call is lent, how a good input is made, which refusal the table gives, and what the
//! other side leaves behind. All else (damage, comparing, shrinking, showing, storing) is one piece of code for all
//! calls.

#[macro_use]
pub mod lent;
#[macro_use]
pub mod masked;

pub mod answer;
pub mod case;
pub mod casts;
pub mod damage;
pub mod expected;
pub mod inputs;
pub mod layer;
pub mod motion;
pub mod parcels;
pub mod planes;
pub mod rng;
pub mod run;
pub mod show;
pub mod shrink;
pub mod stored;
pub mod table;
pub mod totals;
pub mod walk;
pub mod walks;

pub mod apply;
pub mod assemble;
pub mod distances;
pub mod empty;
pub mod fit;
pub mod hold;
pub mod mask;
pub mod parcel_read;
pub mod parcel_sizes;
pub mod parcel_write;
pub mod peel;
pub mod render;
pub mod stats;
pub mod unpeel;
pub mod walk_due;
pub mod walk_layer;
pub mod walk_pair;
pub mod walk_start;

pub use case::Case;
pub use run::Call;
pub use stored::Stored;

/// Every call that is compared, and whole walks. The stored list, which holds the Rust's answers, names a call by its
/// number here, which therefore never changes.
pub const CALLS: &[Call] = &[
    Call::stored::<distances::Distances>(0),
    Call::stored::<mask::Mask>(1),
    Call::stored::<apply::Apply>(2),
    Call::stored::<hold::Hold>(3),
    Call::stored::<peel::Peel<u8>>(4),
    Call::stored::<unpeel::Unpeel<u8>>(5),
    Call::stored::<peel::Peel<i16>>(6),
    Call::stored::<unpeel::Unpeel<i16>>(7),
    Call::stored::<empty::Empty>(8),
    Call::stored::<stats::Stats>(9),
    Call::stored::<assemble::Assemble>(10),
    Call::stored::<fit::Fit>(11),
    Call::stored::<render::Render>(12),
    Call::of::<parcel_write::ParcelWrite>(),
    Call::of::<parcel_read::ParcelRead>(),
    Call::of::<parcel_sizes::ParcelSizes>(),
    Call::of::<walk_start::WalkStart>(),
    Call::of::<walk_pair::WalkPair>(),
    Call::of::<walk_layer::WalkLayer>(),
    Call::of::<walk_due::WalkDue>(),
    Call::walks(),
];

/// The stored list, call by call: some cases of every refusal and of every way of a chroma total out of the range, then
/// as many other accepted ones as fit into the call's share of 300 KB.
pub fn answers() -> Vec<(&'static Call, Stored)> {
    const SEED: u64 = 20;
    const BYTES: usize = 300_000;
    let calls: Vec<&Call> = CALLS.iter().filter(|call| call.is_stored()).collect();
    let share = BYTES / calls.len();
    let of_call = |call: &'static Call| (call, call.record(SEED, share));
    calls.into_iter().map(of_call).collect()
}
