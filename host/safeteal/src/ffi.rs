//! The C interface of the proved library, on one page: each function of safeteal.h once, with its slices.
//!
//! No other module of this package has unsafe code. An answer of `u64` is `count * 256 + number`, but for the single
//! floats at the end; an answer of more numbers is a struct, and its `word` is such a number. A walk goes in and out as
//! a struct as well.
#![allow(unsafe_code, clippy::too_many_arguments)]

/// For each function of the list its declaration, where a slice is a pointer and a length in elements, and the safe
/// function over it. A name in brackets stands for a group of arguments.
macro_rules! proved {
    ($($(#[$doc:meta])* fn $name:ident($($list:tt)*) -> $answer:ident;)*) => {
        $(proved! {@ [function [$(#[$doc])*] $name $answer] [] $($list)*,})*

        /// What is declared, for the test that holds it against the proved source: parameters, then the answer.
        pub const DECLARED: &[(&str, &[&str])] = &[$(proved! {@ [row $name $answer] [] $($list)*,}),*];
    };

    // The groups.
    (@ $made:tt [$($done:tt)*] [layer of $of:ident], $($rest:tt)*) => {
        proved! {@ $made [
            $($done)* luma: &[$of], chroma1: &[$of], chroma2: &[$of], luma_pitch: usize, chroma_pitch: usize,
            width: usize, height: usize, ratio: usize,
        ] $($rest)*}
    };
    (@ $made:tt [$($done:tt)*] [output], $($rest:tt)*) => {
        proved! {@ $made [$($done)* plane: usize, output: &mut [u8], output_pitch: usize,] $($rest)*}
    };
    (@ $made:tt [$($done:tt)*] [frames], $($rest:tt)*) => {
        proved! {@ $made [
            $($done)* first: &[u8], first_pitch: usize, second: &[u8], second_pitch: usize, time: f32,
        ] $($rest)*}
    };
    (@ $made:tt [$($done:tt)*] [planes], $($rest:tt)*) => {
        proved! {@ $made [
            $($done)*
            first0: &[u8], first0_pitch: usize, first1: &[u8], first1_pitch: usize, first2: &[u8], first2_pitch: usize,
            second0: &[u8], second0_pitch: usize, second1: &[u8], second1_pitch: usize,
            second2: &[u8], second2_pitch: usize,
        ] $($rest)*}
    };
    (@ $made:tt [$($done:tt)*] [slots $($lent:tt)*], $($rest:tt)*) => {
        proved! {@ $made [
            $($done)* luma0: $($lent)*, chroma01: $($lent)*, chroma02: $($lent)*,
            luma1: $($lent)*, chroma11: $($lent)*, chroma12: $($lent)*,
            luma2: $($lent)*, chroma21: $($lent)*, chroma22: $($lent)*,
        ] $($rest)*}
    };
    (@ $made:tt [$($done:tt)*] [motion], $($rest:tt)*) => {
        proved! {@ $made [
            $($done)* forward_x: &[u16], forward_y: &[u16], backward_x: &[u16], backward_y: &[u16],
            grid_width: usize, grid_height: usize, block_width: i32, block_height: i32,
            origin_x: i32, origin_y: i32, pel: i32,
        ] $($rest)*}
    };

    // One argument; a comma left over; then the list is whole.
    (
        @ $made:tt [$($done:tt)*]
        $arg:ident: $(&[$read:ident])? $(&mut [$written:ident])? $($number:ident)?, $($rest:tt)*
    ) => {
        proved! {@ $made [$($done)* $arg: $(&[$read])? $(&mut [$written])? $($number)?,] $($rest)*}
    };
    (@ $made:tt $done:tt ,) => {
        proved! {@ $made $done}
    };
    (
        @ [function [$($doc:tt)*] $name:ident $answer:ident]
        [$($arg:ident: $(&[$read:ident])? $(&mut [$written:ident])? $($number:ident)?,)*]
    ) => {
        $($doc)*
        pub fn $name($($arg: $(&[$read])? $(&mut [$written])? $($number)?),*) -> $answer {
            extern "C" {
                #[link_name = concat!("safeteal_", stringify!($name))]
                fn call(
                    $($(_: *const $read, _: usize,)? $(_: *mut $written, _: usize,)? $(_: $number,)?)*
                ) -> $answer;
            }
            // SAFETY: each pointer and the length after it are those of one slice, borrowed until the call returns; the
            // borrows keep written slices apart from all others, and the proved function has no other requirement. An
            // empty slice's pointer is dangling, but aligned and not null.
            unsafe {
                call($(
                    $(<[$read]>::as_ptr($arg), $arg.len(),)?
                    $(<[$written]>::as_mut_ptr($arg), $arg.len(),)?
                    $($arg as $number,)?
                )*)
            }
        }
    };
    (
        @ [row $name:ident $answer:ident]
        [$($arg:ident: $(&[$read:ident])? $(&mut [$written:ident])? $($number:ident)?,)*]
    ) => {
        (concat!("safeteal_", stringify!($name)), &[
            $(
                $(concat!("*const ", stringify!($read $arg)), concat!("usize ", stringify!($arg), "_len"),)?
                $(concat!("*mut ", stringify!($written $arg)), concat!("usize ", stringify!($arg), "_len"),)?
                $(stringify!($number $arg),)?
            )*
            stringify!($answer),
        ])
    };
}

/// For each struct of the list its declaration; its fields are numbers, or a struct before it.
macro_rules! structs {
    ($($(#[$doc:meta])* struct $name:ident { $($(#[$note:meta])* $field:ident: $number:ident,)* })*) => {
        $(
            $(#[$doc])*
            #[repr(C)]
            #[derive(Debug, Clone, Copy, PartialEq, Eq)]
            pub struct $name {
                $($(#[$note])* pub $field: $number,)*
            }
        )*

        /// What is declared of structs, for the same test: the fields in order.
        pub const STRUCTS: &[(&str, &[&str])] = &[$((stringify!($name), &[$(stringify!($number $field)),*])),*];
    };
}

structs! {
    /// What a parcel's head says, all 0 when the parcel is refused.
    struct Sizes {
        /// `count * 256 + number`; the count is 0.
        word: u64,
        /// In luma pixels.
        width: usize,
        /// In luma pixels.
        height: usize,
        /// Luma pixels a chroma pixel, in either direction.
        ratio: usize,
    }

    /// How far a walk over a clip has come.
    struct Walk {
        /// In luma pixels.
        width: usize,
        /// In luma pixels.
        height: usize,
        /// Luma pixels a chroma pixel, in either direction.
        ratio: usize,
        /// The clip's pairs.
        pairs: usize,
        /// The pairs that were handed over.
        added: usize,
        /// The layers that were taken.
        taken: usize,
    }

    /// A walk as a call leaves it: a refused start leaves all 0, any other refused call the walk that it was given.
    struct Walked {
        /// `count * 256 + number`; the count is 0.
        word: u64,
        /// The walk to go on with.
        walk: Walk,
    }
}

proved! {
    /// Adds one pair of frames to the sums.
    fn stats(
        luma: &mut [f32], chroma1: &mut [f32], chroma2: &mut [f32], pairs: usize,
        width: usize, height: usize, ratio: usize, [planes], [motion],
    ) -> u64;

    /// Fits a layer to three parts of sums.
    fn fit(
        previous: &[f32], previous1: &[f32], previous2: &[f32], before: usize,
        own: &[f32], own1: &[f32], own2: &[f32], pairs: usize,
        next: &[f32], next1: &[f32], next2: &[f32], after: usize,
        width: usize, height: usize, limit: f32, evidence: f32, strict: bool, ratio: usize,
        models: &mut [f32], kept: &mut [u8], cover: &mut [u8],
        luma: &mut [i16], chroma1: &mut [i16], chroma2: &mut [i16],
    ) -> u64;

    /// Stores models and a cover as a layer.
    fn assemble(
        width: usize, height: usize, ratio: usize, models: &[f32], cover: &[u8],
        luma: &mut [i16], chroma1: &mut [i16], chroma2: &mut [i16],
    ) -> u64;

    /// Starts a walk over a clip of that many pairs.
    fn walk_start(width: usize, height: usize, ratio: usize, pairs: usize) -> Walked;

    /// Adds the pair of that number to its chunk's part.
    fn walk_pair(walk: Walk, [slots &mut [f32]], number: usize, [planes], [motion]) -> Walked;

    /// Fits the layer that is due.
    fn walk_layer(
        walk: Walk, [slots &[f32]], limit: f32, evidence: f32, strict: bool,
        models: &mut [f32], kept: &mut [u8], cover: &mut [u8],
        luma: &mut [i16], chroma1: &mut [i16], chroma2: &mut [i16],
    ) -> Walked;

    /// Whether a layer is due; the yes takes the count's place.
    fn walk_due(walk: Walk) -> u64;

    /// Lifts the layer off one plane; the layer is lent as little-endian bytes.
    fn peel([layer of u8], [output], raw: &[u8], raw_pitch: usize) -> u64;

    /// Lays the layer back onto one plane; the layer is lent as little-endian bytes.
    fn unpeel([layer of u8], [output], [frames]) -> u64;

    /// Lifts the layer off one plane.
    fn peel_numbers([layer of i16], [output], raw: &[u8], raw_pitch: usize) -> u64;

    /// Lays the layer back onto one plane.
    fn unpeel_numbers([layer of i16], [output], [frames]) -> u64;

    /// Makes one plane of an in-between frame near and under the layer.
    fn render([layer of i16], [output], [frames], [motion], algo: i32) -> u64;

    /// Whether no cell of the layer is 0; the yes takes the count's place.
    fn empty([layer of i16]) -> u64;

    /// Makes distances of the complete rows of `cells`.
    fn distances(cells: &mut [u8], width: usize) -> u64;

    /// Writes a layer as a parcel.
    fn parcel_write([layer of i16], parcel: &mut [u8]) -> u64;

    /// Reads a parcel into a layer of the sizes of its head.
    fn parcel_read(parcel: &[u8], luma: &mut [i16], chroma1: &mut [i16], chroma2: &mut [i16]) -> Sizes;

    /// The sizes of a parcel that a reader with slices to match accepts.
    fn parcel_sizes(parcel: &[u8]) -> Sizes;

    /// Marks what stands still between two planes.
    fn mask(
        first: &[u8], second: &[u8], pitch: usize, width: usize, height: usize,
        limit: f32, edge: f32, tolerance: f32, still: &mut [u8],
    ) -> u64;

    /// Mixes two planes by time where enough of the mask stands still.
    fn apply(
        output: &mut [u8], output_pitch: usize, first: &[u8], second: &[u8], pitch: usize,
        width: usize, height: usize, still: &[u8], still_width: usize, time: f32,
    ) -> u64;

    /// Weighs held bytes into the output by the mask.
    fn hold(
        output: &mut [u8], output_pitch: usize, held: &[u8], held_pitch: usize,
        width: usize, height: usize, mask: &[u8], mask_width: usize,
    ) -> u64;

    /// The final rounding of a pixel.
    fn pixel(value: f32) -> u64;

    /// The number stored for `value * scale`.
    fn stored(value: f32, scale: f32) -> i16;
}
