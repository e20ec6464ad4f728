//! The longest argument lists of the C interface, each written out once: the library, the check and the bench lend a
//! layer, sums, frames and motion as groups.
//!
//! Nothing is judged here. A ratio and a plane are any numbers, as they are in C, which is told neither the size of a
//! plane nor that of a motion; and a part of no pairs is an absent one.

use std::mem::size_of_val;

use crate::{
    ffi, Channel, Frames, LayerMut, LayerOf, Motion, Pair, Part, Plane, PlaneMut, Ratio, Settings,
    Size, Slot, Work,
};

pub use crate::layer::LentLayer;
pub use crate::texels::Stored;

impl<'a, T> LentLayer<'a, T> {
    /// The library's layer; none for a ratio that it cannot hold.
    pub fn layer(&self) -> Option<LayerOf<'a, T>> {
        Some(LayerOf {
            luma: self.luma,
            chroma: self.chroma,
            pitch: self.pitch,
            size: self.size,
            ratio: Ratio::of_number(self.ratio)?,
        })
    }

    /// The size of one of its planes.
    pub fn plane(&self, channel: Channel) -> Size {
        self.size.plane_by(channel, self.ratio)
    }

    /// The whole numbers of its three slices.
    pub fn lengths(&self) -> [usize; 3] {
        let two_bytes_each = |slice: &[T]| size_of_val(slice) / 2;
        [self.luma, self.chroma[0], self.chroma[1]].map(two_bytes_each)
    }
}

/// A C function on groups: the arguments of each group are written out here alone.
macro_rules! call {
    ($name:ident($($list:tt)*)) => {
        call!(@ $name [] $($list)*,)
    };
    (@ $name:ident [$($done:expr,)*] $(,)?) => {
        ffi::$name($($done),*)
    };
    (@ $name:ident [$($done:tt)*] $it:ident as size, $($rest:tt)*) => {
        call!(@ $name [$($done)* $it.width, $it.height,] $($rest)*)
    };
    (@ $name:ident [$($done:tt)*] $it:ident as plane, $($rest:tt)*) => {
        call!(@ $name [$($done)* $it.data, $it.pitch,] $($rest)*)
    };
    (@ $name:ident [$($done:tt)*] $it:ident as part, $($rest:tt)*) => {
        call!(@ $name [$($done)* $it.luma, $it.chroma[0], $it.chroma[1], $it.pairs,] $($rest)*)
    };
    (@ $name:ident [$($done:tt)*] $it:ident as layer, $($rest:tt)*) => {
        call!(@ $name [
            $($done)* $it.luma, $it.chroma[0], $it.chroma[1], $it.pitch.0, $it.pitch.1,
            $it.size.width, $it.size.height, $it.ratio,
        ] $($rest)*)
    };
    (@ $name:ident [$($done:tt)*] $it:ident as frames, $($rest:tt)*) => {
        call!(@ $name [
            $($done)* $it.first.data, $it.first.pitch, $it.second.data, $it.second.pitch, $it.time,
        ] $($rest)*)
    };
    (@ $name:ident [$($done:tt)*] $it:ident as motion, $($rest:tt)*) => {
        call!(@ $name [
            $($done)* $it.forward.0, $it.forward.1, $it.backward.0, $it.backward.1, $it.grid.0, $it.grid.1,
            $it.block.0, $it.block.1, $it.origin.0, $it.origin.1, $it.pel,
        ] $($rest)*)
    };
    (@ $name:ident [$($done:tt)*] $it:ident as pair, $($rest:tt)*) => {{
        let motion = $it.motion;
        call!(@ $name [
            $($done)* $it.first[0].data, $it.first[0].pitch, $it.first[1].data, $it.first[1].pitch,
            $it.first[2].data, $it.first[2].pitch, $it.second[0].data, $it.second[0].pitch,
            $it.second[1].data, $it.second[1].pitch, $it.second[2].data, $it.second[2].pitch,
        ] motion as motion, $($rest)*)
    }};
    (@ $name:ident [$($done:tt)*] $it:ident as slots, $($rest:tt)*) => {{
        let [[a, b, c], [d, e, f], [g, h, i]] = $it;
        call!(@ $name [$($done)* a, b, c, d, e, f, g, h, i,] $($rest)*)
    }};
    (@ $name:ident [$($done:tt)*] $it:expr, $($rest:tt)*) => {
        call!(@ $name [$($done)* $it,] $($rest)*)
    };
}

/// The names of a layer's methods in errors.
pub struct Names {
    pub peel: &'static str,
    pub peel_frame: &'static str,
    pub peeled: &'static str,
    pub unpeel: &'static str,
    pub unpeel_frame: &'static str,
    pub to_buf: &'static str,
    pub compare: &'static str,
}

/// The sums of an absent neighbour.
pub const ABSENT: Part<'static> = Part {
    luma: &[],
    chroma: [&[], &[]],
    pairs: 0,
};

/// The trait `Form` of these calls, and its two forms with the C function that each has for a call.
macro_rules! forms {
    ($($(#[$doc:meta])* $call:ident($last:ident: $type:ty as $group:ident) is $bytes:ident or $numbers:ident;)*) => {
        /// What a layer's numbers are lent as: bytes or `i16`. Each has C functions of its own, with the same
        /// arguments.
        pub trait Form: Stored {
            /// What the library's calls on such a layer are named in errors.
            const NAMES: Names;

            $($(#[$doc])*
            fn $call(layer: &LentLayer<'_, Self>, plane: usize, output: &mut PlaneMut<'_>, $last: $type) -> u64;)*
        }

        forms!(u8, "LayerBytes": $($call($last: $type as $group) is $bytes;)*);
        forms!(i16, "Layer": $($call($last: $type as $group) is $numbers;)*);
    };
    ($form:ty, $name:literal: $($call:ident($last:ident: $type:ty as $group:ident) is $function:ident;)*) => {
        impl Form for $form {
            const NAMES: Names = Names {
                peel: concat!($name, "::peel"),
                peel_frame: concat!($name, "::peel_frame"),
                peeled: concat!($name, "::peeled"),
                unpeel: concat!($name, "::unpeel"),
                unpeel_frame: concat!($name, "::unpeel_frame"),
                to_buf: concat!($name, "::to_buf"),
                compare: concat!($name, "::compare"),
            };

            $(fn $call(layer: &LentLayer<'_, Self>, plane: usize, output: &mut PlaneMut<'_>, $last: $type) -> u64 {
                call!($function(layer as layer, plane, output as plane, $last as $group))
            })*
        }
    };
}

forms! {
    /// Lifts the layer off one plane.
    peel(raw: Plane<'_> as plane) is peel or peel_numbers;
    /// Lays the layer back onto one plane.
    unpeel(frames: Frames<'_> as frames) is unpeel or unpeel_numbers;
}

impl LentLayer<'_, i16> {
    /// Makes one plane of an in-between frame near and under the layer.
    pub fn render(
        &self,
        plane: usize,
        output: &mut PlaneMut<'_>,
        frames: Frames<'_>,
        motion: &Motion<'_>,
        algo: i32,
    ) -> u64 {
        call!(render(
            self as layer,
            plane,
            output as plane,
            frames as frames,
            motion as motion,
            algo
        ))
    }

    /// Whether no cell of the layer is 0; the yes takes the count's place.
    pub fn empty(&self) -> u64 {
        call!(empty(self as layer))
    }

    /// Writes the layer as a parcel.
    pub fn parcel(&self, parcel: &mut [u8]) -> u64 {
        call!(parcel_write(self as layer, parcel))
    }
}

/// Adds one pair of frames to the sums.
pub fn stats(
    luma: &mut [f32],
    [chroma1, chroma2]: [&mut [f32]; 2],
    pairs: usize,
    size: Size,
    ratio: usize,
    pair: &Pair<'_>,
) -> u64 {
    call!(stats(
        luma,
        chroma1,
        chroma2,
        pairs,
        size as size,
        ratio,
        pair as pair
    ))
}

/// Fits a layer to a part and its neighbours.
pub fn fit(
    [previous, own, next]: [Part<'_>; 3],
    size: Size,
    settings: Settings,
    ratio: usize,
    work: &mut Work<'_>,
    layer: &mut LayerMut<'_>,
) -> u64 {
    let Settings {
        limit,
        evidence,
        strict,
    } = settings;
    let [chroma1, chroma2] = &mut layer.chroma;
    call!(fit(
        previous as part,
        own as part,
        next as part,
        size as size,
        limit,
        evidence,
        strict,
        ratio,
        work.models,
        work.kept,
        work.cover,
        layer.luma,
        chroma1,
        chroma2,
    ))
}

/// Adds the pair of that number to its chunk's part.
pub fn walk_pair(
    walk: ffi::Walk,
    slots: &mut [Slot<'_>; 3],
    number: usize,
    pair: &Pair<'_>,
) -> ffi::Walked {
    let slots = slots.each_mut().map(Slot::slices_mut);
    call!(walk_pair(walk, slots as slots, number, pair as pair))
}

/// Fits the layer that is due.
pub fn walk_layer(
    walk: ffi::Walk,
    slots: &[Slot<'_>; 3],
    settings: Settings,
    work: &mut Work<'_>,
    layer: &mut LayerMut<'_>,
) -> ffi::Walked {
    let Settings {
        limit,
        evidence,
        strict,
    } = settings;
    let slots = slots.each_ref().map(Slot::slices);
    let [chroma1, chroma2] = &mut layer.chroma;
    call!(walk_layer(
        walk,
        slots as slots,
        limit,
        evidence,
        strict,
        work.models,
        work.kept,
        work.cover,
        layer.luma,
        chroma1,
        chroma2,
    ))
}
