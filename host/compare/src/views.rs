//! The Rust's own types for what is lent to both sides.

use crate::oracle::layer as rust;
use safeteal::groups::LentLayer;
use safeteal::{Frames, Motion, Pair, Plane};

impl<'a> From<Plane<'a>> for rust::Plane<'a> {
    fn from(Plane { data, pitch, .. }: Plane<'a>) -> Self {
        Self { data, pitch }
    }
}

impl<'a> From<Frames<'a>> for rust::Frames<'a> {
    /// The Rust takes all planes, and reads the one.
    fn from(frames: Frames<'a>) -> Self {
        Self {
            first: [frames.first.into(); 3],
            second: [frames.second.into(); 3],
            time: frames.time,
        }
    }
}

impl<'a> From<Motion<'a>> for rust::Motion<'a> {
    fn from(motion: Motion<'a>) -> Self {
        Self {
            forward: motion.forward,
            backward: motion.backward,
            grid: motion.grid,
            block: motion.block,
            origin: motion.origin,
            pel: motion.pel,
        }
    }
}

impl<'a> From<Pair<'a>> for rust::Pair<'a> {
    fn from(pair: Pair<'a>) -> Self {
        Self {
            first: pair.first.map(Into::into),
            second: pair.second.map(Into::into),
            motion: pair.motion.into(),
        }
    }
}

impl<'a> From<LentLayer<'a, i16>> for rust::Layer<'a> {
    fn from(layer: LentLayer<'a, i16>) -> Self {
        Self {
            luma: layer.luma,
            chroma: layer.chroma,
            pitch: layer.pitch,
            size: (layer.size.width, layer.size.height),
            ratio: layer.ratio,
        }
    }
}
