//! The library's calls over whole frames, with the dots that were written.

use safeteal::{Counts, Error, Frame, Layer, LayerBuf, MotionBuf};

/// The middle between two frames.
const HALFWAY: f32 = 0.5;

/// A frame, and how many of its dots were written.
pub struct Written {
    pub frame: Frame,
    pub dots: usize,
}

impl Written {
    fn new(frame: Frame, counts: Counts) -> Self {
        let dots = counts.total() as usize;
        Self { frame, dots }
    }
}

/// The frame without its lettering.
pub fn lift(layer: &LayerBuf, frame: &Frame) -> Result<Written, Error> {
    let (frame, counts) = layer.peeled(frame)?;
    Ok(Written::new(frame, counts))
}

/// A frame halfway, made without lettering, with the lettering of its two neighbours laid back.
pub fn lay_back(
    layer: &LayerBuf,
    without: &Frame,
    [first, second]: &[Frame; 2],
) -> Result<Written, Error> {
    let mut frame = without.clone();
    let counts = layer.unpeel(&mut frame, first, second, HALFWAY)?;
    Ok(Written::new(frame, counts))
}

/// A frame halfway, made with lettering and all, made again under the lettering and near it.
pub fn render(
    layer: &LayerBuf,
    plain: &Frame,
    [first, second]: &[Frame; 2],
    motion: &MotionBuf,
) -> Result<Written, Error> {
    let (mut frame, motion) = (plain.clone(), motion.motion());
    let counts = layer.render(&mut frame, first, second, &motion, HALFWAY, Layer::MEDIAN)?;
    Ok(Written::new(frame, counts))
}
