//! The made-up clip: a camera that goes over the town by known steps, and lettering that stands still on every frame.

use crate::lettering::Lettering;
use crate::town::{chance, colour};
use safeteal::{Channel, Error, Frame, MotionBuf, Ratio, Size};

pub const RATIO: Ratio = Ratio::Two;

pub struct Clip {
    pub size: Size,
    pub lettering: Lettering,
    /// Where the camera's left upper corner is at each frame.
    path: Vec<(i32, i32)>,
    canvas: Canvas,
}

impl Clip {
    pub fn new(size: Size, frames: usize) -> Self {
        let path = path(size, frames);
        Self {
            size,
            lettering: Lettering::new(size, RATIO),
            canvas: Canvas::around(&path, size),
            path,
        }
    }

    pub fn frames(&self) -> usize {
        self.path.len()
    }

    /// A frame without its lettering, or halfway to the next one: what only a made-up clip can know.
    pub fn scene(&self, frame: usize, halfway: bool) -> Result<Frame, Error> {
        let (right, down) = if halfway { self.step(frame) } else { (0, 0) };
        let (x, y) = self.path[frame];
        self.canvas.view((x + right / 2, y + down / 2), self.size)
    }

    /// A frame as the customer sends it: grain, then the lettering.
    pub fn frame(&self, frame: usize) -> Result<Frame, Error> {
        let mut made = self.scene(frame, false)?;
        grain(&mut made, frame);
        self.lettering.print(&mut made);
        Ok(made)
    }

    /// The motion from a frame to the next one.
    pub fn motion(&self, frame: usize) -> Result<MotionBuf, Error> {
        MotionBuf::pan(self.size, self.step(frame))
    }

    /// How far the camera goes right and down from a frame to the next one.
    pub fn step(&self, frame: usize) -> (i32, i32) {
        let (from, to) = (self.path[frame], self.path[frame + 1]);
        (to.0 - from.0, to.1 - from.1)
    }
}

/// A hand-held camera that goes to the right and sways up and down, by more than a line of lettering is high: so a dot
/// of lettering is mostly compared with scene. All places are even: so each step has a middle.
fn path(size: Size, frames: usize) -> Vec<(i32, i32)> {
    let even = |length: f32| 2 * (length * size.height as f32 / 720.0).round() as i32;
    let mut right = 0;
    let place = |frame: usize| {
        let number = frame as i32;
        right += even(9.0 + 14.0 * chance(number, 20));
        let sway = if frame % 2 == 0 { 0.0 } else { 34.0 };
        (right, even(sway + 12.0 * chance(number, 21)))
    };
    (0..frames).map(place).collect()
}

/// A little noise that is another one on each frame, as a camera makes.
fn grain(frame: &mut Frame, number: usize) {
    let luma = frame.bytes_mut(Channel::Luma);
    for (at, byte) in luma.iter_mut().enumerate() {
        let noise = (chance(at as i32, 100 + number as i32) * 5.0) as u8;
        *byte = byte.saturating_add(noise).saturating_sub(2);
    }
}

/// The part of the town that the camera comes past, once, with all three planes at full size.
struct Canvas {
    corner: (i32, i32),
    width: usize,
    pixels: Vec<[u8; 3]>,
}

impl Canvas {
    fn around(path: &[(i32, i32)], size: Size) -> Self {
        let span = |places: &dyn Fn(&(i32, i32)) -> i32, side: usize| {
            let (least, most) = (path.iter().map(places).min(), path.iter().map(places).max());
            let (least, most) = (least.unwrap_or(0), most.unwrap_or(0));
            (least, (most - least) as usize + side)
        };
        let (left, width) = span(&|place| place.0, size.width);
        let (top, height) = span(&|place| place.1, size.height);
        let scale = 360.0 / size.height as f32;
        let pixel = |at: usize| {
            let place = |shift: f32| {
                let x = (at % width) as f32 + left as f32 + shift;
                let y = (at / width) as f32 + top as f32 + shift;
                colour(x * scale, y * scale)
            };
            let (a, b) = (place(0.25), place(0.75));
            planes(std::array::from_fn(|part| (a[part] + b[part]) / 2.0))
        };
        Self {
            corner: (left, top),
            width,
            pixels: (0..width * height).map(pixel).collect(),
        }
    }

    /// The frame of a camera at that place; a chroma pixel is the mean of those it stands for.
    fn view(&self, place: (i32, i32), size: Size) -> Result<Frame, Error> {
        let (left, top) = (
            (place.0 - self.corner.0) as usize,
            (place.1 - self.corner.1) as usize,
        );
        let mut frame = Frame::new(size, RATIO, [0; 3])?;
        for &channel in Channel::ALL {
            let width = frame[channel].size().width;
            let side = size.width / width;
            for (at, byte) in frame.bytes_mut(channel).iter_mut().enumerate() {
                let (x, y) = (at % width * side + left, at / width * side + top);
                let pixel = |at: usize| self.pixels[(y + at / side) * self.width + x + at % side];
                let sum: usize = (0..side * side)
                    .map(|at| usize::from(pixel(at)[channel.number()]))
                    .sum();
                *byte = ((sum + side * side / 2) / (side * side)) as u8;
            }
        }
        Ok(frame)
    }
}

/// Luma and chroma of a colour (BT.601, full range).
fn planes([r, g, b]: [f32; 3]) -> [u8; 3] {
    let luma = 0.299 * r + 0.587 * g + 0.114 * b;
    let chroma = |part: f32, scale: f32| 128.0 + (part - luma) * scale;
    [luma, chroma(b, 0.564), chroma(r, 0.713)].map(|part| part.round() as u8)
}
