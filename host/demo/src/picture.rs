//! Pictures in red, green and blue.

use std::fs;
use std::io;
use std::iter;
use std::path::Path;

use crate::font;
use crate::png::png;
use safeteal::{Channel, Frame, Size};

pub type Colour = [u8; 3];

/// The greys that black and white have in a pale picture.
pub const PALE: [u8; 2] = [204, 252];

#[derive(Clone)]
pub struct Picture {
    pub size: Size,
    pixels: Vec<Colour>,
}

impl Picture {
    pub fn new(size: Size, colour: Colour) -> Self {
        let pixels = vec![colour; size.width * size.height];
        Self { size, pixels }
    }

    /// A frame as it looks (BT.601, full range).
    pub fn of(frame: &Frame) -> Self {
        let (size, side) = (frame.size(), frame.ratio().number());
        let pixel = |at: usize| {
            let (x, y) = (at % size.width, at / size.width);
            let chroma =
                |channel: Channel| f32::from(frame[channel].row(y / side)[x / side]) - 128.0;
            let luma = f32::from(frame[Channel::Luma].row(y)[x]);
            let (blue, red) = (chroma(Channel::Chroma1), chroma(Channel::Chroma2));
            let green = luma - 0.344 * blue - 0.714 * red;
            [luma + 1.402 * red, green, luma + 1.772 * blue].map(|part| part.round() as u8)
        };
        let pixels = (0..size.width * size.height).map(pixel).collect();
        Self { size, pixels }
    }

    /// The same picture in pale greys, so that colours laid over it stand out.
    pub fn pale(mut self) -> Self {
        for pixel in &mut self.pixels {
            let [r, g, b] = pixel.map(usize::from);
            let bright = (r + 2 * g + b) / 4;
            let [dark, light] = PALE;
            *pixel = [dark + (bright * usize::from(light - dark) / 255) as u8; 3];
        }
        self
    }

    /// The same picture with so many times more pixels each way.
    pub fn larger(&self, by: usize) -> Self {
        let size = Size::new(self.size.width * by, self.size.height * by);
        let mut pixels = Vec::with_capacity(size.width * size.height);
        for row in self.pixels.chunks_exact(self.size.width) {
            for _ in 0..by {
                let wide = row.iter().flat_map(|&pixel| iter::repeat(pixel).take(by));
                pixels.extend(wide);
            }
        }
        Self { size, pixels }
    }

    /// The same picture with so many times fewer pixels each way, each the mean of those it stands for.
    pub fn smaller(&self, by: usize) -> Self {
        let size = Size::new(self.size.width / by, self.size.height / by);
        let pixel = |at: usize| {
            let (left, top) = (at % size.width * by, at / size.width * by);
            let pixels = (0..by * by)
                .map(|at| self.pixels[(top + at / by) * self.size.width + left + at % by]);
            let sum = |part: usize| -> usize {
                pixels.clone().map(|pixel| usize::from(pixel[part])).sum()
            };
            [0, 1, 2].map(|part| (sum(part) / (by * by)) as u8)
        };
        let pixels = (0..size.width * size.height).map(pixel).collect();
        Self { size, pixels }
    }

    #[cfg(test)]
    pub fn pixel(&self, x: usize, y: usize) -> Colour {
        self.pixels[y * self.size.width + x]
    }

    pub fn set(&mut self, x: usize, y: usize, colour: Colour) {
        if x < self.size.width && y < self.size.height {
            self.pixels[y * self.size.width + x] = colour;
        }
    }

    /// Puts another picture into this one.
    pub fn paste(&mut self, other: &Picture, (left, top): (usize, usize)) {
        for (y, row) in other.pixels.chunks_exact(other.size.width).enumerate() {
            for (x, &pixel) in row.iter().enumerate() {
                self.set(left + x, top + y, pixel);
            }
        }
    }

    /// Writes a line of text with dots of so many pixels.
    pub fn text(&mut self, text: &str, (left, top): (usize, usize), dot: usize, colour: Colour) {
        for (x, y) in font::dots(text) {
            for at in 0..dot * dot {
                self.set(left + x * dot + at % dot, top + y * dot + at / dot, colour);
            }
        }
    }

    /// Writes the picture to a file that any viewer opens.
    pub fn write(&self, file: &Path) -> io::Result<()> {
        fs::write(file, png(self.size, self.pixels.as_flattened()))
    }
}
