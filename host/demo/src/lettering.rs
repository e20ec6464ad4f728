//! The lettering of the made-up clip: a logo and a date stamp, each an ink that lets some of the scene through.

use crate::font;
use safeteal::{Channel, Frame, Ratio, Size};

/// An ink: how much of a dot it covers, 0 to 1, and its colour on each plane.
#[derive(Clone, Copy)]
struct Ink {
    cover: f32,
    colour: [f32; 3],
}

/// A dark teal that covers much.
const LOGO: Ink = Ink {
    cover: 0.72,
    colour: [52.0, 140.0, 92.0],
};
/// A light amber that covers less.
const STAMP: Ink = Ink {
    cover: 0.5,
    colour: [214.0, 66.0, 158.0],
};

const NAME: &str = "SAFETEAL";
const DATE: &str = "16 NOV 2026";

/// The inks on all luma pixels, and how much of each pixel is inked.
pub struct Lettering {
    size: Size,
    ratio: Ratio,
    inks: Vec<Option<Ink>>,
}

impl Lettering {
    /// The logo stands at the top on the right, the date stamp at the bottom on the right, both clear of the border:
    /// what comes into view at a border has nothing to be compared with.
    pub fn new(size: Size, ratio: Ratio) -> Self {
        let mut made = Self {
            size,
            ratio,
            inks: vec![None; size.width * size.height],
        };
        // A letter's dot is so many pixels wide; all else is in these.
        let dot = (size.height / 120).min(size.width / 160).max(1);
        let (ring, gap) = (11 * dot, 3 * dot);
        let (name, date) = (font::width(NAME) * dot, font::width(DATE) * dot);
        let border = (size.height / 8).min(size.width - ring - gap - name);
        let (right, bottom) = (size.width - border, size.height - border);
        made.ring((right - name - gap - ring, border - 2 * dot), ring, dot);
        made.text(NAME, (right - name, border), dot, LOGO);
        made.text(
            DATE,
            (right - date, bottom - font::HEIGHT * dot),
            dot,
            STAMP,
        );
        made
    }

    fn ink(&mut self, x: usize, y: usize, ink: Ink) {
        if x < self.size.width && y < self.size.height {
            self.inks[y * self.size.width + x] = Some(ink);
        }
    }

    fn text(&mut self, text: &str, (left, top): (usize, usize), dot: usize, ink: Ink) {
        for (x, y) in font::dots(text) {
            for at in 0..dot * dot {
                self.ink(left + x * dot + at % dot, top + y * dot + at / dot, ink);
            }
        }
    }

    /// A ring with a drop in it, with soft edges.
    fn ring(&mut self, (left, top): (usize, usize), wide: usize, dot: usize) {
        let (middle, line) = (wide as f32 / 2.0, dot as f32);
        for at in 0..wide * wide {
            let (x, y) = (at % wide, at / wide);
            let (dx, dy) = (x as f32 + 0.5 - middle, y as f32 + 0.5 - middle);
            let far = dx.hypot(dy);
            let ring = line * 0.75 - (far - middle + line).abs();
            let drop = line * 2.0 - dx.hypot(dy * 0.8);
            let cover = LOGO.cover * (ring.max(drop) + 0.5).clamp(0.0, 1.0);
            if cover > 0.0 {
                let ink = Ink { cover, ..LOGO };
                self.ink(left + x, top + y, ink);
            }
        }
    }

    /// The share of the scene that is left on a pixel of a plane, and what the inks add to it.
    fn model(&self, channel: Channel, x: usize, y: usize) -> (f32, f32) {
        let side = self.size.width / self.size.plane(channel, self.ratio).width;
        let (mut gain, mut offset) = (0.0, 0.0);
        for at in 0..side * side {
            let (x, y) = (x * side + at % side, y * side + at / side);
            let ink = self.inks[y * self.size.width + x];
            gain += ink.map_or(1.0, |ink| 1.0 - ink.cover);
            offset += ink.map_or(0.0, |ink| ink.cover * ink.colour[channel.number()]);
        }
        let share = (side * side) as f32;
        (gain / share, offset / share)
    }

    /// Prints the lettering onto a frame.
    pub fn print(&self, frame: &mut Frame) {
        for &channel in Channel::ALL {
            let width = frame[channel].size().width;
            for (at, byte) in frame.bytes_mut(channel).iter_mut().enumerate() {
                let (gain, offset) = self.model(channel, at % width, at / width);
                *byte = (gain * f32::from(*byte) + offset).round() as u8;
            }
        }
    }

    /// Whether each luma pixel has ink, row after row.
    pub fn inked(&self) -> impl Iterator<Item = bool> + '_ {
        self.inks.iter().map(Option::is_some)
    }
}
