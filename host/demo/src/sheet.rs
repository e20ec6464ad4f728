//! Pictures with words beside them: never on them, and never too small to read.

use std::ops::RangeInclusive;

use crate::font;
use crate::picture::{Colour, Picture};
use crate::report::lines;
use safeteal::Size;

const PAPER: Colour = [244; 3];
const INK: Colour = [30, 60, 64];

/// A picture that would be higher than this is not made larger.
const HIGHEST: usize = 2160;

/// A letter's dot is so many pixels in words below a picture of that width: two at least, or they could not be read.
fn dot(width: usize) -> usize {
    (width / 320).max(2)
}

/// Words, with the colour that they explain.
#[derive(Clone)]
pub struct Entry {
    pub colour: Option<Colour>,
    pub words: String,
}

/// How a picture is brought to a width that suits: by whole numbers, so that a dot stays a square.
#[derive(Clone, Copy, Debug, PartialEq, Eq)]
pub struct Scale {
    pub larger: usize,
    pub smaller: usize,
}

impl Scale {
    /// The one that brings pictures of a size into these widths; where none does, they stay narrower.
    pub fn into(widths: &RangeInclusive<usize>, size: Size) -> Self {
        let smaller = size.width.div_ceil(*widths.end());
        let larger = widths.start().div_ceil(size.width);
        let most = (widths.end() / size.width).min(HIGHEST / size.height);
        let larger = larger.min(most).max(1);
        Self { larger, smaller }
    }

    pub fn of(self, picture: &Picture) -> Picture {
        picture.smaller(self.smaller).larger(self.larger)
    }
}

/// Words in a column, line under line; those with a colour have a square of it before them. Lengths are in pixels.
struct Column {
    dot: usize,
    lines: Vec<Line>,
}

struct Line {
    words: String,
    /// Where the words begin.
    left: usize,
    /// The colour that begins at this line.
    colour: Option<Colour>,
}

/// Lengths in a letter's dots: room around words, a colour's square, and from line to line.
const MARGIN: usize = 4;
const SQUARE: usize = 9;
const LINE: usize = font::HEIGHT + 5;

impl Column {
    fn new(entries: &[Entry], width: usize, dot: usize) -> Self {
        let mut made = Vec::new();
        for Entry { colour, words } in entries {
            let indent = dot * (SQUARE + MARGIN);
            let left = if colour.is_some() { indent } else { 0 };
            let letters = (width - left) / (dot * font::STEP);
            for (at, words) in lines(words, letters).into_iter().enumerate() {
                let colour = colour.filter(|_| at == 0);
                made.push(Line {
                    words,
                    left,
                    colour,
                });
            }
        }
        Self { dot, lines: made }
    }

    fn height(&self) -> usize {
        self.dot * (self.lines.len() * LINE + 2 * MARGIN)
    }

    fn draw(&self, picture: &mut Picture, (left, top): (usize, usize)) {
        let dot = self.dot;
        for (at, line) in self.lines.iter().enumerate() {
            let top = top + dot * (at * LINE + MARGIN);
            if let Some(colour) = line.colour {
                let square = Picture::new(Size::new(dot * SQUARE, dot * SQUARE), colour);
                picture.paste(&square, (left, top));
            }
            // A square is two dots higher than a letter.
            picture.text(&line.words, (left + line.left, top + dot), dot, INK);
        }
    }
}

/// The widths of a picture with a legend below it: a narrower one is made larger, or has paper on both sides.
pub const EXPLAINED: RangeInclusive<usize> = 480..=4096;

/// A picture with its legend below it.
pub fn explained(picture: &Picture, legend: &[Entry]) -> Picture {
    let Size { width, height } = picture.size;
    let whole = width.max(*EXPLAINED.start());
    let dot = dot(whole);
    let margin = dot * MARGIN;
    let column = Column::new(legend, whole - 2 * margin, dot);
    let size = Size::new(whole, height + column.height());
    let mut made = Picture::new(size, PAPER);
    made.paste(picture, ((whole - width) / 2, 0));
    column.draw(&mut made, (margin, height));
    made
}

/// Pictures of one size in two columns of that width at least, each below its caption, and a legend under them all.
pub fn sheet(pictures: &[(String, Picture)], legend: &[Entry], least: usize) -> Picture {
    let Size { width, height } = pictures[0].1.size;
    let wide = width.max(least);
    let dot = dot(wide);
    let gap = dot * MARGIN;
    let whole = 2 * wide + 3 * gap;
    let captions = pictures.iter().map(|(words, _)| Entry {
        colour: None,
        words: words.clone(),
    });
    let captions: Vec<_> = captions
        .map(|entry| Column::new(&[entry], wide, dot))
        .collect();
    let line = captions.iter().map(Column::height).max().unwrap_or(0);
    let (step, rows) = (line + height, pictures.len().div_ceil(2));
    let legend = Column::new(legend, whole - 2 * gap, dot);
    let size = Size::new(whole, rows * step + gap + legend.height());
    let mut made = Picture::new(size, PAPER);
    for (at, (caption, (_, picture))) in captions.iter().zip(pictures).enumerate() {
        let (left, top) = (gap + at % 2 * (wide + gap), at / 2 * step);
        caption.draw(&mut made, (left, top + line - caption.height()));
        made.paste(picture, (left + (wide - width) / 2, top + line));
    }
    legend.draw(&mut made, (gap, rows * step + gap));
    made
}

#[cfg(test)]
mod tests {
    use super::*;

    const RED: Colour = [200, 0, 0];
    const BLUE: Colour = [0, 0, 200];
    const SCENE: Colour = [90, 140, 90];

    /// Words as long as they come, one of them with a figure of forty digits.
    fn legend() -> [Entry; 2] {
        let long = format!("lettering passed at 0.{}1: 16,777,216 dots", "0".repeat(37));
        [
            (RED, long),
            (BLUE, "no lettering, found at 65536: 1 dot".to_owned()),
        ]
        .map(|(colour, words)| Entry {
            colour: Some(colour),
            words,
        })
    }

    /// Sizes that the options permit, with the narrowest, the widest, the lowest and the highest.
    fn sizes() -> impl Iterator<Item = Size> {
        let heights = [120, 360, 4096];
        let sizes = (160..=4096)
            .step_by(2)
            .map(move |width| heights.map(|height| Size::new(width, height)));
        sizes.flatten()
    }

    /// Where the words of a column end on the right.
    fn end(column: &Column) -> usize {
        let ends = column.lines.iter();
        let ends = ends.map(|line| line.left + font::width(&line.words) * column.dot);
        ends.max().unwrap_or(0)
    }

    #[test]
    fn a_legend_fits_at_every_size() {
        for size in sizes() {
            let scale = Scale::into(&EXPLAINED, size);
            assert_eq!(scale.smaller, 1, "every dot is shown");
            let whole = (size.width * scale.larger).max(*EXPLAINED.start());
            let dot = dot(whole);
            let column = Column::new(&legend(), whole - 2 * dot * MARGIN, dot);
            assert!(
                dot >= 2 && end(&column) <= whole - 2 * dot * MARGIN,
                "{size:?}"
            );
            let words = column.lines.iter().map(|line| line.words.as_str());
            assert_eq!(
                letters(words),
                letters(legend().iter().map(|entry| entry.words.as_str()))
            );
            let colours = column.lines.iter().filter_map(|line| line.colour);
            assert!(colours.eq([RED, BLUE]));
        }
    }

    /// The letters of some lines, without the spaces at which they may be parted.
    fn letters<'a>(lines: impl Iterator<Item = &'a str>) -> String {
        lines.flat_map(|line| line.split(' ')).collect()
    }

    #[test]
    fn pictures_come_into_their_widths() {
        let widths = 320..=436;
        for size in sizes() {
            let Scale { larger, smaller } = Scale::into(&widths, size);
            assert!(larger == 1 || smaller == 1);
            let (width, height) = (
                size.width / smaller * larger,
                size.height / smaller * larger,
            );
            assert!((1..=436).contains(&width) && height >= 1, "{size:?}");
            assert!(larger == 1 || height <= HIGHEST, "{size:?}");
        }
        let scale = |larger, smaller| Scale { larger, smaller };
        assert_eq!(Scale::into(&widths, Size::new(160, 120)), scale(2, 1));
        assert_eq!(Scale::into(&widths, Size::new(160, 4096)), scale(1, 1));
        assert_eq!(Scale::into(&widths, Size::new(218, 120)), scale(2, 1));
        assert_eq!(Scale::into(&widths, Size::new(220, 120)), scale(1, 1));
        assert_eq!(Scale::into(&widths, Size::new(436, 246)), scale(1, 1));
        assert_eq!(Scale::into(&widths, Size::new(640, 360)), scale(1, 2));
    }

    /// The pixels of a picture that are inside or outside some places.
    fn colours(picture: &Picture, take: impl Fn(usize, usize) -> bool) -> Vec<Colour> {
        let Size { width, height } = picture.size;
        let places = (0..width * height).map(|at| (at % width, at / width));
        let mut found: Vec<_> = places
            .filter(|&(x, y)| take(x, y))
            .map(|(x, y)| picture.pixel(x, y))
            .collect();
        found.sort_unstable();
        found.dedup();
        found
    }

    #[test]
    fn words_stand_beside_the_picture() {
        for (width, height) in [(160, 120), (160, 900), (480, 120), (640, 360), (1600, 120)] {
            let picture = Picture::new(Size::new(width, height), SCENE);
            let made = explained(&picture, &legend());
            let left = (made.size.width - width) / 2;
            let inside = |x: usize, y: usize| (left..left + width).contains(&x) && y < height;
            assert_eq!(colours(&made, inside), [SCENE]);
            assert_eq!(
                colours(&made, |x, y| !inside(x, y)),
                [BLUE, INK, RED, PAPER]
            );
            let edge = |x: usize, y: usize| {
                y >= height
                    && (x < 4
                        || x + 4 >= made.size.width
                        || y < height + 4
                        || y + 4 >= made.size.height)
            };
            assert_eq!(colours(&made, edge), [PAPER], "words keep off the edges");
        }
    }

    #[test]
    fn a_sheet_shows_every_picture_whole() {
        for (width, height) in [(16, 300), (160, 120), (320, 180), (436, 120)] {
            let picture = Picture::new(Size::new(width, height), SCENE);
            let caption = "a caption that takes more than one line of a narrow column".to_owned();
            let pictures = vec![(caption, picture); 4];
            let made = sheet(&pictures, &legend(), 320);
            assert!(made.size.width <= 900);
            let places = (0..made.size.width * made.size.height)
                .map(|at| (at % made.size.width, at / made.size.width));
            let scene = places.filter(|&(x, y)| made.pixel(x, y) == SCENE).count();
            assert_eq!(scene, 4 * width * height);
            let edge = |x: usize, y: usize| {
                x < 4 || y < 4 || x + 4 >= made.size.width || y + 4 >= made.size.height
            };
            assert_eq!(colours(&made, edge), [PAPER]);
            assert_eq!(colours(&made, |_, _| true), [BLUE, INK, SCENE, RED, PAPER]);
        }
    }
}
