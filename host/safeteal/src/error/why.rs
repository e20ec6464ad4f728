//! Why a slice must have its length.

use std::fmt;

use crate::plane::Shape;
use crate::{Channel, Size};

/// What a slice holds, which gives its length.
#[derive(Clone, Copy, Debug, PartialEq)]
pub(crate) enum Why {
    /// The rows of a byte plane of that size, their starts so many bytes apart.
    Rows(Size, usize),
    /// So many for each pixel.
    Pixels(usize, Size),
    /// The bytes of two numbers for each pixel.
    Bytes(Size),
    /// A byte for each pixel of each plane.
    Packed(Shape),
    /// The records of a parcel.
    Parcel(Shape),
    /// A byte for each 8 by 8 cell.
    Cells(Size),
    /// The two halves of a layer's slice, each of so many rows of so many numbers.
    Halves(usize, usize),
}

impl Why {
    /// The length: of sizes and pitches that are known to be inside their limits.
    pub fn length(self) -> usize {
        match self {
            Why::Rows(size, pitch) => (size.height - 1) * pitch + size.width,
            Why::Pixels(each, size) => each * size.width * size.height,
            Why::Bytes(size) => 4 * size.width * size.height,
            Why::Packed((size, ratio)) => {
                let chroma = size.plane(Channel::Chroma1, ratio);
                size.width * size.height + 2 * chroma.width * chroma.height
            }
            Why::Parcel((size, ratio)) => size.parcel(ratio),
            Why::Cells(size) => size.cells(),
            Why::Halves(rows, row) => 2 * rows * row,
        }
    }

    /// The words for a slice that has too few.
    pub fn short(self, f: &mut fmt::Formatter<'_>, name: &str, has: usize) -> fmt::Result {
        let (has, needs) = (self.many(has), self.length());
        write!(f, "`{name}` has {has} and needs at least {needs}: {self}")
    }

    /// The words for a slice that has too few or too many.
    pub fn inexact(self, f: &mut fmt::Formatter<'_>, name: &str, has: usize) -> fmt::Result {
        let (has, needs) = (self.many(has), self.length());
        write!(
            f,
            "`{name}` has {has} and must have exactly {needs}: {self}"
        )
    }

    /// So many bytes, or numbers.
    fn many(self, count: usize) -> String {
        let what = match self {
            Why::Rows(..) | Why::Cells(_) | Why::Pixels(1, _) => "byte",
            Why::Bytes(_) | Why::Packed(_) | Why::Parcel(_) => "byte",
            Why::Pixels(..) | Why::Halves(..) => "number",
        };
        many(count, what)
    }
}

/// So many things of one name.
pub(crate) fn many(count: usize, what: &str) -> String {
    let s = if count == 1 { "" } else { "s" };
    format!("{count} {what}{s}")
}

impl fmt::Display for Why {
    fn fmt(&self, f: &mut fmt::Formatter<'_>) -> fmt::Result {
        match *self {
            Why::Rows(size, pitch) if pitch == size.width => write!(f, "{size} pixels"),
            Why::Rows(size, pitch) => write!(f, "{size} pixels, a row every {pitch} bytes"),
            Why::Pixels(each, size) => write!(f, "{each} for each of {size} pixels"),
            Why::Bytes(size) => write!(f, "4 for each of {size} pixels"),
            Why::Packed((size, ratio)) => {
                let chroma = size.plane(Channel::Chroma1, ratio);
                write!(
                    f,
                    "{size} pixels of luma, and {chroma} of each chroma plane"
                )
            }
            Why::Parcel((size, ratio)) => {
                write!(f, "a parcel of a layer of {size} at ratio {ratio}")
            }
            Why::Cells(size) => write!(f, "1 for each 8 by 8 cell of {size} pixels"),
            Why::Halves(rows, row) => {
                write!(f, "two halves, each of {} of {row}", many(rows, "row"))
            }
        }
    }
}
