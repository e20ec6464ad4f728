//! The distances of a layer's cells.

use std::fmt;

use crate::groups::Form;
use crate::texels::place;
use crate::{Channel, LayerOf, Size};

/// How far each 8 by 8 cell of a layer is from the next marked one: 0 where it holds lettering itself.
///
/// Cells at distance 0 or 1 (or below) are peeled and unpeeled; render also looks at those that motion can reach. A
/// distance is counted in cells, diagonal steps as one, and fit stores 255 where no cell is marked.
///
/// ```
/// use safeteal::{LayerBuf, Ratio, Size};
///
/// let size = Size::new(20, 9);
/// let models = [1.0, 0.0, 0.0, 0.0].repeat(20 * 9);
/// let layer = LayerBuf::assemble(size, Ratio::One, &models, &[0, 1, 2, 1, 1, 2])?;
/// let cells = layer.cells();
/// assert_eq!((cells.width(), cells.height()), (3, 2));
/// assert_eq!(cells.distance(2, 0), 2);
/// assert_eq!(cells.get(3, 0), None);
/// let rows: Vec<Vec<i16>> = cells.rows().map(Iterator::collect).collect();
/// assert_eq!(rows, [[0, 1, 2], [1, 1, 2]]);
/// # Ok::<(), safeteal::Error>(())
/// ```
#[derive(Clone, Copy)]
pub struct Cells<'a, T> {
    data: &'a [T],
    pitch: usize,
    /// The row of `data` that the first row of cells is.
    first: usize,
    size: Size,
}

impl<'a, T> Cells<'a, T> {
    /// Those of a layer: in the second half of `chroma[1]`, a row in each chroma row.
    pub(crate) fn of(layer: &LayerOf<'a, T>) -> Self {
        Self {
            data: layer.chroma[1],
            pitch: layer.pitch.1,
            first: layer.size.plane(Channel::Chroma2, layer.ratio).height,
            size: layer.size.in_cells(),
        }
    }

    /// Cells in a row.
    #[must_use]
    pub fn width(&self) -> usize {
        self.size.width
    }

    /// Rows of cells.
    #[must_use]
    pub fn height(&self) -> usize {
        self.size.height
    }
}

impl<'a, T: Form> Cells<'a, T> {
    /// The distance of a cell; none where there is no such cell.
    ///
    /// # Panics
    /// Where `chroma[1]` is too short for its pitch and size.
    #[must_use]
    pub fn get(&self, x: usize, y: usize) -> Option<i16> {
        let number = || {
            T::number(
                self.data,
                place(x, self.first.saturating_add(y), self.pitch),
            )
        };
        self.size.has(x, y).then(number)
    }

    /// The distance of a cell.
    ///
    /// # Panics
    /// Where there is no such cell, and where `chroma[1]` is too short for its pitch and size.
    #[must_use]
    pub fn distance(&self, x: usize, y: usize) -> i16 {
        let Size { width, height } = self.size;
        let found = self.get(x, y);
        found.unwrap_or_else(|| {
            panic!("cell ({x}, {y}) of a layer that has {width} by {height} cells")
        })
    }

    /// The distances, row after row.
    ///
    /// # Panics
    /// When it is run, where `chroma[1]` is too short for its pitch and size.
    pub fn iter(&self) -> impl Iterator<Item = i16> + 'a {
        self.rows().flatten()
    }

    /// The rows, each of them its distances.
    ///
    /// # Panics
    /// When a row is run, where `chroma[1]` is too short for its pitch and size.
    pub fn rows(&self) -> impl Iterator<Item = impl Iterator<Item = i16> + 'a> + 'a {
        let cells = *self;
        let row = move |y| (0..cells.size.width).map(move |x| cells.distance(x, y));
        (0..cells.size.height).map(row)
    }
}

impl<T> fmt::Debug for Cells<'_, T> {
    fn fmt(&self, f: &mut fmt::Formatter<'_>) -> fmt::Result {
        let mut shown = f.debug_struct("Cells");
        shown.field("width", &self.width());
        shown.field("height", &self.height());
        shown.finish_non_exhaustive()
    }
}

/// Cells are equal where their widths, heights and distances are.
impl<T: Form> PartialEq for Cells<'_, T> {
    fn eq(&self, other: &Self) -> bool {
        self.size == other.size && self.iter().eq(other.iter())
    }
}
