use crate::answer::counted;
use crate::{Layer, Result};

impl Layer<'_> {
    /// Whether the layer marks no cell: none of its distances is 0.
    ///
    /// ```
    /// use safeteal::{Layer, Ratio, Size};
    ///
    /// let (luma, marked, unmarked) = ([4096, 0], [0, 0], [0, 255]);
    /// let mut layer = Layer::new(&luma, [&unmarked, &unmarked], Size::new(1, 1), Ratio::One);
    /// assert_eq!(layer.empty(), Ok(true));
    /// layer.chroma[1] = &marked;
    /// assert_eq!(layer.empty(), Ok(false));
    /// ```
    ///
    /// # Errors
    /// `Refusal::Size`, `Refusal::Ratio`, `Refusal::Pitch`, `Refusal::Length`.
    pub fn empty(&self) -> Result<bool> {
        let layer = self.lent();
        let answer = counted("Layer::empty", layer.empty(), |search| search.layer(&layer));
        answer.map(|yes| yes == 1)
    }
}
