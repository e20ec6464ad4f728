use crate::answer::{done, sized};
use crate::error::Why;
use crate::records::{Kind, Record};
use crate::{ffi, Layer, LayerBuf, LayerMut, Ratio, Result, Size};

/// The size and ratio of the layer in a parcel: what to lend to [`read_parcel`] follows from them.
///
/// The whole parcel is looked at, as in reading, so that a reader with slices of the right lengths accepts it.
///
/// ```
/// use safeteal::{parcel_sizes, LayerBuf, Ratio, Size};
///
/// let parcel = LayerBuf::new(Size::new(64, 32), Ratio::Two)?.to_parcel();
/// assert_eq!(parcel_sizes(&parcel), Ok((Size::new(64, 32), Ratio::Two)));
///
/// let error = parcel_sizes(&parcel[..100]).unwrap_err();
/// assert_eq!(
///     error.to_string(),
///     "parcel_sizes refused (9): record 2 (luma gains), at byte 12, says that its payload has 4096 bytes, and the \
///      parcel has 82 left"
/// );
/// # Ok::<(), safeteal::Error>(())
/// ```
///
/// # Errors
/// `Refusal::Record`, `Refusal::Kind`, `Refusal::Payload`, in this order.
pub fn parcel_sizes(parcel: &[u8]) -> Result<(Size, Ratio)> {
    measured("parcel_sizes", parcel)
}

/// Reads a parcel into a layer that is lent; gives the layer's size and ratio.
///
/// The pitches of that layer are its widths. All of it is written: what is no gain, offset or cell becomes 0.
/// [`LayerBuf::from_parcel`] does this with slices of its own.
///
/// ```
/// use safeteal::{read_parcel, Layer, LayerMut, Ratio, Size};
///
/// let (size, mut luma, mut chroma) = (Size::new(1, 1), [7; 2], [[7; 2]; 2]);
/// let parcel = Layer::new(&[8192, 640], [&[-64, 9], &[64, 1]], size, Ratio::One).to_parcel()?;
/// let [chroma1, chroma2] = &mut chroma;
/// let layer = LayerMut { luma: &mut luma, chroma: [chroma1, chroma2] };
/// assert_eq!(read_parcel(&parcel, layer)?, (size, Ratio::One));
/// assert_eq!((luma, chroma), ([8192, 640], [[-64, 0], [64, 1]]));
/// # Ok::<(), safeteal::Error>(())
/// ```
///
/// # Errors
/// `Refusal::Record`, `Refusal::Kind`, `Refusal::Payload`, then `Refusal::Length` for a slice that has not exactly the
/// length that [`parcel_sizes`] tells of. Then nothing is written.
pub fn read_parcel(parcel: &[u8], layer: LayerMut<'_>) -> Result<(Size, Ratio)> {
    read("read_parcel", parcel, layer)
}

/// The sizes, for the call of that name.
fn measured(call: &'static str, parcel: &[u8]) -> Result<(Size, Ratio)> {
    sized(call, ffi::parcel_sizes(parcel), |search| {
        search.parcel(parcel)
    })
}

/// Reads, for the call of that name.
fn read(call: &'static str, parcel: &[u8], layer: LayerMut<'_>) -> Result<(Size, Ratio)> {
    let lengths = layer.lengths();
    let [chroma1, chroma2] = layer.chroma;
    let answer = ffi::parcel_read(parcel, layer.luma, chroma1, chroma2);
    sized(call, answer, |search| {
        search.parcel(parcel).unpacked(parcel, lengths)
    })
}

impl LayerBuf {
    /// The layer as a parcel, to be sent to another desk or kept in a file: one run of bytes that says its size and
    /// ratio itself.
    ///
    /// A parcel is a run of records. Each is the length of its payload (four bytes), its kind (two bytes) and the
    /// payload, all little-endian. The kinds stand in this order:
    ///
    /// | Kind | Payload, two bytes for each number, row by row without padding |
    /// |---|---|
    /// | 1 | the head: width, height, ratio |
    /// | 2, 3 | luma's gains; luma's offsets |
    /// | 4, 5 | the offsets of plane 1; those of plane 2 |
    /// | 6 | the distances of the cells |
    ///
    /// ```
    /// use safeteal::{Frame, LayerBuf, Ratio, Size};
    ///
    /// // The layer is fitted at one desk, and sent.
    /// let size = Size::new(1, 1);
    /// let fitted = LayerBuf::assemble(size, Ratio::One, &[2.0, 10.0, 0.0, 0.0], &[0])?;
    /// let parcel = fitted.to_parcel();
    /// assert_eq!(parcel.len(), size.parcel(Ratio::One));
    /// // Six bytes follow, of kind 1: width 1, height 1, ratio 1.
    /// assert_eq!(parcel[..12], [6, 0, 0, 0, 1, 0, 1, 0, 1, 0, 1, 0]);
    ///
    /// // The lettering is lifted at the other.
    /// let layer = LayerBuf::from_parcel(&parcel)?;
    /// assert_eq!(layer, fitted);
    /// let frame = Frame::new(layer.size(), layer.ratio(), [110, 60, 60])?;
    /// assert_eq!(layer.peeled(&frame)?.1.luma, 1);
    /// # Ok::<(), safeteal::Error>(())
    /// ```
    #[must_use]
    pub fn to_parcel(&self) -> Vec<u8> {
        let made = self.layer().to_parcel();
        made.expect("a layer with slices of its own has their lengths")
    }

    /// The layer that a parcel holds. Its head stands first, the other kinds in any order.
    ///
    /// What was read back has the same size, ratio, gains, offsets and cells. The numbers of the chroma slices that
    /// mean nothing are 0, as fit and assemble leave them.
    ///
    /// ```
    /// use safeteal::{LayerBuf, Ratio, Refusal, Size};
    ///
    /// let layer = LayerBuf::new(Size::new(4, 2), Ratio::Two)?;
    /// let parcel = layer.to_parcel();
    /// assert_eq!(LayerBuf::from_parcel(&parcel)?, layer);
    ///
    /// // The last byte did not arrive.
    /// let error = LayerBuf::from_parcel(&parcel[..parcel.len() - 1]).unwrap_err();
    /// assert_eq!(error.refusal(), Refusal::Record);
    /// assert_eq!(
    ///     error.to_string(),
    ///     "LayerBuf::from_parcel refused (9): record 6 (cells), at byte 76, says that its payload has 2 bytes, and \
    ///      the parcel has 1 left"
    /// );
    /// # Ok::<(), safeteal::Error>(())
    /// ```
    ///
    /// # Errors
    /// Each is looked for in the whole parcel, in this order; records are counted from 1 and bytes from 0.
    /// - `Refusal::Record`: a record is cut short.
    /// - `Refusal::Kind`: the first record is not the head, or a kind is unknown, there twice or missing.
    /// - `Refusal::Payload`: the head has not six bytes, or says a size or ratio that no call takes, or another payload
    ///   has not the length that the head calls for.
    pub fn from_parcel(parcel: &[u8]) -> Result<Self> {
        let call = "LayerBuf::from_parcel";
        let (size, ratio) = measured(call, parcel)?;
        let mut made = Self::zeros(size, ratio, call)?;
        read(call, parcel, made.layer_mut())?;
        Ok(made)
    }
}

impl Layer<'_> {
    /// The layer as a parcel, without its padding, as [`LayerBuf::to_parcel`] gives it.
    ///
    /// A layer that is lent as bytes is copied first, by [`to_buf`](Self::to_buf).
    ///
    /// ```
    /// use safeteal::{Layer, LayerBuf, Ratio, Size};
    ///
    /// // Rows of two numbers, three from one row's start to the next.
    /// let luma = [1, 2, 9, 3, 4, 9, 5, 6, 9, 7, 8, 9];
    /// let chroma = [1, 0, 0, 0];
    /// let layer = Layer { pitch: (3, 2), ..Layer::new(&luma, [&chroma, &chroma], Size::new(2, 2), Ratio::Two) };
    /// let read = LayerBuf::from_parcel(&layer.to_parcel()?)?;
    /// assert_eq!(read.layer().luma, [1, 2, 3, 4, 5, 6, 7, 8]);
    /// # Ok::<(), safeteal::Error>(())
    /// ```
    ///
    /// # Errors
    /// As [`peel`](Self::peel) refuses a layer.
    pub fn to_parcel(&self) -> Result<Vec<u8>> {
        let call = "Layer::to_parcel";
        self.accepted(call)?;
        let mut parcel = vec![0; self.size.parcel(self.ratio)];
        self.write(call, &mut parcel)?;
        Ok(parcel)
    }

    /// Writes the layer as a parcel into bytes that are lent: exactly as many as [`Size::parcel`] says.
    ///
    /// ```
    /// use safeteal::{Layer, Ratio, Size};
    ///
    /// let (size, mut parcel) = (Size::new(1, 1), [0; 52]);
    /// Layer::new(&[8192, 640], [&[0, 0], &[0, 1]], size, Ratio::One).write_parcel(&mut parcel)?;
    /// // Kind 2 has two bytes: gain 2 is 8192 or 0x2000.
    /// assert_eq!(parcel[12..20], [2, 0, 0, 0, 2, 0, 0x00, 0x20]);
    /// # Ok::<(), safeteal::Error>(())
    /// ```
    ///
    /// # Errors
    /// As [`peel`](Self::peel) refuses a layer; `Refusal::Length` for another number of bytes. Then nothing is written.
    pub fn write_parcel(&self, parcel: &mut [u8]) -> Result<()> {
        self.write("Layer::write_parcel", parcel)
    }

    /// The same for the call of that name.
    fn write(&self, call: &'static str, parcel: &mut [u8]) -> Result<()> {
        let layer = self.lent();
        let word = layer.parcel(parcel);
        let why = Why::Parcel((self.size, self.ratio));
        done(call, word, |search| {
            search.layer(&layer).exactly("parcel", parcel.len(), why)
        })
    }
}

impl Size {
    /// The number of bytes of a parcel, where this is luma's size.
    ///
    /// For a size that no call takes it is at most `usize::MAX`.
    ///
    /// ```
    /// use safeteal::{Ratio, Size};
    ///
    /// // 42, 4 for each pixel of luma, 4 for each of a chroma plane, 2 for each 8 by 8 cell.
    /// let bytes = 42 + 4 * 1920 * 1080 + 4 * 960 * 540 + 2 * 240 * 135;
    /// assert_eq!(Size::new(1920, 1080).parcel(Ratio::Two), bytes);
    /// ```
    #[must_use]
    pub fn parcel(self, ratio: Ratio) -> usize {
        let payloads = Kind::ALL
            .iter()
            .map(|kind| kind.payload(self, ratio.number()));
        payloads.fold(Kind::ALL.len() * Record::START, usize::saturating_add)
    }
}
