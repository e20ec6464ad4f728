//! Parcels, from the words of request W-201 and of 01 alone. In quotation marks stand the papers' own.

use crate::check::expected::{over, times, wrong_ratio, wrong_size};
use safeteal::ffi::Sizes;
use safeteal::groups::LentLayer;

/// "Kind 1, the head".
pub const HEAD: u16 = 1;
/// "luma gains, luma offsets, the offsets of planes 1 and 2, cells".
pub const PARTS: [u16; 5] = [2, 3, 4, 5, 6];

/// "payload length (four bytes), kind (two bytes)": so many bytes stand before a payload.
const BEFORE_PAYLOAD: usize = 6;

/// "width, height, ratio": the head's three numbers, whatever they are.
#[derive(Clone, Copy, Debug, PartialEq, Eq)]
pub struct Head {
    pub width: usize,
    pub height: usize,
    pub ratio: usize,
}

impl Head {
    pub fn new((width, height, ratio): (usize, usize, usize)) -> Self {
        Self {
            width,
            height,
            ratio,
        }
    }

    /// "two bytes each"; none of "a head not six bytes long".
    pub fn read(payload: &[u8]) -> Option<Self> {
        let bytes: [u8; 6] = payload.try_into().ok()?;
        let number = |at: usize| usize::from(u16::from_le_bytes([bytes[at], bytes[at + 1]]));
        Some(Self::new((number(0), number(2), number(4))))
    }

    /// The head's payload, of numbers that two bytes can hold.
    pub fn payload(self) -> Vec<u8> {
        let numbers = [self.width, self.height, self.ratio];
        let bytes = numbers.map(|number| (number as u16).to_le_bytes());
        bytes.concat()
    }

    /// "outside 01's domain".
    fn outside(self) -> bool {
        wrong_size(self.width, self.height) || wrong_ratio(self.ratio, self.width, self.height)
    }

    /// Columns and rows of a chroma plane: "width/ratio by height/ratio".
    fn chroma(self) -> (usize, usize) {
        (over(self.width, self.ratio), over(self.height, self.ratio))
    }

    /// Columns and rows of cells: "width/8 times height/8 bytes, each quotient rounded up".
    fn cells(self) -> (usize, usize) {
        (self.width.div_ceil(8), self.height.div_ceil(8))
    }

    /// Columns and rows of what a record of kind 2 to 6 holds.
    fn part(self, kind: u16) -> (usize, usize) {
        match kind {
            2 | 3 => (self.width, self.height),
            4 | 5 => self.chroma(),
            _ => self.cells(),
        }
    }

    /// The payload's bytes of a record of kind 2 to 6: "each two bytes signed, row by row without padding". Of any
    /// sizes, and it does not wrap.
    pub fn bytes(self, kind: u16) -> u128 {
        let (across, down) = self.part(kind);
        times(times(2, across), down)
    }

    /// "exactly the parcel's length".
    pub fn parcel_bytes(self) -> u128 {
        let head = 2 * BEFORE_PAYLOAD as u128;
        PARTS.into_iter().fold(head, |sum, kind| {
            sum.saturating_add(BEFORE_PAYLOAD as u128)
                .saturating_add(self.bytes(kind))
        })
    }

    /// The numbers of luma and of each chroma slice that the reader is lent, "exactly the layer's": in each half as
    /// many as the plane has pixels.
    pub fn layer_numbers(self) -> [u128; 2] {
        let numbers = |(across, down): (usize, usize)| times(times(2, across), down);
        [(self.width, self.height), self.chroma()].map(numbers)
    }
}

impl From<Head> for Sizes {
    /// "The reader also answers the head's three numbers".
    fn from(head: Head) -> Self {
        Self {
            word: 0,
            width: head.width,
            height: head.height,
            ratio: head.ratio,
        }
    }
}

/// The parcel of a layer that the writer accepts: "The writer gives kinds 1 to 6 in that order".
pub fn written(layer: &LentLayer<'_, i16>) -> Vec<u8> {
    let head = Head::new((layer.size.width, layer.size.height, layer.ratio));
    let (luma_pitch, chroma_pitch) = layer.pitch;
    let [first, second] = layer.chroma;
    // "the second half of a slice begins at entry pitch times rows of its plane, however long the slice is"
    let offsets = &layer.luma[luma_pitch * head.height..];
    let cells = &second[chroma_pitch * head.chroma().1..];
    let parts = [
        rows(layer.luma, luma_pitch, head.part(2)),
        rows(offsets, luma_pitch, head.part(3)),
        rows(first, chroma_pitch, head.part(4)),
        rows(second, chroma_pitch, head.part(5)),
        rows(cells, chroma_pitch, head.part(6)),
    ];
    let mut parcel = record(HEAD, &head.payload());
    for (kind, numbers) in PARTS.into_iter().zip(parts) {
        let payload: Vec<u8> = numbers.into_iter().flat_map(i16::to_le_bytes).collect();
        parcel.extend(record(kind, &payload));
    }
    parcel
}

/// The numbers of so many columns and rows, "row by row without padding".
fn rows(slice: &[i16], pitch: usize, (across, down): (usize, usize)) -> Vec<i16> {
    let row = |y: usize| &slice[y * pitch..y * pitch + across];
    (0..down).flat_map(row).copied().collect()
}

/// "payload length (four bytes), kind (two bytes), payload, all little-endian".
fn record(kind: u16, payload: &[u8]) -> Vec<u8> {
    let length = (payload.len() as u32).to_le_bytes();
    [&length[..], &kind.to_le_bytes(), payload].concat()
}

/// A parcel that the reader accepts, if its slices fit.
#[derive(Debug)]
pub struct Opened<'a> {
    pub head: Head,
    /// The payloads of kinds 2 to 6.
    parts: [&'a [u8]; 5],
}

/// What the reader finds before it looks at its slices: "tests 9, 10, 11 in that order, each over the whole parcel".
pub fn opened(parcel: &[u8]) -> Result<Opened<'_>, u64> {
    let records = records(parcel).ok_or(9u64)?;
    let [head, parts @ ..] = by_kind(&records).ok_or(10u64)?;
    let head = Head::read(head).filter(|head| !head.outside());
    let head = head.ok_or(11u64)?;
    let fits = |(kind, part): (u16, &[u8])| part.len() as u128 == head.bytes(kind);
    if !PARTS.into_iter().zip(parts).all(fits) {
        return Err(11);
    }
    Ok(Opened { head, parts })
}

/// The kinds and payloads in order; none where there is "a record cut short".
fn records(mut rest: &[u8]) -> Option<Vec<(u16, &[u8])>> {
    let mut records = Vec::new();
    while !rest.is_empty() {
        if rest.len() < BEFORE_PAYLOAD {
            return None;
        }
        let length = u32::from_le_bytes([rest[0], rest[1], rest[2], rest[3]]);
        let kind = u16::from_le_bytes([rest[4], rest[5]]);
        let behind = &rest[BEFORE_PAYLOAD..];
        if u64::from(length) > behind.len() as u64 {
            return None;
        }
        let (payload, after) = behind.split_at(length as usize);
        records.push((kind, payload));
        rest = after;
    }
    Some(records)
}

/// The payloads of kinds 1 to 6; none of "a head that isn't first or an unknown, repeated or missing kind".
fn by_kind<'a>(records: &[(u16, &'a [u8])]) -> Option<[&'a [u8]; 6]> {
    let (first, _) = records.first()?;
    if *first != HEAD {
        return None;
    }
    let mut found = [None; 6];
    for &(kind, payload) in records {
        let at = (1..=6).position(|known| known == kind)?;
        if found[at].replace(payload).is_some() {
            return None;
        }
    }
    let all: Option<Vec<&[u8]>> = found.into_iter().collect();
    all?.try_into().ok()
}

/// A layer without padding.
#[derive(Debug, PartialEq)]
pub struct Layer {
    pub luma: Vec<i16>,
    pub chroma: [Vec<i16>; 2],
}

impl Opened<'_> {
    /// "a layer whose other tail entries are zero and whose pitches are its widths".
    pub fn layer(&self) -> Layer {
        let number = |pair: &[u8]| i16::from_le_bytes([pair[0], pair[1]]);
        let numbers = |part: &[u8]| -> Vec<i16> { part.chunks(2).map(number).collect() };
        let [gains, offsets, first, second, cells] = self.parts.map(numbers);
        let ((wide, high), (across, _)) = (self.head.chroma(), self.head.cells());
        let none = vec![0; wide * high];
        // 01: "Cells stand in the second half of chroma[1], one row per chroma row", and before: "Luma holds all gains,
        // then all offsets".
        let mut tail = none.clone();
        for (y, row) in cells.chunks(across).enumerate() {
            tail[y * wide..y * wide + across].copy_from_slice(row);
        }
        Layer {
            luma: [gains, offsets].concat(),
            chroma: [[first, none].concat(), [second, tail].concat()],
        }
    }
}

#[cfg(test)]
mod tests;
