//! The records that a parcel is a run of: the length of a payload, its kind, and the payload, all little-endian.
//!
//! The proved library reads them itself; here they are gone through only to measure a parcel, and to say in words what
//! is wrong with one.

use std::fmt;

use crate::{Channel, Size};

numbered! {
    /// What the payload of a record is.
    pub enum Kind: u16 {
        /// Width, height and ratio.
        Head = 1 => "head",
        /// The gains of luma.
        Gains = 2 => "luma gains",
        /// The offsets of luma.
        Offsets = 3 => "luma offsets",
        /// The offsets of plane 1.
        Chroma1 = 4 => "chroma1 offsets",
        /// The offsets of plane 2.
        Chroma2 = 5 => "chroma2 offsets",
        /// The distances of the cells.
        Cells = 6 => "cells",
    }
}

impl Kind {
    /// The bytes of such a payload, two for each number. For a size that no call takes it is at most `usize::MAX`.
    pub fn payload(self, size: Size, ratio: usize) -> usize {
        let pixels = |channel: Channel| {
            let Size { width, height } = size.plane_by(channel, ratio);
            width.saturating_mul(height)
        };
        let numbers = match self {
            Kind::Head => 3,
            Kind::Gains | Kind::Offsets => pixels(Channel::Luma),
            Kind::Chroma1 => pixels(Channel::Chroma1),
            Kind::Chroma2 => pixels(Channel::Chroma2),
            Kind::Cells => size.cells(),
        };
        numbers.saturating_mul(2)
    }
}

/// A record, by what stands before its payload.
#[derive(Clone, Copy, Debug, PartialEq)]
pub struct Record {
    /// Its place among the records, from 1.
    pub number: usize,
    /// Its first byte, from 0.
    pub at: usize,
    /// The bytes that its payload has, as it says.
    pub length: u32,
    /// The number of its kind, which may be none.
    pub kind: u16,
}

impl Record {
    /// The bytes before a payload: four of its length, two of its kind.
    pub const START: usize = 6;
}

/// `record 2 (luma gains), at byte 12`
impl fmt::Display for Record {
    fn fmt(&self, f: &mut fmt::Formatter<'_>) -> fmt::Result {
        let Self { number, at, .. } = self;
        match Kind::of_number(self.kind) {
            Some(kind) => write!(f, "record {number} ({kind}), at byte {at}"),
            None => write!(f, "record {number}, at byte {at}"),
        }
    }
}

/// Goes through the records that stand whole in a parcel, up to its end or to one that is cut short.
pub struct Records<'a> {
    parcel: &'a [u8],
    /// The records that were gone through.
    pub number: usize,
    /// The first byte behind them.
    pub at: usize,
}

impl<'a> Records<'a> {
    pub fn of(parcel: &'a [u8]) -> Self {
        let (number, at) = (0, 0);
        Self { parcel, number, at }
    }

    /// The bytes that are left.
    pub fn left(&self) -> &'a [u8] {
        &self.parcel[self.at..]
    }

    /// What the next record says of itself, with the bytes behind that; none where there are too few.
    pub fn begun(&self) -> Option<(Record, &'a [u8])> {
        let (start, rest) = self.left().split_first_chunk::<{ Record::START }>()?;
        let [a, b, c, d, low, high] = *start;
        let record = Record {
            number: self.number + 1,
            at: self.at,
            length: u32::from_le_bytes([a, b, c, d]),
            kind: u16::from_le_bytes([low, high]),
        };
        Some((record, rest))
    }
}

impl Iterator for Records<'_> {
    type Item = Record;

    fn next(&mut self) -> Option<Record> {
        let (record, rest) = self.begun()?;
        let rest = rest.get(record.length as usize..)?;
        self.number = record.number;
        self.at = self.parcel.len() - rest.len();
        Some(record)
    }
}

/// The size and the ratio's number that a parcel's head says; none where there are too few bytes for them.
pub fn head(parcel: &[u8]) -> Option<(Size, usize)> {
    let payload = parcel.get(Record::START..)?.first_chunk::<6>()?;
    let [width, height, ratio] =
        [0, 2, 4].map(|at| u16::from_le_bytes([payload[at], payload[at + 1]]).into());
    Some((Size::new(width, height), ratio))
}
