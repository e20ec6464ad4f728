//! Which record of a parcel is at fault.

use std::fmt;

use super::{many, Fault, Number, Search};
use crate::records::{head, Kind, Record, Records};
use crate::{Ratio, Refusal, Size};

/// What is wrong with a parcel, and where: its records are counted from 1, its bytes from 0.
#[derive(Clone, Copy, Debug, PartialEq)]
pub(crate) enum Flaw {
    /// The record of that number begins at that byte, and so many are left, too few for its length and its kind.
    Begun(usize, usize, usize),
    /// So many bytes are left for the record's payload.
    Cut(Record, usize),
    Unknown(Record),
    NotHead(Record),
    /// A record, and the one before it of the same kind.
    Again(Record, Record),
    /// So many records, up to that byte, and none of the kind.
    Missing(usize, usize, Kind),
    Unfit(Unfit),
}

/// What does not go with the head, where all records stand as they must.
#[derive(Clone, Copy, Debug, PartialEq)]
pub(crate) enum Unfit {
    /// A head of another length.
    Head(Record),
    /// A ratio that does not divide the size.
    Ratio(Size, usize),
    /// A payload that is not as long as a head of that size and ratio calls for.
    Payload(Record, Size, usize, usize),
}

impl fmt::Display for Flaw {
    fn fmt(&self, f: &mut fmt::Formatter<'_>) -> fmt::Result {
        match *self {
            Flaw::Begun(number, at, left) => write!(
                f,
                "record {number}, at byte {at}, has {} and must have {} before its payload",
                many(left, "byte"),
                Record::START
            ),
            Flaw::Cut(record, left) => write!(
                f,
                "{record}, says that its payload has {}, and the parcel has {left} left",
                payload(record)
            ),
            Flaw::Unknown(record) => {
                write!(
                    f,
                    "{record}, is of kind {}, and kinds are 1 to 6",
                    record.kind
                )
            }
            Flaw::NotHead(record) => write!(
                f,
                "{record}, is of kind {} and must be the head, of kind 1",
                record.kind
            ),
            Flaw::Again(record, before) => write!(
                f,
                "{record}, is of the same kind as {before}, and each kind must stand once"
            ),
            Flaw::Missing(records, end, kind) => write!(
                f,
                "the parcel ends at byte {end}, after {}, and none is of kind {} ({kind})",
                many(records, "record"),
                kind.number()
            ),
            Flaw::Unfit(unfit) => unfit.fmt(f),
        }
    }
}

impl fmt::Display for Unfit {
    fn fmt(&self, f: &mut fmt::Formatter<'_>) -> fmt::Result {
        match *self {
            Unfit::Head(record) => write!(
                f,
                "{record}, has a payload of {} and must have one of 6: width, height and ratio",
                payload(record)
            ),
            Unfit::Ratio(size, ratio) => write!(
                f,
                "the head's ratio, at byte 10, is {ratio}, and does not divide {size}"
            ),
            Unfit::Payload(record, size, ratio, must) => write!(
                f,
                "{record}, has a payload of {}, and a head of {size} at ratio {ratio} calls for {must}",
                payload(record)
            ),
        }
    }
}

/// The bytes that a record says its payload has.
fn payload(record: Record) -> String {
    many(record.length as usize, "byte")
}

impl Search {
    /// A parcel: each refusal is looked for in the whole of it.
    pub fn parcel(self, parcel: &[u8]) -> Self {
        let search = self
            .flaw(Refusal::Record, || cut(parcel))
            .flaw(Refusal::Kind, || kinds(parcel))
            .flaw(Refusal::Payload, || long(parcel).map(Flaw::Unfit));
        match head(parcel) {
            Some((size, ratio)) => search.head(size, ratio).flaw(Refusal::Payload, || {
                unfit(parcel, size, ratio).map(Flaw::Unfit)
            }),
            None => search,
        }
    }

    fn flaw(self, refusal: Refusal, flaw: impl FnOnce() -> Option<Flaw>) -> Self {
        self.note(refusal, || flaw().map(Fault::Parcel))
    }

    /// The numbers of a head of six bytes.
    fn head(self, size: Size, ratio: usize) -> Self {
        let (refusal, sides) = (Refusal::Payload, [1, 4096]);
        let name = "the head's ratio, at byte 10,";
        self.sizes(refusal, "the head's width, at byte 6,", size.width, sides)
            .sizes(refusal, "the head's height, at byte 8,", size.height, sides)
            .note(refusal, || match Ratio::of_number(ratio) {
                None => Some(Fault::NoneOf(name, Number::Size(ratio))),
                Some(_) if size.divided_by(ratio) => None,
                Some(_) => Some(Fault::Parcel(Flaw::Unfit(Unfit::Ratio(size, ratio)))),
            })
    }

    /// The slices of a layer that a parcel is read into, once all of the parcel is right.
    pub fn unpacked(self, parcel: &[u8], lengths: [usize; 3]) -> Self {
        let head = head(parcel).and_then(|(size, ratio)| Some((size, Ratio::of_number(ratio)?)));
        match head {
            Some((size, ratio)) => self.layer_slices(lengths, size, ratio),
            None => self,
        }
    }
}

/// The record that is cut short.
fn cut(parcel: &[u8]) -> Option<Flaw> {
    let mut records = Records::of(parcel);
    records.by_ref().for_each(drop);
    let left = records.left().len();
    match records.begun() {
        Some((record, rest)) => Some(Flaw::Cut(record, rest.len())),
        None => (left > 0).then_some(Flaw::Begun(records.number + 1, records.at, left)),
    }
}

/// The first record whose kind is none, or not the right one; or else the first kind that is missing.
fn kinds(parcel: &[u8]) -> Option<Flaw> {
    let mut records = Records::of(parcel);
    let mut found: Vec<Record> = Vec::new();
    for record in records.by_ref() {
        let before = found.iter().find(|before| before.kind == record.kind);
        match (Kind::of_number(record.kind), before) {
            (None, _) => return Some(Flaw::Unknown(record)),
            (Some(_), Some(before)) => return Some(Flaw::Again(record, *before)),
            (Some(kind), None) if found.is_empty() && kind != Kind::Head => {
                return Some(Flaw::NotHead(record));
            }
            (Some(_), None) => found.push(record),
        }
    }
    let stands = |kind: Kind| found.iter().any(|record| record.kind == kind.number());
    let missing = Kind::ALL.iter().copied().find(|kind| !stands(*kind));
    missing.map(|kind| Flaw::Missing(found.len(), records.at, kind))
}

/// A head that has not six bytes.
fn long(parcel: &[u8]) -> Option<Unfit> {
    let head = Records::of(parcel).next()?;
    (head.length != 6).then_some(Unfit::Head(head))
}

/// The first record whose payload is not as long as the head calls for.
fn unfit(parcel: &[u8], size: Size, ratio: usize) -> Option<Unfit> {
    Records::of(parcel).find_map(|record| {
        let must = Kind::of_number(record.kind)?.payload(size, ratio);
        let unfit = record.length as usize != must;
        unfit.then_some(Unfit::Payload(record, size, ratio, must))
    })
}
