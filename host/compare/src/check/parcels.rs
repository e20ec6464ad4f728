//! Parcels for the reader: good ones with their kinds in any order, faults in them, and smaller ones.

pub mod faults;
#[cfg(test)]
mod tests;

use super::inputs::{bytes, sizes};
use super::rng::Rng;
use crate::second::parcel::{Head, HEAD, PARTS};

/// A parcel in pieces.
#[derive(Clone, Debug, PartialEq)]
pub struct Pieces {
    pub records: Vec<Record>,
    /// Bytes behind the last record.
    pub tail: Vec<u8>,
}

/// A record, with the length that it says.
#[derive(Clone, Debug, PartialEq)]
pub struct Record {
    pub length: u32,
    pub kind: u16,
    pub payload: Vec<u8>,
}

impl Record {
    pub fn new(kind: u16, payload: Vec<u8>) -> Self {
        let length = u32::try_from(payload.len()).expect("a payload below 4 GB");
        Self {
            length,
            kind,
            payload,
        }
    }

    /// Another payload, with its length.
    pub fn put(&mut self, payload: Vec<u8>) {
        *self = Self::new(self.kind, payload);
    }
}

impl Pieces {
    /// A parcel of any numbers, with these sizes and this ratio in its head, good or not, and all payloads of the
    /// lengths that they call for.
    pub fn of(rng: &mut Rng, head: Head, kinds: [u16; 5]) -> Self {
        let part = |kind| Record::new(kind, bytes(rng, head.bytes(kind) as usize));
        let head = Record::new(HEAD, head.payload());
        Self {
            records: [head]
                .into_iter()
                .chain(kinds.into_iter().map(part))
                .collect(),
            tail: Vec::new(),
        }
    }

    /// The records up to the first that is cut short.
    pub fn split(parcel: &[u8]) -> Self {
        let (mut records, mut rest) = (Vec::new(), parcel);
        while let [a, b, c, d, e, f, behind @ ..] = rest {
            let length = u32::from_le_bytes([*a, *b, *c, *d]);
            let Some((payload, after)) = behind.split_at_checked(length as usize) else {
                break;
            };
            let kind = u16::from_le_bytes([*e, *f]);
            records.push(Record::new(kind, payload.to_vec()));
            rest = after;
        }
        Self {
            records,
            tail: rest.to_vec(),
        }
    }

    pub fn bytes(&self) -> Vec<u8> {
        let mut parcel = Vec::new();
        for record in &self.records {
            parcel.extend(record.length.to_le_bytes());
            parcel.extend(record.kind.to_le_bytes());
            parcel.extend(&record.payload);
        }
        parcel.extend(&self.tail);
        parcel
    }

    /// Where each record begins, and where the last one ends.
    fn places(&self) -> Vec<usize> {
        let mut places = vec![0];
        for record in &self.records {
            let last = places[places.len() - 1];
            places.push(last + 6 + record.payload.len());
        }
        places
    }

    /// Another parcel of the same pieces, where its bytes are changed.
    fn change(&mut self, change: impl FnOnce(&mut Vec<u8>)) {
        let mut parcel = self.bytes();
        change(&mut parcel);
        *self = Self::split(&parcel);
    }

    /// One of its records; none where there is none.
    fn any(&mut self, rng: &mut Rng) -> Option<&mut Record> {
        let at = rng.below(self.records.len().max(1));
        self.records.get_mut(at)
    }

    /// The head's payload, where the first record has one of six bytes.
    fn head(&mut self) -> Option<&mut [u8]> {
        let first = self.records.first_mut()?;
        Some(&mut first.payload[..]).filter(|payload| payload.len() == 6)
    }
}

/// A ratio and two sizes that it divides: 1 to 6, 1 to 40, few larger.
pub fn any_sizes(rng: &mut Rng) -> (usize, usize, usize) {
    match rng.below(400) {
        0 => sizes(rng, 200),
        1..=199 => sizes(rng, 6),
        _ => sizes(rng, 40),
    }
}

/// The kinds 2 to 6 in any order.
pub fn any_order(rng: &mut Rng) -> [u16; 5] {
    let mut kinds = PARTS;
    for last in (1..kinds.len()).rev() {
        kinds.swap(last, rng.below(last + 1));
    }
    kinds
}

/// Smaller parcels like this one: with half its records or all but one, without the bytes behind, with half a payload,
/// of smaller sizes.
pub fn smaller(parcel: &[u8]) -> Vec<Vec<u8>> {
    let pieces = Pieces::split(parcel);
    let part = |records: &[Record], tail: &[u8]| Pieces {
        records: records.to_vec(),
        tail: tail.to_vec(),
    };
    let (first, second) = pieces.records.split_at(pieces.records.len() / 2);
    let mut made = vec![
        part(first, &pieces.tail),
        part(second, &pieces.tail),
        part(&pieces.records, &[]),
    ];
    made.extend(resized(&pieces));
    for at in 0..pieces.records.len() {
        let mut without = pieces.clone();
        without.records.remove(at);
        let mut shorter = pieces.clone();
        let payload = &pieces.records[at].payload;
        shorter.records[at].put(payload[..payload.len() / 2].to_vec());
        made.extend([without, shorter]);
    }
    made.iter().map(Pieces::bytes).collect()
}

/// The same records at smaller sizes, where the first can be a head: each payload is as much too long or too short as
/// it was before.
fn resized(pieces: &Pieces) -> Vec<Pieces> {
    let Some(head) = pieces.records.first().and_then(head_of) else {
        return Vec::new();
    };
    let resize = |new: Head| {
        let mut made = pieces.clone();
        for record in made.records.iter_mut().skip(1) {
            let (old, new) = (head.bytes(record.kind), new.bytes(record.kind));
            if PARTS.contains(&record.kind) {
                let length = (record.payload.len() as u128 + new).saturating_sub(old);
                let mut payload = record.payload.clone();
                payload.truncate(length as usize);
                record.put(payload);
            }
        }
        made.records[0].payload[..6].copy_from_slice(&new.payload());
        made
    };
    smaller_sizes(head).into_iter().map(resize).collect()
}

/// The head that a record of six bytes or more begins with.
fn head_of(record: &Record) -> Option<Head> {
    record.payload.get(..6).and_then(Head::read)
}

/// One or both sides smaller; a ratio is divided out, or divides the sides as before.
pub fn smaller_sizes(head: Head) -> [Head; 5] {
    let (width, height, ratio) = (head.width, head.height, head.ratio.max(1));
    let half = |side: usize| side / ratio / 2 * ratio;
    let less = |side: usize| side.saturating_sub(ratio);
    [
        (width / ratio, height / ratio, head.ratio.min(1)),
        (half(width), height, head.ratio),
        (width, half(height), head.ratio),
        (less(width), height, head.ratio),
        (width, less(height), head.ratio),
    ]
    .map(Head::new)
}
