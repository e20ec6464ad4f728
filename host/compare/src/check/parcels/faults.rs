//! Faults in parcels that are good otherwise.

use super::{any_order, Pieces, Record};
use crate::check::rng::Rng;
use crate::second::parcel::Head;

/// Puts one, two or three faults into a good parcel.
pub fn spoil(parcel: &mut Vec<u8>, rng: &mut Rng) {
    let mut pieces = Pieces::split(parcel);
    for _ in 0..rng.pick(&[1, 1, 1, 1, 2, 2, 3]) {
        let (_, fault) = rng.pick(FAULTS);
        fault(&mut pieces, rng);
    }
    *parcel = pieces.bytes();
}

type Fault = fn(&mut Pieces, &mut Rng);

/// The faults, each with a name.
pub const FAULTS: &[(&str, Fault)] = &[
    ("cut short", cut),
    ("bytes behind", behind),
    ("a length beside", length_beside),
    ("a huge length", length_huge),
    ("an unknown kind", unknown),
    ("a repeated kind", repeated),
    ("a record twice", twice),
    ("a record missing", missing),
    ("the head elsewhere", head_elsewhere),
    ("empty records", empty),
    ("a head of another length", head_length),
    ("another number in the head", head_number),
    ("a head outside the domain", outside),
    ("a payload of another length", payload_length),
    ("two kinds exchanged", exchanged),
    ("bytes the other way round", turned),
    ("other bytes", damaged),
];

/// Any number of bytes from the front are left, now and then none.
fn cut(pieces: &mut Pieces, rng: &mut Rng) {
    pieces.change(|parcel| {
        let left = rng.below(parcel.len().max(1));
        parcel.truncate(if rng.once_in(20) { 0 } else { left });
    });
}

fn behind(pieces: &mut Pieces, rng: &mut Rng) {
    let more = 1 + rng.below(13);
    let any = rng.bytes(more);
    let zero = rng.once_in(2);
    let tail = any.into_iter().map(|byte| if zero { 0 } else { byte });
    pieces.tail.extend(tail);
}

/// The length alone is one or two off, none, or reaches over the next record's first bytes.
fn length_beside(pieces: &mut Pieces, rng: &mut Rng) {
    if let Some(record) = pieces.any(rng) {
        let length = record.length;
        record.length = rng.pick(&[
            length.wrapping_sub(1),
            length.wrapping_add(1),
            length.wrapping_sub(2),
            length.wrapping_add(2),
            length.wrapping_add(6),
            0,
        ]);
    }
}

/// A length that fits only where it is cut to fewer bits, taken with a sign, or added up in 32 bits: then the next
/// record would be one that is there.
fn length_huge(pieces: &mut Pieces, rng: &mut Rng) {
    let (places, at) = (pieces.places(), rng.below(pieces.records.len().max(1)));
    let aim = rng.pick(&places) as u32;
    let Some(record) = pieces.records.get_mut(at) else {
        return;
    };
    let (length, start) = (record.length, places[at] as u32 + 6);
    let near_the_end = u32::MAX - rng.below(16) as u32;
    record.length = rng.pick(&[
        u32::MAX,
        near_the_end,
        1 << 31,
        (1 << 31) - 1,
        length | 1 << 31,
        length.wrapping_add(1 << 16),
        length.wrapping_add(1 << 24),
        length.swap_bytes(),
        aim.wrapping_sub(start),
    ]);
}

fn unknown(pieces: &mut Pieces, rng: &mut Rng) {
    if let Some(record) = pieces.any(rng) {
        let kind = record.kind;
        record.kind = rng.pick(&[
            0,
            7,
            8,
            255,
            256,
            257,
            kind | 1 << 8,
            kind | 1 << 15,
            kind.swap_bytes(),
            65_535,
        ]);
    }
}

/// A record takes the kind of another, whose own is missing then.
fn repeated(pieces: &mut Pieces, rng: &mut Rng) {
    if let Some(kind) = pieces.any(rng).map(|record| record.kind) {
        pieces.any(rng).expect("there is one").kind = kind;
    }
}

/// A copy of a record, the head too, stands anywhere behind it.
fn twice(pieces: &mut Pieces, rng: &mut Rng) {
    if let Some(copy) = pieces.any(rng).cloned() {
        let at = 1 + rng.below(pieces.records.len());
        pieces.records.insert(at, copy);
    }
}

fn missing(pieces: &mut Pieces, rng: &mut Rng) {
    let at = rng.below(pieces.records.len().max(1));
    if at < pieces.records.len() {
        pieces.records.remove(at);
    }
}

fn head_elsewhere(pieces: &mut Pieces, rng: &mut Rng) {
    let many = pieces.records.len();
    if many > 1 {
        let at = 1 + rng.below(many - 1);
        if rng.once_in(2) {
            pieces.records.swap(0, at);
        } else {
            pieces.records[..=at].rotate_left(1);
        }
    }
}

/// Few or many records of one kind or any, without a payload.
fn empty(pieces: &mut Pieces, rng: &mut Rng) {
    let many = match rng.below(60) {
        0 => 2000,
        1..=20 => 1 + rng.below(60),
        _ => 1,
    };
    let (one, same) = (rng.below(9) as u16, rng.once_in(2));
    let at = rng.below(pieces.records.len() + 1);
    let record = |_| {
        let kind = if same { one } else { rng.below(9) as u16 };
        Record::new(kind, Vec::new())
    };
    let records: Vec<Record> = (0..many).map(record).collect();
    pieces.records.splice(at..at, records);
}

fn head_length(pieces: &mut Pieces, rng: &mut Rng) {
    if let Some(head) = pieces.records.first_mut() {
        let mut payload = head.payload.clone();
        payload.resize(rng.pick(&[0, 1, 2, 4, 5, 7, 8, 12]), 0);
        head.put(payload);
    }
}

/// A width, a height or a ratio in the head that the payloads were not made for.
fn head_number(pieces: &mut Pieces, rng: &mut Rng) {
    let at = 2 * rng.below(3);
    if let Some(head) = pieces.head() {
        let old = u16::from_le_bytes([head[at], head[at + 1]]);
        let numbers = [0, 1, 2, 3, 4, 5, 8, 16, 4095, 4096, 4097, 65_535];
        let new = match rng.below(5) {
            0 => old.wrapping_sub(1),
            1 => old.wrapping_add(1),
            2 => old | 1 << 8,
            _ => rng.pick(&numbers),
        };
        head[at..at + 2].copy_from_slice(&new.to_le_bytes());
    }
}

/// A head that is wrong by itself: all payloads have the lengths that it calls for.
fn outside(pieces: &mut Pieces, rng: &mut Rng) {
    let (side, ratio) = (1 + rng.below(3), rng.pick(&[1, 2, 4]));
    let (width, height) = (ratio * side, ratio * (1 + rng.below(3)));
    let beyond = if rng.once_in(10) { 65_535 } else { 4097 };
    let head = rng.pick(&[
        (0, height, ratio),
        (width, 0, ratio),
        (0, 0, 0),
        (beyond, 1, 1),
        (1, beyond, 1),
        (4100, 4, 4),
        (2, 4098, 2),
        (3 * width, 3 * height, 3),
        (8 * width, 8 * height, 8),
        (5, 10, 5),
        (width, height, 0),
        (2 * width + 1, 2 * height, 2),
        (4 * width, 4 * height + 2, 4),
        (1, 1, 2),
        (2, 6, 4),
    ]);
    let order = any_order(rng);
    *pieces = Pieces::of(rng, Head::new(head), order);
}

/// A payload of bytes more or less than it should have, with its length.
fn payload_length(pieces: &mut Pieces, rng: &mut Rng) {
    if let Some(record) = pieces.any(rng) {
        let mut payload = record.payload.clone();
        match rng.below(7) {
            0 => payload.clear(),
            1 => payload.truncate(payload.len() / 2),
            2 => payload.truncate(payload.len().saturating_sub(1)),
            3 => payload.truncate(payload.len().saturating_sub(2)),
            4 => payload.push(rng.bits() as u8),
            5 => payload.extend([0, 0]),
            _ => payload.extend_from_within(..),
        }
        record.put(payload);
    }
}

fn exchanged(pieces: &mut Pieces, rng: &mut Rng) {
    let many = pieces.records.len();
    if many > 1 {
        let (a, b) = (rng.below(many), rng.below(many));
        let (kind, other) = (pieces.records[a].kind, pieces.records[b].kind);
        (pieces.records[a].kind, pieces.records[b].kind) = (other, kind);
    }
}

/// A length, a kind or the head's numbers with the high byte first.
fn turned(pieces: &mut Pieces, rng: &mut Rng) {
    if rng.once_in(3) {
        if let Some(head) = pieces.head() {
            head.chunks_mut(2).for_each(<[u8]>::reverse);
        }
        return;
    }
    let length = rng.once_in(2);
    if let Some(record) = pieces.any(rng) {
        if length {
            record.length = record.length.swap_bytes();
        } else {
            record.kind = record.kind.swap_bytes();
        }
    }
}

fn damaged(pieces: &mut Pieces, rng: &mut Rng) {
    pieces.change(|parcel| {
        for _ in 0..1 + rng.below(6) {
            let at = rng.below(parcel.len().max(1));
            if let Some(byte) = parcel.get_mut(at) {
                *byte = match rng.below(4) {
                    0 => 0,
                    1 => *byte ^ 1 << rng.below(8),
                    2 => byte.wrapping_add(1),
                    _ => rng.bits() as u8,
                };
            }
        }
    });
}
