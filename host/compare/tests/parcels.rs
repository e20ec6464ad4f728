//! Parcels against the second implementation where all of them can be gone through, and a layer's way from one desk to
//! the other.
//!
//! `SAFETEAL_SEED` sets the seed of the numbers in them.
#![cfg(not(oracle_absent))]

use compare::check::answer::Answer;
use compare::check::case::{compare, Case};
use compare::check::fit::{Fit, KINDS};
use compare::check::inputs::{pitch, plane, sizes};
use compare::check::layer::{Layer, Number};
use compare::check::parcel_read::ParcelRead;
use compare::check::parcel_sizes::ParcelSizes;
use compare::check::parcel_write::ParcelWrite;
use compare::check::parcels::{any_order, Pieces, Record};
use compare::check::peel::Peel;
use compare::check::rng::Rng;
use compare::check::run::seed;
use compare::second::parcel::{Head, PARTS};
use safeteal::ffi::{self, Sizes};
use words::note;

/// The right answer's word, which is the library's too.
fn held<C: Case>(case: &C, place: &str) -> u64 {
    let compared = compare(case);
    assert_eq!(compared.difference, None, "{}, {place}", C::NAME);
    compared.answer
}

/// The number of a reader with slices for a layer of these sizes. Where it accepts, so does the call for the sizes.
fn read(rng: &mut Rng, parcel: Vec<u8>, head: Head, place: &str) -> u64 {
    let number = held(&ParcelRead::lent(rng, parcel.clone(), head), place);
    let sizes = held(&ParcelSizes { parcel }, place);
    assert_eq!(sizes, if number == 4 { 0 } else { number }, "{place}");
    number
}

/// All orders of kinds 2 to 6.
fn orders() -> Vec<[u16; 5]> {
    let mut orders: Vec<Vec<u16>> = vec![Vec::new()];
    for _ in PARTS {
        let longer = |order: &Vec<u16>| {
            let rest = PARTS.into_iter().filter(|kind| !order.contains(kind));
            rest.map(|kind| [&order[..], &[kind]].concat())
                .collect::<Vec<_>>()
        };
        orders = orders.iter().flat_map(longer).collect();
    }
    let order = |order: Vec<u16>| order.try_into().expect("five kinds");
    orders.into_iter().map(order).collect()
}

/// Sizes of small parcels, one for each ratio and some with several cells.
const SMALL: [(usize, usize, usize); 6] = [
    (1, 1, 1),
    (2, 2, 2),
    (4, 4, 4),
    (9, 2, 1),
    (2, 18, 2),
    (12, 20, 4),
];

#[test]
fn every_order_of_kinds_is_read() {
    let rng = &mut Rng::of(seed(), "orders", 0);
    assert_eq!(orders().len(), 120);
    for size in SMALL {
        for order in orders() {
            let head = Head::new(size);
            let parcel = Pieces::of(rng, head, order).bytes();
            assert_eq!(read(rng, parcel, head, &format!("{size:?}, {order:?}")), 0);
        }
    }
}

#[test]
fn every_prefix_of_a_parcel_is_refused() {
    let rng = &mut Rng::of(seed(), "prefixes", 0);
    for size in SMALL {
        let (head, order) = (Head::new(size), any_order(rng));
        let pieces = Pieces::of(rng, head, order);
        let parcel = pieces.bytes();
        let mut whole = 0;
        for length in 0..parcel.len() {
            let place = format!("{size:?}, {order:?}, {length} bytes");
            let number = read(rng, parcel[..length].to_vec(), head, &place);
            assert!([9, 10].contains(&number), "{place}");
            whole += usize::from(number == 10);
        }
        assert_eq!(whole, 6, "a prefix of whole records for each but the last");
    }
}

#[test]
fn every_byte_of_a_parcel_changed() {
    let rng = &mut Rng::of(seed(), "bytes", 0);
    for size in [(1, 1, 1), (4, 2, 2)] {
        let (head, order) = (Head::new(size), any_order(rng));
        let parcel = Pieces::of(rng, head, order).bytes();
        for at in 0..parcel.len() {
            for byte in 0..=255 {
                let mut changed = parcel.clone();
                changed[at] = byte;
                read(
                    rng,
                    changed,
                    head,
                    &format!("{size:?}, byte {at} is {byte}"),
                );
            }
        }
    }
}

/// A parcel of one pixel with these kinds in its records: all of them two bytes long, but for a first one of kind 1.
fn pixel(kinds: &[u16]) -> Vec<u8> {
    let head = Head::new((1, 1, 1));
    let record = |(at, &kind): (usize, &u16)| match (at, kind) {
        (0, 1) => Record::new(kind, head.payload()),
        _ => Record::new(kind, vec![at as u8, kind as u8]),
    };
    let records = kinds.iter().enumerate().map(record).collect();
    let tail = Vec::new();
    Pieces { records, tail }.bytes()
}

/// Each run of so many kinds out of these; how many are accepted.
fn runs(many: u32, kinds: &[u16]) -> usize {
    let rng = &mut Rng::of(seed(), "runs", 0);
    let of = |number: usize| -> Vec<u16> {
        let kind = |at| kinds[number / kinds.len().pow(at) % kinds.len()];
        (0..many).map(kind).collect()
    };
    let accepted = |number: &usize| {
        let run = of(*number);
        let place = format!("kinds {run:?}");
        let number = read(rng, pixel(&run), Head::new((1, 1, 1)), &place);
        assert!([0, 10].contains(&number), "{place}: {number}");
        number == 0
    };
    (0..kinds.len().pow(many)).filter(accepted).count()
}

#[test]
fn every_run_of_kinds_but_120_is_refused() {
    let known_and_not: [u16; 8] = [0, 1, 2, 3, 4, 5, 6, 7];
    assert_eq!(runs(6, &known_and_not), 120);
    assert_eq!(runs(5, &known_and_not), 0);
    assert_eq!(runs(7, &[1, 2, 3, 4, 5, 6]), 0);
    assert_eq!(runs(3, &[0, 1, 7, 255, 256, 257, 513, 65_535]), 0);
}

#[test]
fn every_head_at_the_ends_of_the_domain() {
    const NUMBERS: [usize; 14] = [0, 1, 2, 3, 4, 5, 6, 7, 8, 12, 4095, 4096, 4097, 65_535];
    let (rng, mut accepted) = (&mut Rng::of(seed(), "heads", 0), 0);
    for width in NUMBERS {
        for height in NUMBERS {
            for ratio in NUMBERS {
                let head = Head::new((width, height, ratio));
                // Payloads of the lengths that the head calls for, or of one pixel where that is too much to make.
                let small = head.parcel_bytes() < 200_000;
                let made = if small { head } else { Head::new((1, 1, 1)) };
                let mut pieces = Pieces::of(rng, made, PARTS);
                pieces.records[0] = Record::new(1, head.payload());
                let number = read(rng, pieces.bytes(), made, &format!("{head:?}"));
                assert!([0, 11].contains(&number), "{head:?}: {number}");
                accepted += usize::from(number == 0);
            }
        }
    }
    assert!(accepted > 100, "{accepted} heads are accepted");
}

#[test]
fn every_length_of_a_lent_slice() {
    let rng = &mut Rng::of(seed(), "lengths", 0);
    for size in SMALL {
        let good = ParcelRead::sized(rng, size);
        let lengths = |length: usize| {
            let beside = [length - 1, length, length + 1];
            beside.into_iter().chain([0, 1, length / 2, 2 * length])
        };
        let mut accepted = 0;
        for luma in lengths(good.luma.len()) {
            for chroma1 in lengths(good.chroma1.len()) {
                for chroma2 in lengths(good.chroma2.len()) {
                    let mut case = good.clone();
                    case.luma.resize(luma, 7);
                    case.chroma1.resize(chroma1, 7);
                    case.chroma2.resize(chroma2, 7);
                    let place = format!("{size:?}, lengths {luma}, {chroma1}, {chroma2}");
                    let number = held(&case, &place);
                    assert!([0, 4].contains(&number), "{place}: {number}");
                    accepted += usize::from(number == 0);
                }
            }
        }
        assert_eq!(accepted, 1, "{size:?}");
    }
}

type Edit = Box<dyn Fn(&mut Pieces)>;

/// Changes of one record, where there is such a one.
fn edits_of(at: usize) -> Vec<Edit> {
    let edit = |change: fn(&mut Record)| -> Edit {
        Box::new(move |pieces: &mut Pieces| pieces.records.get_mut(at).into_iter().for_each(change))
    };
    let payload = |change: fn(&mut Vec<u8>)| -> Edit {
        Box::new(move |pieces: &mut Pieces| {
            if let Some(record) = pieces.records.get_mut(at) {
                let mut payload = record.payload.clone();
                change(&mut payload);
                record.put(payload);
            }
        })
    };
    let moved = |change: fn(&mut Vec<Record>, usize)| -> Edit {
        Box::new(move |pieces: &mut Pieces| {
            if at < pieces.records.len() {
                change(&mut pieces.records, at);
            }
        })
    };
    vec![
        edit(|record| record.length = record.length.wrapping_sub(1)),
        edit(|record| record.length = record.length.wrapping_add(1)),
        edit(|record| record.length = u32::MAX),
        edit(|record| record.length |= 1 << 16),
        edit(|record| record.kind = 0),
        edit(|record| record.kind = 7),
        edit(|record| record.kind |= 1 << 8),
        edit(|record| record.kind = record.kind % 6 + 1),
        payload(|bytes| bytes.truncate(bytes.len().saturating_sub(1))),
        payload(|bytes| bytes.push(0)),
        payload(|bytes| bytes.extend([0, 0])),
        payload(|bytes| bytes.fill(0)),
        payload(|bytes| bytes.fill(255)),
        moved(|records, at| drop(records.remove(at))),
        moved(|records, at| records.insert(at, records[at].clone())),
        moved(|records, at| records[..=at].rotate_right(1)),
    ]
}

/// Two faults at once, each of many: which number comes first, and that slices of a wrong length come last.
#[test]
fn every_pair_of_faults() {
    let rng = &mut Rng::of(seed(), "pairs", 0);
    let head = Head::new((2, 2, 2));
    let mut edits: Vec<Edit> = (0..6).flat_map(edits_of).collect();
    for more in [1, 5, 6] {
        edits.push(Box::new(move |pieces| pieces.tail.extend(vec![0; more])));
    }
    let (good, mut met) = (Pieces::of(rng, head, PARTS), [0; 12]);
    for (first, one) in edits.iter().enumerate() {
        for (second, other) in edits.iter().enumerate() {
            let mut pieces = good.clone();
            one(&mut pieces);
            other(&mut pieces);
            for lent in [head, Head::new((4, 2, 2))] {
                let place = format!("faults {first} and {second}, slices for {lent:?}");
                let number = read(rng, pieces.bytes(), lent, &place);
                met[number as usize] += 1;
            }
        }
    }
    note(&format!("parcels, two faults at once, by number: {met:?}"));
    assert!([0, 4, 9, 10, 11].into_iter().all(|number| met[number] > 0));
}

/// Layers of a size, longer than any that the differential run makes, through writer and reader.
fn travel(width: usize, height: usize) {
    for ratio in [1, 2, 4] {
        let rng = &mut Rng::of(seed(), "whole layers", ratio as u64);
        let size = (width, height, ratio);
        assert_eq!(held(&ParcelWrite::sized(rng, size), "a whole layer"), 0);
        assert_eq!(held(&ParcelRead::sized(rng, size), "a whole parcel"), 0);
    }
}

#[test]
fn whole_layers_travel() {
    travel(1920, 1080);
}

#[test]
#[ignore = "some seconds and 2 GB of memory"]
fn the_largest_layers_travel() {
    travel(4096, 4096);
}

/// Clips that are fitted at one desk.
const CLIPS: u64 = 3000;

/// The fitted layer of a random clip, where the fit is accepted.
fn fitted(rng: &mut Rng) -> Option<Layer<i16>> {
    let (size, kind) = (sizes(rng, 40), rng.below(KINDS));
    let mut fit = Fit::of_kind(rng, size, kind);
    (fit.ours() == 0).then(|| Layer {
        luma_pitch: fit.width,
        chroma_pitch: fit.width / fit.ratio,
        width: fit.width,
        height: fit.height,
        ratio: fit.ratio,
        luma: fit.luma,
        chroma1: fit.chroma1,
        chroma2: fit.chroma2,
    })
}

/// The parcel of a layer.
fn sent(rng: &mut Rng, layer: &Layer<i16>) -> Vec<u8> {
    let head = Head::new((layer.width, layer.height, layer.ratio));
    let mut desk = ParcelWrite {
        layer: layer.clone(),
        parcel: rng.bytes(head.parcel_bytes() as usize),
    };
    assert_eq!(desk.ours(), 0);
    desk.parcel
}

/// The layer that the other desk has, which knows the parcel alone.
fn received(rng: &mut Rng, parcel: Vec<u8>) -> Layer<i16> {
    let Sizes {
        word,
        width,
        height,
        ratio,
    } = ffi::parcel_sizes(&parcel);
    assert_eq!(word, 0);
    let mut desk = ParcelRead::lent(rng, parcel, Head::new((width, height, ratio)));
    let read = desk.ours();
    assert_eq!(
        (read.word(), read.width, read.height, read.ratio),
        (0, width, height, ratio)
    );
    Layer {
        luma: desk.luma,
        chroma1: desk.chroma1,
        chroma2: desk.chroma2,
        luma_pitch: width,
        chroma_pitch: width / ratio,
        width,
        height,
        ratio,
    }
}

/// The same layer with junk between its rows and behind it.
fn padded(rng: &mut Rng, layer: &Layer<i16>) -> Layer<i16> {
    let mut made = Layer::random(rng, (layer.width, layer.height, layer.ratio));
    let copy = |to: &mut [i16], pitch: usize, from: &[i16], row: usize| {
        for (to, from) in to.chunks_mut(pitch).zip(from.chunks(row)) {
            to[..row].copy_from_slice(from);
        }
    };
    copy(&mut made.luma, made.luma_pitch, &layer.luma, layer.width);
    let (pitch, row) = (made.chroma_pitch, layer.chroma_pitch);
    copy(&mut made.chroma1, pitch, &layer.chroma1, row);
    copy(&mut made.chroma2, pitch, &layer.chroma2, row);
    made
}

/// What a peel of one plane answers and leaves.
fn peeled<T: Number>(rng: &mut Rng, layer: &Layer<i16>, peel: &Peel<i16>) -> (u64, Vec<u8>) {
    let mut desk = Peel::<T> {
        layer: T::layer(layer.clone(), rng),
        plane: peel.plane,
        output: peel.output.clone(),
        output_pitch: peel.output_pitch,
        raw: peel.raw.clone(),
        raw_pitch: peel.raw_pitch,
    };
    (desk.ours(), desk.output)
}

/// What is lifted with the fitted layer and with the one that was sent, on one plane; how many pixels.
fn lifted(rng: &mut Rng, fitted: &Layer<i16>, read: &Layer<i16>, number: usize) -> u64 {
    let (width, height) = fitted.plane(number);
    let (output_pitch, raw_pitch) = (pitch(rng, width, height), pitch(rng, width, height));
    let peel = Peel {
        layer: fitted.clone(),
        plane: number,
        output: plane(rng, output_pitch, width, height),
        output_pitch,
        raw: plane(rng, raw_pitch, width, height),
        raw_pitch,
    };
    let first = peeled::<i16>(rng, fitted, &peel);
    assert_eq!(first.0 % 256, 0, "an accepted peel");
    assert!(first == peeled::<i16>(rng, read, &peel), "lent as numbers");
    assert!(first == peeled::<u8>(rng, read, &peel), "lent as bytes");
    first.0 / 256
}

/// A layer is fitted at one desk, sent with its kinds in any order, and lifts the same at the other.
#[test]
fn a_layer_lifts_the_same_at_the_other_desk() {
    let (seed, mut layers, mut counts) = (seed(), 0, [0; 3]);
    for index in 0..CLIPS {
        let rng = &mut Rng::of(seed, "desks", index);
        let Some(layer) = fitted(rng) else {
            continue;
        };
        let place = format!("seed {seed}, clip {index}");
        let parcel = sent(rng, &layer);
        let other = padded(rng, &layer);
        assert!(sent(rng, &other) == parcel, "{place}: padding travels");
        let mut pieces = Pieces::split(&parcel);
        let order = any_order(rng);
        pieces.records[1..]
            .sort_by_key(|record| order.iter().position(|kind| *kind == record.kind));
        let read = received(rng, pieces.bytes());
        // The tails of a fitted layer are 0 as well: so every number is the same, and not those of the layer alone.
        assert!(read.luma == layer.luma, "{place}: luma");
        assert!(read.chroma1 == layer.chroma1, "{place}: plane 1");
        assert!(read.chroma2 == layer.chroma2, "{place}: plane 2");
        for (plane, count) in counts.iter_mut().enumerate() {
            *count += lifted(rng, &layer, &read, plane);
        }
        layers += 1;
    }
    note(&format!(
        "desks, seed {seed}: {layers} layers of {CLIPS} clips; pixels lifted by plane: {counts:?}"
    ));
    assert!(layers > CLIPS / 2, "most fits are accepted");
    assert!(
        counts.iter().all(|count| *count > 0),
        "every plane is lifted"
    );
}
