//! What the parcels of the differential run are: the second implementation judges them.

use std::collections::{BTreeMap, BTreeSet};

use super::faults::FAULTS;
use super::{smaller, Pieces};
use crate::check::case::Case;
use crate::check::damage::input;
use crate::check::parcel_read::ParcelRead;
use crate::check::parcel_write::ParcelWrite;
use crate::check::rng::Rng;
use crate::second::parcel::opened;

const CASES: u64 = 20_000;

fn number(parcel: &[u8]) -> u64 {
    opened(parcel).err().unwrap_or(0)
}

#[test]
fn pieces_are_the_parcels_bytes() {
    for index in 0..CASES {
        let case = input::<ParcelRead>(&mut Rng::of(1, "pieces", index));
        let pieces = Pieces::split(&case.parcel);
        assert_eq!(pieces.bytes(), case.parcel, "case {index}");
    }
}

/// How often each number is met: not too seldom, so that what a run says is not of refusals alone, nor of one row.
fn assert_met<C: Case>(least: &[(u64, u64)]) {
    let mut met = BTreeMap::new();
    for index in 0..CASES {
        let case = input::<C>(&mut Rng::of(2, "met", index));
        *met.entry(case.refusal()).or_insert(0) += 1;
    }
    for (number, hundredths) in least {
        let cases = met.remove(number).unwrap_or(0);
        assert!(
            cases * 100 >= hundredths * CASES,
            "{}: {number} is answered in {cases} of {CASES} cases only",
            C::NAME
        );
    }
    assert!(met.is_empty(), "not in the list: {met:?}");
}

#[test]
fn every_number_is_met() {
    assert_met::<ParcelRead>(&[(0, 25), (4, 5), (9, 8), (10, 8), (11, 8)]);
    assert_met::<ParcelWrite>(&[(0, 50), (1, 2), (2, 2), (3, 2), (4, 5)]);
}

/// Good parcels have their kinds in every order, every ratio, all small sizes and the largest, every number.
#[test]
fn good_parcels_are_of_every_kind() {
    let (mut orders, mut ratios, mut sides) = (BTreeSet::new(), BTreeSet::new(), BTreeSet::new());
    let mut numbers = BTreeSet::new();
    for index in 0..CASES {
        let case = ParcelRead::random(&mut Rng::of(3, "good", index));
        let parcel = opened(&case.parcel).expect("a good parcel");
        let records = Pieces::split(&case.parcel).records;
        let kinds: Vec<u16> = records.iter().map(|record| record.kind).collect();
        orders.insert(kinds);
        ratios.insert(parcel.head.ratio);
        sides.extend([parcel.head.width, parcel.head.height]);
        numbers.extend(parcel.layer().luma);
    }
    assert_eq!(orders.len(), 120);
    assert_eq!(ratios, BTreeSet::from([1, 2, 4]));
    assert!((1..=40).chain([4096]).all(|side| sides.contains(&side)));
    assert_eq!(numbers.len(), 65_536, "every number of 16 bits");
}

/// What each fault by itself makes of a good parcel. Some can leave it good, as two kinds exchanged at ratio 1.
#[test]
fn faults_do_what_their_names_say() {
    let may = |name: &str| -> &[u64] {
        match name {
            "cut short" => &[9, 10],
            "bytes behind" => &[9, 10, 11],
            "a length beside" => &[9, 10, 11],
            "a huge length" | "bytes the other way round" => &[0, 9, 10, 11],
            "an unknown kind" => &[10],
            "a repeated kind" | "the head elsewhere" => &[0, 10],
            "a record twice" | "a record missing" => &[10],
            "empty records" => &[10],
            "a head of another length" | "a head outside the domain" => &[11],
            "another number in the head" => &[0, 11],
            "a payload of another length" => &[11],
            "two kinds exchanged" => &[0, 10, 11],
            _ => &[0, 9, 10, 11],
        }
    };
    for (name, fault) in FAULTS {
        let mut met = BTreeSet::new();
        for index in 0..2000 {
            let rng = &mut Rng::of(4, name, index);
            let mut pieces = Pieces::split(&ParcelRead::random(rng).parcel);
            fault(&mut pieces, rng);
            met.insert(number(&pieces.bytes()));
        }
        let wrong: Vec<_> = met.iter().filter(|met| !may(name).contains(met)).collect();
        assert!(wrong.is_empty(), "{name}: {wrong:?}");
        assert!(met.iter().any(|met| *met > 0), "{name}: nothing is refused");
    }
}

/// Smaller parcels are smaller, and a good one can be made as small as one pixel.
#[test]
fn smaller_parcels_lead_to_one_pixel() {
    for index in 0..200 {
        let mut parcel = ParcelRead::random(&mut Rng::of(5, "smaller", index)).parcel;
        let next = |parcel: &[u8]| {
            let mut made = smaller(parcel).into_iter();
            made.find(|made| made.len() < parcel.len() && number(made) == 0)
        };
        while let Some(made) = next(&parcel) {
            parcel = made;
        }
        assert_eq!(parcel.len(), 52, "case {index}");
    }
}
