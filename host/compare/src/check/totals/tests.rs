//! What is compared with the Rust and what is left out, over the inputs of the differential run.

use std::collections::BTreeMap;

use super::{Entries, Summed};
use crate::check::assemble::Assemble;
use crate::check::damage::input;
use crate::check::fit::Fit;
use crate::check::rng::Rng;
use crate::second::total::totals;

const CASES: u64 = 20_000;

/// The accepted ones of some inputs.
fn accepted<S: Summed>() -> impl Iterator<Item = S> {
    let cases = (0..CASES).map(|index| input::<S>(&mut Rng::of(4, S::NAME, index)));
    cases.filter(|case| case.refusal() == 0)
}

/// What is right in a clip: all as the Rust makes it, but for the entries that are left out. A clip without such is
/// compared whole; how many there are of either.
fn settled<S: Summed>() -> [u64; 2] {
    let mut clips = [0, 0];
    for mut case in accepted::<S>() {
        let (made, offsets, (width, ratio)) = (case.rust(), case.offsets(), case.across());
        let (answer, entries) = case.tallied();
        let [luma, chroma @ ..] = case.layer();
        assert_eq!((answer, luma == &made.luma), (0, true));
        let mut left_out = 0;
        for ((right, rust), offsets) in chroma.into_iter().zip(made.chroma).zip(offsets) {
            let totals = totals(&offsets, width, ratio);
            assert_eq!(right[totals.len()..], rust[totals.len()..]);
            for (at, total) in totals.into_iter().enumerate() {
                left_out += u64::from(total.leaves());
                let entry = if total.leaves() {
                    total.held()
                } else {
                    rust[at]
                };
                assert_eq!(right[at], entry);
            }
        }
        assert_eq!(entries.left_out(), left_out);
        clips[usize::from(left_out > 0)] += 1;
    }
    clips
}

#[test]
fn all_that_is_not_left_out_is_the_rusts() {
    for (name, clips) in [
        ("assemble", settled::<Assemble>()),
        ("fit", settled::<Fit>()),
    ] {
        let enough = clips.iter().all(|&clips| clips > CASES / 20);
        assert!(enough, "{name}: {clips:?}");
    }
}

/// Each end of the range, and what lies beside it, is a total in so many entries of each plane at ratios 2 and 4; and
/// so many totals come back from outside.
fn ends_are_met<S: Summed>(least: u64) {
    let (mut met, mut entries) = (BTreeMap::new(), Entries::default());
    for case in accepted::<S>() {
        let (width, ratio) = case.across();
        for (plane, offsets) in case.offsets().iter().enumerate() {
            for total in totals(offsets, width, ratio) {
                *met.entry((ratio, plane, total.whole())).or_insert(0) += 1;
                entries.note(total);
            }
        }
    }
    for whole in [32_767, 32_768, -32_768, -32_769] {
        for (ratio, plane) in [(2, 0), (2, 1), (4, 0), (4, 1)] {
            let entries = met.get(&(ratio, plane, whole)).copied().unwrap_or(0);
            let name = S::NAME;
            assert!(
                entries >= least,
                "{name}: {whole} {entries} times, {ratio}, {plane}"
            );
        }
    }
    let (compared, back) = (entries.compared, entries.back);
    assert!(entries.way().is_some() && back >= least, "{entries:?}");
    assert!(
        compared > entries.left_out(),
        "most entries are the Rust's: {entries:?}"
    );
}

#[test]
fn assemble_meets_the_ends() {
    ends_are_met::<Assemble>(100);
}

#[test]
fn fit_meets_the_ends() {
    ends_are_met::<Fit>(10);
}
