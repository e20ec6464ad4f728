//! Whole fits of 1920 by 1080 against the Rust, of every kind of sums: a minute or two, so only when asked for.
//!
//! `cargo test --release --test whole_fits -- --ignored`; `SAFETEAL_SEED` sets the seed.
#![cfg(not(oracle_absent))]

use compare::check::case::compare;
use compare::check::fit::{Fit, KINDS};
use compare::check::rng::Rng;
use compare::check::run::seeds;
use words::note;

#[test]
#[ignore = "a minute or two"]
fn whole_fits_are_the_rusts() {
    let seed = seeds()[0];
    for kind in 0..KINDS {
        for ratio in [1, 2, 4] {
            let mut rng = Rng::of(seed, "whole fits", (4 * kind + ratio) as u64);
            let compared = compare(&Fit::of_kind(&mut rng, (1920, 1080, ratio), kind));
            let (answer, entries) = (compared.answer, compared.entries.tail());
            note(&format!(
                "whole fit, kind {kind}, ratio {ratio}: {answer}{entries}"
            ));
            assert_eq!(compared.difference, None);
        }
    }
}
