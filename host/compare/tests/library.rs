//! The library's types and methods on the inputs of the differential run: the same bytes and answers as the C
//! interface, and for each refusal an argument that is named.
//!
//! `SAFETEAL_SEED` sets the seed.
#![cfg(not(oracle_absent))]

use compare::check::answer::{unlike, Answer};
use compare::check::case::{difference, Case};
use compare::check::damage::input;
use compare::check::layer::Number;
use compare::check::rng::Rng;
use compare::check::run::seed;
use compare::check::walk::Walk;
use compare::check::{
    apply, assemble, distances, empty, fit, hold, mask, parcel_read, parcel_sizes, parcel_write,
    peel, render, stats, unpeel, walk_due, walk_layer, walk_pair, walk_start,
};
use safeteal::ffi::{self, Sizes, Walked};
use safeteal::{
    Channel, Error, LayerMut, Limits, Mask, Motion, Parts, Plane, PlaneMut, Progress, Ratio,
    Refusal, Size,
};

const CASES: u64 = 4000;

/// A case that can be put to the library.
trait Through: Case {
    /// The library's answer, as C gives it; none for numbers that its types cannot hold.
    fn library(&mut self) -> Option<Result<Self::Answer, Error>>;
}

fn same<C: Through>() {
    let seed = seed();
    let (mut accepted, mut refused) = (0, 0);
    for index in 0..CASES {
        let place = format!("{}, seed {seed}, case {index}", C::NAME);
        let case = input::<C>(&mut Rng::of(seed, C::NAME, index));
        let (mut direct, mut through) = (case.clone(), case);
        let right = direct.ours();
        let word = right.word();
        match through.library() {
            None => continue,
            Some(Ok(answer)) => {
                accepted += 1;
                assert_eq!(unlike(answer, right), None, "{place}");
            }
            Some(Err(error)) => {
                refused += 1;
                let (refusal, words) = (error.refusal(), error.to_string());
                assert_eq!(u64::from(refusal.number()), word, "{place}");
                let named = !words.ends_with(&refusal.to_string());
                assert!(named, "{place}: no argument is named: {words}");
            }
        }
        assert_eq!(difference(&mut direct, &mut through, word), None, "{place}");
    }
    let refuses = C::NUMBERS != [0];
    assert!(
        accepted > 100 && (refused > 0) == refuses,
        "{}, seed {seed}: {accepted} accepted, {refused} refused",
        C::NAME
    );
}

macro_rules! tests {
    ($($name:ident: $case:ty,)*) => {
        $(#[test]
        fn $name() {
            same::<$case>();
        })*
    };
}

tests! {
    distances_through_the_library: distances::Distances,
    mask_through_the_library: mask::Mask,
    apply_through_the_library: apply::Apply,
    hold_through_the_library: hold::Hold,
    peel_through_the_library: peel::Peel<u8>,
    unpeel_through_the_library: unpeel::Unpeel<u8>,
    peel_numbers_through_the_library: peel::Peel<i16>,
    unpeel_numbers_through_the_library: unpeel::Unpeel<i16>,
    empty_through_the_library: empty::Empty,
    stats_through_the_library: stats::Stats,
    assemble_through_the_library: assemble::Assemble,
    fit_through_the_library: fit::Fit,
    render_through_the_library: render::Render,
    parcel_write_through_the_library: parcel_write::ParcelWrite,
    parcel_read_through_the_library: parcel_read::ParcelRead,
    parcel_sizes_through_the_library: parcel_sizes::ParcelSizes,
    walk_start_through_the_library: walk_start::WalkStart,
    walk_pair_through_the_library: walk_pair::WalkPair,
    walk_layer_through_the_library: walk_layer::WalkLayer,
    walk_due_through_the_library: walk_due::WalkDue,
}

fn done(answer: Result<(), Error>) -> Option<Result<u64, Error>> {
    Some(answer.map(|()| 0))
}

fn counted(answer: Result<u64, Error>) -> Option<Result<u64, Error>> {
    Some(answer.map(|count| 256 * count))
}

fn sized(answer: Result<(Size, Ratio), Error>) -> Option<Result<Sizes, Error>> {
    Some(answer.map(|(size, ratio)| Sizes {
        word: 0,
        width: size.width,
        height: size.height,
        ratio: ratio.number(),
    }))
}

impl Through for distances::Distances {
    fn library(&mut self) -> Option<Result<u64, Error>> {
        done(safeteal::distances(&mut self.cells, self.width))
    }
}

impl Through for mask::Mask {
    fn library(&mut self) -> Option<Result<u64, Error>> {
        let size = Size::new(self.width, self.height);
        let limits = Limits {
            limit: self.limit,
            edge: self.edge,
            tolerance: self.tolerance,
        };
        let [first, second] =
            [&self.first, &self.second].map(|data| Plane::pitched(data, size, self.pitch));
        done(safeteal::mask(first, second, limits, &mut self.still))
    }
}

impl Through for apply::Apply {
    fn library(&mut self) -> Option<Result<u64, Error>> {
        let size = Size::new(self.width, self.height);
        let still = Mask::new(&self.still, self.still_width);
        let output = PlaneMut::pitched(&mut self.output, size, self.output_pitch);
        let [first, second] =
            [&self.first, &self.second].map(|data| Plane::pitched(data, size, self.pitch));
        done(safeteal::apply(output, first, second, still, self.time))
    }
}

impl Through for hold::Hold {
    fn library(&mut self) -> Option<Result<u64, Error>> {
        let size = Size::new(self.width, self.height);
        let mask = Mask::new(&self.mask, self.mask_width);
        let held = Plane::pitched(&self.held, size, self.held_pitch);
        let output = PlaneMut::pitched(&mut self.output, size, self.output_pitch);
        done(safeteal::hold(output, held, mask))
    }
}

impl<T: Number> Through for peel::Peel<T> {
    fn library(&mut self) -> Option<Result<u64, Error>> {
        let channel = Channel::of_number(self.plane)?;
        let (lent, output, raw) = self.lent();
        counted(lent.layer()?.peel(channel, output, raw))
    }
}

impl<T: Number> Through for unpeel::Unpeel<T> {
    fn library(&mut self) -> Option<Result<u64, Error>> {
        let channel = Channel::of_number(self.plane)?;
        let (lent, output, frames) = self.lent();
        counted(lent.layer()?.unpeel(channel, output, frames))
    }
}

impl Through for render::Render {
    fn library(&mut self) -> Option<Result<u64, Error>> {
        let channel = Channel::of_number(self.frames.plane)?;
        let motion = self.motion.lent(self.frames.layer.size(0));
        let (lent, output, frames) = self.frames.lent();
        let answer = lent
            .layer()?
            .render(channel, output, frames, &motion, self.algo);
        judged(counted(answer)?, &motion)
    }
}

/// An answer on a motion, where its blocks cover the frames. Where they do not, the library refuses what C takes.
fn judged<A>(answer: Result<A, Error>, motion: &Motion<'_>) -> Option<Result<A, Error>> {
    match &answer {
        Err(error) if error.to_string().contains("does not cover luma") => {
            assert_eq!(error.refusal(), Refusal::Size);
            assert!(!motion.covers(), "{error}");
            None
        }
        _ => Some(answer),
    }
}

impl Through for empty::Empty {
    fn library(&mut self) -> Option<Result<u64, Error>> {
        counted(self.layer.lent().layer()?.empty().map(u64::from))
    }
}

impl Through for stats::Stats {
    fn library(&mut self) -> Option<Result<u64, Error>> {
        let (pairs, size) = (self.pairs, Size::new(self.width, self.height));
        let ratio = Ratio::of_number(self.ratio)?;
        let (luma, chroma, pair) = self.lent();
        let answer = safeteal::stats(luma, chroma, pairs, size, ratio, &pair);
        judged(answer.map(|()| 0), &pair.motion)
    }
}

impl Through for assemble::Assemble {
    fn library(&mut self) -> Option<Result<u64, Error>> {
        let layer = LayerMut {
            luma: &mut self.luma,
            chroma: [&mut self.chroma1, &mut self.chroma2],
        };
        done(safeteal::assemble(
            Size::new(self.width, self.height),
            Ratio::of_number(self.ratio)?,
            &self.models,
            &self.cover,
            layer,
        ))
    }
}

impl Through for fit::Fit {
    fn library(&mut self) -> Option<Result<u64, Error>> {
        let size = Size::new(self.width, self.height);
        let ratio = Ratio::of_number(self.ratio)?;
        let ([previous, own, next], settings, work, layer) = self.lent();
        let [previous, next] =
            [previous, next].map(|part| Some(part).filter(|part| part.pairs > 0));
        let parts = Parts {
            previous,
            own,
            next,
        };
        done(safeteal::fit(parts, size, ratio, settings, work, layer))
    }
}

impl Through for parcel_write::ParcelWrite {
    fn library(&mut self) -> Option<Result<u64, Error>> {
        let layer = self.layer.lent().layer()?;
        done(layer.write_parcel(&mut self.parcel))
    }
}

impl Through for parcel_read::ParcelRead {
    fn library(&mut self) -> Option<Result<Sizes, Error>> {
        let layer = LayerMut {
            luma: &mut self.luma,
            chroma: [&mut self.chroma1, &mut self.chroma2],
        };
        sized(safeteal::read_parcel(&self.parcel, layer))
    }
}

impl Through for parcel_sizes::ParcelSizes {
    fn library(&mut self) -> Option<Result<Sizes, Error>> {
        sized(safeteal::parcel_sizes(&self.parcel))
    }
}

/// How far a walk has come; none for a ratio that the library cannot hold.
fn progress(walk: &Walk) -> Option<Progress> {
    let (width, height, ratio) = walk.sizes();
    Some(Progress {
        size: Size::new(width, height),
        ratio: Ratio::of_number(ratio)?,
        pairs: walk.pairs,
        added: walk.added,
        taken: walk.taken,
    })
}

/// The answer of an accepted call that has come so far.
fn walked(progress: Progress) -> Walked {
    let Progress {
        size: Size { width, height },
        ratio,
        pairs,
        added,
        taken,
    } = progress;
    Walked {
        word: 0,
        walk: ffi::Walk {
            width,
            height,
            ratio: ratio.number(),
            pairs,
            added,
            taken,
        },
    }
}

impl Through for walk_start::WalkStart {
    fn library(&mut self) -> Option<Result<Walked, Error>> {
        let (size, ratio) = (Size::new(self.width, self.height), self.ratio);
        let started = Progress::start(size, Ratio::of_number(ratio)?, self.pairs);
        Some(started.map(walked))
    }
}

impl Through for walk_pair::WalkPair {
    fn library(&mut self) -> Option<Result<Walked, Error>> {
        let mut progress = progress(&self.walk)?;
        let pair = self.planes.pair(&self.motion, self.walk.sizes());
        let answer = progress.push(&mut self.slots.lent(), self.number, &pair);
        judged(answer.map(|()| walked(progress)), &pair.motion)
    }
}

impl Through for walk_layer::WalkLayer {
    fn library(&mut self) -> Option<Result<Walked, Error>> {
        let mut progress = progress(&self.walk)?;
        let (slots, settings, work, layer) = self.lent();
        let answer = progress.layer(&slots, settings, work, layer);
        Some(answer.map(|()| walked(progress)))
    }
}

impl Through for walk_due::WalkDue {
    fn library(&mut self) -> Option<Result<u64, Error>> {
        counted(Ok(progress(&self.walk)?.is_due().into()))
    }
}
