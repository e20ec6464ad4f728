//! A layer read pixel by pixel by the library is the layer that the calls read: on the layers of the differential run,
//! in either form, with any pitches.
//!
//! `SAFETEAL_SEED` sets the seed.
#![cfg(not(oracle_absent))]

use compare::check::case::Case;
use compare::check::damage::input;
use compare::check::empty::Empty;
use compare::check::layer::Number;
use compare::check::peel::Peel;
use compare::check::rng::Rng;
use compare::check::run::seed;
use safeteal::{Channel, LayerBuf, Texel};

const CASES: u64 = 3000;

/// The pixels that a peel writes: those that are equal over these starting bytes and over their opposites.
fn written<T: Number>(case: &Peel<T>) -> Vec<(usize, usize)> {
    let (mut once, mut again) = (case.clone(), case.clone());
    again.output.iter_mut().for_each(|byte| *byte = !*byte);
    let (word, same) = (once.ours(), again.ours());
    assert_eq!((word % 256, word), (0, same), "an accepted peel");
    let (width, height) = case.layer.plane(case.plane);
    let places = (0..height).flat_map(|y| (0..width).map(move |x| (x, y)));
    let place = |&(x, y): &(usize, usize)| y * case.output_pitch + x;
    let is_written = |at: usize| once.output[at] == again.output[at];
    let written: Vec<_> = places.filter(|at| is_written(place(at))).collect();
    assert_eq!(written.len() as u64, word / 256, "the count of a peel");
    written
}

fn layered_pixels_are_those_that_peel_writes<T: Number>() {
    let (seed, mut seen) = (seed(), 0);
    for index in 0..CASES {
        let case = Peel::<T>::random(&mut Rng::of(seed, "reading", index));
        let place = format!("seed {seed}, case {index}");
        let layer = case.layer.lent().layer().expect("an accepted layer");
        let channel = Channel::of_number(case.plane).expect("an accepted plane");
        let texels = layer.texels(channel);
        let written = written(&case);
        let layered: Vec<_> = texels.layered().collect();
        assert_eq!(layered, written, "{place}");
        assert!(written
            .iter()
            .all(|&(x, y)| texels.texel(x, y) != Texel::NONE));
        seen += written.len();

        // A copy without padding, and its bytes, are the same layer.
        let copy = layer.to_buf().expect("an accepted layer");
        let slices = copy.to_le_bytes();
        let slices = slices.each_ref().map(Vec::as_slice);
        let back = LayerBuf::from_le_bytes(slices, layer.size, layer.ratio);
        assert!(copy.texels(channel).layered().eq(written), "{place}");
        assert!(copy.texels(channel).iter().eq(texels.iter()), "{place}");
        assert!(copy.cells().iter().eq(layer.cells().iter()), "{place}");
        assert_eq!(back, Ok(copy), "{place}");
    }
    assert!(seen > 0, "seed {seed}: nothing was written");
}

#[test]
fn layered_pixels_of_layers_lent_as_numbers() {
    layered_pixels_are_those_that_peel_writes::<i16>();
}

#[test]
fn layered_pixels_of_layers_lent_as_bytes() {
    layered_pixels_are_those_that_peel_writes::<u8>();
}

/// Copying refuses a layer as the calls do, and a layer marks no cell exactly where `empty` says so.
#[test]
fn a_layer_is_refused_as_the_calls_refuse_it() {
    let (seed, mut refused) = (seed(), [0; 9]);
    for index in 0..CASES {
        let rng = &mut Rng::of(seed, "refused", index);
        let mut case = input::<Empty>(rng);
        let word = case.ours();
        let bytes = u8::layer(case.layer.clone(), rng);
        let (Some(layer), Some(bytes)) = (case.layer.lent().layer(), bytes.lent().layer()) else {
            continue;
        };
        let place = format!("seed {seed}, case {index}");
        let number = |copy: safeteal::Result<LayerBuf>| match copy {
            Ok(_) => 0,
            Err(error) => u64::from(error.refusal().number()),
        };
        assert_eq!(number(layer.to_buf()), word % 256, "{place}");
        assert_eq!(number(bytes.to_buf()), word % 256, "{place}");
        assert_eq!(layer.compare(&layer).is_ok(), word % 256 == 0, "{place}");
        refused[(word % 256) as usize] += 1;
        if word % 256 == 0 {
            let unmarked = layer.cells().iter().all(|distance| distance != 0);
            assert_eq!(unmarked, word / 256 == 1, "{place}");
        }
    }
    assert!(
        refused[..5].iter().all(|&count| count > 0),
        "seed {seed}: {refused:?}"
    );
}
