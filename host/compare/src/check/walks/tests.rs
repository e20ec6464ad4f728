//! What the walks of the run are: every answer of every call, lettering that is found, parts that matter.

use super::clip::Clip;
use super::held::Held;
use super::{compare, CALLS};
use crate::check::fit::Part;
use crate::check::rng::Rng;
use crate::check::run::{named, Tally};
use crate::check::walk::{Slots, Walk};
use crate::check::walk_layer::WalkLayer;
use crate::names::WALKS;
use crate::second::walk::{State, CHUNK};
use safeteal::Settings;

const CLIPS: u64 = 600;

fn clips() -> impl Iterator<Item = Clip> {
    (0..CLIPS).map(|index| Clip::random(&mut Rng::of(6, WALKS, index)))
}

#[test]
fn every_call_answers_every_number() {
    let mut tally = Tally::default();
    for clip in clips() {
        tally.add(&compare(&clip).expect("both sides agree"));
    }
    let walks = &tally.walks;
    for name in CALLS {
        let call = named(name).expect("a call of the run")[0];
        for (number, met) in walks.answers(name).into_iter().enumerate() {
            let can = call.numbers.contains(&number);
            assert_eq!(met > 0, can, "{name} answers {number} {met} times");
        }
    }
    assert!(walks.due > CLIPS, "a layer is due {} times", walks.due);
    assert_eq!(walks.whole, CLIPS);
    let enough = walks.layers > CLIPS && 3 * walks.lettered > walks.layers;
    assert!(
        enough,
        "{} layers, {} lettered",
        walks.layers, walks.lettered
    );
    let entries = tally.entries;
    assert!(entries.way().is_some(), "{entries:?}");
    assert!(entries.compared > 5 * entries.left_out(), "{entries:?}");
}

/// The layer of a chunk from these parts of a clip.
fn layer(clip: &Clip, parts: [Part; 3]) -> [Vec<i16>; 3] {
    let (width, height, ratio) = clip.size;
    let own = parts[1].pairs;
    let state = State {
        added: own,
        ..State::start(own)
    };
    let Settings {
        limit,
        evidence,
        strict,
    } = Settings::default();
    let mut case = WalkLayer {
        walk: Walk::new(clip.size, state),
        slots: Slots::filled(clip.size, || 0.0),
        limit,
        evidence,
        strict,
        models: Vec::new(),
        kept: Vec::new(),
        cover: vec![0; width.div_ceil(8) * height.div_ceil(8)],
        luma: vec![0; 2 * width * height],
        chroma1: vec![0; 2 * (width / ratio) * (height / ratio)],
        chroma2: vec![0; 2 * (width / ratio) * (height / ratio)],
    };
    case.fitted(parts);
    [case.luma, case.chroma1, case.chroma2]
}

/// A layer is another where a neighbour is left out, or where the own part lacks its last pair or has one more: so each
/// such mistake would be seen, in many walks.
#[test]
fn parts_show_in_the_layers() {
    let (mut layers, mut others) = (0, [0; 4]);
    for clip in clips().filter(|clip| clip.pairs.len() > 3 * CHUNK) {
        let held = Held::of(&clip);
        let [previous, own, next] = held.window(1);
        let shifted = |from: usize, to: usize| {
            let mut other = clip.clone();
            other.pairs = clip.pairs[from..to].to_vec();
            Held::of(&other).window(0)[1].clone()
        };
        let right = layer(&clip, [previous.clone(), own.clone(), next.clone()]);
        let wrong = [
            [Part::none(), own.clone(), next.clone()],
            [previous.clone(), own.clone(), Part::none()],
            [
                previous.clone(),
                shifted(CHUNK, 2 * CHUNK - 1),
                next.clone(),
            ],
            [
                previous.clone(),
                shifted(CHUNK + 1, 2 * CHUNK + 1),
                next.clone(),
            ],
        ];
        layers += 1;
        for (others, parts) in others.iter_mut().zip(wrong) {
            *others += u64::from(layer(&clip, parts) != right);
        }
    }
    let seen = others.iter().all(|others| 3 * others > layers);
    assert!(layers > CLIPS / 40 && seen, "{others:?} of {layers} layers");
}
