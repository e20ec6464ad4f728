//! Walks against the second implementation and the Rust where all of them can be gone through: every state of small
//! clips, every pair of faults, every length of a lent slice, the ends of the longest clip; and the evidence guarantee,
//! chunk by chunk. Whole walks over random clips are in the differential run.
//!
//! `SAFETEAL_SEED` sets the seed of the numbers in them.
#![cfg(not(oracle_absent))]

use std::collections::BTreeSet;

use compare::check::case::{compare, Case};
use compare::check::lent::{arguments, Value};
use compare::check::rng::Rng;
use compare::check::run::seed;
use compare::check::walk::{Slots, Walk, SLICES};
use compare::check::walk_due::WalkDue;
use compare::check::walk_layer::WalkLayer;
use compare::check::walk_pair::WalkPair;
use compare::check::walk_start::WalkStart;
use compare::check::walks::clip::{Clip, Handed};
use compare::second::walk::{State, CHUNK};
use safeteal::Settings;
use words::note;

/// The right answer's word, which is the library's too; and both leave the same.
fn held<C: Case>(case: &C, place: &str) -> u64 {
    let compared = compare(case);
    assert_eq!(compared.difference, None, "{}, {place}", C::NAME);
    compared.answer
}

type Sizes = (usize, usize, usize);

/// The pair of its number, on a walk in this state.
fn pair(rng: &mut Rng, size: Sizes, state: State) -> WalkPair {
    let Handed { planes, motion } = Handed::random(rng, size);
    WalkPair {
        walk: Walk::new(size, state),
        slots: Slots::filled(size, || rng.below(1000) as f32),
        number: state.added,
        planes,
        motion,
    }
}

/// The next layer of a walk in this state.
fn layer(rng: &mut Rng, (width, height, ratio): Sizes, state: State) -> WalkLayer {
    let (size, pixels) = ((width, height, ratio), width * height);
    let chroma = 2 * (width / ratio) * (height / ratio);
    let Settings {
        limit,
        evidence,
        strict,
    } = Settings::default();
    WalkLayer {
        walk: Walk::new(size, state),
        slots: Slots::filled(size, || rng.below(1000) as f32),
        limit,
        evidence,
        strict,
        models: vec![0.5; 4 * pixels],
        kept: vec![7; pixels],
        cover: vec![9; width.div_ceil(8) * height.div_ceil(8)],
        luma: vec![11; 2 * pixels],
        chroma1: vec![13; chroma],
        chroma2: vec![17; chroma],
    }
}

fn due(size: Sizes, state: State) -> WalkDue {
    let walk = Walk::new(size, state);
    WalkDue { walk }
}

const PIXEL: Sizes = (1, 1, 1);

/// The states that the library's own accepted calls lead to from the start of a clip.
fn reached(rng: &mut Rng, pairs: usize) -> BTreeSet<State> {
    let (width, height, ratio) = PIXEL;
    let start = WalkStart {
        width,
        height,
        ratio,
        pairs,
    }
    .ours();
    assert_eq!(start.word, 0);
    let (mut reached, mut next) = (BTreeSet::new(), vec![Walk::from(start.walk).state()]);
    while let Some(state) = next.pop() {
        if reached.insert(state) {
            let calls = [
                pair(rng, PIXEL, state).ours(),
                layer(rng, PIXEL, state).ours(),
            ];
            let accepted = calls.into_iter().filter(|answer| answer.word == 0);
            next.extend(accepted.map(|answer| Walk::from(answer.walk).state()));
        }
    }
    reached
}

/// What the calls lead to is what is left; everywhere else a call in turn is refused with 12, and no layer is due.
#[test]
fn every_state_of_small_clips() {
    let rng = &mut Rng::of(seed(), "states", 0);
    let mut yes = 0;
    for pairs in 0..=60 {
        let reached = reached(rng, pairs);
        for added in 0..=62 {
            for taken in 0..=8 {
                let state = State {
                    pairs,
                    added,
                    taken,
                };
                let (place, left) = (format!("{state:?}"), reached.contains(&state));
                assert_eq!(left, state.left(), "{place}");
                let by_due = held(&due(PIXEL, state), &place);
                let by_pair = held(&pair(rng, PIXEL, state), &place);
                let by_layer = held(&layer(rng, PIXEL, state), &place);
                let accepts = |word: u64| u64::from(word == 0);
                assert_eq!(256 * accepts(by_layer), by_due, "{place}");
                let accepted = accepts(by_pair) + accepts(by_layer);
                let one = if added < pairs {
                    accepted == 1
                } else {
                    by_pair == 12
                };
                assert!(if left { one } else { accepted == 0 }, "{place}");
                yes += accepts(by_layer);
            }
        }
    }
    // One for each layer of each clip.
    let layers = (0..=60usize).map(|pairs| pairs.div_ceil(CHUNK) as u64);
    assert_eq!(yes, layers.sum());
}

/// The longest clip: its first pairs and its first layer, its last pairs and all layers that are left.
#[test]
fn the_ends_of_the_longest_clip() {
    let rng = &mut Rng::of(seed(), "longest", 0);
    let most = usize::MAX;
    let mut state = State::start(most);
    let mut calls = 0;
    let mut walk = |rng: &mut Rng, state: &mut State, until: fn(State) -> bool| {
        while !until(*state) {
            let place = format!("{state:?}");
            let (next, word) = if state.due() {
                (state.with_layer(), held(&layer(rng, PIXEL, *state), &place))
            } else {
                (
                    state.with_pair(state.added),
                    held(&pair(rng, PIXEL, *state), &place),
                )
            };
            assert_eq!(word, 0, "{place}");
            *state = next.expect("a call in turn");
            calls += 1;
        }
    };
    walk(rng, &mut state, |state| state.added == 30);
    assert_eq!(state.taken, 1);
    state.added = most - 40;
    state.taken = state.most();
    walk(rng, &mut state, |state| state.taken == state.chunks());
    assert_eq!((state.added, state.taken), (most, most / CHUNK + 1));
    assert_eq!(calls, 30 + 1 + 40 + 6, "pairs and layers");
    for number in [0, most - 1, most] {
        let mut case = pair(rng, PIXEL, state);
        case.number = number;
        assert_eq!(held(&case, "behind the last pair"), 12);
    }
    assert_eq!(held(&layer(rng, PIXEL, state), "behind the last layer"), 12);
}

/// States of each turn: a pair's, at the begin of a chunk and within one; a layer's, with one neighbour and with none;
/// nobody's, behind the clip; and one that no calls leave.
const STATES: [State; 6] = [
    State {
        pairs: 30,
        added: 12,
        taken: 0,
    },
    State {
        pairs: 30,
        added: 26,
        taken: 1,
    },
    State {
        pairs: 30,
        added: 24,
        taken: 0,
    },
    State {
        pairs: 5,
        added: 5,
        taken: 0,
    },
    State {
        pairs: 30,
        added: 30,
        taken: 3,
    },
    State {
        pairs: 30,
        added: 24,
        taken: 2,
    },
];

/// Changes the argument at a place, in one of three ways.
fn change<C: Case>(case: &mut C, at: usize, way: usize) {
    fn length<T: Copy + Default>(slice: &mut Vec<T>, way: usize) {
        let length = [slice.len().saturating_sub(1), slice.len() + 1, 0][way];
        slice.resize(length, T::default());
    }
    match &mut arguments(case)[at].value {
        Value::Size(value) => **value = [0, value.wrapping_add(1), usize::MAX][way],
        Value::Int(value) => **value = [0, i32::MIN, i32::MAX][way],
        Value::Float(value) => **value = [f32::NAN, -1.0, f32::INFINITY][way],
        Value::Flag(value) => **value = way == 0,
        Value::Bytes(slice) => length(slice, way),
        Value::Shorts(slice) => length(slice, way),
        Value::Words(slice) => length(slice, way),
        Value::Floats(slice) => length(slice, way),
    }
}

/// Every pair of arguments changed in every way, and each argument twice; how often each number was answered.
fn pairs_of_faults<C: Case>(good: &C, place: &str, met: &mut [u64; 13]) {
    let count = arguments(&mut good.clone()).len();
    for (first, second) in (0..count).flat_map(|first| (first..count).map(move |at| (first, at))) {
        for ways in 0..9 {
            let mut case = good.clone();
            change(&mut case, first, ways % 3);
            change(&mut case, second, ways / 3);
            let place = format!("{place}, arguments {first} and {second}, ways {ways}");
            met[(held(&case, &place) % 256) as usize] += 1;
        }
    }
}

/// Two faults at once, on walks in every turn: which number comes first.
#[test]
fn every_pair_of_faults() {
    let rng = &mut Rng::of(seed(), "faults", 0);
    let (size, mut by_pair, mut by_layer) = ((4, 2, 2), [0; 13], [0; 13]);
    for state in STATES {
        let place = format!("{state:?}");
        pairs_of_faults(&pair(rng, size, state), &place, &mut by_pair);
        pairs_of_faults(&layer(rng, size, state), &place, &mut by_layer);
    }
    note(&format!(
        "walks, two faults at once, by number: pairs {by_pair:?}, layers {by_layer:?}"
    ));
    for (met, numbers) in [(by_pair, WalkPair::NUMBERS), (by_layer, WalkLayer::NUMBERS)] {
        assert!(numbers.iter().all(|&number| met[number] > 0), "{met:?}");
    }
}

/// All nine slices are measured in every turn, those of chunks that there are not as well.
#[test]
fn every_length_of_a_slot() {
    let rng = &mut Rng::of(seed(), "lengths", 0);
    let size = (4, 4, 2);
    for state in STATES {
        for name in SLICES {
            for length in [0, 1, 7, 8, 9, 95, 96, 97, 192] {
                let place = format!("{state:?}, {name} of {length}");
                let right = if name.ends_with("luma") { 96 } else { 8 };
                let numbers = [
                    resized(pair(rng, size, state), name, length, &place),
                    resized(layer(rng, size, state), name, length, &place),
                ];
                for number in numbers {
                    assert_eq!(number == 4, length != right, "{place}: {number}");
                }
            }
        }
    }
}

/// The number of a call where one slice of sums has another length.
fn resized<C: Case>(mut case: C, name: &str, length: usize, place: &str) -> u64 {
    let mut list = arguments(&mut case);
    let mut found = list.iter_mut().filter(|argument| argument.is(name));
    if let Some(Value::Floats(slice)) = found.next().map(|argument| &mut argument.value) {
        slice.resize(length, 0.25);
    }
    held(&case, place)
}

/// The luma of each layer that the library's walk over a clip gives with these settings: gains, then offsets.
fn layers(rng: &mut Rng, clip: &Clip, settings: Settings) -> Vec<Vec<i16>> {
    let (mut state, mut slots) = (
        State::start(clip.pairs.len()),
        Slots::filled(clip.size, || 0.0),
    );
    let mut layers = Vec::new();
    while state.taken < state.chunks() {
        let walk = if state.due() {
            let mut call = layer(rng, clip.size, state);
            (call.limit, call.evidence, call.strict) =
                (settings.limit, settings.evidence, settings.strict);
            call.slots = slots.clone();
            let answer = call.ours();
            layers.push(call.luma);
            answer
        } else {
            let mut call = pair(rng, clip.size, state);
            let pair = clip.pairs[state.added].clone();
            (call.planes, call.motion) = (pair.planes, pair.motion);
            call.slots = slots;
            let answer = call.ours();
            slots = call.slots;
            answer
        };
        assert_eq!(walk.word, 0, "a call in turn");
        state = Walk::from(walk.walk).state();
    }
    layers
}

const CLIPS: u64 = 300;

/// "Lowering the evidence figure for the whole walk gives the guarantee of 01 chunk by chunk": a dot that was passed is
/// there, unchanged.
#[test]
fn a_lower_figure_keeps_every_dot_of_every_chunk() {
    let (seed, mut stayed, mut new) = (seed(), 0, 0);
    for index in 0..CLIPS {
        let rng = &mut Rng::of(seed, "figures", index);
        let clip = Clip::random(rng);
        let figures = [rng.below(12) as f32, rng.unit() * 3.0];
        let [low, high] = [figures[0].min(figures[1]), figures[0].max(figures[1])];
        let [first, second] = [high, low].map(|evidence| {
            let settings = Settings {
                evidence,
                ..Settings::default()
            };
            layers(rng, &clip, settings)
        });
        assert_eq!(first.len(), clip.pairs.len().div_ceil(CHUNK));
        for (chunk, (first, second)) in first.iter().zip(&second).enumerate() {
            for at in 0..first.len() / 2 {
                let dot = |luma: &[i16]| (luma[at], luma[luma.len() / 2 + at]);
                let (before, after) = (dot(first), dot(second));
                let place = format!("seed {seed}, clip {index}, chunk {chunk}, pixel {at}");
                assert!(before == (4096, 0) || before == after, "{place}");
                stayed += u64::from(before != (4096, 0));
                new += u64::from(before != after);
            }
        }
    }
    note(&format!(
        "walks at two figures, seed {seed}: {stayed} dots stayed, {new} are new, in {CLIPS} clips"
    ));
    assert!(stayed > CLIPS && new > CLIPS / 10, "{stayed}, {new}");
}
