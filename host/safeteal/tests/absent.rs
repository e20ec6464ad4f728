//! An absent neighbour of fit may be lent from C as NULL with length 0: the call is accepted, and leaves what it leaves
//! with empty slices. A slice of Rust is never null, so this test declares the C function with pointers.
#![allow(unsafe_code)]

use std::ptr;

use safeteal::ffi;

#[rustfmt::skip]
extern "C" {
    /// As `src/ffi.rs` declares it, each slice as a pointer and a length.
    fn safeteal_fit(
        previous: *const f32, _: usize, previous1: *const f32, _: usize, previous2: *const f32, _: usize, before: usize,
        own: *const f32, _: usize, own1: *const f32, _: usize, own2: *const f32, _: usize, pairs: usize,
        next: *const f32, _: usize, next1: *const f32, _: usize, next2: *const f32, _: usize, after: usize,
        width: usize, height: usize, limit: f32, evidence: f32, strict: bool, ratio: usize,
        models: *mut f32, _: usize, kept: *mut u8, _: usize, cover: *mut u8, _: usize,
        luma: *mut i16, _: usize, chroma1: *mut i16, _: usize, chroma2: *mut i16, _: usize,
    ) -> u64;
}

const WIDTH: usize = 64;
const HEIGHT: usize = 32;
const PIXELS: usize = WIDTH * HEIGHT;
const CHROMA: usize = PIXELS / 4;
const CELLS: usize = PIXELS / 64;

/// The sums of twelve pairs: on a bar of 3 by 16 pixels half of the scene shows through, elsewhere all of it.
fn own() -> (Vec<f32>, Vec<f32>) {
    let bar = |at: usize| (30..33).contains(&(at % WIDTH)) && (8..24).contains(&(at / WIDTH));
    let mut luma = vec![0.0; 6 * PIXELS];
    for (at, sums) in luma.chunks_exact_mut(6).enumerate() {
        for comparison in 0..24 {
            let scene = ((at * 11 + comparison * 37) % 120) as f32;
            let (shown, apart) = if bar(at) {
                (scene / 2.0 + 100.0, 1.0)
            } else {
                (scene, 0.0)
            };
            let terms = [
                scene,
                shown,
                scene * scene,
                scene * shown,
                shown * shown,
                apart,
            ];
            sums.iter_mut()
                .zip(terms)
                .for_each(|(sum, term)| *sum += term);
        }
    }
    (luma, vec![24.0 * 128.0; 2 * CHROMA])
}

/// What a fit writes: its work slices, and the layer.
struct Written {
    models: Vec<f32>,
    kept: Vec<u8>,
    cover: Vec<u8>,
    layer: [Vec<i16>; 3],
}

impl Written {
    fn new() -> Self {
        Self {
            models: vec![0.0; 4 * PIXELS],
            kept: vec![0; PIXELS],
            cover: vec![0; CELLS],
            layer: [PIXELS, CHROMA, CHROMA].map(|pixels| vec![0; 2 * pixels]),
        }
    }
}

/// The layer of a fit whose neighbours are empty slices.
#[rustfmt::skip]
fn with_empty(strict: bool) -> [Vec<i16>; 3] {
    let (luma, chroma) = own();
    let mut written = Written::new();
    let [luma_out, chroma1, chroma2] = &mut written.layer;
    let answer = ffi::fit(
        &[], &[], &[], 0, &luma, &chroma, &chroma, 12, &[], &[], &[], 0, WIDTH, HEIGHT, 6.0, 24.0, strict, 2,
        &mut written.models, &mut written.kept, &mut written.cover, luma_out, chroma1, chroma2,
    );
    assert_eq!(answer, 0);
    written.layer
}

/// The layer of the same fit with NULL and 0 for each slice of its neighbours.
#[rustfmt::skip]
fn with_null(strict: bool) -> [Vec<i16>; 3] {
    let (luma, chroma) = own();
    let null = ptr::null();
    let Written { mut models, mut kept, mut cover, mut layer } = Written::new();
    let [luma_out, chroma1, chroma2] = &mut layer;
    // SAFETY: each pointer and the length after it are those of one slice that lives until the call returns; those that
    // are written are apart from all others. A null pointer goes with length 0, so that nothing is there to be read.
    let answer = unsafe {
        safeteal_fit(
            null, 0, null, 0, null, 0, 0,
            luma.as_ptr(), luma.len(), chroma.as_ptr(), chroma.len(), chroma.as_ptr(), chroma.len(), 12,
            null, 0, null, 0, null, 0, 0,
            WIDTH, HEIGHT, 6.0, 24.0, strict, 2,
            models.as_mut_ptr(), models.len(), kept.as_mut_ptr(), kept.len(), cover.as_mut_ptr(), cover.len(),
            luma_out.as_mut_ptr(), luma_out.len(), chroma1.as_mut_ptr(), chroma1.len(),
            chroma2.as_mut_ptr(), chroma2.len(),
        )
    };
    assert_eq!(answer, 0);
    layer
}

#[test]
fn null_with_0_is_an_empty_slice() {
    for strict in [false, true] {
        let layer = with_empty(strict);
        assert_eq!(with_null(strict), layer);
        // What is compared has lettering: the bar.
        let gains = &layer[0][..PIXELS];
        assert_eq!(gains.iter().filter(|&&gain| gain != 4096).count(), 48);
    }
}
