//! The copies of two libraries, and where the calls go: in the program `bench`, built with `SAFETEAL_BEFORE`, each call
//! of the C interface jumps to the function that stands in its place here.
#![allow(unsafe_code)]

use std::sync::atomic::{AtomicPtr, Ordering};

// The jumps, the functions of all copies (`ALL`) and their number (`FUNCTIONS`), and the calls that the other library
// does not have (`ABSENT`), as the build script wrote them.
include!(concat!(env!("OUT_DIR"), "/copies.rs"));

/// The copies of each library; they differ in where their functions stand.
pub const COPIES: usize = ALL.len() / 2;

/// Where the jumps go, at first to the first copy.
#[export_name = "safeteal_places"]
static PLACES: [AtomicPtr<()>; FUNCTIONS] = {
    let mut places = [const { AtomicPtr::new(std::ptr::null_mut()) }; FUNCTIONS];
    let mut at = 0;
    while at < FUNCTIONS {
        places[at] = AtomicPtr::new(ALL[0][at] as *mut ());
        at += 1;
    }
    places
};

/// The calls that follow go to that copy: of the present library, or, from number `COPIES` on, of the other.
pub fn choose(copy: usize) {
    for (place, function) in PLACES.iter().zip(ALL[copy]) {
        place.store(function as *mut (), Ordering::Relaxed);
    }
}
