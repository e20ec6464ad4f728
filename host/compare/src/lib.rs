#![doc = include_str!("../README.md")]
#![deny(unsafe_code)]

pub mod names;
pub mod report;

/// layer.rs and still.rs as published, with read access appended.
#[cfg(not(oracle_absent))]
#[allow(clippy::all, clippy::pedantic)]
pub mod oracle {
    include!(concat!(env!("OUT_DIR"), "/oracle.rs"));
}

#[cfg(not(oracle_absent))]
mod threads;
#[cfg(not(oracle_absent))]
mod views;

#[cfg(not(oracle_absent))]
pub mod bench;
#[cfg(not(oracle_absent))]
pub mod check;
#[cfg(not(oracle_absent))]
pub mod second;

#[cfg(before)]
mod copies;
