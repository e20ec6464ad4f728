//! What a refused call says: the number's meaning, and the argument that it was given for.

use std::fmt;

use crate::{Refusal, Size, Sums};

mod parcel;
mod search;
mod turn;
mod unlike;
mod why;
use parcel::Flaw;
pub(crate) use search::Search;
use turn::Turn;
use unlike::Unlike;
use why::many;
pub(crate) use why::Why;

/// What a call gives: its answer, or why it was refused.
pub type Result<T, E = Error> = std::result::Result<T, E>;

/// A refused call. It has changed none of the slices lent to it.
///
/// ```
/// use safeteal::{mask, Limits, Plane, Refusal, Size};
///
/// let (plane, mut still) = (Plane::new(&[0; 12], Size::new(4, 3)), [0; 11]);
/// let error = mask(plane, plane, Limits::default(), &mut still).unwrap_err();
/// assert_eq!((error.refusal(), error.call()), (Refusal::Length, "mask"));
/// assert_eq!(
///     error.to_string(),
///     "mask refused (4): `still` has 11 bytes and must have exactly 12: 1 for each of 4 by 3 pixels"
/// );
/// ```
#[derive(Clone, Copy, Debug, PartialEq)]
pub struct Error {
    call: &'static str,
    refusal: Refusal,
    fault: Option<Fault>,
}

impl Error {
    /// The reason. Where several hold, it is the first in the order that [`Refusal`] tells of.
    #[must_use]
    pub fn refusal(&self) -> Refusal {
        self.refusal
    }

    /// The function or the method that was called, as `mask` or `LayerBuf::fit`.
    #[must_use]
    pub fn call(&self) -> &'static str {
        self.call
    }

    /// The refusal of a call, with the first argument that it fits.
    #[cold]
    pub(crate) fn of(
        call: &'static str,
        refusal: Refusal,
        arguments: impl FnOnce(Search) -> Search,
    ) -> Self {
        let fault = arguments(Search::new(refusal)).fault();
        Self {
            call,
            refusal,
            fault,
        }
    }

    /// Refuses a call whose arguments are not of one size, before anything is written.
    pub(crate) fn of_sizes(call: &'static str, arguments: impl Fn(Search) -> Search) -> Result<()> {
        Self::first(call, &[Refusal::Size], arguments)
    }

    /// Refuses a call for the first of these reasons, in the order of the table, that the search finds an argument for.
    pub(crate) fn first(
        call: &'static str,
        refusals: &[Refusal],
        arguments: impl Fn(Search) -> Search,
    ) -> Result<()> {
        for &refusal in refusals {
            let fault = arguments(Search::new(refusal)).fault();
            if fault.is_some() {
                return Err(Self {
                    call,
                    refusal,
                    fault,
                });
            }
        }
        Ok(())
    }
}

impl fmt::Display for Error {
    fn fmt(&self, f: &mut fmt::Formatter<'_>) -> fmt::Result {
        let (call, refusal) = (self.call, self.refusal);
        write!(f, "{call} refused ({}): ", refusal.number())?;
        match self.fault {
            Some(fault) => write!(f, "{fault}"),
            None => write!(f, "{refusal}"),
        }
    }
}

impl std::error::Error for Error {}

/// A number as the caller gave it.
#[derive(Clone, Copy, Debug, PartialEq)]
pub(crate) enum Number {
    Size(usize),
    Int(i32),
    Float(f32),
}

impl fmt::Display for Number {
    fn fmt(&self, f: &mut fmt::Formatter<'_>) -> fmt::Result {
        match self {
            Number::Size(number) => number.fmt(f),
            Number::Int(number) => number.fmt(f),
            Number::Float(number) => number.fmt(f),
        }
    }
}

/// The pairs that sums can hold.
const MOST: usize = Sums::MOST;

/// An argument that is not as it has to be.
#[derive(Clone, Copy, Debug, PartialEq)]
pub(crate) enum Fault {
    Outside(&'static str, Number, [Number; 2]),
    NoneOf(&'static str, Number),
    Zero(&'static str),
    Short(&'static str, usize, Why),
    Inexact(&'static str, usize, Why),
    Field(&'static str, usize, (usize, usize)),
    Undivided(Size, usize),
    Full(usize),
    NoPairs(&'static str),
    Unlike(Unlike),
    Pitches(usize, usize),
    StepAcross(usize, usize),
    StepDown(usize, usize, usize),
    Parcel(Flaw),
    Turn(Turn),
}

impl fmt::Display for Fault {
    fn fmt(&self, f: &mut fmt::Formatter<'_>) -> fmt::Result {
        match *self {
            Fault::Outside(name, value, [low, high]) => {
                write!(f, "{name} is {value} and must be {low} to {high}")
            }
            Fault::NoneOf(name, value) => write!(f, "{name} is {value} and must be 1, 2 or 4"),
            Fault::Zero(name) => write!(f, "{name} is 0 and must be at least 1"),
            Fault::Short(name, has, why) => why.short(f, name, has),
            Fault::Inexact(name, has, why) => why.inexact(f, name, has),
            Fault::Field(name, has, (width, height)) => write!(
                f,
                "`{name}` has {} and must have one for each block of a grid of {width} by {height}",
                many(has, "number")
            ),
            Fault::Undivided(size, ratio) => write!(f, "ratio {ratio} does not divide {size}"),
            Fault::Full(pairs) => {
                write!(f, "the sums hold {pairs} pairs already, and take {MOST} at most")
            }
            Fault::NoPairs(name) => write!(
                f,
                "`{name}` holds no pairs and must hold 1 to {MOST}; a neighbour that is absent is given as None"
            ),
            Fault::Unlike(unlike) => unlike.fmt(f),
            Fault::Pitches(first, second) => write!(
                f,
                "the pitch of second is {second} and must be {first}, that of first: one pitch is taken for both"
            ),
            Fault::StepAcross(across, width) => write!(
                f,
                "the mask has rows of {across} and must have rows of 1 to 8 times {width}, the plane's width"
            ),
            Fault::StepDown(length, across, height) => write!(
                f,
                "the mask has {} and must have rows of {across}: 1 to 8 times {height}, the plane's height, of them",
                many(length, "byte")
            ),
            Fault::Parcel(flaw) => flaw.fmt(f),
            Fault::Turn(turn) => turn.fmt(f),
        }
    }
}
