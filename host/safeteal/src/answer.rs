//! A call's one 64-bit answer, `count * 256 + number`, taken apart.

use crate::error::Search;
use crate::groups::{Form, LentLayer};
use crate::plane::Shape;
use crate::{ffi, Channel, Error, LayerOf, PlaneMut, Progress, Ratio, Refusal, Result, Size};

/// The count, or the refusal that the number names, with what the search finds in the arguments.
pub(crate) fn counted(
    call: &'static str,
    word: u64,
    arguments: impl FnOnce(Search) -> Search,
) -> Result<u64> {
    match Refusal::answered((word % 256) as u8) {
        None => Ok(word / 256),
        Some(refusal) => Err(Error::of(call, refusal, arguments)),
    }
}

/// For a call that counts nothing.
pub(crate) fn done(
    call: &'static str,
    word: u64,
    arguments: impl FnOnce(Search) -> Search,
) -> Result<()> {
    counted(call, word, arguments).map(|_| ())
}

/// For a call that answers the size of luma and the ratio.
pub(crate) fn sized(
    call: &'static str,
    answer: ffi::Sizes,
    arguments: impl FnOnce(Search) -> Search,
) -> Result<Shape> {
    done(call, answer.word, arguments)?;
    let size = Size::new(answer.width, answer.height);
    Ok((size, accepted(answer.ratio)))
}

/// For a call on a walk: how far it has come then.
pub(crate) fn walked(
    call: &'static str,
    answer: ffi::Walked,
    arguments: impl FnOnce(Search) -> Search,
) -> Result<Progress> {
    done(call, answer.word, arguments)?;
    let walk = answer.walk;
    Ok(Progress {
        size: Size::new(walk.width, walk.height),
        ratio: accepted(walk.ratio),
        pairs: walk.pairs,
        added: walk.added,
        taken: walk.taken,
    })
}

/// The ratio of an accepted call.
fn accepted(ratio: usize) -> Ratio {
    let ratio = Ratio::of_number(ratio);
    ratio.expect("the linked library accepts ratios 1, 2 and 4 alone")
}

/// For a call that writes one plane by a layer: `lent` are the names and sizes of the planes lent beside the output;
/// what else is lent, `put` knows and `rest` searches.
pub(crate) fn written<T: Form>(
    call: &'static str,
    layer: &LayerOf<'_, T>,
    channel: Channel,
    mut output: PlaneMut<'_>,
    lent: &[(&'static str, Size)],
    put: impl FnOnce(&LentLayer<'_, T>, usize, &mut PlaneMut<'_>) -> u64,
    rest: impl FnOnce(Search) -> Search,
) -> Result<u64> {
    let layer = layer.lent();
    Error::of_sizes(call, |search| {
        search
            .like_layer(&layer, channel, &[("output", output.size)])
            .like_layer(&layer, channel, lent)
    })?;
    let word = put(&layer, channel.number(), &mut output);
    counted(call, word, |search| {
        rest(search.layer(&layer).output(&output))
    })
}
