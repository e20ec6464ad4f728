//! What every type of the library can do, as the compiler sees it.

use std::error;
use std::fmt::{Debug, Display};
use std::hash::Hash;

use safeteal::{
    Cells, Census, Channel, Difference, Dot, Error, Fate, Fates, Frame, Frames, Layer, LayerBuf,
    LayerBytes, LayerMut, Limits, Mask, Motion, MotionBuf, Pair, Part, Passed, Plane, PlaneBuf,
    PlaneMut, Progress, Ratio, Refusal, Settings, Size, Slot, Sums, Texel, Texels, Walk, Work,
};

/// Goes from thread to thread, is shared by threads, is shown and compared.
fn usual<T: Send + Sync + Unpin + Debug + PartialEq>() {}
/// And is copied.
fn copied<T: Copy + Send + Sync + Unpin + Debug + PartialEq>() {}
/// And is owned.
fn owned<T: Clone + Send + Sync + Unpin + Debug + PartialEq + 'static>() {}
fn key<T: Copy + Eq + Hash + Debug + 'static>() {}
fn said<T: Display>() {}

#[test]
fn threads_and_debug_and_equality() {
    owned::<Frame>();
    owned::<PlaneBuf>();
    owned::<MotionBuf>();
    owned::<Sums>();
    owned::<LayerBuf>();
    owned::<Census>();
    owned::<Walk>();
    copied::<Plane<'_>>();
    copied::<Mask<'_>>();
    copied::<Motion<'_>>();
    copied::<Part<'_>>();
    copied::<Frames<'_>>();
    copied::<Pair<'_>>();
    copied::<Layer<'_>>();
    copied::<LayerBytes<'_>>();
    copied::<Texels<'_, i16>>();
    copied::<Cells<'_, u8>>();
    copied::<Difference<'_, u8>>();
    copied::<Settings>();
    copied::<Limits>();
    copied::<Texel>();
    usual::<PlaneMut<'_>>();
    usual::<LayerMut<'_>>();
    usual::<Work<'_>>();
    usual::<Slot<'_>>();
}

#[test]
fn keys_and_words() {
    key::<Size>();
    key::<Ratio>();
    key::<Channel>();
    key::<Refusal>();
    key::<Fate>();
    key::<Fates>();
    key::<Dot>();
    key::<Passed>();
    key::<Progress>();
    said::<Size>();
    said::<Ratio>();
    said::<Channel>();
    said::<Refusal>();
    said::<Fate>();
    said::<Fates>();
    said::<Difference<'_, i16>>();
    said::<Census>();
}

/// An error goes through `?` into the usual boxes, from any thread.
#[test]
fn errors() {
    fn boxed() -> Result<(), Box<dyn error::Error + Send + Sync>> {
        Ratio::try_from(3)?;
        Ok(())
    }
    owned::<Error>();
    let error = boxed().unwrap_err();
    let words = "Ratio::try_from refused (2): ratio is 3 and must be 1, 2 or 4";
    assert_eq!(error.to_string(), words);
    assert!(error.downcast_ref::<Error>().is_some());
}

#[test]
fn sizes_and_pairs_of_numbers() {
    assert_eq!(Size::from((640, 360)), Size::new(640, 360));
    assert_eq!(<(usize, usize)>::from(Size::new(640, 360)), (640, 360));
    assert_eq!(
        format!("{:>9}|{:<9}|", Channel::Luma, Channel::Chroma2),
        "     luma|chroma2  |"
    );
}
