//! What has many numbers says in `Debug` how many: `[u8; 2073600]`, and not which.

use std::any::type_name;
use std::fmt;

use crate::layer::LentLayer;
use crate::{
    LayerBuf, LayerMut, LayerOf, Mask, Motion, MotionBuf, Part, Plane, PlaneBuf, PlaneMut, Slot,
    Sums, Walk, Work,
};

/// A member of a type, as `Debug` shows it.
trait Brief {
    fn brief(&self, f: &mut fmt::Formatter<'_>) -> fmt::Result;
}

impl<T> Brief for [T] {
    fn brief(&self, f: &mut fmt::Formatter<'_>) -> fmt::Result {
        write!(f, "[{}; {}]", type_name::<T>(), self.len())
    }
}

impl<T> Brief for Vec<T> {
    fn brief(&self, f: &mut fmt::Formatter<'_>) -> fmt::Result {
        self.as_slice().brief(f)
    }
}

impl<T: Brief + ?Sized> Brief for &T {
    fn brief(&self, f: &mut fmt::Formatter<'_>) -> fmt::Result {
        (**self).brief(f)
    }
}

impl<T: Brief + ?Sized> Brief for &mut T {
    fn brief(&self, f: &mut fmt::Formatter<'_>) -> fmt::Result {
        (**self).brief(f)
    }
}

impl<T: Brief, const N: usize> Brief for [T; N] {
    fn brief(&self, f: &mut fmt::Formatter<'_>) -> fmt::Result {
        f.debug_list().entries(self.iter().map(Shown)).finish()
    }
}

impl<T: Brief> Brief for (T, T) {
    fn brief(&self, f: &mut fmt::Formatter<'_>) -> fmt::Result {
        let mut shown = f.debug_tuple("");
        shown.field(&Shown(&self.0)).field(&Shown(&self.1)).finish()
    }
}

struct Shown<'a, T>(&'a T);

impl<T: Brief> fmt::Debug for Shown<'_, T> {
    fn fmt(&self, f: &mut fmt::Formatter<'_>) -> fmt::Result {
        self.0.brief(f)
    }
}

/// `Debug` for types with many numbers: a name, what is implemented, the members that are shown as they are, and those
/// whose length is shown.
macro_rules! brief {
    ($($name:ident [$($of:tt)*] |$it:ident| ($($short:ident = $value:expr),*) ($($long:ident = $slice:expr),*);)*) => {
        $(impl $($of)* {
            fn fmt(&self, f: &mut fmt::Formatter<'_>) -> fmt::Result {
                let $it = self;
                let mut shown = f.debug_struct(stringify!($name));
                $(shown.field(stringify!($short), &$value);)*
                $(shown.field(stringify!($long), &Shown(&$slice));)*
                shown.finish()
            }
        })*
    };
}

brief! {
    Plane [fmt::Debug for Plane<'_>] |it| (size = it.size, pitch = it.pitch) (data = it.data);
    PlaneMut [fmt::Debug for PlaneMut<'_>] |it| (size = it.size, pitch = it.pitch) (data = it.data);
    PlaneBuf [fmt::Debug for PlaneBuf] |it| (size = it.size()) (data = it.bytes());
    Mask [fmt::Debug for Mask<'_>] |it| (width = it.width) (data = it.data);
    Motion [fmt::Debug for Motion<'_>] |it|
        (size = it.size, grid = it.grid, block = it.block, origin = it.origin, pel = it.pel)
        (forward = it.forward, backward = it.backward);
    Part [fmt::Debug for Part<'_>] |it| (pairs = it.pairs) (luma = it.luma, chroma = it.chroma);
    Sums [fmt::Debug for Sums] |it|
        (size = it.size(), ratio = it.ratio(), pairs = it.pairs())
        (luma = it.part().luma, chroma = it.part().chroma);
    Layer [<T> fmt::Debug for LayerOf<'_, T>] |it|
        (size = it.size, ratio = it.ratio, pitch = it.pitch)
        (luma = it.luma, chroma = it.chroma);
    LentLayer [<T> fmt::Debug for LentLayer<'_, T>] |it|
        (size = it.size, ratio = it.ratio, pitch = it.pitch)
        (luma = it.luma, chroma = it.chroma);
    LayerBuf [fmt::Debug for LayerBuf] |it|
        (size = it.size(), ratio = it.ratio())
        (luma = it.layer().luma, chroma = it.layer().chroma);
    LayerMut [fmt::Debug for LayerMut<'_>] |it| () (luma = it.luma, chroma = it.chroma);
    Work [fmt::Debug for Work<'_>] |it| () (models = it.models, kept = it.kept, cover = it.cover);
    Slot [fmt::Debug for Slot<'_>] |it| () (luma = it.luma, chroma = it.chroma);
    Walk [fmt::Debug for Walk] |it| (progress = it.progress()) (luma = it.sums.each_ref().map(|sums| &sums.luma));
}

impl fmt::Debug for MotionBuf {
    fn fmt(&self, f: &mut fmt::Formatter<'_>) -> fmt::Result {
        f.debug_tuple("MotionBuf").field(&self.motion()).finish()
    }
}

#[cfg(test)]
mod tests {
    use crate::{Frame, LayerBuf, MotionBuf, Pair, Ratio, Size, Sums, Walk};

    #[test]
    fn lengths_are_shown_and_no_numbers() -> crate::Result<()> {
        let size = Size::new(16, 8);
        let frame = Frame::new(size, Ratio::Two, [1, 2, 3])?;
        let motion = MotionBuf::still(size)?;
        let pair = Pair::of(&frame, &frame, &motion)?;
        let (sums, layer, walk) = (
            Sums::new(size, Ratio::Two)?,
            LayerBuf::new(size, Ratio::Two)?,
            Walk::new(size, Ratio::Two, 30)?,
        );
        assert_eq!(
            format!("{layer:?}"),
            "LayerBuf { size: Size { width: 16, height: 8 }, ratio: Two, luma: [i16; 256], \
             chroma: [[i16; 64], [i16; 64]] }"
        );
        assert_eq!(
            format!("{walk:?}"),
            "Walk { progress: Progress { size: Size { width: 16, height: 8 }, ratio: Two, pairs: 30, added: 0, \
             taken: 0 }, luma: [[f32; 768], [f32; 768], [f32; 768]] }"
        );
        let shown = [
            format!("{frame:?} {:?}", frame.planes()),
            format!("{motion:?} {pair:?}"),
            format!("{sums:?} {:?}", sums.part()),
            format!("{layer:?} {:?}", layer.layer()),
        ];
        for shown in shown {
            assert!(shown.len() < 1500, "{shown}");
            assert!(shown.contains("; ") && !shown.contains(", 0, 0"), "{shown}");
        }
        Ok(())
    }

    /// As long for a large one as for a small one.
    #[test]
    fn a_large_layer_is_no_longer_than_a_small_one() -> crate::Result<()> {
        let shown = |side| {
            LayerBuf::new(Size::new(side, side), Ratio::One)
                .map(|layer| format!("{layer:#?}").len())
        };
        assert!(shown(1024)? < shown(1)? + 40);
        Ok(())
    }
}
