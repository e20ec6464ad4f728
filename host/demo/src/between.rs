//! A frame halfway between two, as simply as a known pan allows: the two frames moved towards each other and mixed.

use safeteal::{Channel, Frame, Plane, Size};

/// The frame halfway, where the camera went so many pixels right and down from the first frame to the second.
pub fn halfway(first: &Frame, second: &Frame, (right, down): (i32, i32)) -> Frame {
    let mut made = first.clone();
    for &channel in Channel::ALL {
        let size = made[channel].size();
        let half = 2.0 * (first.size().width / size.width) as f32;
        let (dx, dy) = (right as f32 / half, down as f32 / half);
        let (first, second) = (first[channel].plane(), second[channel].plane());
        for (at, byte) in made.bytes_mut(channel).iter_mut().enumerate() {
            let (x, y) = ((at % size.width) as f32, (at / size.width) as f32);
            let moved = [
                sample(first, size, x + dx, y + dy),
                sample(second, size, x - dx, y - dy),
            ];
            // Beyond its border a frame knows nothing, and the other one is taken alone.
            let mean = match moved {
                [Some(a), Some(b)] => (a + b) / 2.0,
                [Some(a), None] | [None, Some(a)] => a,
                [None, None] => f32::from(*byte),
            };
            *byte = mean.round() as u8;
        }
    }
    made
}

/// The plane at a place between four pixels, if it is there.
fn sample(plane: Plane<'_>, size: Size, x: f32, y: f32) -> Option<f32> {
    let inside = |place: f32, side: usize| (0.0..=(side - 1) as f32).contains(&place);
    if !inside(x, size.width) || !inside(y, size.height) {
        return None;
    }
    let (left, top) = (x as usize, y as usize);
    let (right, below) = (
        (left + 1).min(size.width - 1),
        (top + 1).min(size.height - 1),
    );
    let at = |x: usize, y: usize| f32::from(plane.data[y * plane.pitch + x]);
    let mix = |a: f32, b: f32, by: f32| a + (b - a) * by;
    let row = |y: usize| mix(at(left, y), at(right, y), x - left as f32);
    Some(mix(row(top), row(below), y - top as f32))
}
