//! Frames of which a plane was replaced, frames written by a thread a plane, and whole clips from packed bytes.

use std::thread;

use safeteal::{
    Channel, Counts, Error, Frame, Frames, LayerBuf, MotionBuf, Pair, PlaneBuf, Ratio, Refusal,
    Size, Sums,
};

const SIZE: Size = Size::new(32, 16);

fn frame(luma: u8) -> Frame {
    Frame::new(SIZE, Ratio::Two, [luma, 128, 128]).expect("a size that ratio 2 divides")
}

/// Zeros: every cell is marked, so that every pixel is written.
fn layer() -> LayerBuf {
    LayerBuf::new(SIZE, Ratio::Two).expect("a size that ratio 2 divides")
}

/// A frame of which that plane has another size.
fn replaced(channel: Channel) -> Frame {
    let mut frame = frame(90);
    frame[channel] = PlaneBuf::new(Size::new(8, 8), 5).expect("a small plane");
    frame
}

fn said<T: std::fmt::Debug>(answer: Result<T, Error>) -> String {
    let error = answer.expect_err("a refusal");
    assert_eq!(error.refusal(), Refusal::Size, "{error}");
    error.to_string()
}

#[test]
fn a_frame_with_a_replaced_plane_is_refused_and_nothing_is_written() {
    let (layer, good, bad) = (layer(), frame(90), replaced(Channel::Chroma2));
    let words = "chroma2 of `raw` is 8 by 8, and must be 16 by 8: chroma of 32 by 16 at ratio 2";
    let mut output = frame(7);
    assert!(said(layer.peel(&mut output, &bad)).ends_with(words));
    assert!(said(layer.layer().peel_frame(&mut output, &bad)).ends_with(words));
    assert!(said(layer.unpeel(&mut output, &good, &bad, 0.5)).contains("chroma2 of `second`"));
    let motion = MotionBuf::still(SIZE).expect("a size inside the limits");
    let rendered = layer.render(&mut output, &bad, &good, &motion.motion(), 0.5, 0);
    assert!(said(rendered).contains("chroma2 of `first`"));
    assert_eq!(output, frame(7));

    let mut output = replaced(Channel::Chroma1);
    assert!(said(layer.peel(&mut output, &good)).contains("chroma1 of `output` is 8 by 8"));
    assert_eq!(output, replaced(Channel::Chroma1));
    let words = "`raw` is 8 by 8 at ratio 2, and the layer 32 by 16 at ratio 2";
    assert!(said(layer.peeled(&replaced(Channel::Luma))).ends_with(words));
}

#[test]
fn pairs_of_frames_with_a_replaced_plane() {
    let (good, bad) = (frame(90), replaced(Channel::Chroma1));
    let motion = MotionBuf::still(SIZE).expect("a size inside the limits");
    for (first, second, name) in [
        (&good, &bad, "second"),
        (&bad, &good, "first"),
        (&bad, &bad, "first"),
    ] {
        let words = format!("chroma1 of `{name}` is 8 by 8");
        assert!(said(Pair::of(first, second, &motion)).contains(&words));
        assert!(said(Frames::of(Channel::Luma, first, second, 0.5)).contains(&words));
    }
}

#[test]
fn a_plane_replaced_by_one_of_its_size_is_in_order() -> Result<(), Error> {
    let mut raw = frame(90);
    raw[Channel::Chroma1] = PlaneBuf::new(Size::new(16, 8), 40)?;
    let (_, counts) = layer().peeled(&raw)?;
    assert_eq!(
        counts,
        Counts {
            luma: 512,
            chroma1: 128,
            chroma2: 128
        }
    );
    Ok(())
}

#[test]
fn a_thread_a_plane_writes_what_the_call_on_the_frame_writes() -> Result<(), Error> {
    let layer = layer();
    let bytes: Vec<u8> = (0..768).map(|at| (at * 7 % 251) as u8).collect();
    let raw = Frame::from_i420(SIZE, &bytes)?;
    let mut output = raw.clone();
    let counts = thread::scope(|scope| {
        let planes = output.planes_mut();
        let threads = [0, 1, 2]
            .map(|at| Channel::ALL[at])
            .into_iter()
            .zip(planes)
            .map(|(channel, output)| {
                let (layer, raw) = (&layer, raw[channel].plane());
                scope.spawn(move || layer.layer().peel(channel, output, raw))
            });
        let threads: Vec<_> = threads.collect();
        let joined = threads
            .into_iter()
            .map(|thread| thread.join().expect("a call that came back"));
        joined.collect::<Result<Vec<u64>, Error>>()
    })?;
    let (whole, at_once) = layer.peeled(&raw)?;
    assert_eq!(output, whole);
    assert_eq!(counts, [at_once.luma, at_once.chroma1, at_once.chroma2]);
    Ok(())
}

/// A clip of three frames in one slice: read frame by frame into one buffer, and as frames of their own.
#[test]
fn a_clip_of_packed_bytes() -> Result<(), Error> {
    let clip: Vec<u8> = (0..3 * 768).map(|at| (at * 31 % 255) as u8).collect();
    let motion = MotionBuf::still(SIZE)?;
    let frames = clip
        .chunks_exact(768)
        .map(|bytes| Frame::from_i420(SIZE, bytes));
    let frames: Vec<Frame> = frames.collect::<Result<_, Error>>()?;
    let mut sums = Sums::new(SIZE, Ratio::Two)?;
    for pair in frames.windows(2) {
        sums.add(&Pair::of(&pair[0], &pair[1], &motion)?)?;
    }
    let first = sums.clone();

    sums.clear();
    assert_eq!(sums.pairs(), 0);
    let (mut before, mut after) = (frame(0), frame(0));
    let mut left = clip.as_slice();
    let mut read = |frame: &mut Frame| {
        for &channel in Channel::ALL {
            std::io::Read::read_exact(&mut left, frame.bytes_mut(channel)).expect("three frames");
        }
    };
    read(&mut before);
    for _ in 0..2 {
        read(&mut after);
        sums.add(&Pair::of(&before, &after, &motion)?)?;
        std::mem::swap(&mut before, &mut after);
    }
    assert!(sums == first);
    assert_eq!(before.to_packed(), clip[2 * 768..]);
    Ok(())
}
