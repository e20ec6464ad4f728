//! The demo's last words.

use crate::dots::{Dots, Kind, Share};
use crate::finding::Chunks;
use crate::options::Options;
use crate::report::{grouped, many, paragraph};
use crate::story::Made;
use safeteal::{Channel, Frame};

pub fn print(made: &Made, options: &Options) {
    let (chunks, evidence) = (Chunks::of(options.frames), options.evidence);
    let (chunk, count) = (chunks.middle() + 1, chunks.count());
    println!();
    println!("What was found in chunk {chunk} of {count} (the colours are those of 2-dots.png):");
    for words in found(&made.dots, evidence) {
        paragraph(&words);
    }
    println!();
    println!("What was done with it:");
    for words in done(made, evidence) {
        paragraph(&words);
    }
}

/// The counts of what was found, which add up.
fn found(dots: &Dots, [high, low]: [f32; 2]) -> [String; 4] {
    let (passed, stayed, new) = (dots.passed(), dots.stayed(), dots.new_ones());
    let count = |kind: Kind| format!("{} ({})", grouped(dots.count(kind)), kind.name());
    let stray = stayed.stray + new.stray;
    [
        format!(
            "At evidence figure {high}: {} passed, {}.",
            many(passed.all()),
            parted(passed)
        ),
        format!(
            "Turned down to {low}: {} stayed as they were; {} new, {}.",
            kept(stayed.all(), passed.all()),
            many(new.all()),
            parted(new)
        ),
        format!(
            "Lettering on each frame: {}. Passed and stayed {}, new {}, missed {}.",
            many(dots.printed()),
            count(Kind::Stayed),
            count(Kind::New),
            count(Kind::Missed)
        ),
        format!(
            "Found, but no lettering: {} ({}), {} of them passed at {high} and {} new.",
            many(stray),
            Kind::Stray.name(),
            grouped(stayed.stray),
            grouped(new.stray)
        ),
    ]
}

fn done(made: &Made, [high, low]: [f32; 2]) -> [String; 3] {
    [
        format!(
            "Laid back at {high}, the lettering changes {} bytes of luma: {} are the same byte at {low}.",
            grouped(made.kept.changed),
            kept(made.kept.same, made.kept.changed)
        ),
        format!(
            "Written on the three planes of a frame: {} lifted, {} laid back, {} rendered.",
            many(made.lifted.dots),
            grouped(made.laid_back.dots),
            grouped(made.rendered.dots)
        ),
        format!(
            "Visibly wrong dots in the frame in between, beside what the camera would have seen: {} with nothing \
             lifted, {} lifted and laid back, {} rendered.",
            grouped(wrong(&made.plain, &made.truth)),
            grouped(wrong(&made.laid_back.frame, &made.truth)),
            grouped(wrong(&made.rendered.frame, &made.truth))
        ),
    ]
}

fn parted(share: Share) -> String {
    format!(
        "{} of lettering and {} not",
        grouped(share.lettering),
        grouped(share.stray)
    )
}

/// How many are as they were, of so many.
fn kept(same: usize, all: usize) -> String {
    match (same, all) {
        (0, 0) => "there were none, so all".to_owned(),
        _ if same == all => format!("all {}", grouped(all)),
        _ => format!("ONLY {} of {}", grouped(same), grouped(all)),
    }
}

/// Luma dots that are off by more than a tenth of the range.
fn wrong(frame: &Frame, truth: &Frame) -> usize {
    let (frame, truth) = (frame[Channel::Luma].bytes(), truth[Channel::Luma].bytes());
    let pairs = frame.iter().zip(truth);
    pairs.filter(|(a, b)| a.abs_diff(**b) > 25).count()
}
