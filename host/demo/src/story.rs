//! The demo itself, step by step: walk over the clip and find the lettering, send it to another desk, lift it, make the
//! frame in between, bring the lettering back.

use std::error;
use std::fs;
use std::io;
use std::path::Path;

use crate::between::halfway;
use crate::clip::Clip;
use crate::dots::Dots;
use crate::finding::{self, Chunks, Found};
use crate::gallery;
use crate::options::Options;
use crate::planes::{lay_back, lift, render, Written};
use crate::report::{grouped, paragraph, step};
use crate::summary;
use safeteal::{Channel, Error, Frame, LayerBuf, Size};

pub fn run(options: &Options) -> Result<(), Box<dyn error::Error>> {
    writable(options)?;
    if let Some(note) = options.note() {
        step("note", &note);
    }
    let clip = clip(options);
    let found = walk(&clip, options)?;
    let [passed, layer] = &found.layers;
    let layer = sent(layer, Chunks::of(options.frames))?;
    let made = Made::new(&clip, found.frame, [passed, &layer])?;
    let folder = options.out.display();
    step(&format!("writing pictures to {folder}"), "");
    gallery::write(&made, options)?;
    summary::print(&made, options);
    let overview = options.out.join("overview.png");
    println!("\nLook at {} first.", overview.display());
    if !found.kept || !made.dots.kept || made.kept.same < made.kept.changed {
        return Err("a passed dot was lost or changed, which the proof excludes".into());
    }
    Ok(())
}

fn clip(options: &Options) -> Clip {
    let Size { width, height } = options.size;
    let name = format!(
        "making up a clip: {} frames of {width} by {height} pixels",
        options.frames
    );
    let about = "A camera moves over a town. A logo and a date stamp, the lettering, stand still on every frame. A dot \
                 is one pixel of a frame.";
    step(&name, about);
    Clip::new(options.size, options.frames)
}

/// The walk over the clip, with a layer for each chunk at both figures.
fn walk(clip: &Clip, options: &Options) -> Result<Found, Error> {
    let (chunks, [high, low]) = (Chunks::of(options.frames), options.evidence);
    let (pairs, count) = (chunks.pairs, chunks.count());
    let most = chunks.evidence(chunks.middle());
    let s = if count == 1 { "" } else { "s" };
    let name = format!("walking over the clip: {pairs} pairs of frames, {count} chunk{s}");
    let about = "A pair is a frame and the next one, compared both ways: two comparisons. Lettering stands still while \
                 the scene moves on, so it stands apart from the scene. The sums keep, of each dot, how often and how \
                 far. Twelve pairs are a chunk, and the walk keeps the sums of three chunks, however long the clip is.";
    step(&name, about);
    paragraph(&format!(
        "Each chunk has a layer, which says of each dot what the lettering does to it: how much of the scene it lets \
         through, and what it adds. It is fitted to the chunk and its neighbours as soon as they are complete. The \
         evidence figure is how often a dot must have stood apart to be taken for lettering, in the middle chunk \
         {most} times at most, twice for each pair. It is {high} first, then {low}, and in proportion where fewer \
         pairs are around a chunk. Turned down it finds more, and nothing that was passed is lost."
    ));
    finding::walk(clip, options.evidence)
}

/// The layer of the middle chunk as it is read at another desk, where the lettering is lifted.
fn sent(layer: &LayerBuf, chunks: Chunks) -> Result<LayerBuf, Error> {
    let parcel = layer.to_parcel();
    let (bytes, number) = (grouped(parcel.len()), chunks.middle() + 1);
    let name = format!("sending layer {number} to another desk: a parcel of {bytes} bytes");
    let about = "It is that of the middle chunk at the second figure. From here on, the second layer is the one that \
                 is read there, and the first one that of the same chunk at the first figure.";
    step(&name, about);
    LayerBuf::from_parcel(&parcel)
}

/// Sees to it that pictures can be written, before the work begins.
fn writable(options: &Options) -> Result<(), String> {
    let folder = &options.out;
    let wrong = |what: &str, error: io::Error| {
        let folder = folder.display();
        format!("the folder {folder} {what}: {error}; name another with --out")
    };
    fs::create_dir_all(folder).map_err(|error| wrong("could not be made", error))?;
    trial(folder).map_err(|error| wrong("cannot be written to", error))?;
    let Some(file) = &options.picture else {
        return Ok(());
    };
    let beside = file
        .parent()
        .filter(|folder| !folder.as_os_str().is_empty());
    let tried = match file.is_dir() {
        true => Err(io::Error::other("it is a folder")),
        false => trial(beside.unwrap_or(Path::new("."))),
    };
    tried.map_err(|error| {
        let file = file.display();
        format!("{file} cannot be written: {error}; give --picture another name, in a folder that is there")
    })
}

/// Writes a file to a folder and takes it away.
fn trial(folder: &Path) -> io::Result<()> {
    let file = folder.join(".demo-trial");
    fs::write(&file, []).and_then(|()| fs::remove_file(&file))
}

/// All that is made of two neighbouring frames.
pub struct Made {
    pub dots: Dots,
    pub frames: [Frame; 2],
    /// The first frame without lettering.
    pub lifted: Written,
    /// The frame in between, made from the frames as they came, lettering and all.
    pub plain: Frame,
    /// The same made from lifted frames, with the lettering laid back.
    pub laid_back: Written,
    /// The plain one, made again at the lettering.
    pub rendered: Written,
    /// What a camera would have seen.
    pub truth: Frame,
    pub kept: Kept,
}

impl Made {
    /// From the layers at the first and at the second figure.
    fn new(clip: &Clip, number: usize, layers: [&LayerBuf; 2]) -> Result<Self, Error> {
        let [passed, layer] = layers;
        let frames = [clip.frame(number)?, clip.frame(number + 1)?];
        let (pan, motion) = (clip.step(number), clip.motion(number)?);
        let about = "What the second layer says is undone, dot by dot: the scene below comes out.";
        step("lifting the lettering off two frames", about);
        let (lifted, second) = (lift(layer, &frames[0])?, lift(layer, &frames[1])?);
        let about = "The frame halfway is made of the two lifted ones, so that no lettering is doubled; then the \
                     lettering is laid back where it stood.";
        step(
            "making the frame in between, and laying the lettering back",
            about,
        );
        let without = halfway(&lifted.frame, &second.frame, pan);
        let laid_back = lay_back(layer, &without, &frames)?;
        let laid_back_before = lay_back(passed, &without, &frames)?;
        let about = "The frame halfway is made of the two as they came, and made again at the lettering and near it.";
        step("the same by rendering", about);
        let plain = halfway(&frames[0], &frames[1], pan);
        let rendered = render(layer, &plain, &frames, &motion)?;
        let mut truth = clip.scene(number, true)?;
        clip.lettering.print(&mut truth);
        Ok(Self {
            dots: Dots::of(layers, clip.lettering.inked())?,
            kept: Kept::of(&without, &laid_back_before.frame, &laid_back.frame),
            frames,
            lifted,
            plain,
            laid_back,
            rendered,
            truth,
        })
    }
}

/// Luma bytes that the first layer's lettering changes when it is laid back, and how many are the same with the second.
pub struct Kept {
    pub changed: usize,
    pub same: usize,
}

impl Kept {
    fn of(without: &Frame, first: &Frame, second: &Frame) -> Self {
        let [without, first, second] =
            [without, first, second].map(|frame| frame[Channel::Luma].bytes());
        let changed = (0..without.len()).filter(|&at| first[at] != without[at]);
        let same = changed.clone().filter(|&at| second[at] == first[at]);
        Self {
            changed: changed.clone().count(),
            same: same.count(),
        }
    }
}
