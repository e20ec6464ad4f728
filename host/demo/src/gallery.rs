//! The demo's pictures.

use std::ops::RangeInclusive;
use std::path::{Path, PathBuf};

use crate::dots::{Dots, Kind};
use crate::options::Options;
use crate::picture::{Colour, Picture};
use crate::report::many;
use crate::sheet::{explained, sheet, Entry, Scale, EXPLAINED};
use crate::story::Made;
use safeteal::Frame;

/// The widths of the pictures on the sheet with all of them, and on the sheet with the four steps.
const ALL: RangeInclusive<usize> = 320..=960;
const FOUR: RangeInclusive<usize> = 320..=436;

impl Kind {
    /// The colours can be told apart by colour-blind readers too: they differ in brightness or in blue as well.
    pub fn colour(self) -> Colour {
        match self {
            Self::Stayed => [0, 128, 128],
            Self::New => [245, 150, 0],
            Self::Missed => [0, 0, 0],
            Self::Stray => [140, 0, 215],
            Self::Lost => [180, 0, 0],
        }
    }

    /// The colour in a word.
    pub fn name(self) -> &'static str {
        match self {
            Self::Stayed => "teal",
            Self::New => "orange",
            Self::Missed => "black",
            Self::Stray => "violet",
            Self::Lost => "dark red",
        }
    }

    /// What the colour says, with the two figures.
    fn words(self, [high, low]: [f32; 2]) -> String {
        match self {
            Self::Stayed => format!("lettering passed at {high}"),
            Self::New => format!("lettering new at {low}"),
            Self::Missed => format!("lettering missed at {low}"),
            Self::Stray => format!("no lettering, found at {low}"),
            Self::Lost => format!("passed at {high}, lost or changed at {low}"),
        }
    }
}

/// What the colours say, and how many dots have each. The proof excludes lost dots: they are named only where there are
/// any.
fn legend(dots: &Dots, evidence: [f32; 2]) -> Vec<Entry> {
    let counts = Kind::ALL.map(|kind| (kind, dots.count(kind)));
    let named = counts
        .into_iter()
        .filter(|&(kind, count)| kind != Kind::Lost || count > 0);
    let entry = |(kind, count): (Kind, usize)| Entry {
        colour: Some(kind.colour()),
        words: format!("{}: {}", kind.words(evidence), many(count)),
    };
    named.map(entry).collect()
}

/// A picture to be: the name of its file, and what it shows.
struct View<'a> {
    name: &'static str,
    caption: &'static str,
    frame: &'a Frame,
    /// What lies over the frame in colours.
    dots: Option<&'a Dots>,
}

impl View<'_> {
    fn picture(&self, scale: Scale) -> Picture {
        match self.dots {
            Some(dots) => coloured(self.frame, dots, scale),
            None => scale.of(&Picture::of(self.frame)),
        }
    }
}

/// The dots in colours over a pale frame. One that stands for several has the colour of most of the marked ones, and of
/// two as many the worse fault: so a fault of one dot is seen on a small sheet too.
fn coloured(frame: &Frame, dots: &Dots, Scale { larger, smaller }: Scale) -> Picture {
    let mut picture = Picture::of(frame).pale().smaller(smaller);
    let (wide, size) = (frame.size().width, picture.size);
    let mut counts = vec![[0; Kind::ALL.len()]; size.width * size.height];
    for (at, kind) in dots.kinds().enumerate() {
        let (x, y) = (at % wide / smaller, at / wide / smaller);
        if let Some(kind) = kind.filter(|_| x < size.width && y < size.height) {
            counts[y * size.width + x][kind as usize] += 1;
        }
    }
    for (at, counts) in counts.iter().enumerate() {
        let most = Kind::ALL
            .into_iter()
            .max_by_key(|&kind| counts[kind as usize]);
        if let Some(kind) = most.filter(|&kind| counts[kind as usize] > 0) {
            picture.set(at % size.width, at / size.width, kind.colour());
        }
    }
    picture.larger(larger)
}

/// Writes each picture, and all of them on one sheet; and four of them on a small sheet, if it is asked for.
pub fn write(made: &Made, options: &Options) -> Result<(), String> {
    let (views, size) = (views(made), options.size);
    let legend = legend(&made.dots, options.evidence);
    let mut files = Vec::new();
    for view in &views {
        let picture = match view.dots {
            Some(_) => explained(&view.picture(Scale::into(&EXPLAINED, size)), &legend),
            None => Picture::of(view.frame),
        };
        let file = options.out.join(view.name).with_extension("png");
        files.push((file, picture, view.caption));
    }
    let sheet = |views: &[&View], widths: &RangeInclusive<usize>| {
        let numbered = views.iter().zip(1..).map(|(view, number)| {
            let caption = format!("{number} {}", view.caption);
            (caption, view.picture(Scale::into(widths, size)))
        });
        let about = Entry {
            colour: None,
            words: "the colours of picture 2:".to_owned(),
        };
        let legend = [&[about], &legend[..]].concat();
        sheet(&numbered.collect::<Vec<_>>(), &legend, *widths.start())
    };
    let overview = sheet(&views.each_ref(), &ALL);
    files.push((
        options.out.join("overview.png"),
        overview,
        "these six side by side",
    ));
    if let Some(file) = &options.picture {
        let four = sheet(&[0, 1, 2, 4].map(|at: usize| &views[at]), &FOUR);
        files.push((file.clone(), four, "four of them on a small sheet"));
    }
    save(&files)
}

fn views(made: &Made) -> [View<'_>; 6] {
    let view = |name, caption, frame| View {
        name,
        caption,
        frame,
        dots: None,
    };
    let [frame, _] = &made.frames;
    let (laid_back, rendered) = (&made.laid_back.frame, &made.rendered.frame);
    [
        view("1-frame", "a frame as it came", frame),
        View {
            dots: Some(&made.dots),
            ..view("2-dots", "what was found", frame)
        },
        view("3-lifted", "its lettering lifted", &made.lifted.frame),
        view("4-between-plain", "in between, not lifted", &made.plain),
        view("5-between-laid-back", "in between, laid back", laid_back),
        view("6-between-rendered", "in between, rendered", rendered),
    ]
}

/// Writes pictures to their files, and says of each what it shows.
fn save(files: &[(PathBuf, Picture, &str)]) -> Result<(), String> {
    let name = |file: &Path| file.display().to_string();
    let widest = files
        .iter()
        .map(|(file, ..)| name(file).chars().count())
        .max();
    for (file, picture, shows) in files {
        let (name, wide) = (name(file), widest.unwrap_or(0));
        let written = picture.write(file);
        written.map_err(|error| {
            format!("{name} could not be written: {error}; make room there, or name another place")
        })?;
        println!("   {name:wide$}  {shows}");
    }
    Ok(())
}

#[cfg(test)]
mod tests {
    use super::*;
    use crate::font::tests::drawn;
    use crate::picture::PALE;

    /// What readers see who lack one kind of cones (Machado, Oliveira and Fernandes, 2009): on linear red, green, blue.
    const EYES: [[[f32; 3]; 3]; 4] = [
        [[1.0, 0.0, 0.0], [0.0, 1.0, 0.0], [0.0, 0.0, 1.0]],
        [
            [0.152, 1.053, -0.205],
            [0.115, 0.786, 0.099],
            [-0.004, -0.048, 1.052],
        ],
        [
            [0.367, 0.861, -0.228],
            [0.280, 0.673, 0.047],
            [-0.012, 0.043, 0.969],
        ],
        [
            [1.256, -0.077, -0.179],
            [-0.078, 0.931, 0.148],
            [0.005, 0.691, 0.304],
        ],
    ];

    fn times(by: &[[f32; 3]; 3], colour: [f32; 3]) -> [f32; 3] {
        by.map(|row| row.iter().zip(colour).map(|(a, b)| a * b).sum())
    }

    /// Lightness and two hues of a colour as it is seen (CIELAB): two colours 10 apart are clearly unlike.
    fn seen(colour: Colour, eyes: &[[f32; 3]; 3]) -> [f32; 3] {
        let linear = colour.map(|part| {
            let part = f32::from(part) / 255.0;
            if part <= 0.04045 {
                part / 12.92
            } else {
                ((part + 0.055) / 1.055).powf(2.4)
            }
        });
        let linear = times(eyes, linear).map(|part| part.clamp(0.0, 1.0));
        let xyz = [
            [0.434, 0.376, 0.190],
            [0.213, 0.715, 0.072],
            [0.018, 0.109, 0.873],
        ];
        let [x, y, z] = times(&xyz, linear).map(|part: f32| {
            if part > 0.008_856 {
                part.cbrt()
            } else {
                7.787 * part + 0.138
            }
        });
        [116.0 * y - 16.0, 500.0 * (x - y), 200.0 * (y - z)]
    }

    fn apart(a: Colour, b: Colour, eyes: &[[f32; 3]; 3]) -> f32 {
        let (a, b) = (seen(a, eyes), seen(b, eyes));
        a.iter()
            .zip(b)
            .map(|(a, b)| (a - b).powi(2))
            .sum::<f32>()
            .sqrt()
    }

    #[test]
    fn colours_are_told_apart_by_all_readers() {
        let greys = PALE.map(|grey| [grey; 3]);
        for eyes in &EYES {
            for kind in Kind::ALL {
                let others = Kind::ALL
                    .into_iter()
                    .filter(|&other| other != kind)
                    .map(Kind::colour);
                for other in others.chain(greys) {
                    let far = apart(kind.colour(), other, eyes);
                    assert!(far > 30.0, "{kind:?} and {other:?}: {far}");
                }
            }
        }
        // A pair that is known to be hard: teal and a purple as bright, without green cones.
        assert!(apart([0, 128, 128], [150, 0, 120], &EYES[2]) < 20.0);
    }

    #[test]
    fn all_words_can_be_drawn() {
        for kind in Kind::ALL {
            let words = kind.words([65_536.0, 1e-38]);
            assert!(drawn(&format!("{words}: {}", many(16_777_216))), "{words}");
        }
    }
}
