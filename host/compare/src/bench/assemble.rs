use std::hint::black_box;

use super::scene::{Lettering, RATIO};
use super::{Sides, Workload};
use crate::oracle::layer as rust;
use safeteal::ffi;

pub const WORKLOADS: &[Workload] = &[Workload::new("assemble", "a logo", logo)];

type Model = (f32, f32, [f32; 2]);

struct Assemble {
    models: Vec<f32>,
    rust_models: Vec<Model>,
    cover: Vec<u8>,
    size: (usize, usize),
    luma: Vec<i16>,
    chroma: [Vec<i16>; 2],
    rust: Option<rust::Fit>,
}

fn logo(width: usize, height: usize) -> Box<dyn Sides> {
    let model = |at| Lettering::Logo.model(at, width, height);
    let rust_models: Vec<Model> = (0..width * height).map(model).collect();
    let flat = rust_models.iter().flat_map(|&(a, b, [c, d])| [a, b, c, d]);
    let chroma = vec![0; 2 * (width / RATIO) * (height / RATIO)];
    Box::new(Assemble {
        models: flat.collect(),
        rust_models,
        cover: Lettering::Logo.cover(width, height),
        size: (width, height),
        luma: vec![0; 2 * width * height],
        chroma: [chroma.clone(), chroma],
        rust: None,
    })
}

impl Sides for Assemble {
    fn pixels(&self) -> usize {
        self.size.0 * self.size.1
    }

    fn ours(&mut self) {
        let [chroma1, chroma2] = &mut self.chroma;
        black_box(ffi::assemble(
            self.size.0,
            self.size.1,
            RATIO,
            black_box(&self.models),
            black_box(&self.cover),
            black_box(&mut self.luma),
            black_box(chroma1),
            black_box(chroma2),
        ));
    }

    fn theirs(&mut self) {
        let models = black_box(&self.rust_models);
        let cover = black_box(&self.cover);
        self.rust = Some(black_box(rust::assemble(
            self.size,
            RATIO,
            |at| models[at],
            cover,
        )));
    }

    fn same(&mut self) -> bool {
        let rust = self.rust.as_ref().expect("the Rust had its turn");
        self.luma == rust.luma && self.chroma == rust.chroma
    }
}
