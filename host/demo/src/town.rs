//! What the camera of the made-up clip sees: houses on a quay, drawn by code. Lengths are in 360ths of the picture's
//! height.

/// Red, green and blue, 0 to 255.
type Colour = [f32; 3];

const HOUSE: f32 = 84.0;
const ROOF: f32 = 38.0;
const QUAY: f32 = 262.0;
const WATER: f32 = 280.0;

const WALLS: [Colour; 7] = [
    [196.0, 92.0, 70.0],
    [226.0, 184.0, 96.0],
    [108.0, 140.0, 150.0],
    [222.0, 206.0, 184.0],
    [150.0, 70.0, 74.0],
    [92.0, 124.0, 92.0],
    [206.0, 142.0, 110.0],
];

/// The colour at a place of the endless town.
pub fn colour(x: f32, y: f32) -> Colour {
    if y > WATER {
        return water(x, y);
    }
    if y > QUAY {
        return quay(x, y);
    }
    let house = (x / HOUSE).floor();
    let (across, number) = (x - house * HOUSE, house as i32);
    let eaves = 96.0 + 74.0 * chance(number, 1);
    let ridge = eaves - ROOF * (1.0 - (across / HOUSE * 2.0 - 1.0).abs());
    if y > eaves {
        wall(number, across, y - eaves)
    } else if y > ridge {
        roof(number, y - ridge)
    } else {
        sky(x, y)
    }
}

fn sky(x: f32, y: f32) -> Colour {
    let air = mix([96.0, 150.0, 206.0], [196.0, 214.0, 226.0], y / 170.0);
    let cloud = smooth(x / 70.0, y / 30.0) * 0.65 + smooth(x / 23.0, y / 13.0) * 0.35;
    mix(air, [250.0, 249.0, 245.0], (cloud - 0.42) * 4.5)
}

fn roof(number: i32, down: f32) -> Colour {
    let tile = if (down / 4.0).floor() as i32 % 2 == 0 {
        0.86
    } else {
        1.0
    };
    let slate = chance(number, 2) > 0.5;
    let colour = if slate {
        [84.0, 88.0, 98.0]
    } else {
        [150.0, 66.0, 48.0]
    };
    colour.map(|part: f32| part * tile)
}

fn wall(number: i32, across: f32, down: f32) -> Colour {
    let colour = WALLS[(chance(number, 3) * WALLS.len() as f32) as usize % WALLS.len()];
    let (column, storey) = ((across / 28.0).floor(), (down / 38.0).floor());
    let (x, y) = (across - column * 28.0, down - storey * 38.0);
    if !(1.5..=HOUSE - 1.5).contains(&across) {
        return colour.map(|part| part * 0.6);
    }
    if (6.0..22.0).contains(&x) && (8.0..31.0).contains(&y) {
        let bar = (x - 14.0).abs() < 1.0 || (y - 17.0).abs() < 1.0;
        let edge = !(8.0..20.0).contains(&x) || !(10.0..29.0).contains(&y);
        let lit = chance(number * 31 + column as i32 * 7 + storey as i32, 4) > 0.72;
        return match (bar || edge, lit) {
            (true, _) => [238.0, 234.0, 224.0],
            (_, true) => [248.0, 214.0, 128.0],
            _ => [48.0, 58.0, 74.0],
        };
    }
    let plaster = 0.94 + 0.1 * smooth(across / 5.0 + number as f32 * 17.0, down / 5.0);
    colour.map(|part| part * plaster)
}

fn quay(x: f32, y: f32) -> Colour {
    let course = ((y - QUAY) / 6.0).floor();
    let stone = (x + course * 9.0) / 18.0;
    let joint = stone.fract() < 0.1 || ((y - QUAY) / 6.0).fract() < 0.2;
    let shade = 118.0 + 50.0 * chance(stone.floor() as i32, 5 + course as i32);
    let shade = if joint { 70.0 } else { shade };
    [shade, shade * 0.98, shade * 0.92]
}

fn water(x: f32, y: f32) -> Colour {
    let wave = smooth(x / 26.0, y / 6.0) * 0.7 + smooth(x / 9.0, y / 3.0) * 0.3;
    mix(
        [24.0, 62.0, 84.0],
        [128.0, 172.0, 184.0],
        (wave - 0.3) * 1.9,
    )
}

fn mix(from: Colour, to: Colour, by: f32) -> Colour {
    let by = by.clamp(0.0, 1.0);
    std::array::from_fn(|part| from[part] + (to[part] - from[part]) * by)
}

/// A number from 0 to 1 that looks like chance, and is the same at every run.
pub fn chance(a: i32, b: i32) -> f32 {
    let mut bits = (a as u32).wrapping_mul(0x9e37_79b9) ^ (b as u32).wrapping_mul(0x85eb_ca6b);
    for _ in 0..2 {
        bits = (bits ^ bits >> 15).wrapping_mul(0x2c1b_3c6d);
    }
    (bits >> 8) as f32 / (1 << 24) as f32
}

/// The same, without jumps between whole numbers.
fn smooth(x: f32, y: f32) -> f32 {
    let (left, top) = (x.floor(), y.floor());
    let ease = |part: f32| part * part * (3.0 - 2.0 * part);
    let (across, down) = (ease(x - left), ease(y - top));
    let corner = |dx: i32, dy: i32| chance(left as i32 + dx, (top as i32 + dy) * 57 + 11);
    let row = |dy: i32| corner(0, dy) + (corner(1, dy) - corner(0, dy)) * across;
    row(0) + (row(1) - row(0)) * down
}
