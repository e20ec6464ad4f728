//! PNG files, with nothing but the standard library.

use super::deflate;
use safeteal::Size;

/// Bytes of a pixel: red, green and blue.
const PIXEL: usize = 3;

/// A picture as a file that any viewer opens: rows of pixels from above, three bytes each.
pub fn png(size: Size, pixels: &[u8]) -> Vec<u8> {
    let (width, height) = (size.width as u32, size.height as u32);
    let mut head = [width.to_be_bytes(), height.to_be_bytes()].concat();
    // Eight bits for each of red, green and blue; the only compression and filter methods there are; no interlacing.
    head.extend([8, 2, 0, 0, 0]);
    let mut made = b"\x89PNG\r\n\x1a\n".to_vec();
    chunk(&mut made, *b"IHDR", &head);
    chunk(&mut made, *b"IDAT", &deflate::zlib(&filtered(size, pixels)));
    chunk(&mut made, *b"IEND", &[]);
    made
}

/// Each row as it is, or less the pixels on the left, or less the row above: the way with the smaller numbers, after
/// the number of that way.
fn filtered(size: Size, pixels: &[u8]) -> Vec<u8> {
    let wide = size.width * PIXEL;
    let mut above = vec![0; wide];
    let mut made = Vec::with_capacity(pixels.len() + size.height);
    for row in pixels.chunks_exact(wide) {
        let left = [0; PIXEL].iter().chain(row);
        let less = |others: &mut dyn Iterator<Item = &u8>| -> Vec<u8> {
            row.iter()
                .zip(others)
                .map(|(byte, other)| byte.wrapping_sub(*other))
                .collect()
        };
        let ways = [
            row.to_vec(),
            less(&mut left.clone()),
            less(&mut above.iter()),
        ];
        let size = |way: &Vec<u8>| -> u32 {
            way.iter()
                .map(|&byte| u32::from((byte as i8).unsigned_abs()))
                .sum()
        };
        let best = (0..ways.len())
            .min_by_key(|&way| size(&ways[way]))
            .unwrap_or(0);
        made.push(best as u8);
        made.extend(&ways[best]);
        above.copy_from_slice(row);
    }
    made
}

/// A chunk of a PNG: length, name, data, check.
fn chunk(made: &mut Vec<u8>, name: [u8; 4], data: &[u8]) {
    made.extend((data.len() as u32).to_be_bytes());
    let start = made.len();
    made.extend(name);
    made.extend(data);
    let check = crc(&made[start..]);
    made.extend(check.to_be_bytes());
}

fn crc(data: &[u8]) -> u32 {
    let step = |crc: u32, _| (crc >> 1) ^ (0xedb8_8320 & (crc & 1).wrapping_neg());
    let table: [u32; 256] = std::array::from_fn(|byte| (0..8).fold(byte as u32, step));
    let byte = |crc: u32, &byte: &u8| (crc >> 8) ^ table[(crc as u8 ^ byte) as usize];
    !data.iter().fold(!0, byte)
}

#[cfg(test)]
mod tests {
    use super::*;
    use crate::reader;

    #[test]
    fn the_check_of_a_known_text() {
        assert_eq!(crc(b"123456789"), 0xcbf4_3926);
    }

    #[test]
    fn pixels_are_read_back() {
        let rising = |at: usize| (at % 251) as u8;
        let steep = |at: usize| (at * at / 7 % 256) as u8;
        for (width, height) in [(1, 1), (1, 9), (9, 1), (160, 120), (333, 7)] {
            let size = Size::new(width, height);
            for pixel in [rising, steep, |_| 200] {
                let pixels: Vec<u8> = (0..3 * width * height).map(pixel).collect();
                let (sides, read) = reader::png(&png(size, &pixels));
                assert_eq!(sides, [width, height]);
                assert!(read == pixels, "{width} by {height}");
            }
        }
    }

    #[test]
    fn a_row_goes_the_way_of_the_smaller_numbers() {
        let size = Size::new(4, 4);
        let rows: [[u8; 12]; 4] = [
            [1, 0, 0, 0, 0, 0, 0, 0, 0, 0, 0, 1],
            [90, 80, 70, 90, 80, 70, 90, 80, 70, 90, 80, 70],
            [0, 5, 0, 9, 0, 0, 0, 7, 0, 0, 0, 6],
            [1, 5, 0, 9, 0, 0, 0, 7, 0, 0, 0, 6],
        ];
        let made = filtered(size, rows.as_flattened());
        let ways: Vec<u8> = made.chunks_exact(13).map(|row| row[0]).collect();
        assert_eq!(ways, [0, 1, 0, 2]);
        assert_eq!(made[14..26], [90, 80, 70, 0, 0, 0, 0, 0, 0, 0, 0, 0]);
        assert_eq!(made[40..], [1, 0, 0, 0, 0, 0, 0, 0, 0, 0, 0, 0]);
    }
}
