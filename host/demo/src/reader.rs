//! The way back from a PNG to its pixels, for the tests alone. It is written from the formats' rules, with none of the
//! writer's tables, and passes over nothing.

/// Width and height of a PNG as this demo writes them, and its pixels, three bytes each.
pub fn png(file: &[u8]) -> ([usize; 2], Vec<u8>) {
    let rest = file
        .strip_prefix(b"\x89PNG\r\n\x1a\n")
        .expect("the first bytes of a PNG");
    let (head, rest) = chunk(rest, b"IHDR");
    let (data, rest) = chunk(rest, b"IDAT");
    let (end, rest) = chunk(rest, b"IEND");
    assert!(end.is_empty() && rest.is_empty());
    let side = |at: usize| {
        head[at..at + 4]
            .iter()
            .fold(0, |side, &byte| side << 8 | usize::from(byte))
    };
    let [width, height] = [side(0), side(4)];
    assert_eq!(head[8..], [8, 2, 0, 0, 0]);
    let rows = zlib(data);
    assert_eq!(rows.len(), height * (1 + 3 * width));
    let mut pixels: Vec<u8> = Vec::new();
    for row in rows.chunks_exact(1 + 3 * width) {
        for (at, byte) in row[1..].iter().enumerate() {
            let back = |far: usize| pixels[pixels.len() - far];
            let other = match row[0] {
                1 if at >= 3 => back(3),
                2 if pixels.len() >= 3 * width => back(3 * width),
                0..=2 => 0,
                way => panic!("a row filtered in way {way}"),
            };
            pixels.push(byte.wrapping_add(other));
        }
    }
    ([width, height], pixels)
}

/// The data of the chunk of that name, and what follows it.
fn chunk<'a>(bytes: &'a [u8], name: &[u8; 4]) -> (&'a [u8], &'a [u8]) {
    let number =
        |at: usize| u32::from_be_bytes([bytes[at], bytes[at + 1], bytes[at + 2], bytes[at + 3]]);
    let end = 8 + number(0) as usize;
    assert_eq!(&bytes[4..8], name);
    assert_eq!(
        number(end),
        remainder(&bytes[4..end]),
        "the check of a chunk"
    );
    (&bytes[8..end], &bytes[end + 4..])
}

/// The check of a chunk, bit by bit.
fn remainder(data: &[u8]) -> u32 {
    let bits = data
        .iter()
        .flat_map(|byte| (0..8).map(move |bit| u32::from(byte >> bit & 1)));
    !bits.fold(!0, |crc: u32, bit| {
        (crc >> 1) ^ if (crc ^ bit) & 1 == 1 { 0xedb8_8320 } else { 0 }
    })
}

/// The bytes of a zlib stream.
pub fn zlib(stream: &[u8]) -> Vec<u8> {
    assert_eq!(stream[0] & 15, 8, "deflate");
    let head = u16::from_be_bytes([stream[0], stream[1]]);
    assert_eq!(
        (head % 31, stream[1] & 32),
        (0, 0),
        "the head's check, and no dictionary"
    );
    let mut bits = Bits {
        bytes: &stream[2..],
        at: 0,
    };
    let mut made = Vec::new();
    assert_eq!(
        (bits.take(1), bits.take(2)),
        (1, 1),
        "one block, in the codes that are always the same"
    );
    block(&mut bits, &mut made);
    let check = &bits.bytes[bits.at.div_ceil(8)..];
    assert_eq!(
        check,
        check_of(&made),
        "the check at the end, and nothing after it"
    );
    made
}

/// Reckoned in another way than in the writer: by the two sums themselves.
fn check_of(data: &[u8]) -> [u8; 4] {
    let low = 1 + data.iter().map(|&byte| u64::from(byte)).sum::<u64>();
    let places = data.iter().rev().zip(1..);
    let high = data.len() as u64
        + places
            .map(|(&byte, times)| u64::from(byte) * times)
            .sum::<u64>();
    let (high, low) = (high % 65_521, low % 65_521);
    ((high << 16 | low) as u32).to_be_bytes()
}

struct Bits<'a> {
    bytes: &'a [u8],
    at: usize,
}

impl Bits<'_> {
    fn take(&mut self, count: usize) -> usize {
        let bit = |at: usize| usize::from(self.bytes[at / 8] >> (at % 8) & 1);
        let value = (0..count).map(|n| bit(self.at + n) << n).sum();
        self.at += count;
        value
    }

    /// The next symbol of a code with these lengths.
    fn symbol(&mut self, lengths: &[usize]) -> usize {
        let (mut code, mut first) = (0, 0);
        for length in 1..=15 {
            let of_length = || (0..lengths.len()).filter(|&symbol| lengths[symbol] == length);
            code = code << 1 | self.take(1);
            first <<= 1;
            let count = of_length().count();
            if code < first + count {
                return of_length().nth(code - first).expect("a symbol");
            }
            first += count;
        }
        panic!("bits that are no code");
    }
}

fn block(bits: &mut Bits, made: &mut Vec<u8>) {
    let lengths = [(144, 8), (112, 9), (24, 7), (8, 8)];
    let uses = lengths.map(|(times, length)| vec![length; times]).concat();
    loop {
        let symbol = bits.symbol(&uses);
        match symbol {
            0..=255 => made.push(symbol as u8),
            256 => return,
            _ => {
                let length = spread(bits, symbol - 257, 4, 3);
                // The longest one has a symbol to itself.
                let length = if symbol == 285 { 258 } else { length };
                let distance = bits.symbol(&[5; 30]);
                let distance = spread(bits, distance, 2, 1);
                for _ in 0..length {
                    made.push(made[made.len() - distance]);
                }
            }
        }
    }
}

/// The number of a symbol: so many symbols share a count of further bits, save that none has any for twice as many; the
/// first number is this one.
fn spread(bits: &mut Bits, symbol: usize, share: usize, first: usize) -> usize {
    let more = (symbol / share).saturating_sub(1);
    let base: usize = (0..symbol)
        .map(|symbol| 1 << (symbol / share).saturating_sub(1))
        .sum();
    let last = share == 4 && symbol == 28;
    first + base + if last { 0 } else { bits.take(more) }
}
