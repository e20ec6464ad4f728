//! Deflate (RFC 1951) in a zlib stream (RFC 1950), by its simple form: one block in the codes that are always the same.
//! What came before is named by its length and distance.

/// A match begins less than so far back.
const WINDOW: usize = 32_768;
/// The bytes of a match.
const SHORTEST: usize = 3;
const LONGEST: usize = 258;
/// How many earlier places are tried for a match: more of them take longer and save little.
const TRIES: usize = 48;

/// The symbol at the block's end; those of lengths follow it.
const END: usize = 256;
/// The first length of each symbol; bits after the symbol say how many more it is.
#[rustfmt::skip]
const LENGTHS: [usize; 29] = [
    3, 4, 5, 6, 7, 8, 9, 10, 11, 13, 15, 17, 19, 23, 27, 31, 35, 43, 51, 59, 67, 83, 99, 115, 131, 163, 195, 227, 258,
];
/// The same for distances.
#[rustfmt::skip]
const DISTANCES: [usize; 30] = [
    1, 2, 3, 4, 5, 7, 9, 13, 17, 25, 33, 49, 65, 97, 129, 193, 257, 385, 513, 769, 1025, 1537, 2049, 3073, 4097, 6145,
    8193, 12289, 16385, 24577,
];

/// The data as a zlib stream.
pub fn zlib(data: &[u8]) -> Vec<u8> {
    let mut bits = Bits::default();
    // The last block, in the codes that are always the same.
    bits.put(1, 1);
    bits.put(1, 2);
    pieces(data, |piece| bits.piece(piece));
    bits.symbol(END);
    let mut made = vec![0x78, 0x9c];
    made.extend(bits.finish());
    made.extend(adler(data).to_be_bytes());
    made
}

/// A byte as it is, or so many bytes that stand so far back.
#[derive(Clone, Copy, Debug, PartialEq)]
enum Piece {
    Byte(u8),
    Back { length: usize, distance: usize },
}

/// Parts the data into bytes and matches, from the front. A match waits where the next place has a longer one.
fn pieces(data: &[u8], mut found: impl FnMut(Piece)) {
    let mut places = Places::new(data);
    let (mut at, mut here) = (0, places.longest(0));
    while at < data.len() {
        let next = places.longest(at + 1);
        let (length, distance) = here;
        if length < SHORTEST || next.0 > length {
            found(Piece::Byte(data[at]));
            (at, here) = (at + 1, next);
            continue;
        }
        found(Piece::Back { length, distance });
        // Its first two places are known already.
        (at + 2..at + length).for_each(|inside| places.learn(inside));
        at += length;
        here = places.longest(at);
    }
}

/// Where three bytes were seen last, and at each place, where its three bytes were seen before it.
struct Places<'a> {
    data: &'a [u8],
    last: Vec<usize>,
    before: Vec<usize>,
}

const NOWHERE: usize = usize::MAX;

impl<'a> Places<'a> {
    fn new(data: &'a [u8]) -> Self {
        let (last, before) = (vec![NOWHERE; WINDOW], vec![NOWHERE; WINDOW]);
        Self { data, last, before }
    }

    /// A number below `WINDOW` for the three bytes at a place.
    fn key(&self, at: usize) -> Option<usize> {
        let three = self.data.get(at..at + SHORTEST)?;
        let number = u32::from_le_bytes([three[0], three[1], three[2], 0]);
        Some((number.wrapping_mul(0x9e37_79b1) >> 17) as usize)
    }

    fn learn(&mut self, at: usize) {
        if let Some(key) = self.key(at) {
            self.before[at % WINDOW] = self.last[key];
            self.last[key] = at;
        }
    }

    /// Learns a place, and answers the length and the distance of its longest match, 0 where there is none.
    fn longest(&mut self, at: usize) -> (usize, usize) {
        let mut best = (0, 0);
        let Some(key) = self.key(at) else { return best };
        let rest = &self.data[at..self.data.len().min(at + LONGEST)];
        let mut place = self.last[key];
        for _ in 0..TRIES {
            if place == NOWHERE || at - place >= WINDOW || best.0 == rest.len() {
                break;
            }
            // A longer match has the same byte where the best one ends.
            if self.data[place + best.0] == rest[best.0] {
                let same = rest.iter().zip(&self.data[place..]);
                let same = same.take_while(|(a, b)| a == b).count();
                if same > best.0 {
                    best = (same, at - place);
                }
            }
            place = self.before[place % WINDOW];
        }
        self.learn(at);
        best
    }
}

/// Bytes that are filled from their lowest bit.
#[derive(Default)]
struct Bits {
    bytes: Vec<u8>,
    open: u32,
    count: u32,
}

impl Bits {
    fn piece(&mut self, piece: Piece) {
        match piece {
            Piece::Byte(byte) => self.symbol(usize::from(byte)),
            Piece::Back { length, distance } => {
                let (symbol, more, count) = length_symbol(length);
                self.symbol(symbol);
                self.put(more, count);
                let (symbol, more, count) = distance_symbol(distance);
                self.code(symbol, 5);
                self.put(more, count);
            }
        }
    }

    /// A byte, a length or the end, in the code that is always the same.
    fn symbol(&mut self, symbol: usize) {
        match symbol {
            0..=143 => self.code(0x30 + symbol, 8),
            144..=255 => self.code(0x190 + symbol - 144, 9),
            256..=279 => self.code(symbol - 256, 7),
            _ => self.code(0xc0 + symbol - 280, 8),
        }
    }

    /// A code goes from its highest bit.
    fn code(&mut self, code: usize, count: u32) {
        self.put((code as u32).reverse_bits() >> (32 - count), count);
    }

    /// At most 13 bits, from the lowest.
    fn put(&mut self, bits: u32, count: u32) {
        self.open |= bits << self.count;
        self.count += count;
        while self.count >= 8 {
            self.bytes.push(self.open as u8);
            self.open >>= 8;
            self.count -= 8;
        }
    }

    fn finish(mut self) -> Vec<u8> {
        if self.count > 0 {
            self.bytes.push(self.open as u8);
        }
        self.bytes
    }
}

/// The symbol of a length, the bits after it, and how many.
fn length_symbol(length: usize) -> (usize, u32, u32) {
    let at = LENGTHS.partition_point(|&first| first <= length) - 1;
    let count = if (8..28).contains(&at) { at / 4 - 1 } else { 0 };
    (END + 1 + at, (length - LENGTHS[at]) as u32, count as u32)
}

/// The same of a distance.
fn distance_symbol(distance: usize) -> (usize, u32, u32) {
    let at = DISTANCES.partition_point(|&first| first <= distance) - 1;
    let count = (at / 2).saturating_sub(1);
    (at, (distance - DISTANCES[at]) as u32, count as u32)
}

/// The check at a zlib stream's end.
fn adler(data: &[u8]) -> u32 {
    let (mut low, mut high) = (1, 0);
    for &byte in data {
        low = (low + u32::from(byte)) % 65_521;
        high = (high + low) % 65_521;
    }
    high << 16 | low
}

#[cfg(test)]
mod tests {
    use super::*;
    use crate::reader;

    /// Bytes below a bound that look like chance.
    fn noise(count: usize, below: u32) -> Vec<u8> {
        let mut state = 1_u32;
        let mut next = || {
            state = state.wrapping_mul(1_664_525).wrapping_add(1_013_904_223);
            ((state >> 16) % below) as u8
        };
        (0..count).map(|_| next()).collect()
    }

    #[test]
    fn the_check_of_a_known_text() {
        assert_eq!(adler(b"Wikipedia"), 0x11e6_0398);
    }

    #[test]
    fn each_stream_is_read_back() {
        let apart = |gap: usize| [noise(300, 256), vec![7; gap], noise(300, 256)].concat();
        let streams = [
            vec![],
            vec![7],
            b"aaa".to_vec(),
            b"abcabcabcabcabc".to_vec(),
            (0..=255).collect(),
            noise(1_000, 2),
            noise(90_000, 7),
            noise(70_000, 256),
            vec![0; 3 * LONGEST + 1],
            apart(WINDOW - 301),
            apart(WINDOW - 300),
            apart(WINDOW),
        ];
        for stream in streams {
            assert!(
                reader::zlib(&zlib(&stream)) == stream,
                "{} bytes",
                stream.len()
            );
        }
    }

    #[test]
    fn a_match_is_the_longest_and_waits_for_a_longer_one() {
        let mut found = Vec::new();
        pieces(b"abc bcdef abcdef", |piece| found.push(piece));
        let bytes = b"abc bcdef a".map(Piece::Byte);
        let back = Piece::Back {
            length: 5,
            distance: 7,
        };
        assert_eq!(found, [&bytes[..], &[back]].concat());
    }

    #[test]
    fn lengths_and_distances_have_their_symbols() {
        assert_eq!(length_symbol(3), (257, 0, 0));
        assert_eq!(length_symbol(12), (265, 1, 1));
        assert_eq!(length_symbol(257), (284, 30, 5));
        assert_eq!(length_symbol(258), (285, 0, 0));
        assert_eq!(distance_symbol(1), (0, 0, 0));
        assert_eq!(distance_symbol(6), (4, 1, 1));
        assert_eq!(distance_symbol(32_767), (29, 8_190, 13));
    }

    #[test]
    fn it_is_shorter() {
        assert!(zlib(&vec![9; 100_000]).len() < 1_000);
        assert!(zlib(&noise(90_000, 7)).len() < 60_000);
        // A byte of what cannot be shorter has 8 bits, or 9.
        assert!(zlib(&noise(70_000, 256)).len() < 70_000 * 9 / 8);
    }
}
