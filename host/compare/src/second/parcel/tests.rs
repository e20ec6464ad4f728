//! Small parcels, written down byte by byte from the words of W-201.

use super::{opened, written, Head, Layer};
use safeteal::groups::LentLayer;
use safeteal::Size;

/// A layer of one pixel: gain 4096, offset -64, chroma offsets 5 and -5, the cell -32768.
#[rustfmt::skip]
const PIXEL: [u8; 52] = [
    6, 0, 0, 0, 1, 0, 1, 0, 1, 0, 1, 0,
    2, 0, 0, 0, 2, 0, 0x00, 0x10,
    2, 0, 0, 0, 3, 0, 0xc0, 0xff,
    2, 0, 0, 0, 4, 0, 5, 0,
    2, 0, 0, 0, 5, 0, 0xfb, 0xff,
    2, 0, 0, 0, 6, 0, 0x00, 0x80,
];

/// 4 by 2 pixels at ratio 2: gains 1 to 8, offsets -1 to -8, 300 and -300 in plane 1, 32767 and -32768 in plane 2, one
/// cell 258.
#[rustfmt::skip]
const BLOCK: [u8; 84] = [
    6, 0, 0, 0, 1, 0, 4, 0, 2, 0, 2, 0,
    16, 0, 0, 0, 2, 0, 1, 0, 2, 0, 3, 0, 4, 0, 5, 0, 6, 0, 7, 0, 8, 0,
    16, 0, 0, 0, 3, 0, 255, 255, 254, 255, 253, 255, 252, 255, 251, 255, 250, 255, 249, 255, 248, 255,
    4, 0, 0, 0, 4, 0, 0x2c, 0x01, 0xd4, 0xfe,
    4, 0, 0, 0, 5, 0, 0xff, 0x7f, 0x00, 0x80,
    2, 0, 0, 0, 6, 0, 2, 1,
];

fn lent<'a>(
    luma: &'a [i16],
    chroma: [&'a [i16]; 2],
    pitch: (usize, usize),
    (width, height, ratio): (usize, usize, usize),
) -> LentLayer<'a, i16> {
    LentLayer {
        luma,
        chroma,
        pitch,
        size: Size::new(width, height),
        ratio,
    }
}

#[test]
fn a_pixel_is_written_and_read() {
    let layer = lent(&[4096, -64], [&[5, 0], &[-5, -32768]], (1, 1), (1, 1, 1));
    assert_eq!(written(&layer), PIXEL);
    let parcel = opened(&PIXEL).expect("a good parcel");
    assert_eq!(parcel.head, Head::new((1, 1, 1)));
    let read = Layer {
        luma: vec![4096, -64],
        chroma: [vec![5, 0], vec![-5, -32768]],
    };
    assert_eq!(parcel.layer(), read);
}

/// What stands between the rows, in the second half of plane 1 or behind the layer does not travel.
#[test]
fn a_padded_layer_is_written_without_padding() {
    #[rustfmt::skip]
    let luma = [
        1, 2, 3, 4, 90,
        5, 6, 7, 8, 91,
        -1, -2, -3, -4, 92,
        -5, -6, -7, -8, 93,
        94,
    ];
    let first = [300, -300, 95, 96, 97, 98];
    let second = [32767, -32768, 99, 258, 100, 101, 102];
    let layer = lent(&luma, [&first, &second], (5, 3), (4, 2, 2));
    assert_eq!(written(&layer), BLOCK);
    let parcel = opened(&BLOCK).expect("a good parcel");
    assert_eq!(parcel.head, Head::new((4, 2, 2)));
    let read = Layer {
        luma: vec![1, 2, 3, 4, 5, 6, 7, 8, -1, -2, -3, -4, -5, -6, -7, -8],
        chroma: [vec![300, -300, 0, 0], vec![32767, -32768, 258, 0]],
    };
    assert_eq!(parcel.layer(), read);
}

/// Of 9 by 9 pixels at ratio 1 the cells are 2 by 2, and their rows lie 9 numbers apart; the kinds come in another
/// order.
#[test]
fn rows_of_cells_lie_a_chroma_row_apart() {
    let plane = |kind: u8, low: u8| [vec![162, 0, 0, 0, kind, 0], [low, 0].repeat(81)].concat();
    let parcel = [
        vec![6, 0, 0, 0, 1, 0, 9, 0, 9, 0, 1, 0],
        vec![8, 0, 0, 0, 6, 0, 1, 0, 2, 0, 3, 0, 4, 0],
        plane(5, 25),
        plane(3, 23),
        plane(4, 24),
        plane(2, 22),
    ]
    .concat();
    let layer = opened(&parcel).expect("a good parcel").layer();
    assert_eq!(layer.luma, [[22; 81], [23; 81]].concat());
    assert_eq!(layer.chroma[0], [[24; 81], [0; 81]].concat());
    let mut second = [[25; 81], [0; 81]].concat();
    second[81..83].copy_from_slice(&[1, 2]);
    second[90..92].copy_from_slice(&[3, 4]);
    assert_eq!(layer.chroma[1], second);
}

/// PIXEL with these bytes from that place on.
fn changed(at: usize, bytes: &[u8]) -> Vec<u8> {
    let mut parcel = PIXEL.to_vec();
    parcel[at..at + bytes.len()].copy_from_slice(bytes);
    parcel
}

/// PIXEL with these bytes behind it.
fn longer(bytes: &[u8]) -> Vec<u8> {
    [&PIXEL, bytes].concat()
}

/// PIXEL with another head.
fn headed(head: &[u8]) -> Vec<u8> {
    [head, &PIXEL[12..]].concat()
}

fn number(parcel: &[u8]) -> u64 {
    opened(parcel).map_or_else(|number| number, |_| 0)
}

#[test]
fn a_record_cut_short_is_9() {
    let none = [0, 0, 0, 0, 0, 0];
    let all = [0xff, 0xff, 0xff, 0xff, 2, 0, 1, 2, 3, 4];
    let wrong = [
        ("one byte", vec![6]),
        ("five bytes", vec![6, 0, 0, 0, 1]),
        (
            "a head without its last byte",
            vec![6, 0, 0, 0, 1, 0, 1, 0, 1, 0, 1],
        ),
        ("no payload at all", PIXEL[..6].to_vec()),
        ("the last byte missing", PIXEL[..51].to_vec()),
        ("five bytes behind", longer(&none[..5])),
        ("length 3 for the last two bytes", changed(44, &[3])),
        ("length 4294967295 with 4 bytes left", longer(&all)),
        ("an unknown kind before", longer(&[0, 0, 0, 0, 9, 0, 1])),
        (
            "no head, and cut short",
            PIXEL[12..].iter().copied().chain([1]).collect(),
        ),
        (
            "a wrong head, and cut short",
            changed(6, &[0, 0])[..51].to_vec(),
        ),
    ];
    for (name, parcel) in wrong {
        assert_eq!(number(&parcel), 9, "{name}");
    }
}

#[test]
fn a_wrong_run_of_kinds_is_10() {
    let head = &PIXEL[..12];
    let without = |at: usize| {
        let mut parcel = PIXEL.to_vec();
        parcel.drain(at..at + 8);
        parcel
    };
    let wrong = [
        ("no bytes", vec![]),
        ("the head alone", head.to_vec()),
        ("no gains", without(12)),
        ("no cells", without(44)),
        ("no head", PIXEL[12..].to_vec()),
        ("the head last", [&PIXEL[12..], head].concat()),
        (
            "the head second",
            [&PIXEL[12..20], head, &PIXEL[20..]].concat(),
        ),
        ("two heads", longer(head)),
        ("gains twice", longer(&PIXEL[12..20])),
        ("cells twice and no gains", changed(16, &[6])),
        ("kind 0", longer(&[0, 0, 0, 0, 0, 0])),
        ("kind 7", longer(&[0, 0, 0, 0, 7, 0])),
        ("kind 257 for the head", changed(4, &[1, 1])),
        ("kind 258 for gains", changed(16, &[2, 1])),
        ("kind 65535", longer(&[0, 0, 0, 0, 255, 255])),
        (
            "a wrong head and kind 7",
            [&changed(6, &[0, 0])[..], &[0, 0, 0, 0, 7, 0]].concat(),
        ),
        (
            "a head of no bytes, and nothing else",
            vec![0, 0, 0, 0, 1, 0],
        ),
    ];
    for (name, parcel) in wrong {
        assert_eq!(number(&parcel), 10, "{name}");
    }
}

#[test]
fn a_wrong_head_or_length_is_11() {
    let longer_by = |bytes: &[u8]| {
        let mut parcel = changed(12, &[2 + bytes.len() as u8]);
        parcel.splice(20..20, bytes.iter().copied());
        parcel
    };
    let wrong = [
        ("a head of no bytes", headed(&[0, 0, 0, 0, 1, 0])),
        (
            "a head of five bytes",
            headed(&[5, 0, 0, 0, 1, 0, 1, 0, 1, 0, 1]),
        ),
        (
            "a head of seven bytes",
            headed(&[7, 0, 0, 0, 1, 0, 1, 0, 1, 0, 1, 0, 0]),
        ),
        ("width 0", changed(6, &[0, 0])),
        ("height 0", changed(8, &[0, 0])),
        ("width 4097", changed(6, &[0x01, 0x10])),
        ("height 65535", changed(8, &[255, 255])),
        ("width 256", changed(6, &[0, 1])),
        ("ratio 0", changed(10, &[0, 0])),
        ("ratio 3", changed(10, &[3, 0])),
        ("ratio 257", changed(10, &[1, 1])),
        ("ratio 2 for one pixel", changed(10, &[2, 0])),
        ("one byte of gains more", longer_by(&[0])),
        ("two bytes of gains more", longer_by(&[0, 0])),
        ("two pixels and the gains of one", changed(6, &[2, 0])),
    ];
    for (name, parcel) in wrong {
        assert_eq!(number(&parcel), 11, "{name}");
    }
}

/// Each part of a parcel is measured.
#[test]
fn each_payload_has_its_length() {
    assert_eq!(number(&BLOCK), 0);
    for at in [12, 34, 56, 66, 76] {
        let mut shorter = BLOCK.to_vec();
        shorter[at] -= 2;
        shorter.drain(at + 6..at + 8);
        assert_eq!(number(&shorter), 11, "the record at {at}");
    }
}

#[test]
fn lengths_of_any_sizes_do_not_wrap() {
    let block = Head::new((4, 2, 2));
    assert_eq!(block.parcel_bytes(), 84);
    assert_eq!(block.layer_numbers(), [16, 4]);
    let largest = Head::new((4096, 4096, 1));
    assert_eq!(largest.parcel_bytes(), 134_742_058);
    let beyond = Head::new((usize::MAX, usize::MAX, 0));
    assert!(beyond.parcel_bytes() > u128::from(u64::MAX));
}
