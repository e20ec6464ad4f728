//! Parcels: layers of every small size go there and back, in whatever order the kinds stand; and what is wrong with a
//! parcel is said with the record and the byte.

use safeteal::{parcel_sizes, read_parcel, Error, Layer, LayerBuf, LayerMut, Ratio, Refusal, Size};

/// The size of the parcel that is damaged here, at ratio 2.
const SIZE: Size = Size::new(4, 2);

/// A layer with numbers of all kinds, none like its neighbours, and zeros where numbers mean nothing.
fn layer(size: Size, ratio: Ratio) -> LayerBuf {
    let mut layer = LayerBuf::new(size, ratio).expect("a size that the ratio divides");
    let (across, down) = (layer.cells().width(), layer.cells().height());
    let mut number = (size.width * 31 + size.height) as i16;
    let mut next = || {
        number = number.wrapping_mul(25_173).wrapping_add(13_849);
        number
    };
    let LayerMut { luma, chroma } = layer.layer_mut();
    luma.fill_with(&mut next);
    let [chroma1, chroma2] = chroma;
    let pixels = chroma1.len() / 2;
    chroma1[..pixels].fill_with(&mut next);
    chroma2[..pixels].fill_with(&mut next);
    let rows = chroma2[pixels..].chunks_exact_mut(size.width / ratio.number());
    for row in rows.take(down) {
        row[..across].fill_with(&mut next);
    }
    layer
}

/// Every size up to twenty by twenty, with each ratio that divides it.
fn shapes() -> impl Iterator<Item = (Size, Ratio)> {
    let sizes = (1..=20).flat_map(|width| (1..=20).map(move |height| Size::new(width, height)));
    let shapes = sizes.flat_map(|size| Ratio::ALL.iter().map(move |ratio| (size, *ratio)));
    shapes.filter(|(size, ratio)| LayerBuf::new(*size, *ratio).is_ok())
}

#[test]
fn every_small_layer_comes_back() {
    let mut layers = 0;
    for (size, ratio) in shapes() {
        let layer = layer(size, ratio);
        let parcel = layer.to_parcel();
        assert_eq!(parcel.len(), size.parcel(ratio), "{size} at {ratio}");
        assert_eq!(parcel_sizes(&parcel), Ok((size, ratio)));
        let read = LayerBuf::from_parcel(&parcel).expect("a parcel that was written");
        assert!(read == layer, "{size} at {ratio}");
        assert_eq!(read.to_parcel(), parcel);
        layers += 1;
    }
    assert_eq!(layers, 20 * 20 + 10 * 10 + 5 * 5);
}

#[test]
fn the_bytes_of_a_parcel() {
    let (luma, chroma) = ([1, 2, -3, 4, 5, 6, 7, 256], [[-9, 99], [10, -11]]);
    let layer = Layer::new(&luma, [&chroma[0], &chroma[1]], Size::new(2, 2), Ratio::Two);
    #[rustfmt::skip]
    let expected = [
        6, 0, 0, 0, 1, 0, 2, 0, 2, 0, 2, 0,
        8, 0, 0, 0, 2, 0, 1, 0, 2, 0, 253, 255, 4, 0,
        8, 0, 0, 0, 3, 0, 5, 0, 6, 0, 7, 0, 0, 1,
        2, 0, 0, 0, 4, 0, 247, 255,
        2, 0, 0, 0, 5, 0, 10, 0,
        2, 0, 0, 0, 6, 0, 245, 255,
    ];
    assert_eq!(layer.to_parcel(), Ok(expected.to_vec()));
    // What means nothing was not sent.
    let read = LayerBuf::from_parcel(&expected).expect("a good parcel");
    assert_eq!(read.layer().luma, luma);
    assert_eq!(read.layer().chroma, [[-9, 0], [10, -11]]);
}

/// Padding, and what lies behind a layer, is not sent.
#[test]
fn a_layer_with_padding() {
    let (size, ratio) = (Size::new(12, 20), Ratio::Four);
    let whole = layer(size, ratio);
    let padded = |slice: &[i16], width: usize, pitch: usize| -> Vec<i16> {
        let rows = slice.chunks_exact(width);
        rows.flat_map(|row| [row, &vec![99; pitch - width]].concat())
            .chain([99; 5])
            .collect()
    };
    let lent = whole.layer();
    let (luma, chroma) = (
        padded(lent.luma, 12, 17),
        lent.chroma.map(|slice| padded(slice, 3, 4)),
    );
    let lent = Layer {
        pitch: (17, 4),
        ..Layer::new(&luma, [&chroma[0], &chroma[1]], size, ratio)
    };
    assert_eq!(lent.to_parcel(), Ok(whole.to_parcel()));
}

/// The records of a parcel that was written, from the head on.
fn records(parcel: &[u8]) -> Vec<Vec<u8>> {
    let mut rest = parcel;
    let mut made = Vec::new();
    while let Some(start) = rest.first_chunk::<4>() {
        let (record, after) = rest.split_at(6 + u32::from_le_bytes(*start) as usize);
        made.push(record.to_vec());
        rest = after;
    }
    made
}

/// All orders of some things.
fn orders<T: Clone>(things: &[T]) -> Vec<Vec<T>> {
    let [] = things else {
        let firsts = (0..things.len()).flat_map(|at| {
            let mut rest = things.to_vec();
            let first = rest.remove(at);
            let orders = orders(&rest).into_iter();
            orders.map(move |order| [vec![first.clone()], order].concat())
        });
        return firsts.collect();
    };
    vec![Vec::new()]
}

#[test]
fn kinds_in_any_order_behind_the_head() {
    let layer = layer(Size::new(12, 4), Ratio::Four);
    let written = records(&layer.to_parcel());
    let orders = orders(&written[1..]);
    assert_eq!(orders.len(), 120);
    for order in orders {
        let parcel = [written[0].clone(), order.concat()].concat();
        assert_eq!(LayerBuf::from_parcel(&parcel), Ok(layer.clone()));
    }
}

fn record(kind: u16, payload: &[u8]) -> Vec<u8> {
    let length = payload.len() as u32;
    [&length.to_le_bytes()[..], &kind.to_le_bytes(), payload].concat()
}

fn head(width: u16, height: u16, ratio: u16) -> Vec<u8> {
    let numbers = [width, height, ratio].map(u16::to_le_bytes);
    record(1, numbers.as_flattened())
}

/// The records of a good parcel: they begin at bytes 0, 12, 34, 56, 66 and 76, and end at 84.
fn good() -> Vec<Vec<u8>> {
    records(&layer(SIZE, Ratio::Two).to_parcel())
}

/// A good parcel with a record replaced.
fn with(number: usize, record: Vec<u8>) -> Vec<u8> {
    let mut records = good();
    records[number - 1] = record;
    records.concat()
}

fn error(parcel: &[u8]) -> Error {
    LayerBuf::from_parcel(parcel).expect_err("a damaged parcel")
}

/// What is said of the parcel, by the number of the refusal.
fn said(number: u8, parcel: &[u8]) -> String {
    let words = error(parcel).to_string();
    let start = format!("LayerBuf::from_parcel refused ({number}): ");
    let found = words.strip_prefix(&start);
    found.unwrap_or_else(|| panic!("{words}")).to_owned()
}

#[test]
fn a_record_cut_short() {
    let parcel = good().concat();
    assert_eq!(
        said(9, &parcel[..1]),
        "record 1, at byte 0, has 1 byte and must have 6 before its payload"
    );
    assert_eq!(
        said(9, &parcel[..61]),
        "record 4, at byte 56, has 5 bytes and must have 6 before its payload"
    );
    assert_eq!(
        said(9, &parcel[..83]),
        "record 6 (cells), at byte 76, says that its payload has 2 bytes, and the parcel has 1 left"
    );
    let most = [&[255, 255, 255, 255, 3, 0], &[0; 10][..]].concat();
    assert_eq!(
        said(9, &[&parcel[..34], &most].concat()),
        "record 3 (luma offsets), at byte 34, says that its payload has 4294967295 bytes, and the parcel has 10 left"
    );
    // It is looked for to the end, whatever kinds come before.
    let unknown = record(7, &[]);
    assert_eq!(
        said(9, &[&unknown[..], &unknown, &[0; 3]].concat()),
        "record 3, at byte 12, has 3 bytes and must have 6 before its payload"
    );
    assert_eq!(
        said(9, &[&unknown[..], &[1, 0, 0, 0, 1, 1]].concat()),
        "record 2, at byte 6, says that its payload has 1 byte, and the parcel has 0 left"
    );
}

#[test]
fn kinds_that_are_wrong() {
    assert_eq!(
        said(10, &[]),
        "the parcel ends at byte 0, after 0 records, and none is of kind 1 (head)"
    );
    assert_eq!(
        said(10, &head(4, 2, 2)),
        "the parcel ends at byte 12, after 1 record, and none is of kind 2 (luma gains)"
    );
    assert_eq!(
        said(10, &good()[..5].concat()),
        "the parcel ends at byte 76, after 5 records, and none is of kind 6 (cells)"
    );
    assert_eq!(
        said(10, &good()[1..].concat()),
        "record 1 (luma gains), at byte 0, is of kind 2 and must be the head, of kind 1"
    );
    assert_eq!(
        said(10, &with(4, record(257, &[0; 4]))),
        "record 4, at byte 56, is of kind 257, and kinds are 1 to 6"
    );
    assert_eq!(
        said(10, &with(1, record(0, &[]))),
        "record 1, at byte 0, is of kind 0, and kinds are 1 to 6"
    );
    assert_eq!(
        said(10, &with(5, good()[2].clone())),
        "record 5 (luma offsets), at byte 66, is of the same kind as record 3 (luma offsets), at byte 34, and each \
         kind must stand once"
    );
    assert_eq!(
        said(10, &[good().concat(), head(4, 2, 2)].concat()),
        "record 7 (head), at byte 84, is of the same kind as record 1 (head), at byte 0, and each kind must stand once"
    );
}

#[test]
fn heads_that_are_wrong() {
    for (head, words) in [
        (
            record(1, &[4, 0, 2, 0, 2]),
            "record 1 (head), at byte 0, has a payload of 5 bytes and must have one of 6: width, height and ratio",
        ),
        (
            record(1, &[4, 0, 2, 0, 2, 0, 0]),
            "record 1 (head), at byte 0, has a payload of 7 bytes and must have one of 6: width, height and ratio",
        ),
        (
            head(0, 0, 0),
            "the head's width, at byte 6, is 0 and must be 1 to 4096",
        ),
        (
            head(65_535, 2, 2),
            "the head's width, at byte 6, is 65535 and must be 1 to 4096",
        ),
        (
            head(4, 4097, 2),
            "the head's height, at byte 8, is 4097 and must be 1 to 4096",
        ),
        (
            head(4, 2, 3),
            "the head's ratio, at byte 10, is 3 and must be 1, 2 or 4",
        ),
        (
            head(4, 2, 4),
            "the head's ratio, at byte 10, is 4, and does not divide 4 by 2",
        ),
    ] {
        assert_eq!(said(11, &with(1, head)), words);
    }
}

#[test]
fn payloads_that_do_not_go_with_the_head() {
    assert_eq!(
        said(11, &with(2, record(2, &[0; 10]))),
        "record 2 (luma gains), at byte 12, has a payload of 10 bytes, and a head of 4 by 2 at ratio 2 calls for 16"
    );
    assert_eq!(
        said(11, &with(6, record(6, &[0]))),
        "record 6 (cells), at byte 76, has a payload of 1 byte, and a head of 4 by 2 at ratio 2 calls for 2"
    );
    assert_eq!(
        said(11, &with(1, head(4, 2, 1))),
        "record 4 (chroma1 offsets), at byte 56, has a payload of 4 bytes, and a head of 4 by 2 at ratio 1 calls for 16"
    );
}

/// Two slices, and what they are when the parcel was refused.
fn read_into(luma: usize, chroma2: usize) -> String {
    let (mut luma, mut chroma1, mut chroma2) = (vec![7; luma], [7; 4], vec![7; chroma2]);
    let lent = LayerMut {
        luma: &mut luma,
        chroma: [&mut chroma1, &mut chroma2],
    };
    let answer = read_parcel(&good().concat(), lent);
    let all = [&luma[..], &chroma1, &chroma2].concat();
    assert!(all.iter().all(|number| *number == 7));
    answer.expect_err("a slice of a wrong length").to_string()
}

#[test]
fn slices_of_a_wrong_length() {
    assert_eq!(
        read_into(17, 4),
        "read_parcel refused (4): `luma` has 17 numbers and must have exactly 16: 2 for each of 4 by 2 pixels"
    );
    assert_eq!(
        read_into(16, 3),
        "read_parcel refused (4): `chroma[1]` has 3 numbers and must have exactly 4: 2 for each of 2 by 1 pixels"
    );
    let (layer, mut bytes) = (layer(SIZE, Ratio::Two), [7; 83]);
    assert_eq!(
        layer.layer().write_parcel(&mut bytes).unwrap_err().to_string(),
        "Layer::write_parcel refused (4): `parcel` has 83 bytes and must have exactly 84: a parcel of a layer of 4 by \
         2 at ratio 2"
    );
    assert_eq!(bytes, [7; 83]);
}

/// A layer that no call takes is refused before there is a buffer for it.
#[test]
fn layers_that_no_call_takes() {
    let lent = Layer::new(&[], [&[], &[]], Size::new(4, 2), Ratio::Two);
    for (layer, words) in [
        (
            Layer {
                size: Size::new(usize::MAX, 2),
                ..lent
            },
            format!("(1): width is {} and must be 1 to 4096", usize::MAX),
        ),
        (
            Layer {
                size: Size::new(4, 3),
                ..lent
            },
            "(2): ratio 2 does not divide 4 by 3".to_owned(),
        ),
        (
            Layer {
                pitch: (4, 1),
                ..lent
            },
            "(3): the chroma pitch of the layer is 1 and must be 2 to 65536".to_owned(),
        ),
        (
            lent,
            "(4): `luma` has 0 numbers and needs at least 16: two halves, each of 2 rows of 4"
                .to_owned(),
        ),
    ] {
        let called = |call: &str| format!("Layer::{call} refused {words}");
        let error = layer.to_parcel().expect_err("no call takes it");
        assert_eq!(error.to_string(), called("to_parcel"));
        let error = layer.write_parcel(&mut []).expect_err("no call takes it");
        assert_eq!(error.to_string(), called("write_parcel"));
    }
}

/// Each cut, and each byte with each of its bits turned: it is read, or refused in words of its own, by both calls.
#[test]
fn any_bytes_are_answered() {
    let parcel = good().concat();
    let cut = (0..parcel.len()).map(|length| parcel[..length].to_vec());
    let turned = (0..8 * parcel.len()).map(|bit| {
        let mut parcel = parcel.clone();
        parcel[bit / 8] ^= 1 << (bit % 8);
        parcel
    });
    let (mut read, mut refused) = (0, [0; 12]);
    for parcel in cut.chain(turned) {
        match LayerBuf::from_parcel(&parcel) {
            Ok(layer) => {
                assert_eq!(layer.to_parcel(), parcel);
                read += 1;
            }
            Err(error) => {
                let refusal = error.refusal();
                assert_eq!(parcel_sizes(&parcel).unwrap_err().refusal(), refusal);
                assert!(
                    !error.to_string().ends_with(&refusal.to_string()),
                    "{error}"
                );
                refused[usize::from(refusal.number())] += 1;
            }
        }
    }
    // All bits of the numbers, and none of the others.
    assert_eq!(read, 8 * (16 + 16 + 4 + 4 + 2));
    let all = [Refusal::Record, Refusal::Kind, Refusal::Payload];
    let counts = all.map(|refusal| refused[usize::from(refusal.number())]);
    assert!(!counts.contains(&0), "{counts:?}");
    assert_eq!(
        counts.iter().sum::<usize>(),
        parcel.len() + 8 * parcel.len() - read
    );
}
