//! Document 01's examples that are not proved as a table ("Bytes to compare", the rows without
//! P), its record with and without a side and in both forms, checked and fetched, the last two rows
//! of the wide form, and the six doubles of source document 000, Table 2, run through the library.

#[allow(dead_code)]
mod answers;
#[allow(dead_code)]
mod library;

use answers::{OLD, WIDE};
use std::process::exit;

const LAST_POSITION: u64 = (1 << 62) - 1;

/// The largest step, from the last position to the first and back.
const FARTHEST: i64 = 2 * LAST_POSITION as i64;

/// Three positions with a step at the third; those with a smaller one stand around a middle.
fn with_step(step: i64) -> [u64; 3] {
    const MIDDLE: u64 = 1 << 40;
    const LEAST: i64 = -FARTHEST;
    match step {
        FARTHEST => [LAST_POSITION, 0, LAST_POSITION],
        LEAST => [0, LAST_POSITION, 0],
        _ => [MIDDLE, MIDDLE, MIDDLE.wrapping_add_signed(step)],
    }
}

/// What a third point writes in a form behind the first 128 bits, as bits, or the refusal's number
/// and place.
fn step(form: u32, step: i64) -> Result<String, (u32, u32)> {
    let mut out = [0xAA; 100];
    let answer = library::write(48_000, 0, form, &with_step(step), &[0; 3], &mut out);
    if answer.number != 0 {
        return Err((answer.number, answer.place));
    }
    let length = usize::from(u16::from_be_bytes([out[13], out[14]]));
    Ok(out[31..15 + length]
        .iter()
        .map(|byte| format!("{byte:08b}"))
        .collect())
}

/// The body of the ratios' field for some ratios.
fn body(ratios: &[u64]) -> Vec<u8> {
    let positions = vec![0; ratios.len()];
    let mut out = vec![0xAA; 55_325];
    let answer = library::write(48_000, 0, OLD, &positions, ratios, &mut out);
    assert_eq!((answer.number, answer.place), (0, 0), "writing {ratios:x?}");
    let positions_length = usize::from(u16::from_be_bytes([out[13], out[14]]));
    out[15 + positions_length + 3..answer.length as usize].to_vec()
}

/// The record of the listing's example.
const EXAMPLE: [u8; 46] = [
    0x01, 0x00, 0x04, 0x00, 0x01, 0x77, 0x00, 0x02, 0x00, 0x02, 0x00, 0x03, 0x03, 0x00, 0x11, 0x00,
    0x00, 0x00, 0x00, 0x00, 0x00, 0x00, 0x00, 0x00, 0x00, 0x00, 0x00, 0x00, 0x00, 0x03, 0xC0, 0x00,
    0x04, 0x00, 0x0B, 0xFF, 0x3F, 0xE0, 0x00, 0x00, 0x00, 0x00, 0x00, 0x00, 0x00, 0x00,
];

/// What writing the example's run with a side and in a form gives, or the refusal's number and
/// place.
fn example(side: u32, form: u32) -> Result<Vec<u8>, (u32, u32)> {
    let (positions, ratios) = ([0, 960, 1_920], [0x3FE0 << 48; 3]);
    let mut out = [0xAA; 100];
    let answer = library::write(96_000, side, form, &positions, &ratios, &mut out);
    if answer.number != 0 {
        return Err((answer.number, answer.place));
    }
    Ok(out[..answer.length as usize].to_vec())
}

/// The number, the side and the form of a record, by describe and by open reading.
fn both_readings(record: &[u8]) -> [(u32, u32, u32); 2] {
    let described = library::describe(96_000, record);
    let opened = library::read_open(96_000, record, &mut [0; 3], &mut [0; 3]);
    [
        (described.number, described.side, described.form),
        (opened.number, opened.side, opened.form),
    ]
}

/// The one number that check answers of an input with this rate expected, and the number, place and
/// count of a fetch with room for so many points.
fn check_and_fetch(expected: u32, record: &[u8], room: usize) -> (u32, [u32; 3]) {
    let (mut positions, mut ratios) = (vec![0; room], vec![0; room]);
    let fetched = library::fetch(expected, record, &mut positions, &mut ratios);
    let number = library::check(expected, record);
    (number, [fetched.number, fetched.place, fetched.count])
}

/// Counts the examples, and says which differ.
struct Tally {
    passed: usize,
    failed: usize,
}

impl Tally {
    fn same<T: PartialEq + std::fmt::Debug>(&mut self, example: &str, found: T, printed: T) {
        if found == printed {
            self.passed += 1;
        } else {
            self.failed += 1;
            println!("{example}: {found:x?} and not {printed:x?}");
        }
    }
}

fn main() {
    let mut tally = Tally {
        passed: 0,
        failed: 0,
    };

    // Steps: the code, and fill bits to the end of the last byte. The forms have the first four
    // rows in common.
    let most = 1 << 31;
    let ones = "1".repeat(31);
    let zeros = "0".repeat(29);
    let both = [OLD, WIDE];
    for (forms, number, code) in [
        (&both[..], 256, "110 100000000"),
        (&both, 257, "1110 000100000001"),
        (&both, -256, "1110 111100000000"),
        (&[OLD], most, &format!("1111 100{zeros}")),
        (&[OLD], 1 - most, &format!("1111 10{zeros}1")),
        (&[WIDE], most, &format!("11110 100{zeros}")),
        (&[WIDE], 1 - most, &format!("11110 10{zeros}1")),
        (&[WIDE], most + 1, &format!("11111 000{zeros} 10{zeros}1")),
        (&[WIDE], -most, &format!("11111 1{ones} 100{zeros}")),
        (
            &[WIDE],
            FARTHEST,
            &format!("11111 0{ones} 1{}0", &ones[1..]),
        ),
        (&[WIDE], -FARTHEST, &format!("11111 100{zeros} 0{zeros}10")),
    ] {
        let code = code.replace(' ', "");
        let filled = format!("{code:0<width$}", width = code.len().next_multiple_of(8));
        for &form in forms {
            let what = format!("step {number} in form {form}");
            tally.same(&what, step(form, number), Ok(filled.clone()));
        }
    }
    for number in [most + 1, -most, FARTHEST, -FARTHEST] {
        tally.same(&format!("step {number}"), step(OLD, number), Err((5, 2)));
    }

    // Side 0 has no field; every other stands in one of four bytes between the rate and the count.
    // In the wide form the tag of the positions' field is another, and for this run nothing else.
    for form in both {
        let mut record = EXAMPLE;
        record[12] = form as u8;
        let what = format!("side 0, form {form}");
        tally.same(&what, example(0, form), Ok(record.to_vec()));
        tally.same(&what, both_readings(&record), [(0, 0, form); 2]);
        for side in 1..=26 {
            let (rate, rest) = record.split_at(7);
            let record = [rate, &[6, 0, 1, side], rest].concat();
            let (what, side) = (format!("side {side}, form {form}"), u32::from(side));
            tally.same(&what, both_readings(&record), [(0, side, form); 2]);
            tally.same(&what, example(side, form), Ok(record));
        }
        tally.same("side 27", example(27, form), Err((21, 0)));
    }

    // Check answers one number: 65,536 times the refusal number plus the place, or the size of a
    // sound record. Fetch alone is refused by 16.
    let sound = EXAMPLE.len() as u32;
    for (expected, length, room, answers) in [
        (0, 46, 3, (sound, [0, 0, 3])),
        (96_000, 46, 4, (sound, [0, 0, 3])),
        (48_000, 46, 3, (65_536 * 14, [14, 0, 0])),
        (0, 46, 2, (sound, [16, 7, 0])),
        (0, 45, 3, (65_536 * 10 + 32, [10, 32, 0])),
        (0, 45, 2, (65_536 * 10 + 32, [16, 7, 0])),
        (0, 11, 2, (65_536 * 10 + 7, [10, 7, 0])),
        (0, 0, 0, (65_536 * 10, [10, 0, 0])),
    ] {
        let what = format!("check and fetch of {length} bytes, {expected} expected");
        let found = check_and_fetch(expected, &EXAMPLE[..length], room);
        tally.same(&what, found, answers);
    }

    // A ratio that was last seen 127 places back, and one 128 back.
    for (back, last) in [(127, Some(0x7E)), (128, None)] {
        let mut ratios: Vec<u64> = (0..back).map(|k| k * 0x0101_0101_0101_0101).collect();
        let before = body(&ratios);
        ratios.push(ratios[0]);
        let after = body(&ratios);
        let form = &after[before.len()..];
        match last {
            Some(byte) => tally.same(&format!("{back} back"), form, &[byte]),
            None => tally.same(&format!("{back} back"), form[0] >= 128, true),
        }
    }

    // Source document 000, Table 2: the value, its bits, and each pair coded.
    let published: [(f64, u64); 6] = [
        (
            11.3,
            0b0100000000100110100110011001100110011001100110011001100110011010,
        ),
        (
            11.5,
            0b0100000000100111000000000000000000000000000000000000000000000000,
        ),
        (
            -6.6,
            0b1100000000011010011001100110011001100110011001100110011001100110,
        ),
        (
            -3.8,
            0b1100000000001110011001100110011001100110011001100110011001100110,
        ),
        (
            15.9,
            0b0100000000101111110011001100110011001100110011001100110011001101,
        ),
        (
            12.4,
            0b0100000000101000110011001100110011001100110011001100110011001101,
        ),
    ];
    for (value, bits) in published {
        tally.same(&format!("bits of {value}"), value.to_bits(), bits);
        let kind = library::kind(bits);
        tally.same(
            &format!("kind of {value}"),
            (kind.kind, kind.negative, kind.value.to_bits(), kind.bits),
            (0, 0, bits, 0),
        );
    }
    for (pair, second) in [
        (0, vec![0xFF, 0x40, 0x27, 0, 0, 0, 0, 0, 0]),
        (2, vec![0x80, 0x61, 0x14]),
        (4, vec![0x80, 0x61, 0x07]),
    ] {
        let (first, next) = (published[pair].1, published[pair + 1].1);
        let mut printed = vec![0xFF];
        printed.extend(first.to_be_bytes());
        printed.extend(second);
        tally.same(&format!("pair {pair}"), body(&[first, next]), printed);
    }

    println!(
        "published examples: {} hold, {} differ",
        tally.passed, tally.failed
    );
    if tally.failed != 0 {
        exit(1);
    }
}
