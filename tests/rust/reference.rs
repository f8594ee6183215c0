//! Document 01, and of document 02 the call explain (No. 1), the side of the disc (No. 2), the
//! wide form (No. 3), the moves (No. 5), the rounding of a span (No. 6), two records side by side
//! (No. 7), and check and fetch (No. 8), written out plainly: every call with its whole answer and
//! outputs. It is meant to be compared with the documents line by line, not to be fast.

use crate::answers::{
    Cursor, Described, Difference, Explained, Fetched, Kind, Live, Making, Moved, Overall, Reading,
    Span, Stepped, Written,
};
use crate::answers::{OLD, WIDE, WINDOW};

const RATES: [u32; 6] = [44_100, 48_000, 88_200, 96_000, 176_400, 192_000];
const LAST_SIDE: u32 = 26;
const MOST_POINTS: usize = 4_096;
const LAST_POSITION: u64 = (1 << 62) - 1;

/// A refusal's number and the place beside it.
struct Refusal {
    number: u32,
    place: u32,
}

fn refuse<T>(number: u32, place: usize) -> Result<T, Refusal> {
    let place = place as u32;
    Err(Refusal { number, place })
}

// Positions

/// A row of the table of steps: its range, its prefix, and how many bits follow.
struct Row {
    least: i128,
    most: i128,
    prefix: &'static str,
    width: usize,
}

const fn row(least: i128, most: i128, prefix: &'static str, width: usize) -> Row {
    Row {
        least,
        most,
        prefix,
        width,
    }
}

/// A form of a record: the tag of its positions' field, its table of steps, and the most points.
struct Form {
    tag: u8,
    rows: &'static [Row],
    most_points: usize,
}

const OLD_FORM: Form = Form {
    tag: OLD as u8,
    rows: &[
        row(0, 0, "0", 0),
        row(-63, 64, "10", 7),
        row(-255, 256, "110", 9),
        row(-2047, 2048, "1110", 12),
        row(-(1 << 31) + 1, 1 << 31, "1111", 32),
    ],
    most_points: MOST_POINTS,
};

const WIDE_FORM: Form = Form {
    tag: WIDE as u8,
    rows: &[
        row(0, 0, "0", 0),
        row(-63, 64, "10", 7),
        row(-255, 256, "110", 9),
        row(-2047, 2048, "1110", 12),
        row(-(1 << 31) + 1, 1 << 31, "11110", 32),
        row(-(1 << 63), (1 << 63) - 1, "11111", 64),
    ],
    most_points: 3_500,
};

/// The form that a number names: 5 the wide one, every other the old one.
fn form_of(number: u32) -> &'static Form {
    match number {
        WIDE => &WIDE_FORM,
        _ => &OLD_FORM,
    }
}

fn step_at(positions: &[u64], n: usize) -> i128 {
    let t = |k: usize| i128::from(positions[k]);
    (t(n) - t(n - 1)) - (t(n - 1) - t(n - 2))
}

/// The first row of a form that holds the step.
fn first_row(form: &Form, step: i128) -> Option<&'static Row> {
    let mut rows = form.rows.iter();
    rows.find(|row| row.least <= step && step <= row.most)
}

/// Lays the low `width` bits of a number, top bit first.
fn lay(bits: &mut Vec<bool>, number: u64, width: usize) {
    for height in (0..width).rev() {
        bits.push(number >> height & 1 == 1);
    }
}

/// Takes `width` bits as a number, or nothing where fewer are left.
fn take(bits: &mut impl Iterator<Item = bool>, width: usize) -> Option<u64> {
    let mut number = 0;
    for _ in 0..width {
        number = number << 1 | u64::from(bits.next()?);
    }
    Some(number)
}

/// The coding of positions in a form, or nothing where a step is outside its table.
fn code_positions(form: &Form, positions: &[u64]) -> Option<Vec<u8>> {
    let mut bits = Vec::new();
    for (n, &position) in positions.iter().enumerate() {
        if n < 2 {
            lay(&mut bits, position, 64);
        } else {
            let step = step_at(positions, n);
            let row = first_row(form, step)?;
            bits.extend(row.prefix.bytes().map(|digit| digit == b'1'));
            lay(&mut bits, step as u64, row.width);
        }
    }
    while bits.len() % 8 != 0 {
        bits.push(false);
    }
    let byte = |bits: &[bool]| bits.iter().fold(0, |byte, &bit| byte << 1 | u8::from(bit));
    Some(bits.chunks(8).map(byte).collect())
}

/// Reads a step: a prefix names the row, and its bits mean the one number inside the row's range.
fn take_step(form: &Form, bits: &mut impl Iterator<Item = bool>) -> Option<i128> {
    let mut ones = 0;
    while ones < form.rows.len() - 1 && bits.next()? {
        ones += 1;
    }
    let row = &form.rows[ones];
    let low = i128::from(take(bits, row.width)?);
    Some(if low <= row.most {
        low
    } else {
        low - (1 << row.width)
    })
}

/// The positions that a body codes in a form, or nothing where it is not the coding of `count`
/// positions.
fn decode_positions(form: &Form, body: &[u8], count: usize) -> Option<Vec<u64>> {
    let mut bits = body
        .iter()
        .flat_map(|byte| (0..8).rev().map(move |height| byte >> height & 1 == 1));
    let mut positions: Vec<u64> = Vec::new();
    for n in 0..count {
        let position = if n < 2 {
            i128::from(take(&mut bits, 64)?)
        } else {
            let (last, before) = (i128::from(positions[n - 1]), i128::from(positions[n - 2]));
            last + (last - before) + take_step(form, &mut bits)?
        };
        if position < 0 || position > i128::from(LAST_POSITION) {
            return None;
        }
        positions.push(position as u64);
    }
    // A wrong row, a 1 among the fill bits and a byte too many all show here.
    let same = code_positions(form, &positions).is_some_and(|coding| coding == body);
    same.then_some(positions)
}

// Ratios

/// The window after some ratios, oldest first.
fn window(preceding: &[u64]) -> &[u64] {
    &preceding[preceding.len().saturating_sub(WINDOW)..]
}

/// The window's ratio at a place; place 0 is the newest.
fn at_place(window: &[u64], place: u8) -> Option<u64> {
    window.iter().rev().nth(usize::from(place)).copied()
}

/// The bytes that are written for a ratio.
fn written_form(window: &[u64], ratio: u64) -> Vec<u8> {
    if let Some(place) = window.iter().rev().position(|&earlier| earlier == ratio) {
        return vec![place as u8];
    }
    let mut best_sum = 1;
    let mut form = vec![255];
    form.extend(ratio.to_be_bytes());
    for (place, earlier) in window.iter().rev().enumerate() {
        let x = (ratio ^ earlier).to_be_bytes();
        let leading = x.iter().take_while(|&&byte| byte == 0).count();
        let trailing = x.iter().rev().take_while(|&&byte| byte == 0).count();
        if leading + trailing > best_sum {
            best_sum = leading + trailing;
            let middle = &x[leading..8 - trailing];
            form = vec![place as u8 + 128, (trailing * 16 + middle.len()) as u8];
            form.extend(middle);
        }
    }
    form
}

/// The ratio that the open rule reads first in `bytes`, and the length of its form.
fn open_form(window: &[u64], bytes: &[u8]) -> Option<(u64, usize)> {
    match *bytes.first()? {
        place @ 0..=127 => Some((at_place(window, place)?, 1)),
        first @ 128..=254 => {
            let earlier = at_place(window, first - 128)?;
            let counts = usize::from(*bytes.get(1)?);
            let (trailing, length) = (counts / 16, counts % 16);
            if trailing + length > 8 {
                return None;
            }
            let mut x = [0; 8];
            x[8 - trailing - length..8 - trailing].copy_from_slice(bytes.get(2..2 + length)?);
            Some((earlier ^ u64::from_be_bytes(x), 2 + length))
        }
        255 => {
            let ratio = bytes.get(1..9)?.try_into().ok()?;
            Some((u64::from_be_bytes(ratio), 9))
        }
    }
}

/// As `open_form`, where the form is also the one that is written for the ratio.
fn strict_form(window: &[u64], bytes: &[u8]) -> Option<(u64, usize)> {
    open_form(window, bytes)
        .filter(|&(ratio, length)| written_form(window, ratio) == bytes[..length])
}

fn code_ratios(ratios: &[u64]) -> Vec<u8> {
    let form = |n: usize| written_form(window(&ratios[..n]), ratios[n]);
    (0..ratios.len()).flat_map(form).collect()
}

/// Reads one form: what stands before it in the window, and the bytes from it on.
type FormReader = fn(&[u64], &[u8]) -> Option<(u64, usize)>;

/// The ratios of a body, or nothing where the count does not come out with every byte used.
fn decode_ratios(mut body: &[u8], count: usize, form: FormReader) -> Option<Vec<u64>> {
    let mut ratios = Vec::new();
    for _ in 0..count {
        let (ratio, length) = form(window(&ratios), body)?;
        ratios.push(ratio);
        body = &body[length..];
    }
    body.is_empty().then_some(ratios)
}

// Writing

fn field(tag: u8, body: &[u8]) -> Vec<u8> {
    let mut field = vec![tag];
    field.extend((body.len() as u16).to_be_bytes());
    field.extend(body);
    field
}

/// The record of a run in a form, or the first refusal among 1, 21 and 2 to 5.
fn record(
    rate: u32,
    side: u32,
    form: &Form,
    positions: &[u64],
    ratios: &[u64],
) -> Result<Vec<u8>, Refusal> {
    if !RATES.contains(&rate) {
        return refuse(1, 0);
    }
    if side > LAST_SIDE {
        return refuse(21, 0);
    }
    if positions.len() != ratios.len() {
        return refuse(2, 0);
    }
    if positions.len() > form.most_points {
        return refuse(3, 0);
    }
    if let Some(index) = positions.iter().position(|&t| t > LAST_POSITION) {
        return refuse(4, index);
    }
    // The wide table holds every step between positions.
    let outside = |&n: &usize| first_row(form, step_at(positions, n)).is_none();
    if let Some(index) = (2..positions.len()).find(outside) {
        return refuse(5, index);
    }
    let side_field = match side {
        0 => Vec::new(),
        _ => field(6, &[side as u8]),
    };
    let coded_positions = code_positions(form, positions).unwrap_or_default();
    Ok([
        field(1, &rate.to_be_bytes()),
        side_field,
        field(2, &(positions.len() as u16).to_be_bytes()),
        field(form.tag, &coded_positions),
        field(4, &code_ratios(ratios)),
    ]
    .concat())
}

/// Puts bytes into an output; 6 where it is shorter, and zeros on every refusal.
fn put(bytes: Result<Vec<u8>, Refusal>, out: &mut [u8]) -> Written {
    let fitting = bytes.and_then(|bytes| {
        if out.len() < bytes.len() {
            return refuse(6, 0);
        }
        Ok(bytes)
    });
    match fitting {
        Ok(bytes) => {
            out[..bytes.len()].copy_from_slice(&bytes);
            Written {
                number: 0,
                place: 0,
                length: bytes.len() as u64,
            }
        }
        Err(Refusal { number, place }) => {
            out.fill(0);
            Written {
                number,
                place,
                length: 0,
            }
        }
    }
}

pub fn write(
    rate: u32,
    side: u32,
    form: u32,
    positions: &[u64],
    ratios: &[u64],
    out: &mut [u8],
) -> Written {
    put(record(rate, side, form_of(form), positions, ratios), out)
}

// Reading

/// The tag of the field at an offset and the length that it states, tested for 10 and 11.
fn head(record: &[u8], at: usize, tags: &[u8]) -> Result<(u8, usize), Refusal> {
    let Some(&[tag, high, low]) = record.get(at..at + 3) else {
        return refuse(10, at);
    };
    if !tags.contains(&tag) {
        return refuse(11, at);
    }
    Ok((tag, number(&[high, low])))
}

/// The body of the field at an offset, which states its length, tested for 10.
fn body(record: &[u8], at: usize, length: usize) -> Result<&[u8], Refusal> {
    match record.get(at + 3..at + 3 + length) {
        Some(body) => Ok(body),
        None => refuse(10, at),
    }
}

/// The body of a field that must have this length, tested for 10, 11, 12 and 10 in that order.
fn fixed_body(record: &[u8], at: usize, tag: u8, length: usize) -> Result<&[u8], Refusal> {
    let (_, stated) = head(record, at, &[tag])?;
    if stated != length {
        return refuse(12, at);
    }
    body(record, at, length)
}

fn number(bytes: &[u8]) -> usize {
    bytes
        .iter()
        .fold(0, |number, &byte| number << 8 | usize::from(byte))
}

/// What a good record holds.
struct Run {
    rate: u32,
    side: u32,
    form: &'static Form,
    positions: Vec<u64>,
    ratios: Vec<u64>,
    used: usize,
}

/// Reads a record whose positions are in one of some forms; `room` is the length of the shorter
/// output.
fn run(
    record: &[u8],
    expected: u32,
    room: usize,
    forms: &[&Form],
    ratio_form: FormReader,
) -> Result<Run, Refusal> {
    let at = 0;
    let rate_body = fixed_body(record, at, 1, 4)?;
    let rate = number(rate_body) as u32;
    if !RATES.contains(&rate) {
        return refuse(13, at);
    }
    if expected != 0 && expected != rate {
        return refuse(14, at);
    }
    let mut at = at + 3 + rate_body.len();
    // A side, where the tag is its own, or else the count.
    let mut side = 0;
    if record.get(at) == Some(&6) {
        let side_body = fixed_body(record, at, 6, 1)?;
        side = number(side_body) as u32;
        if side == 0 || side > LAST_SIDE {
            return refuse(20, at);
        }
        at += 3 + side_body.len();
    }
    let count_at = at;
    let count_body = fixed_body(record, at, 2, 2)?;
    let count = number(count_body);
    if count > MOST_POINTS {
        return refuse(15, at);
    }
    if room < count {
        return refuse(16, at);
    }
    let at = at + 3 + count_body.len();
    let tags: Vec<u8> = forms.iter().map(|form| form.tag).collect();
    let (tag, length) = head(record, at, &tags)?;
    let form = form_of(u32::from(tag));
    // Only the tag tells the form, and with it the count's limit.
    if count > form.most_points {
        return refuse(15, count_at);
    }
    let positions_body = body(record, at, length)?;
    let Some(positions) = decode_positions(form, positions_body, count) else {
        return refuse(17, at);
    };
    let at = at + 3 + positions_body.len();
    let (_, length) = head(record, at, &[4])?;
    let ratios_body = body(record, at, length)?;
    let Some(ratios) = decode_ratios(ratios_body, count, ratio_form) else {
        return refuse(18, at);
    };
    Ok(Run {
        rate,
        side,
        form,
        positions,
        ratios,
        used: at + 3 + ratios_body.len(),
    })
}

const BOTH_FORMS: [&Form; 2] = [&OLD_FORM, &WIDE_FORM];

/// The run of a sound record, with room enough: no count that 15 lets by is larger.
fn sound_run(expected: u32, record: &[u8]) -> Result<Run, Refusal> {
    run(record, expected, MOST_POINTS, &BOTH_FORMS, strict_form)
}

/// The check: rate, side, count, form and size of a sound record.
pub fn describe(expected: u32, record: &[u8]) -> Described {
    match sound_run(expected, record) {
        Ok(run) => Described {
            number: 0,
            place: 0,
            rate: run.rate,
            side: run.side,
            count: run.positions.len() as u32,
            form: u32::from(run.form.tag),
            size: run.used as u64,
        },
        Err(Refusal { number, place }) => Described {
            number,
            place,
            rate: 0,
            side: 0,
            count: 0,
            form: 0,
            size: 0,
        },
    }
}

/// The one number that the check answers to C: 65,536 times the refusal number plus the place, or
/// the size of a sound record.
pub fn one_number(checked: Described) -> u32 {
    match checked.number {
        0 => checked.size as u32,
        number => 65_536 * number + checked.place,
    }
}

/// Reads a run into outputs, of which the shorter says how much room there is; zeros on every
/// refusal.
fn read(
    expected: u32,
    record: &[u8],
    positions: &mut [u64],
    ratios: &mut [u64],
    ratio_form: FormReader,
) -> Result<Run, Refusal> {
    let room = positions.len().min(ratios.len());
    let read = run(record, expected, room, &BOTH_FORMS, ratio_form);
    match &read {
        Ok(run) => {
            let count = run.positions.len();
            positions[..count].copy_from_slice(&run.positions);
            ratios[..count].copy_from_slice(&run.ratios);
        }
        Err(_) => {
            positions.fill(0);
            ratios.fill(0);
        }
    }
    read
}

pub fn fetch(expected: u32, record: &[u8], positions: &mut [u64], ratios: &mut [u64]) -> Fetched {
    match read(expected, record, positions, ratios, strict_form) {
        Ok(run) => Fetched {
            number: 0,
            place: 0,
            count: run.positions.len() as u32,
        },
        Err(Refusal { number, place }) => Fetched {
            number,
            place,
            count: 0,
        },
    }
}

pub fn read_open(
    expected: u32,
    record: &[u8],
    positions: &mut [u64],
    ratios: &mut [u64],
) -> Reading {
    match read(expected, record, positions, ratios, open_form) {
        Ok(run) => Reading {
            number: 0,
            place: 0,
            rate: run.rate,
            side: run.side,
            count: run.positions.len() as u32,
            form: u32::from(run.form.tag),
            used: run.used as u64,
        },
        Err(Refusal { number, place }) => Reading {
            number,
            place,
            rate: 0,
            side: 0,
            count: 0,
            form: 0,
            used: 0,
        },
    }
}

// Moving

/// The record of a run in the form moved to and the bytes used of the one that it was read from, or
/// the first refusal but 6.
fn moved_record(bytes: &[u8], from: &Form, to: &Form) -> Result<(Vec<u8>, usize), Refusal> {
    // No rate is expected, and no output for points is lent. The tag of the form moved to is a wrong
    // one.
    let run = run(bytes, 0, MOST_POINTS, &[from], strict_form)?;
    // Of the tests of writing a run that was read can break 3 toward wide and 5 toward old alone.
    let record = record(run.rate, run.side, to, &run.positions, &run.ratios)?;
    Ok((record, run.used))
}

fn move_record(bytes: &[u8], from: &Form, to: &Form, out: &mut [u8]) -> Moved {
    let (record, used) = match moved_record(bytes, from, to) {
        Ok((record, used)) => (Ok(record), used),
        Err(refusal) => (Err(refusal), 0),
    };
    let written = put(record, out);
    Moved {
        number: written.number,
        place: written.place,
        length: written.length,
        used: if written.number == 0 { used as u64 } else { 0 },
    }
}

pub fn to_wide(record: &[u8], out: &mut [u8]) -> Moved {
    move_record(record, &OLD_FORM, &WIDE_FORM, out)
}

pub fn to_old(record: &[u8], out: &mut [u8]) -> Moved {
    move_record(record, &WIDE_FORM, &OLD_FORM, out)
}

// Span

/// Milliseconds from the first position to the last, or the first refusal among 1, 3 and 4.
fn milliseconds(rate: u32, positions: &[u64]) -> Result<i64, Refusal> {
    if !RATES.contains(&rate) {
        return refuse(1, 0);
    }
    if positions.len() > MOST_POINTS {
        return refuse(3, 0);
    }
    if let Some(index) = positions.iter().position(|&t| t > LAST_POSITION) {
        return refuse(4, index);
    }
    let (Some(&first), Some(&last)) = (positions.first(), positions.last()) else {
        return Ok(0);
    };
    // By a number above 0, `div_euclid` rounds down.
    Ok(((i128::from(last) - i128::from(first)) * 1_000).div_euclid(i128::from(rate)) as i64)
}

pub fn span(rate: u32, positions: &[u64]) -> Span {
    match milliseconds(rate, positions) {
        Ok(milliseconds) => Span {
            number: 0,
            place: 0,
            milliseconds,
        },
        Err(Refusal { number, place }) => Span {
            number,
            place,
            milliseconds: 0,
        },
    }
}

// Live coding and stepping

/// Whether a window's fill is the smaller of 127 and the number seen.
fn right_fill(fill: u64, seen: u64) -> bool {
    fill == seen.min(WINDOW as u64)
}

/// Adds a ratio to a window; a full one loses its oldest.
fn push(ratios: &mut [u64; WINDOW], fill: &mut u64, ratio: u64) {
    if *fill == WINDOW as u64 {
        ratios.copy_within(1.., 0);
        ratios[WINDOW - 1] = ratio;
    } else {
        ratios[*fill as usize] = ratio;
        *fill += 1;
    }
}

pub fn live_new() -> Live {
    Live {
        ratios: [0; WINDOW],
        fill: 0,
        seen: 0,
    }
}

/// The bytes of one more ratio, or the first refusal among 7 and 3.
fn added_form(state: &Live, ratio: u64) -> Result<Vec<u8>, Refusal> {
    let most = MOST_POINTS as u64;
    if !right_fill(state.fill, state.seen) || state.seen > most {
        return refuse(7, 0);
    }
    if state.seen == most {
        return refuse(3, 0);
    }
    Ok(written_form(&state.ratios[..state.fill as usize], ratio))
}

pub fn live_add(state: &mut Live, ratio: u64, out: &mut [u8]) -> Written {
    let written = put(added_form(state, ratio), out);
    if written.number == 0 {
        push(&mut state.ratios, &mut state.fill, ratio);
        state.seen += 1;
    }
    written
}

fn fresh_cursor(count: u64) -> Cursor {
    Cursor {
        place: 0,
        count,
        seen: 0,
        ratios: [0; WINDOW],
        fill: 0,
    }
}

pub fn cursor_new(count: u64) -> Making {
    let good = count <= MOST_POINTS as u64;
    Making {
        number: if good { 0 } else { 15 },
        place: 0,
        cursor: fresh_cursor(if good { count } else { 0 }),
    }
}

/// The next ratio and the length of its form, or 7, 8 or 18.
fn next_ratio(body: &[u8], cursor: &Cursor) -> Result<(u64, usize), Refusal> {
    if !right_fill(cursor.fill, cursor.seen)
        || cursor.seen > cursor.count
        || cursor.count > MOST_POINTS as u64
        || cursor.place > body.len() as u64
    {
        return refuse(7, 0);
    }
    let rest = &body[cursor.place as usize..];
    if cursor.seen == cursor.count {
        return refuse(if rest.is_empty() { 8 } else { 18 }, 0);
    }
    match strict_form(&cursor.ratios[..cursor.fill as usize], rest) {
        Some(next) => Ok(next),
        None => refuse(18, 0),
    }
}

pub fn step(body: &[u8], cursor: Cursor) -> Stepped {
    let mut next = cursor;
    match next_ratio(body, &cursor) {
        Ok((ratio, length)) => {
            push(&mut next.ratios, &mut next.fill, ratio);
            next.seen += 1;
            next.place += length as u64;
            Stepped {
                number: 0,
                place: 0,
                ratio,
                next,
            }
        }
        Err(Refusal { number, place }) => Stepped {
            number,
            place,
            ratio: 0,
            next,
        },
    }
}

// Kinds

pub fn kind(ratio: u64) -> Kind {
    let negative = ratio >> 63;
    let exponent = ratio >> 52 & 0x7ff;
    let fraction = ratio & ((1 << 52) - 1);
    match (exponent, fraction) {
        (0x7ff, 0) => Kind {
            kind: 1,
            negative: negative as u32,
            value: 0.0,
            bits: 0,
        },
        (0x7ff, _) => Kind {
            kind: 2,
            negative: 0,
            value: 0.0,
            bits: ratio,
        },
        _ => Kind {
            kind: 0,
            negative: 0,
            value: f64::from_bits(ratio),
            bits: 0,
        },
    }
}

// Reasons

/// The zero bytes before the first byte that is not 0, and those after the last such byte.
fn zero_bytes(x: u64) -> (usize, usize) {
    let bytes = x.to_be_bytes();
    let first = bytes.iter().position(|&byte| byte != 0).unwrap_or(8);
    let last = bytes.iter().rposition(|&byte| byte != 0).unwrap_or(7);
    (first, 7 - last)
}

/// Why the ratio at an index has its form.
enum Reason {
    /// Equal to the ratio at this place, and no nearer one equal.
    Equal(usize),
    /// No ratio of the window has a larger sum than the one at this place, and no nearer one the
    /// same.
    Xored {
        at: usize,
        leading: usize,
        trailing: usize,
    },
    /// The largest sum is below 2.
    BestSum(usize),
    EmptyWindow,
}

/// The reason, or the first refusal among 3 and 22.
fn reason(ratios: &[u64], index: u64) -> Result<Reason, Refusal> {
    if ratios.len() > MOST_POINTS {
        return refuse(3, 0);
    }
    if index >= ratios.len() as u64 {
        return refuse(22, 0);
    }
    let (before, ratio) = (&ratios[..index as usize], ratios[index as usize]);
    // By places: the nearest first.
    let window: Vec<u64> = before.iter().rev().take(WINDOW).copied().collect();
    let places = 0..window.len();
    if let Some(at) = places.clone().find(|&place| window[place] == ratio) {
        return Ok(Reason::Equal(at));
    }
    let counts = |place: usize| zero_bytes(ratio ^ window[place]);
    let sum = |place: usize| counts(place).0 + counts(place).1;
    let Some(best) = places.clone().map(sum).max() else {
        return Ok(Reason::EmptyWindow);
    };
    match places.clone().find(|&place| sum(place) == best) {
        Some(at) if best >= 2 => {
            let (leading, trailing) = counts(at);
            Ok(Reason::Xored {
                at,
                leading,
                trailing,
            })
        }
        _ => Ok(Reason::BestSum(best)),
    }
}

pub fn explain(ratios: &[u64], index: u64) -> Explained {
    let none = Explained::default();
    match reason(ratios, index) {
        Ok(Reason::Equal(at)) => Explained {
            reason: 1,
            at: at as u32,
            ..none
        },
        Ok(Reason::Xored {
            at,
            leading,
            trailing,
        }) => Explained {
            reason: 2,
            at: at as u32,
            leading: leading as u32,
            trailing: trailing as u32,
            sum: (leading + trailing) as u32,
            ..none
        },
        Ok(Reason::BestSum(sum)) => Explained {
            reason: 3,
            sum: sum as u32,
            ..none
        },
        Ok(Reason::EmptyWindow) => Explained { reason: 4, ..none },
        Err(Refusal { number, place }) => Explained {
            number,
            place,
            ..none
        },
    }
}

// Two records side by side

/// What can differ, by its number.
enum What {
    Rate = 1,
    Side,
    Count,
    Form,
    Position,
    Ratio,
    More,
}

/// The difference of two values; none where they are the same.
fn difference(what: What, index: u64, first: u64, second: u64) -> Difference {
    if first == second {
        return Difference::default();
    }
    Difference {
        what: what as u32,
        index,
        first,
        second,
        ..Difference::default()
    }
}

/// The difference of two rates, sides, counts or forms; a form is the positions' tag.
fn property(what: What, first: u32, second: u32) -> Difference {
    difference(what, 0, first.into(), second.into())
}

/// How many points only the longer run has stands where the first record's value would.
fn more(first: u32, second: u32) -> Difference {
    difference(What::More, 0, first.abs_diff(second).into(), 0)
}

fn positions_at(index: u64, first: u64, second: u64) -> Difference {
    difference(What::Position, index, first, second)
}

/// Each ratio that differs is answered by its kind and bits.
fn ratios_at(index: u64, first: u64, second: u64) -> Difference {
    let mut difference = difference(What::Ratio, index, first, second);
    if first != second {
        difference.first_kind = kind(first);
        difference.second_kind = kind(second);
    }
    difference
}

/// What two records differ in besides the points, or the refusal of the first, or of the second.
pub fn compare_overall(first: Described, second: Described) -> Overall {
    for (which, described) in [(1, first), (2, second)] {
        if described.number != 0 {
            return Overall {
                number: described.number,
                place: described.place,
                which,
                ..Overall::default()
            };
        }
    }
    Overall {
        number: 0,
        place: 0,
        which: 0,
        rate: property(What::Rate, first.rate, second.rate),
        side: property(What::Side, first.side, second.side),
        count: property(What::Count, first.count, second.count),
        form: property(What::Form, first.form, second.form),
        more: more(first.count, second.count),
    }
}

/// The values at an index that both lists have.
fn both_at(first: &[u64], second: &[u64], index: u64) -> Option<(u64, u64)> {
    let at = usize::try_from(index).ok()?;
    Some((*first.get(at)?, *second.get(at)?))
}

pub fn compare_positions(first: &[u64], second: &[u64], index: u64) -> Difference {
    both_at(first, second, index).map_or(Difference::default(), |(first, second)| {
        positions_at(index, first, second)
    })
}

pub fn compare_ratios(first: &[u64], second: &[u64], index: u64) -> Difference {
    both_at(first, second, index).map_or(Difference::default(), |(first, second)| {
        ratios_at(index, first, second)
    })
}

/// All that differs between two records, in the order of document 02, or a refusal's number and
/// place and the record that it is of.
pub fn comparison(first: &[u8], second: &[u8]) -> Result<Vec<Difference>, [u32; 3]> {
    let read = |which, record| {
        sound_run(0, record).map_err(|refusal| [refusal.number, refusal.place, which])
    };
    let first = read(1, first)?;
    let second = read(2, second)?;
    let [first_count, second_count] = [&first, &second].map(|run| run.positions.len() as u32);
    let mut list = vec![
        property(What::Rate, first.rate, second.rate),
        property(What::Side, first.side, second.side),
        property(What::Count, first_count, second_count),
        property(What::Form, first.form.tag.into(), second.form.tag.into()),
    ];
    let positions = first.positions.iter().zip(&second.positions);
    let ratios = first.ratios.iter().zip(&second.ratios);
    for (index, (positions, ratios)) in (0..).zip(positions.zip(ratios)) {
        list.push(positions_at(index, *positions.0, *positions.1));
        list.push(ratios_at(index, *ratios.0, *ratios.1));
    }
    list.push(more(first_count, second_count));
    list.retain(|difference| difference.what != 0);
    Ok(list)
}
