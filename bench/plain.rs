//! A straightforward implementation of writing, checking, fetching, reading, live addition, stepping and comparing,
//! to be timed beside the library. It scans the window newest first, stops at an equal ratio, and takes both counts
//! at each entry; the run's own slice is the window. Its calls are not inlined, since those of
//! the library cannot be. Writing and reading are compiled for each form apart, so that the old
//! one is as fast as without the wide one.

use crate::answers::{
    Cursor, Described, Difference, Fetched, Kind, Live, Making, Reading, Stepped, Written,
};
use crate::answers::{OLD, WIDE, WINDOW};

const RATES: [u32; 6] = [44_100, 48_000, 88_200, 96_000, 176_400, 192_000];
const LAST_SIDE: u32 = 26;
const MOST_POINTS: usize = 4_096;
const WIDE_POINTS: usize = 3_500;
const LAST_POSITION: u64 = (1 << 62) - 1;
const STEPS: std::ops::RangeInclusive<i64> = -(1 << 31) + 1..=1 << 31;

/// A refusal's number and place.
type Refusal = (u32, usize);

// Ratios

#[derive(PartialEq)]
enum Form {
    Reference(usize),
    Xor(usize, u32, u32),
    Exception,
}

/// The form to write for a ratio: a place, or a place with the trailing count and the length.
#[inline(always)]
fn choose(window: &[u64], ratio: u64) -> Form {
    let mut best = Form::Exception;
    let mut best_sum = 1;
    for (place, &earlier) in window.iter().rev().enumerate() {
        let x = ratio ^ earlier;
        if x == 0 {
            return Form::Reference(place);
        }
        let leading = x.leading_zeros() / 8;
        let trailing = x.trailing_zeros() / 8;
        if leading + trailing > best_sum {
            best_sum = leading + trailing;
            best = Form::Xor(place, trailing, 8 - best_sum);
        }
    }
    best
}

/// Writes a ratio's form and answers its length, or nothing where there is no room.
#[inline(always)]
fn put_ratio(window: &[u64], ratio: u64, out: &mut [u8]) -> Option<usize> {
    match choose(window, ratio) {
        Form::Reference(place) => {
            *out.first_mut()? = place as u8;
            Some(1)
        }
        Form::Xor(place, trailing, length) => {
            let x = ratio ^ window[window.len() - 1 - place];
            let form = out.get_mut(..2 + length as usize)?;
            form[0] = place as u8 + 128;
            form[1] = (trailing << 4 | length) as u8;
            let middle = x >> (8 * trailing) << (64 - 8 * length);
            form[2..].copy_from_slice(&middle.to_be_bytes()[..length as usize]);
            Some(2 + length as usize)
        }
        Form::Exception => {
            let form = out.get_mut(..9)?;
            form[0] = 255;
            form[1..].copy_from_slice(&ratio.to_be_bytes());
            Some(9)
        }
    }
}

/// Reads one form: the ratio and the form's length.
#[inline(always)]
fn take_ratio(window: &[u64], bytes: &[u8], strict: bool) -> Option<(u64, usize)> {
    let first = *bytes.first()?;
    if first == 255 {
        let ratio = u64::from_be_bytes(bytes.get(1..9)?.try_into().unwrap());
        let good = !strict || choose(window, ratio) == Form::Exception;
        return good.then_some((ratio, 9));
    }
    let place = usize::from(first & 127);
    let cell = window.len().checked_sub(1 + place)?;
    if first < 128 {
        let good = !strict || !window[cell + 1..].contains(&window[cell]);
        return good.then_some((window[cell], 1));
    }
    let counts = u32::from(*bytes.get(1)?);
    let (trailing, length) = (counts >> 4, counts & 15);
    if trailing + length > 8 {
        return None;
    }
    let mut middle = 0;
    for &byte in bytes.get(2..2 + length as usize)? {
        middle = middle << 8 | u64::from(byte);
    }
    let x = middle.checked_shl(8 * trailing).unwrap_or(0);
    let ratio = window[cell] ^ x;
    let good = !strict || choose(window, ratio) == Form::Xor(place, trailing, length);
    good.then_some((ratio, 2 + length as usize))
}

// Positions

/// Lays bits into an output; without room it lays nothing but counts on.
struct Bits<'a> {
    out: &'a mut [u8],
    at: usize,
    held: u64,
    width: u32,
}

impl Bits<'_> {
    fn lay(&mut self, number: u64, width: u32) {
        self.held = self.held << width | number;
        self.width += width;
        while self.width >= 8 {
            self.width -= 8;
            self.byte((self.held >> self.width) as u8);
        }
    }

    fn byte(&mut self, byte: u8) {
        if let Some(cell) = self.out.get_mut(self.at) {
            *cell = byte;
        }
        self.at += 1;
    }
}

/// Codes the positions in a form and answers the length, or the index of a step outside its table.
fn put_positions<const FORM: u32>(positions: &[u64], out: &mut [u8]) -> Result<usize, usize> {
    let mut bits = Bits {
        out,
        at: 0,
        held: 0,
        width: 0,
    };
    for &position in positions.iter().take(2) {
        bits.lay(position >> 32, 32);
        bits.lay(position & 0xffff_ffff, 32);
    }
    for (n, three) in positions.windows(3).enumerate() {
        let (before, last, position) = (three[0] as i64, three[1] as i64, three[2] as i64);
        let step = (position - last) - (last - before);
        let low = |width: u32| step as u64 & ((1 << width) - 1);
        match step {
            0 => bits.lay(0, 1),
            -63..=64 => bits.lay(0b10 << 7 | low(7), 9),
            -255..=256 => bits.lay(0b110 << 9 | low(9), 12),
            -2047..=2048 => bits.lay(0b1110 << 12 | low(12), 16),
            _ if STEPS.contains(&step) && FORM == WIDE => bits.lay(0b11110 << 32 | low(32), 37),
            _ if STEPS.contains(&step) => bits.lay(0b1111 << 32 | low(32), 36),
            _ if FORM == WIDE => {
                bits.lay(0b11111 << 32 | step as u64 >> 32, 37);
                bits.lay(low(32), 32);
            }
            _ => return Err(n + 2),
        }
    }
    if bits.width > 0 {
        bits.lay(0, 8 - bits.width);
    }
    Ok(bits.at)
}

/// Decodes positions of a form into a slice of their count, or nothing where the body is no coding.
fn take_positions<const FORM: u32>(body: &[u8], positions: &mut [u64]) -> Option<()> {
    let raw = positions.len().min(2);
    let (first, rest) = body.split_at_checked(8 * raw)?;
    for (position, bytes) in positions.iter_mut().zip(first.chunks(8)) {
        *position = u64::from_be_bytes(bytes.try_into().unwrap());
        if *position > LAST_POSITION {
            return None;
        }
    }
    // Bits not yet taken stand at the top of `held`, with zeros below them.
    let mut bytes = rest.iter();
    let (mut held, mut width) = (0_u64, 0);
    let mut fill = |held: &mut u64, width: &mut u32| {
        while *width <= 56 {
            let Some(&byte) = bytes.next() else { break };
            *held |= u64::from(byte) << (56 - *width);
            *width += 8;
        }
    };
    let most = if FORM == WIDE { 5 } else { 4 };
    for n in 2..positions.len() {
        fill(&mut held, &mut width);
        let ones = (!held).leading_zeros().min(most);
        let mut step = 0;
        if ones == 5 {
            // The 64 bits in two halves, since fewer than 69 are held.
            if width < 5 + 32 {
                return None;
            }
            let high = held << 5 >> 32;
            held <<= 5 + 32;
            width -= 5 + 32;
            fill(&mut held, &mut width);
            if width < 32 {
                return None;
            }
            step = (high << 32 | held >> 32) as i64;
            held <<= 32;
            width -= 32;
            if STEPS.contains(&step) {
                return None;
            }
        } else {
            let (prefix, after) = [(1, 0), (2, 7), (3, 9), (4, 12), (most, 32)][ones as usize];
            if width < prefix + after {
                return None;
            }
            if ones > 0 {
                let low = (held << prefix >> (64 - after)) as i64;
                step = if low > 1 << (after - 1) {
                    low - (1 << after)
                } else {
                    low
                };
                let held_before = [0..=0, 0..=0, -63..=64, -255..=256, -2047..=2048];
                if held_before[ones as usize].contains(&step) {
                    return None;
                }
            }
            held <<= prefix + after;
            width -= prefix + after;
        }
        let last = positions[n - 1] as i64;
        let difference = (last - positions[n - 2] as i64).checked_add(step)?;
        if difference < -last || difference > LAST_POSITION as i64 - last {
            return None;
        }
        positions[n] = (last + difference) as u64;
    }
    (held == 0 && width < 8 && bytes.next().is_none()).then_some(())
}

// Records

fn try_write<const FORM: u32>(
    rate: u32,
    side: u32,
    positions: &[u64],
    ratios: &[u64],
    out: &mut [u8],
) -> Result<usize, Refusal> {
    if !RATES.contains(&rate) {
        return Err((1, 0));
    }
    if side > LAST_SIDE {
        return Err((21, 0));
    }
    if positions.len() != ratios.len() {
        return Err((2, 0));
    }
    let most = if FORM == WIDE {
        WIDE_POINTS
    } else {
        MOST_POINTS
    };
    if positions.len() > most {
        return Err((3, 0));
    }
    if let Some(index) = positions.iter().position(|&t| t > LAST_POSITION) {
        return Err((4, index));
    }
    let count_at = if side == 0 { 7 } else { 11 };
    let (head, rest) = out.split_at_mut(out.len().min(count_at + 8));
    let length = put_positions::<FORM>(positions, rest).map_err(|index| (5, index))?;
    if rest.len() < length + 3 {
        return Err((6, 0));
    }
    head[..3].copy_from_slice(&[1, 0, 4]);
    head[3..7].copy_from_slice(&rate.to_be_bytes());
    let (front, head) = head.split_at_mut(count_at);
    if side != 0 {
        front[7..].copy_from_slice(&[6, 0, 1, side as u8]);
    }
    head[..3].copy_from_slice(&[2, 0, 2]);
    head[3..5].copy_from_slice(&(positions.len() as u16).to_be_bytes());
    head[5] = FORM as u8;
    head[6..].copy_from_slice(&(length as u16).to_be_bytes());
    let (head, body) = rest[length..].split_at_mut(3);
    let mut at = 0;
    for (n, &ratio) in ratios.iter().enumerate() {
        let window = &ratios[n.saturating_sub(WINDOW)..n];
        at += put_ratio(window, ratio, &mut body[at..]).ok_or((6, 0))?;
    }
    head[0] = 4;
    head[1..].copy_from_slice(&(at as u16).to_be_bytes());
    Ok(count_at + 8 + length + 3 + at)
}

#[inline(never)]
fn write_in<const FORM: u32>(
    rate: u32,
    side: u32,
    positions: &[u64],
    ratios: &[u64],
    out: &mut [u8],
) -> Written {
    match try_write::<FORM>(rate, side, positions, ratios, out) {
        Ok(length) => written(0, 0, length),
        Err((number, place)) => {
            out.fill(0);
            written(number, place, 0)
        }
    }
}

pub fn write(
    rate: u32,
    side: u32,
    form: u32,
    positions: &[u64],
    ratios: &[u64],
    out: &mut [u8],
) -> Written {
    match form {
        WIDE => write_in::<WIDE>(rate, side, positions, ratios, out),
        _ => write_in::<OLD>(rate, side, positions, ratios, out),
    }
}

fn written(number: u32, place: usize, length: usize) -> Written {
    Written {
        number,
        place: place as u32,
        length: length as u64,
    }
}

fn body(record: &[u8], at: usize, tag: u8, length: Option<usize>) -> Result<&[u8], Refusal> {
    let rest = &record[at..];
    let [found, high, low, rest @ ..] = rest else {
        return Err((10, at));
    };
    if *found != tag {
        return Err((11, at));
    }
    let stated = usize::from(u16::from_be_bytes([*high, *low]));
    if length.is_some_and(|length| length != stated) {
        return Err((12, at));
    }
    rest.get(..stated).ok_or((10, at))
}

#[inline(always)]
fn try_read<const FORM: u32>(
    expected: u32,
    record: &[u8],
    positions: &mut [u64],
    ratios: &mut [u64],
    strict: bool,
) -> Result<(u32, u8, usize, usize), Refusal> {
    let rate = u32::from_be_bytes(body(record, 0, 1, Some(4))?.try_into().unwrap());
    if !RATES.contains(&rate) {
        return Err((13, 0));
    }
    if expected != 0 && expected != rate {
        return Err((14, 0));
    }
    let (mut side, mut count_at) = (0, 7);
    if record.get(7) == Some(&6) {
        side = body(record, 7, 6, Some(1))?[0];
        if side == 0 || u32::from(side) > LAST_SIDE {
            return Err((20, 7));
        }
        count_at = 11;
    }
    let count = u16::from_be_bytes(body(record, count_at, 2, Some(2))?.try_into().unwrap());
    let count = usize::from(count);
    if count > MOST_POINTS {
        return Err((15, count_at));
    }
    if count > positions.len() || count > ratios.len() {
        return Err((16, count_at));
    }
    let field = count_at + 5;
    if FORM == WIDE && count > WIDE_POINTS && record.len() >= field + 3 {
        return Err((15, count_at));
    }
    let coded = body(record, field, FORM as u8, None)?;
    take_positions::<FORM>(coded, &mut positions[..count]).ok_or((17, field))?;
    let field = field + 3 + coded.len();
    let coded = body(record, field, 4, None)?;
    let mut at = 0;
    for n in 0..count {
        let window = &ratios[n.saturating_sub(WINDOW)..n];
        let (ratio, length) = take_ratio(window, &coded[at..], strict).ok_or((18, field))?;
        ratios[n] = ratio;
        at += length;
    }
    if at != coded.len() {
        return Err((18, field));
    }
    Ok((rate, side, count, field + 3 + at))
}

#[inline(never)]
fn read_in<const FORM: u32, const STRICT: bool>(
    expected: u32,
    record: &[u8],
    positions: &mut [u64],
    ratios: &mut [u64],
) -> Reading {
    let (number, place, rate, side, count, form, used) =
        match try_read::<FORM>(expected, record, positions, ratios, STRICT) {
            Ok((rate, side, count, used)) => (0, 0, rate, side, count, FORM, used),
            Err((number, place)) => {
                positions.fill(0);
                ratios.fill(0);
                (number, place, 0, 0, 0, 0, 0)
            }
        };
    Reading {
        number,
        place: place as u32,
        rate,
        side: u32::from(side),
        count: count as u32,
        form,
        used: used as u64,
    }
}

/// Reads in the form of the tag that stands where a record has that of its positions' field.
fn read<const STRICT: bool>(
    expected: u32,
    record: &[u8],
    positions: &mut [u64],
    ratios: &mut [u64],
) -> Reading {
    let field = if record.get(7) == Some(&6) { 16 } else { 12 };
    if record.get(field) == Some(&(WIDE as u8)) {
        read_in::<WIDE, STRICT>(expected, record, positions, ratios)
    } else {
        read_in::<OLD, STRICT>(expected, record, positions, ratios)
    }
}

/// The check in full. The points are read into numbers that are lent, and have no further use.
#[inline(never)]
pub fn describe(
    expected: u32,
    record: &[u8],
    positions: &mut [u64],
    ratios: &mut [u64],
) -> Described {
    let read = read::<true>(expected, record, positions, ratios);
    Described {
        number: read.number,
        place: read.place,
        rate: read.rate,
        side: read.side,
        count: read.count,
        form: read.form,
        size: read.used,
    }
}

/// The check as one number.
#[inline(never)]
pub fn check(expected: u32, record: &[u8], positions: &mut [u64], ratios: &mut [u64]) -> u32 {
    let read = read::<true>(expected, record, positions, ratios);
    if read.number == 0 {
        read.used as u32
    } else {
        read.number << 16 | read.place
    }
}

#[inline(never)]
pub fn fetch(expected: u32, record: &[u8], positions: &mut [u64], ratios: &mut [u64]) -> Fetched {
    let read = read::<true>(expected, record, positions, ratios);
    Fetched {
        number: read.number,
        place: read.place,
        count: read.count,
    }
}

#[inline(never)]
pub fn read_open(
    expected: u32,
    record: &[u8],
    positions: &mut [u64],
    ratios: &mut [u64],
) -> Reading {
    read::<false>(expected, record, positions, ratios)
}

// Live coding

#[inline(never)]
pub fn live_new() -> Live {
    Live {
        ratios: [0; WINDOW],
        fill: 0,
        seen: 0,
    }
}

#[inline(never)]
pub fn live_add(state: &mut Live, ratio: u64, out: &mut [u8]) -> Written {
    let refuse = |number, out: &mut [u8]| {
        out.fill(0);
        written(number, 0, 0)
    };
    let fill = state.seen.min(WINDOW as u64) as usize;
    if state.fill != fill as u64 || state.seen > MOST_POINTS as u64 {
        return refuse(7, out);
    }
    if state.seen == MOST_POINTS as u64 {
        return refuse(3, out);
    }
    let Some(length) = put_ratio(&state.ratios[..fill], ratio, out) else {
        return refuse(6, out);
    };
    if fill == WINDOW {
        state.ratios.copy_within(1.., 0);
        state.ratios[WINDOW - 1] = ratio;
    } else {
        state.ratios[fill] = ratio;
        state.fill += 1;
    }
    state.seen += 1;
    written(0, 0, length)
}

/// The same with the state taken and returned by value, as the library's core does it.
#[inline(never)]
pub fn live_added(state: Live, ratio: u64, out: &mut [u8]) -> (Written, Live) {
    let mut next = state;
    let answer = live_add(&mut next, ratio, out);
    (answer, next)
}

/// A live addition over `live_added`.
pub fn live_add_by_value(state: &mut Live, ratio: u64, out: &mut [u8]) -> Written {
    let (answer, next) = live_added(*state, ratio, out);
    *state = next;
    answer
}

// Stepping

#[inline(never)]
pub fn cursor_new(count: u64) -> Making {
    let refused = count > MOST_POINTS as u64;
    Making {
        number: if refused { 15 } else { 0 },
        place: 0,
        cursor: Cursor {
            place: 0,
            count: if refused { 0 } else { count },
            seen: 0,
            ratios: [0; WINDOW],
            fill: 0,
        },
    }
}

/// One step, with the state taken and returned by value.
pub fn step(body: &[u8], cursor: Cursor) -> Stepped {
    step_in_c(body.as_ptr(), body.len(), cursor)
}

/// The same as a C function with the signature of the library's.
#[inline(never)]
extern "C" fn step_in_c(body: *const u8, length: usize, cursor: Cursor) -> Stepped {
    // SAFETY: `step` alone calls this, with the parts of a slice.
    let body = unsafe { std::slice::from_raw_parts(body, length) };
    let refuse = |number| Stepped {
        number,
        place: 0,
        ratio: 0,
        next: cursor,
    };
    let fill = cursor.seen.min(WINDOW as u64) as usize;
    let bad = cursor.fill != fill as u64
        || cursor.seen > cursor.count
        || cursor.count > MOST_POINTS as u64
        || cursor.place > body.len() as u64;
    if bad {
        return refuse(7);
    }
    let place = cursor.place as usize;
    if cursor.seen == cursor.count {
        return refuse(if place == body.len() { 8 } else { 18 });
    }
    let Some((ratio, length)) = take_ratio(&cursor.ratios[..fill], &body[place..], true) else {
        return refuse(18);
    };
    let mut next = cursor;
    next.place += length as u64;
    next.seen += 1;
    if fill == WINDOW {
        next.ratios.copy_within(1.., 0);
        next.ratios[WINDOW - 1] = ratio;
    } else {
        next.ratios[fill] = ratio;
        next.fill += 1;
    }
    Stepped {
        number: 0,
        place: 0,
        ratio,
        next,
    }
}

// Two records side by side

/// A record that was read: what describe answered, and as many positions and ratios as it says.
pub struct ReadRun<'a> {
    pub described: Described,
    pub positions: &'a [u64],
    pub ratios: &'a [u64],
}

fn kind(ratio: u64) -> Kind {
    let value = f64::from_bits(ratio);
    let none = Kind::default();
    if value.is_nan() {
        let (kind, bits) = (2, ratio);
        Kind { kind, bits, ..none }
    } else if value.is_infinite() {
        let (kind, negative) = (1, u32::from(value < 0.0));
        Kind {
            kind,
            negative,
            ..none
        }
    } else {
        Kind { value, ..none }
    }
}

/// Lists what differs between two records that were read, in one loop over the points.
#[inline(never)]
pub fn compare(first: &ReadRun, second: &ReadRun, list: &mut Vec<Difference>) {
    let mut put = |what, index, first, second| {
        if first != second {
            let kinds = |ratio| {
                if what == 6 {
                    kind(ratio)
                } else {
                    Kind::default()
                }
            };
            list.push(Difference {
                what,
                index,
                first,
                second,
                first_kind: kinds(first),
                second_kind: kinds(second),
            });
        }
    };
    let (one, other) = (first.described, second.described);
    put(1, 0, one.rate.into(), other.rate.into());
    put(2, 0, one.side.into(), other.side.into());
    put(3, 0, one.count.into(), other.count.into());
    put(4, 0, one.form.into(), other.form.into());
    let positions = first.positions.iter().zip(second.positions);
    let ratios = first.ratios.iter().zip(second.ratios);
    for (index, (positions, ratios)) in (0..).zip(positions.zip(ratios)) {
        put(5, index, *positions.0, *positions.1);
        put(6, index, *ratios.0, *ratios.1);
    }
    put(7, 0, one.count.abs_diff(other.count).into(), 0);
}
