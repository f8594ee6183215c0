//! Random inputs for the differential test: runs, records, bodies and outputs, sound and faulty.

use crate::answers::{Write, Written, OLD, WIDE, WINDOW};
use crate::reference;

pub const RATES: [u32; 6] = [44_100, 48_000, 88_200, 96_000, 176_400, 192_000];
pub const MOST_POINTS: usize = 4_096;
pub const WIDE_POINTS: usize = 3_500;
pub const LAST_POSITION: u64 = (1 << 62) - 1;
pub const LONGEST_RECORD: usize = 61_709;
/// Numbers with which the old form is written, as with its own: next to the numbers of the forms,
/// at bounds, and such as have the number of the wide form in the low bits.
pub const OTHER_FORMS: [u32; 13] = [
    0,
    1,
    2,
    4,
    6,
    7,
    8 + 5,
    128 + 5,
    256 + 5,
    65_536 + 5,
    (1 << 31) + 5,
    u32::MAX - 2,
    u32::MAX,
];
pub const LAST_SIDE: u32 = 26;
/// Sides above the last: next to it, at bounds of a byte and of a number, and such as have a good
/// side in the low bits.
pub const HIGH_SIDES: [u32; 12] = [
    27,
    28,
    31,
    127,
    128,
    255,
    256,
    256 + 4,
    65_536 + 26,
    1 << 31,
    (1 << 31) + 1,
    u32::MAX,
];
/// Cells on each side of an output that no call may touch.
pub const GUARD: usize = 9;

// Random numbers

/// A xorshift64* generator.
pub struct Random(u64);

impl Random {
    pub fn new(seed: u64) -> Random {
        Random(seed.wrapping_mul(0x9e37_79b9_7f4a_7c15).max(1))
    }

    pub fn bits(&mut self) -> u64 {
        self.0 ^= self.0 >> 12;
        self.0 ^= self.0 << 25;
        self.0 ^= self.0 >> 27;
        self.0.wrapping_mul(0x2545_f491_4f6c_dd1d)
    }

    pub fn below(&mut self, bound: usize) -> usize {
        ((u128::from(self.bits()) * bound as u128) >> 64) as usize
    }

    pub fn between(&mut self, least: i64, most: i64) -> i64 {
        least + self.below((most - least + 1) as usize) as i64
    }

    pub fn one_in(&mut self, times: usize) -> bool {
        self.below(times) == 0
    }

    pub fn pick<T: Copy>(&mut self, choices: &[T]) -> T {
        choices[self.below(choices.len())]
    }

    /// Uniform from -1 to 1.
    pub fn fraction(&mut self) -> f64 {
        self.bits() as i64 as f64 / (1_u64 << 63) as f64
    }

    pub fn bytes(&mut self, length: usize) -> Vec<u8> {
        (0..length).map(|_| self.bits() as u8).collect()
    }

    /// An output of the given length and guards around it. The contents are random in that they
    /// rise from a random number by a random odd one, which is made much faster than others.
    pub fn memory<T: Cell>(&mut self, length: usize) -> Vec<T> {
        let (start, rise) = (self.bits(), self.bits() | 1);
        (0..(length + 2 * GUARD) as u64)
            .map(|n| T::from_bits(start.wrapping_add(rise.wrapping_mul(n))))
            .collect()
    }
}

pub trait Cell {
    fn from_bits(bits: u64) -> Self;
}

impl Cell for u8 {
    fn from_bits(bits: u64) -> u8 {
        bits as u8
    }
}

impl Cell for u64 {
    fn from_bits(bits: u64) -> u64 {
        bits
    }
}

/// The output between the guards.
pub fn lent<T>(memory: &mut [T]) -> &mut [T] {
    let end = memory.len() - GUARD;
    &mut memory[GUARD..end]
}

// Inputs

/// Makes ratios of one kind after another.
pub struct Ratios {
    kind: usize,
    table: Vec<u64>,
    index: usize,
    level: f64,
    places: f64,
}

impl Ratios {
    pub const KINDS: usize = 15;

    pub fn new(random: &mut Random, kind: usize) -> Ratios {
        let period = random.between(124, 130) as usize;
        Ratios {
            kind,
            table: (0..period).map(|_| random.bits()).collect(),
            index: 0,
            level: random.fraction() * 100.0,
            places: random.pick(&[100.0, 1_000.0, 10_000.0]),
        }
    }

    fn next(&mut self, random: &mut Random, earlier: &[u64]) -> u64 {
        let n = earlier.len();
        let back = if n == 0 {
            random.bits()
        } else {
            earlier[n - 1 - random.below(n.min(129))]
        };
        let decimal = |number: f64, places: f64| ((number * places).round() / places).to_bits();
        match self.kind {
            // constant with rare changes
            0 if n > 0 && !random.one_in(20) => earlier[n - 1],
            0 => decimal(random.fraction() * 10.0, 100.0),
            // a walk over few values
            1 => {
                self.index = (self.index + 49 + random.below(3)) % 50;
                self.table[self.index]
            }
            // decimals around a drifting level
            2 => {
                self.level += random.fraction() * 0.01;
                decimal(self.level + random.fraction() * 0.05, self.places)
            }
            // two sines
            3 => ((n as f64 * 0.05).sin() + 0.5 * (n as f64 * 0.31).sin()).to_bits(),
            4 => random.bits(),
            // equal top bytes
            5 => random.bits() >> 16 | 0x3ff0 << 48,
            // whole numbers
            6 => (random.between(-300, 300) as f64).to_bits(),
            // one and noise
            7 => (1.0 + random.fraction() * 1e-6).to_bits(),
            // repeats as far back as the window reaches, or just past it
            8 => self.table[n % self.table.len()],
            // the same, with some bytes changed
            9 => change_bytes(random, self.table[n % self.table.len()]),
            // any earlier ratio with some bytes changed
            10 => change_bytes(random, back),
            // few different bytes, so that many sums are equal
            11 => {
                let byte = |random: &mut Random| u64::from(random.pick(&[0_u8, 0, 0, 1, 255]));
                (0..8).fold(0, |ratio, _| ratio << 8 | byte(random))
            }
            // sums of 1, 2 and 3
            12 => {
                let leading = random.below(4);
                let trailing = random.below(4 - leading);
                let changed = random.bits() | 0x0101_0101_0101_0101;
                back ^ (changed >> (8 * (leading + trailing)) << (8 * trailing))
            }
            13 => special_bits(random),
            // a mixture
            _ => {
                self.kind = random.below(Self::KINDS - 1);
                let ratio = self.next(random, earlier);
                self.kind = Self::KINDS - 1;
                ratio
            }
        }
    }

    pub fn list(random: &mut Random, kind: usize, count: usize) -> Vec<u64> {
        let mut source = Ratios::new(random, kind);
        let mut ratios = Vec::with_capacity(count);
        for _ in 0..count {
            let ratio = source.next(random, &ratios);
            ratios.push(ratio);
        }
        ratios
    }
}

pub fn change_bytes(random: &mut Random, ratio: u64) -> u64 {
    let mut bytes = ratio.to_be_bytes();
    for _ in 0..random.below(4) {
        bytes[random.below(8)] = random.bits() as u8;
    }
    u64::from_be_bytes(bytes)
}

/// Zeros, subnormals, infinities, not-a-numbers and their neighbours.
pub fn special_bits(random: &mut Random) -> u64 {
    let sign = random.bits() << 63;
    let exponent = random.pick(&[0, 1, 0x3ff, 0x7fe, 0x7ff, 0x7ff]) << 52;
    let half = 1 << 51;
    let any = random.bits() >> 12;
    let fraction = random.pick(&[0, 0, 1, half - 1, half, half + 1, 2 * half - 1, any]);
    sign | exponent | fraction
}

// Steps

pub const LEAST_STEP: i64 = -(1 << 31) + 1;
pub const MOST_STEP: i64 = 1 << 31;

/// A row of a table of steps: the prefix, its length, and how many bits follow.
type Row = (i64, usize, usize);

const OLD_ROWS: [Row; 5] = [(0, 1, 0), (2, 2, 7), (6, 3, 9), (14, 4, 12), (15, 4, 32)];
const WIDE_ROWS: [Row; 6] = [
    (0, 1, 0),
    (2, 2, 7),
    (6, 3, 9),
    (14, 4, 12),
    (30, 5, 32),
    (31, 5, 64),
];

/// The table of a form.
pub fn rows(form: u32) -> &'static [Row] {
    match form {
        WIDE => &WIDE_ROWS,
        _ => &OLD_ROWS,
    }
}

/// The index of the first row that holds a step; the last is in the wide table alone.
pub fn first_row(step: i64) -> usize {
    match step {
        0 => 0,
        -63..=64 => 1,
        -255..=256 => 2,
        -2_047..=2_048 => 3,
        LEAST_STEP..=MOST_STEP => 4,
        _ => 5,
    }
}

/// Bits laid by hand, top bit first.
#[derive(Default)]
pub struct Bits(Vec<bool>);

impl Bits {
    pub fn lay(&mut self, number: i64, width: usize) {
        self.0
            .extend((0..width).rev().map(|height| number >> height & 1 == 1));
    }

    /// Lays a step in a row of a form's table, whether or not it is the row for it.
    pub fn lay_step(&mut self, form: u32, row: usize, step: i64) {
        let (prefix, length, width) = rows(form)[row];
        self.lay(prefix, length);
        self.lay(step, width);
    }

    /// Takes some of the last bits off, as many as there are.
    pub fn cut(&mut self, less: usize) {
        self.0.truncate(self.0.len().saturating_sub(less));
    }

    /// Ones in the place of the fill bits of the last byte.
    pub fn fill(&self) -> u8 {
        (1 << ((8 - self.0.len() % 8) % 8)) - 1
    }

    /// The bytes, with zeros to the end of the last one.
    pub fn bytes(&self) -> Vec<u8> {
        let byte = |bits: &[bool]| {
            let number = bits.iter().fold(0, |byte, &bit| byte << 1 | u8::from(bit));
            number << (8 - bits.len())
        };
        self.0.chunks(8).map(byte).collect()
    }
}

/// Steps at and around the bounds of the first five rows.
pub const EDGE_STEPS: [i64; 26] = [
    0, 1, -1, 2, 62, 63, 64, 65, -62, -63, -64, -65, 255, 256, 257, -255, -256, -257, 2_047, 2_048,
    2_049, -2_047, -2_048, -2_049, MOST_STEP, LEAST_STEP,
];

/// The least and the largest step between positions.
pub const FARTHEST_STEPS: [i64; 2] = [-(i64::MAX - 1), i64::MAX - 1];

/// Steps between positions that the wide table alone holds: at the bounds of its last row, at
/// powers of 2, with low bits that an earlier row holds, and the farthest.
pub const RAW_STEPS: [i64; 25] = [
    MOST_STEP + 1,
    MOST_STEP + 2,
    LEAST_STEP - 1,
    LEAST_STEP - 2,
    (1 << 32) - 1,
    1 << 32,
    (1 << 32) + 1,
    -(1 << 32) + 1,
    -(1 << 32),
    -(1 << 32) - 1,
    (1 << 32) + 64,
    (1 << 40) - 63,
    (5 << 32) + MOST_STEP,
    1 << 61,
    -(1 << 61),
    (1 << 62) - 1,
    1 << 62,
    (1 << 62) + 1,
    -(1 << 62) + 1,
    -(1 << 62),
    -(1 << 62) - 1,
    FARTHEST_STEPS[0] + 1,
    FARTHEST_STEPS[0],
    FARTHEST_STEPS[1] - 1,
    FARTHEST_STEPS[1],
];

/// A step that mostly the wide table alone holds, between positions or not.
fn raw_step(random: &mut Random) -> i64 {
    let any = random.bits() as i64 >> random.below(34);
    let edge = random.pick(&RAW_STEPS);
    random.pick(&[any, any, edge, edge, edge, edge, i64::MIN, i64::MAX])
}

/// Three positions with this step at the third, of which there are many.
pub fn with_step(random: &mut Random, step: i64) -> [u64; 3] {
    let (step, top) = (i128::from(step), i128::from(LAST_POSITION));
    let mut between = |least: i128, most: i128| match random.below(3) {
        0 => least,
        1 => most,
        _ => least + random.below((most - least + 1) as usize) as i128,
    };
    // The first and the third are the step and twice the second.
    let second = between((1 - step).max(0) / 2, top - (1 + step).max(0) / 2);
    let both = step + 2 * second;
    let first = between((both - top).max(0), both.min(top));
    [first, second, both - first].map(|position| position as u64)
}

fn any_step(random: &mut Random, kind: usize) -> i64 {
    match kind {
        0 => 0,
        1 => random.pick(&[0, 0, 0, 0, 1, -1]),
        2 => random.between(-70, 70),
        3 => random.between(-260, 260),
        4 => random.between(-2_060, 2_060),
        5 => random.between(LEAST_STEP, MOST_STEP),
        6 => random.pick(&EDGE_STEPS),
        _ => {
            let kind = random.below(7);
            any_step(random, kind)
        }
    }
}

/// Positions that the writer accepts in a form.
pub fn any_positions(random: &mut Random, form: u32, count: usize) -> Vec<u64> {
    let mut positions = near_positions(random, count);
    if form == WIDE && random.one_in(2) {
        let often = random.pick(&[1, 3, 12, 100]);
        for n in 0..count {
            if random.one_in(often) {
                positions[n] = far_position(random, &positions[..n]);
            }
        }
    }
    positions
}

/// A position at a bound, anywhere, or by a step of the wide table from those before it.
fn far_position(random: &mut Random, before: &[u64]) -> u64 {
    let any = random.below(LAST_POSITION as usize + 1) as u64;
    let next = match before {
        [.., before, last] => {
            let step = i128::from(raw_step(random));
            u64::try_from(2 * i128::from(*last) - i128::from(*before) + step)
        }
        _ => Ok(any),
    };
    match next {
        Ok(next) if next <= LAST_POSITION && random.one_in(2) => next,
        _ => random.pick(&[0, LAST_POSITION, any, any]),
    }
}

/// Positions that the writer accepts in both forms.
fn near_positions(random: &mut Random, count: usize) -> Vec<u64> {
    let kind = random.below(10);
    let middle = 1_i64 << 61;
    let top = LAST_POSITION as i64;
    let small = random.between(0, 3_000);
    let large = random.between(-(1 << 45), 1 << 45);
    // With a large difference the positions start in the middle and stay inside.
    let (first, mut difference) = match random.below(6) {
        0 => (0, small),
        1 => (top, -small),
        2 => (middle, large),
        3 => (random.between(0, top), random.between(-64, 64)),
        _ => (random.between(0, 1 << 40), small),
    };
    let mut positions = vec![first];
    while positions.len() < count {
        let last = positions[positions.len() - 1];
        let mut step = any_step(random, kind);
        let slow = difference.abs() < 1 << 31;
        let leaves = |difference: i64| !(0..=top).contains(&(last + difference));
        if slow && (leaves(difference + step) || (difference + step).abs() >= 1 << 31) {
            step = -difference;
        }
        if positions.len() == 1 {
            step = if leaves(difference) { -difference } else { 0 };
        }
        difference += step;
        positions.push(last + difference);
    }
    positions.truncate(count);
    if count == 2 && random.one_in(2) {
        // No step, so any two will do.
        positions = (0..2).map(|_| random.between(0, top)).collect();
    }
    positions.iter().map(|&t| t as u64).collect()
}

pub fn unlisted_rate(random: &mut Random) -> u32 {
    let rate = random.pick(&RATES);
    let any = random.bits() as u32;
    let choices = [0, 1, rate - 1, rate + 1, rate ^ 0x8000_0000, u32::MAX, any];
    random.pick(&choices)
}

/// A side that the writer accepts, in half of all cases none.
pub fn any_side(random: &mut Random) -> u32 {
    let any = 1 + random.below(LAST_SIDE as usize) as u32;
    random.pick(&[0, 0, 0, 0, 1, LAST_SIDE, any, any])
}

/// A number that names a form, in half of all cases the wide one.
pub fn any_form_number(random: &mut Random) -> u32 {
    let other = random.pick(&OTHER_FORMS);
    random.pick(&[WIDE, WIDE, WIDE, WIDE, OLD, OLD, OLD, other])
}

/// The most points of a run in a form.
pub fn most_points(form: u32) -> usize {
    match form {
        WIDE => WIDE_POINTS,
        _ => MOST_POINTS,
    }
}

/// A number near another, at a bound, or too large, also with the same low bits.
pub fn other_number(random: &mut Random, near: u64) -> u64 {
    let (more, less) = (near.wrapping_add(1), near.wrapping_sub(1));
    let wide = near.wrapping_add(1 << random.pick(&[8, 16, 32, 63]));
    let (most, any) = (u64::MAX, random.bits());
    random.pick(&[
        more, less, wide, wide, 0, 126, 127, 128, 4_095, 4_096, 4_097, most, any,
    ])
}

#[derive(Clone, Debug)]
pub struct Run {
    pub rate: u32,
    pub side: u32,
    /// The number that names the form to writing: 5 for the wide one, else the old one.
    pub form: u32,
    pub positions: Vec<u64>,
    pub ratios: Vec<u64>,
}

impl Run {
    pub fn new(random: &mut Random, form: u32, kind: usize, count: usize) -> Run {
        Run {
            rate: random.pick(&RATES),
            side: any_side(random),
            form,
            positions: any_positions(random, form, count),
            ratios: Ratios::list(random, kind, count),
        }
    }

    pub fn any(random: &mut Random) -> Run {
        let count = match random.below(12) {
            0..=8 => random.below(13),
            9 => random.below(300),
            _ => 120 + random.below(20),
        };
        Run::short(random, count)
    }

    pub fn short(random: &mut Random, count: usize) -> Run {
        let form = match any_form_number(random) {
            WIDE if count > WIDE_POINTS => OLD,
            form => form,
        };
        let kind = random.below(Ratios::KINDS);
        Run::new(random, form, kind, count)
    }

    /// The same run in another form.
    pub fn in_form(&self, form: u32) -> Run {
        Run {
            form,
            ..self.clone()
        }
    }

    pub fn write(&self, write: Write, out: &mut [u8]) -> Written {
        let (positions, ratios) = (&self.positions, &self.ratios);
        write(self.rate, self.side, self.form, positions, ratios, out)
    }

    /// The record, which the reference writes.
    pub fn record(&self) -> Vec<u8> {
        let mut out = vec![0; LONGEST_RECORD];
        let written = self.write(reference::write, &mut out);
        assert_eq!(written.number, 0, "the test made a run that is refused");
        out.truncate(written.length as usize);
        out
    }

    /// Breaks one of the writer's tests, or several when called again.
    pub fn spoil(&mut self, random: &mut Random) {
        let count = self.positions.len();
        match random.below(7) {
            0 => self.rate = unlisted_rate(random),
            1 => self.side = random.pick(&HIGH_SIDES),
            2 if random.one_in(2) => self.ratios.push(random.bits()),
            2 => {
                self.ratios.pop();
            }
            3 if random.one_in(6) => {
                let most = random.pick(&[MOST_POINTS, MOST_POINTS, MOST_POINTS, WIDE_POINTS]);
                let length = most + 1 + random.below(3);
                self.positions.resize(length, 0);
                if random.one_in(4) {
                    self.ratios.resize(length, 0);
                }
            }
            3 | 4 if count > 0 => {
                let any = LAST_POSITION + random.bits() / 2;
                let choices = [LAST_POSITION + 1, u64::MAX, 1 << 63, any, LAST_POSITION];
                self.positions[random.below(count)] = random.pick(&choices);
            }
            _ if count > 2 => {
                let n = 2 + random.below(count - 2);
                let any = random.bits() as i64 >> 2;
                let step = [MOST_STEP + 1, LEAST_STEP - 1, MOST_STEP, LEAST_STEP, any];
                let step = random.pick(&step);
                let (last, before) = (self.positions[n - 1], self.positions[n - 2]);
                let position = i128::from(last) * 2 - i128::from(before) + i128::from(step);
                self.positions[n] = position.clamp(0, i128::from(LAST_POSITION)) as u64;
            }
            _ => {}
        }
    }
}

// The tags of the fields; the positions' field has one for each form.
pub const RATE: u8 = 1;
pub const COUNT: u8 = 2;
pub const POSITIONS: u8 = OLD as u8;
pub const WIDE_POSITIONS: u8 = WIDE as u8;
pub const RATIOS: u8 = 4;
pub const SIDE: u8 = 6;

/// What bytes state where a record has its count and the tag of its positions; 0 where they end
/// before it.
pub struct Front {
    /// Where the count's field stands.
    pub count_at: usize,
    pub count: usize,
    pub tag: u32,
}

impl Front {
    pub fn of(record: &[u8]) -> Front {
        let count_at = if record.get(7) == Some(&SIDE) { 11 } else { 7 };
        let count = match record.get(count_at + 3..count_at + 5) {
            Some(&[high, low]) => u16::from_be_bytes([high, low]),
            _ => 0,
        };
        Front {
            count_at,
            count: usize::from(count),
            tag: record.get(count_at + 5).map_or(0, |&tag| u32::from(tag)),
        }
    }
}

/// The fields of a record, each with a tag, a stated length and a body.
#[derive(Clone)]
pub struct Fields(pub Vec<(u8, u16, Vec<u8>)>);

impl Fields {
    /// The fields of a record, `tag` that of the positions' field.
    pub fn new(
        rate: u32,
        side: u8,
        count: u16,
        tag: u8,
        positions: Vec<u8>,
        ratios: Vec<u8>,
    ) -> Fields {
        let mut bodies = vec![
            (RATE, rate.to_be_bytes().to_vec()),
            (COUNT, count.to_be_bytes().to_vec()),
            (tag, positions),
            (RATIOS, ratios),
        ];
        if side != 0 {
            bodies.insert(1, (SIDE, vec![side]));
        }
        let field = |(tag, body): (u8, Vec<u8>)| (tag, body.len() as u16, body);
        Fields(bodies.into_iter().map(field).collect())
    }

    pub fn split(record: &[u8]) -> Fields {
        let mut rest = record;
        let mut fields = Vec::new();
        while let [tag, high, low, tail @ ..] = rest {
            let length = u16::from_be_bytes([*high, *low]);
            let (body, after) = tail.split_at(usize::from(length));
            fields.push((*tag, length, body.to_vec()));
            rest = after;
        }
        Fields(fields)
    }

    pub fn join(&self) -> Vec<u8> {
        let mut record = Vec::new();
        for (tag, length, body) in &self.0 {
            record.push(*tag);
            record.extend(length.to_be_bytes());
            record.extend(body);
        }
        record
    }

    /// Where the first field with a tag stands; `POSITIONS` is the positions' field of both forms.
    pub fn find(&self, tag: u8) -> Option<usize> {
        self.0.iter().position(|field| match field.0 {
            WIDE_POSITIONS => tag == POSITIONS,
            found => tag == found,
        })
    }

    /// Gives the positions' field, where there is one, the tag of the other form.
    pub fn exchange_forms(&mut self) {
        if let Some(field) = self.find(POSITIONS) {
            self.0[field].0 ^= POSITIONS ^ WIDE_POSITIONS;
        }
    }

    /// The body of the first field with a tag, or nothing where there is none.
    pub fn body(&self, tag: u8) -> &[u8] {
        self.find(tag).map_or(&[], |field| &self.0[field].2)
    }

    /// Gives the first field with a tag another body, where there is such a field.
    pub fn set_body(&mut self, tag: u8, body: Vec<u8>) {
        if let Some(field) = self.find(tag) {
            self.0[field].1 = body.len() as u16;
            self.0[field].2 = body;
        }
    }

    /// Breaks one of the reader's tests, or several when called again; `run` is what the fields
    /// were at first.
    pub fn spoil(&mut self, random: &mut Random, run: &Run) {
        let count = run.ratios.len();
        let chosen = random.below(self.0.len());
        match random.below(18) {
            0 => self.0[chosen].0 = random.pick(&[0, 1, 2, 3, 4, 5, 6, 6, 7, 255]),
            1 => {
                let length = self.0[chosen].1;
                let any = random.bits() as u16;
                let (more, less) = (length.wrapping_add(1), length.wrapping_sub(1));
                self.0[chosen].1 = random.pick(&[more, less, length ^ 256, 0, 65_535, any]);
            }
            2 => {
                let mut body = self.0[chosen].2.clone();
                let length = random.pick(&[body.len() + 1, body.len() + 2, body.len() / 2]);
                body.resize(length, random.pick(&[0, 0, 255]));
                self.0[chosen].1 = length as u16;
                self.0[chosen].2 = body;
            }
            3 => self.set_body(RATE, unlisted_rate(random).to_be_bytes().to_vec()),
            4 => self.set_body(RATE, random.pick(&RATES).to_be_bytes().to_vec()),
            5 | 6 => {
                let count = count as u16;
                let (less, more) = (count.wrapping_sub(1), count + 1);
                let choices = [
                    less, more, 0, 3_500, 3_501, 4_096, 4_096, 4_097, 4_097, 65_535,
                ];
                self.set_body(COUNT, random.pick(&choices).to_be_bytes().to_vec());
            }
            7 => self.set_body(POSITIONS, positions_body(random, run.form, count)),
            8 => self.set_body(RATIOS, open_body(random, count, 30)),
            9 => {
                let mut body = self.body(POSITIONS).to_vec();
                if let Some(last) = body.last_mut() {
                    *last |= 1 << random.below(8);
                }
                self.set_body(POSITIONS, body);
            }
            10 => {
                let any = random.bits() as u8;
                self.set_body(SIDE, vec![random.pick(&[0, 1, 26, 27, 128, 255, any])]);
            }
            // A side in any place, a second one among them.
            11 => {
                let body = random.pick(&[&[4][..], &[0], &[27], &[], &[4, 4]]).to_vec();
                let at = random.below(self.0.len() + 1);
                self.0.insert(at, (SIDE, body.len() as u16, body));
            }
            // A field that is missing, or one that stands after the next.
            12 if random.one_in(3) && self.0.len() > 1 => {
                self.0.remove(chosen);
            }
            12 => {
                let next = (chosen + 1) % self.0.len();
                self.0.swap(chosen, next);
            }
            13 => self.exchange_forms(),
            // A byte more or a byte less within the body, whose length is stated anew or not.
            14 | 15 => {
                let (_, stated, body) = &mut self.0[chosen];
                let at = random.below(body.len() + 1);
                if at < body.len() && random.one_in(2) {
                    body.remove(at);
                } else {
                    body.insert(at, random.pick(&[0, 0xff, 0x80]));
                }
                if random.one_in(2) {
                    *stated = body.len() as u16;
                }
            }
            _ => {
                let body = &mut self.0[chosen].2;
                if !body.is_empty() {
                    let at = random.below(body.len());
                    body[at] = damage(random, body[at]);
                }
            }
        }
    }
}

/// Another value for a byte, mostly.
pub fn damage(random: &mut Random, byte: u8) -> u8 {
    let flipped = byte ^ 1 << random.below(8);
    let (more, less) = (byte.wrapping_add(1), byte.wrapping_sub(1));
    let (swapped, top, any) = (byte.rotate_left(4), byte ^ 0x80, random.bits() as u8);
    random.pick(&[
        flipped, flipped, more, less, swapped, top, 0, 0x7f, 0xfe, 0xff, any,
    ])
}

/// A positions body of a form made by hand: sound, or with wrong rows, fill bits or length, or
/// with positions at or past their bounds.
pub fn positions_body(random: &mut Random, form: u32, count: usize) -> Vec<u8> {
    let mut bits = Bits::default();
    let kind = random.below(8);
    let wrong_row = random.pick(&[0, 0, 0, 0, 0, 2, 10]);
    let top = LAST_POSITION as i64;
    let raw = [0, 1, top, top - 1, 1 << 61, 1 << 32];
    let bad = [-1, top + 1, i64::MIN];
    let (sound, unsound) = (random.pick(&raw), random.pick(&bad));
    let first = if random.one_in(20) { unsound } else { sound };
    let near = first.wrapping_add(random.between(-2_000, 2_000));
    let second = match random.below(20) {
        0 => random.pick(&bad),
        1..=5 => random.pick(&raw),
        _ => near,
    };
    let far = if form == WIDE {
        random.pick(&[1, 3, 30])
    } else {
        0
    };
    let mut last = second;
    let mut difference = second.wrapping_sub(first);
    for n in 0..count {
        if n < 2 {
            bits.lay([first, second][n], 64);
            continue;
        }
        let to = |position: i64| position.wrapping_sub(last).wrapping_sub(difference);
        let step = match random.below(12) {
            0 => to(0),
            1 => to(-1),
            2 => to(top),
            3 => to(top + 1),
            _ if far > 0 && random.one_in(far) => raw_step(random),
            _ => any_step(random, kind),
        };
        let next = i128::from(last) + i128::from(difference) + i128::from(step);
        let inside = (0..=i128::from(top)).contains(&next);
        let step = match form {
            // A step that leads outside has a code, and should not stand in most bodies.
            WIDE if !inside && !random.one_in(4 * count) => to(random.between(0, top)),
            WIDE => step,
            _ if first_row(step) < rows(form).len() => step,
            _ => any_step(random, kind),
        };
        difference = difference.wrapping_add(step);
        last = last.wrapping_add(difference);
        let (mut row, last_row) = (first_row(step), rows(form).len() - 1);
        if wrong_row > 0 && row < last_row && random.one_in(wrong_row) {
            row += 1 + random.below(last_row - row);
        }
        bits.lay_step(form, row, step);
    }
    if random.one_in(10) {
        bits.cut(1 + random.below(10));
    }
    let mut body = bits.bytes();
    if let Some(last) = body.last_mut().filter(|_| random.one_in(10)) {
        *last |= random.bits() as u8 & random.bits() as u8 & bits.fill();
    }
    if random.one_in(15) {
        body.push(0);
    }
    body
}

/// A ratios body of open forms: any place, trailing count and length. About one form in
/// `fault` may break the open rule.
pub fn open_body(random: &mut Random, count: usize, fault: usize) -> Vec<u8> {
    let mut body = Vec::new();
    for n in 0..count {
        let fill = n.min(WINDOW);
        let faulty = random.one_in(fault);
        if random.one_in(6) || (fill == 0 && !faulty) {
            body.push(255);
            body.extend(random.bytes(8));
            continue;
        }
        let oldest = fill.saturating_sub(1);
        let any_place = random.below(fill.max(1));
        let mut place = random.pick(&[0, oldest, any_place]);
        let trailing = random.pick(&[0, 0, 1, 2, 3, 4, 5, 6, 7, 8]);
        let longest = 8 - trailing;
        let any_length = random.below(longest + 1);
        let length = random.pick(&[0, longest, any_length, any_length]);
        let mut counts = trailing * 16 + length;
        if faulty {
            match random.below(3) {
                0 => place = fill,
                1 => counts = random.pick(&[0x90, 0xf0, trailing * 16 + longest + 1]),
                _ => counts = random.below(256),
            }
        }
        if random.one_in(3) {
            body.push(place as u8);
        } else {
            let zeros = random.one_in(3);
            body.push(place.min(126) as u8 + 128);
            body.push(counts as u8);
            for byte in random.bytes(counts % 16) {
                body.push(if zeros { 0 } else { byte });
            }
        }
    }
    match random.below(20) {
        0 => body.push(0),
        1 => {
            body.pop();
        }
        _ => {}
    }
    body
}

/// A form that the open rule reads as the ratio, whether or not it is the one to write.
fn any_form(random: &mut Random, window: &[u64], ratio: u64) -> Vec<u8> {
    let mut exception = vec![255];
    exception.extend(ratio.to_be_bytes());
    if window.is_empty() || random.one_in(8) {
        return exception;
    }
    let place = random.below(window.len());
    let x = (ratio ^ window[window.len() - 1 - place]).to_be_bytes();
    if x == [0; 8] && random.one_in(2) {
        return vec![place as u8];
    }
    // The middle at its shortest, or with zero bytes on one side or both.
    let leading = x.iter().take_while(|&&byte| byte == 0).count();
    let rest = &x[leading..];
    let trailing = rest.iter().rev().take_while(|&&byte| byte == 0).count();
    let leading = random.pick(&[leading, leading, leading.saturating_sub(1), 0]);
    let trailing = random.pick(&[trailing, trailing, trailing.saturating_sub(1), 0]);
    let middle = &x[leading..8 - trailing];
    let mut form = vec![place as u8 + 128, (trailing * 16 + middle.len()) as u8];
    form.extend(middle);
    form
}

/// A ratios body that the open rule reads as the ratios; about one form in `wrong` is any form,
/// the others are those to write.
pub fn chosen_body(random: &mut Random, ratios: &[u64], wrong: usize) -> Vec<u8> {
    let mut state = reference::live_new();
    let mut body = Vec::new();
    for &ratio in ratios {
        let other = any_form(random, &state.ratios[..state.fill as usize], ratio);
        let mut form = [0; 9];
        let written = reference::live_add(&mut state, ratio, &mut form);
        if random.one_in(wrong) {
            body.extend(other);
        } else {
            body.extend(&form[..written.length as usize]);
        }
    }
    body
}
