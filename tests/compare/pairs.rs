//! Pairs of files for the program compare, each held to the text that document 02, No. 7, asks for.
//!
//! Usage: pairs PROGRAM FOLDER [SEED]
//!
//! The records are those of the reference (../rust/reference.rs), and so is the reading of bad ones;
//! the text is made here. Each pair is two files in FOLDER, on which the program must print the
//! text, byte for byte, nothing on standard error, and end with 0. Prints the first differences and
//! how many pairs passed, and ends with 1 on a difference.

#[path = "../rust/answers.rs"]
#[allow(dead_code)]
mod answers;
#[path = "../rust/inputs.rs"]
#[allow(dead_code)]
mod inputs;
#[path = "../rust/reference.rs"]
#[allow(dead_code)]
mod reference;

use answers::{OLD, WIDE};
use inputs::{
    chosen_body, most_points, special_bits, Fields, Random, Ratios, Run, COUNT, LAST_POSITION,
    LAST_SIDE, LONGEST_RECORD, MOST_POINTS, RATE, RATES, RATIOS, SIDE, WIDE_POINTS,
};
use std::cmp::min;
use std::collections::BTreeSet;
use std::fs;
use std::path::PathBuf;
use std::process::{exit, Command, Stdio};

const SEED: u64 = 20_260_107;
/// As many bytes of a file are read.
const LIMIT: usize = 65_536;
/// As many differences are printed.
const SHOWN: u64 = 10;

// The text

/// The word and the bits of a ratio.
fn ratio_text(ratio: u64) -> String {
    let kind = ["number", "infinity", "nan"][reference::kind(ratio).kind as usize];
    format!("{kind} {ratio:016x}")
}

/// The tag of the positions in the form that a run names.
fn tag(run: &Run) -> u32 {
    match run.form {
        WIDE => WIDE,
        _ => OLD,
    }
}

/// The lines for two runs.
fn differences(first: &Run, second: &Run) -> String {
    let (count, other_count) = (first.positions.len(), second.positions.len());
    let properties = [
        ("rate", first.rate, second.rate),
        ("side", first.side, second.side),
        ("count", count as u32, other_count as u32),
        ("form", tag(first), tag(second)),
    ];
    let mut text = String::new();
    for (word, value, other) in properties {
        if value != other {
            text += &format!("{word} {value} {other}\n");
        }
    }
    for index in 0..min(count, other_count) {
        let (position, other) = (first.positions[index], second.positions[index]);
        if position != other {
            text += &format!("position {index} {position} {other}\n");
        }
        let (ratio, other) = (first.ratios[index], second.ratios[index]);
        if ratio != other {
            text += &format!(
                "ratio {index} {} {}\n",
                ratio_text(ratio),
                ratio_text(other)
            );
        }
    }
    if count != other_count {
        text += &format!("more {}\n", count.abs_diff(other_count));
    }
    text
}

/// The run in a file, or number and place of the refusal.
fn read(file: &[u8]) -> Result<Run, (u32, u32)> {
    let (mut positions, mut ratios) = (vec![0; MOST_POINTS], vec![0; MOST_POINTS]);
    let file = &file[..min(file.len(), LIMIT)];
    let described = reference::describe(0, file);
    if described.number != 0 {
        return Err((described.number, described.place));
    }
    let fetched = reference::fetch(0, file, &mut positions, &mut ratios);
    positions.truncate(fetched.count as usize);
    ratios.truncate(fetched.count as usize);
    Ok(Run {
        rate: described.rate,
        side: described.side,
        form: described.form,
        positions,
        ratios,
    })
}

fn same_run(run: &Run, other: &Run) -> bool {
    (run.rate, run.side, tag(run)) == (other.rate, other.side, tag(other))
        && run.positions == other.positions
        && run.ratios == other.ratios
}

// The pairs

struct Test {
    program: String,
    files: [PathBuf; 2],
    random: Random,
    passed: u64,
    failed: u64,
    /// The numbers of refusals that came up, each with the record that it was.
    refusals: BTreeSet<(u32, usize)>,
}

fn hex(bytes: &[u8]) -> String {
    let digits: String = bytes.iter().take(80).map(|b| format!("{b:02x}")).collect();
    let more = if bytes.len() > 80 { ".." } else { "" };
    format!("{digits}{more}, {} bytes", bytes.len())
}

/// The first line, counted from 1, in which a text is not the other.
fn first_difference(text: &str, other: &str) -> String {
    let (mut lines, mut others) = (text.split_inclusive('\n'), other.split_inclusive('\n'));
    for number in 1.. {
        match (lines.next(), others.next()) {
            (None, None) => break,
            (None, _) => return format!("no line {number}"),
            (Some(line), other) if other != Some(line) => {
                return format!("line {number}, {line:?}")
            }
            _ => {}
        }
    }
    "the same".into()
}

impl Test {
    /// A pair of files.
    fn pair(&mut self, name: &str, first: &[u8], second: &[u8]) {
        let wanted = match (read(first), read(second)) {
            (Ok(first), Ok(second)) => differences(&first, &second),
            (Err((number, place)), _) => {
                self.refusals.insert((number, 1));
                format!("refused {number} at {place} in 1\n")
            }
            (_, Err((number, place))) => {
                self.refusals.insert((number, 2));
                format!("refused {number} at {place} in 2\n")
            }
        };
        for (file, bytes) in self.files.iter().zip([first, second]) {
            fs::write(file, bytes).expect("a file in the folder");
        }
        let mut command = Command::new(&self.program);
        let ended = command.args(&self.files).stdin(Stdio::null()).output();
        let ended = ended.expect("the program");
        let (written, said) = (ended.stdout, ended.stderr);
        if written == wanted.as_bytes() && said.is_empty() && ended.status.code() == Some(0) {
            self.passed += 1;
            return;
        }
        self.failed += 1;
        if self.failed <= SHOWN {
            let (written, said) = (String::from_utf8_lossy(&written), hex(&said));
            println!("{name}: {}", ended.status);
            println!("  first record: {}", hex(first));
            println!("  second record: {}", hex(second));
            println!("  wanted: {}", first_difference(&wanted, &written));
            println!("  written: {}", first_difference(&written, &wanted));
            println!("  on standard error: {said}");
        }
    }

    /// Two files in both orders.
    fn both_ways(&mut self, name: &str, first: &[u8], second: &[u8]) {
        self.pair(name, first, second);
        self.pair(&format!("{name}, swapped"), second, first);
    }

    /// The records of two runs. The reference must read what it wrote, and the list be empty for
    /// equal records alone.
    fn runs(&mut self, name: &str, first: &Run, second: &Run) {
        let (one, other) = (first.record(), second.record());
        for (run, record) in [(first, &one), (second, &other)] {
            let same = read(record).is_ok_and(|read| same_run(&read, run));
            assert!(same, "{name}: the reference reads another run");
        }
        let empty = differences(first, second).is_empty();
        assert_eq!(empty, one == other, "{name}: the text of equal records");
        self.pair(name, &one, &other);
    }

    fn runs_both_ways(&mut self, name: &str, first: &Run, second: &Run) {
        self.runs(name, first, second);
        self.runs(&format!("{name}, swapped"), second, first);
    }
}

/// A run of so many points, every 10 ms at half speed.
fn steady(form: u32, count: usize) -> Run {
    Run {
        rate: 96_000,
        side: 0,
        form,
        positions: (0..count as u64).map(|n| 960 * n).collect(),
        ratios: vec![0.5_f64.to_bits(); count],
    }
}

/// A run that has no position and no ratio of a steady one.
fn other(form: u32, count: usize) -> Run {
    Run {
        rate: 44_100,
        side: 26,
        form,
        positions: (0..count as u64).map(|n| 7 + 441 * n).collect(),
        ratios: (0..count as u64).map(|n| n << 52 | 0xf000 + n).collect(),
    }
}

const FORMS: [u32; 2] = [OLD, WIDE];

/// Each element of a list with each, itself among them.
fn each_pair<T: Copy>(list: &[T]) -> impl Iterator<Item = (T, T)> + '_ {
    let others = move |&one| list.iter().map(move |&other| (one, other));
    list.iter().flat_map(others)
}

// Runs that differ in one way

/// Zeros, subnormals, ones, the ends of the numbers, infinities, and not-a-numbers that are quiet and
/// signalling.
fn special_ratios() -> Vec<u64> {
    let positive = [
        0,
        1,
        0x000f_ffff_ffff_ffff,
        0x0010_0000_0000_0000,
        0x3fe0_0000_0000_0000,
        0x3ff0_0000_0000_0000,
        0x7fef_ffff_ffff_ffff,
        0x7ff0_0000_0000_0000,
        0x7ff0_0000_0000_0001,
        0x7ff7_ffff_ffff_ffff,
        0x7ff8_0000_0000_0000,
        0x7ff8_0000_0000_0001,
        0x7ff8_0123_89ab_cdef,
        0x7fff_ffff_ffff_ffff,
    ];
    positive
        .iter()
        .flat_map(|&bits| [bits, 1 << 63 | bits])
        .collect()
}

/// Ends of the range, powers of 2 and of 10, and their neighbours.
fn special_positions() -> Vec<u64> {
    let mut positions = vec![2, 3, 959, 960, 961, LAST_POSITION - 1, LAST_POSITION];
    for power in [0, 7, 8, 15, 16, 31, 32, 33, 53, 60, 61] {
        positions.extend([(1_u64 << power) - 1, 1 << power, (1 << power) + 1]);
    }
    positions.extend((1..=18).flat_map(|power| [10_u64.pow(power) - 1, 10_u64.pow(power)]));
    positions.sort_unstable();
    positions.dedup();
    positions
}

impl Test {
    fn rates(&mut self) {
        for (rate, other_rate) in each_pair(&RATES) {
            for (form, count) in [(OLD, 3), (WIDE, 3), (OLD, 0), (WIDE, 1)] {
                let name = format!("rates {rate} and {other_rate}");
                let at = |rate| Run {
                    rate,
                    ..steady(form, count)
                };
                self.runs(&name, &at(rate), &at(other_rate));
            }
        }
    }

    fn sides(&mut self) {
        let sides: Vec<u32> = (0..=LAST_SIDE).collect();
        for (side, other_side) in each_pair(&sides) {
            let name = format!("sides {side} and {other_side}");
            let (form, count) = (FORMS[side as usize % 2], other_side as usize % 4);
            let of = |side| Run {
                side,
                ..steady(form, count)
            };
            self.runs(&name, &of(side), &of(other_side));
        }
    }

    /// Runs of 0 to 12 points and of some more in both forms: one the beginning of the other, and such
    /// as differ at each index.
    fn counts(&mut self) {
        let few: Vec<usize> = (0..=12).collect();
        let more = [0, 1, 100, 127, 128, 255, 256];
        for (count, other_count) in each_pair(&few).chain(each_pair(&more)) {
            for (form, other_form) in each_pair(&FORMS) {
                let name = format!("{count} points, form {form}, and {other_count}, {other_form}");
                let run = steady(form, count);
                self.runs(&name, &run, &steady(other_form, other_count));
                let name = format!("{name}, that differ");
                self.runs(&name, &run, &other(other_form, other_count));
            }
        }
    }

    /// Two ratios, alone, and at some place among others.
    fn two_ratios(&mut self, ratio: u64, other_ratio: u64) {
        let name = format!("ratios {ratio:016x} and {other_ratio:016x}");
        let count = 1 + self.random.below(4);
        let index = self.random.below(count);
        for (form, count, index) in [(OLD, 1, 0), (self.random.pick(&FORMS), count, index)] {
            let mut first = steady(form, count);
            let mut second = first.clone();
            first.ratios[index] = ratio;
            second.ratios[index] = other_ratio;
            self.runs(&name, &first, &second);
        }
    }

    fn ratios(&mut self) {
        for (ratio, other_ratio) in each_pair(&special_ratios()) {
            self.two_ratios(ratio, other_ratio);
        }
        for bit in 0..64 {
            let any = self.random.bits();
            for ratio in [0, 0x3ff0 << 48, 0x7ff0 << 48, 0xfff8 << 48, u64::MAX, any] {
                self.two_ratios(ratio, ratio ^ 1 << bit);
            }
        }
        for _ in 0..200 {
            let (ratio, other_ratio) = (
                special_bits(&mut self.random),
                special_bits(&mut self.random),
            );
            self.two_ratios(ratio, other_ratio);
        }
    }

    /// Two positions, alone, or in one of three places of a run in the wide form.
    fn two_positions(&mut self, position: u64, other_position: u64) {
        let name = format!("positions {position} and {other_position}");
        let index = self.random.below(3);
        let one = (self.random.pick(&FORMS), 1, 0);
        for (form, count, index) in [one, (WIDE, 3, index)] {
            let mut first = steady(form, count);
            let mut second = first.clone();
            first.positions[index] = position;
            second.positions[index] = other_position;
            self.runs(&name, &first, &second);
        }
    }

    fn positions(&mut self) {
        let positions = special_positions();
        for &position in &positions {
            for end in [0, LAST_POSITION] {
                self.two_positions(position, end);
                self.two_positions(end, position);
            }
            let any = self.random.pick(&positions);
            self.two_positions(position, any);
        }
        for bit in 0..62 {
            let any = self.random.below(LAST_POSITION as usize) as u64;
            for position in [0, LAST_POSITION, any] {
                self.two_positions(position, position ^ 1 << bit);
            }
        }
        // Both ends in turn, in every place but one.
        for index in 0..8 {
            let mut first = steady(WIDE, 8);
            first.positions = (0..8).map(|n| n % 2 * LAST_POSITION).collect();
            let mut second = first.clone();
            second
                .positions
                .iter_mut()
                .for_each(|t| *t = LAST_POSITION - *t);
            second.positions[index] = first.positions[index];
            self.runs_both_ways(&format!("both ends but at {index}"), &first, &second);
        }
    }

    /// One position, one ratio, or both, at each index of a run.
    fn indices(&mut self) {
        let count = 131;
        for index in 0..count {
            let first = Run::new(&mut self.random, OLD, 2, count);
            for form in FORMS {
                let first = first.in_form(form);
                let ratio = first.ratios[index] ^ 1 << self.random.below(64);
                let mut second = first.clone();
                second.ratios[index] = ratio;
                self.runs(&format!("the ratio at {index}"), &first, &second);
                let first = steady(form, count);
                let mut second = first.clone();
                second.positions[index] += 1 + self.random.below(900) as u64;
                self.runs(&format!("the position at {index}"), &first, &second);
                second.ratios[index] = ratio;
                self.runs(&format!("the point at {index}"), &first, &second);
            }
        }
    }

    /// The same run in both forms.
    fn forms(&mut self) {
        for n in 0..150 {
            let count = if n < 20 { n } else { self.random.below(300) };
            let kind = self.random.below(Ratios::KINDS);
            let run = Run::new(&mut self.random, OLD, kind, count);
            self.runs_both_ways("both forms", &run, &run.in_form(WIDE));
        }
    }

    // Runs that differ in many ways, or in none

    /// A run with some points changed, and more or fewer at the end; at times its properties, too.
    fn edited(&mut self, run: &Run) -> Run {
        let random = &mut self.random;
        let mut run = run.clone();
        let count = run.positions.len();
        let kept = match random.below(3) {
            0 => random.below(count + 1),
            _ => count,
        };
        run.positions.truncate(kept);
        run.ratios.truncate(kept);
        for _ in 0..random.pick(&[0, 0, 0, 1, 2, 9]) {
            run.positions
                .push(run.positions.last().copied().unwrap_or(0));
            run.ratios.push(special_bits(random));
        }
        let count = run.positions.len();
        let edits = match random.below(4) {
            _ if count == 0 => 0,
            0 => 0,
            1 => 1,
            2 => random.below(8),
            _ => random.below(2 * count + 1),
        };
        for _ in 0..edits {
            let index = random.below(count);
            match random.below(3) {
                0 => run.ratios[index] ^= 1 << random.below(64),
                1 => run.ratios[index] = special_bits(random),
                _ => {
                    let (position, near) = (run.positions[index], random.between(-70, 70));
                    let moved = position.saturating_add_signed(near);
                    run.positions[index] = min(moved, LAST_POSITION);
                }
            }
        }
        if random.one_in(3) {
            run.rate = random.pick(&RATES);
        }
        if random.one_in(3) {
            run.side = random.below(LAST_SIDE as usize + 1) as u32;
        }
        // A step may be none of the old form.
        run.form = random.pick(&[run.form, WIDE]);
        let mut out = vec![0; LONGEST_RECORD];
        if run.write(reference::write, &mut out).number == 5 {
            run.form = WIDE;
        }
        run
    }

    fn edits(&mut self) {
        for _ in 0..1_200 {
            let run = Run::any(&mut self.random);
            let edited = self.edited(&run);
            self.runs_both_ways("some edits", &run, &edited);
        }
        for _ in 0..300 {
            let (run, other) = (Run::any(&mut self.random), Run::any(&mut self.random));
            self.runs("two runs", &run, &other);
        }
    }

    /// Equal records, and others, with bytes behind them.
    fn bytes_behind(&mut self) {
        for n in 0..200 {
            let run = Run::any(&mut self.random);
            let record = run.record();
            let other = match n % 3 {
                0 => self.edited(&run).record(),
                _ => record.clone(),
            };
            let lengths = [0, 1, 2, 18, 3_000, LIMIT - record.len(), LIMIT, 2 * LIMIT];
            let mut behind = |record: &[u8]| {
                let length = self.random.pick(&lengths);
                [record, &self.random.bytes(length)].concat()
            };
            let (first, second) = (behind(&record), behind(&other));
            self.pair("bytes behind records", &first, &second);
            let joined = [&record[..], &other].concat();
            self.pair("a record behind another", &record, &joined);
            self.pair("the same bytes", &first, &first);
        }
    }

    /// The largest runs.
    fn largest(&mut self) {
        for (form, other_form) in each_pair(&FORMS) {
            let (count, other_count) = (most_points(form), most_points(other_form));
            let run = steady(form, count);
            let mut far = other(other_form, other_count);
            if other_form == WIDE {
                let position = |n| (n as u64 + 1) % 2 * LAST_POSITION;
                far.positions = (0..other_count).map(position).collect();
            }
            // Each ratio an exception, which makes the record the longest.
            let ratio = |n| n as u64 % 128 * ((1 << 56) + 1);
            far.ratios = (0..other_count).map(ratio).collect();
            let name = format!("largest, forms {form} and {other_form}");
            self.runs_both_ways(&format!("{name}, that differ"), &run, &far);
            self.runs_both_ways(&name, &run, &steady(other_form, other_count));
            self.runs(&format!("{name}, the same run"), &far, &far.clone());
            for few in [0, 1, 2, min(count, other_count) - 1] {
                let name = format!("{name}, and {few}");
                self.runs_both_ways(&name, &steady(form, few), &far);
            }
        }
        // The longest texts.
        let long = |rate, side, form, count, position, ratio| Run {
            rate,
            side,
            form,
            positions: vec![position; count],
            ratios: vec![ratio; count],
        };
        let infinity = f64::INFINITY.to_bits();
        for (form, less) in [(OLD, 0), (OLD, 1), (WIDE, 0), (WIDE, 1)] {
            let count = most_points(form);
            let first = long(176_400, 25, form, count, LAST_POSITION, infinity);
            let (second, negative) = (LAST_POSITION - 1, 1 << 63 | infinity);
            let second = long(192_000, 26, form, count - less, second, negative);
            self.runs_both_ways("the longest text", &first, &second);
        }
        // One difference, at indices of one to four digits and at the last.
        let indices = [
            0, 9, 10, 99, 100, 127, 128, 255, 256, 999, 1_000, 1_023, 1_024, 2_047, 2_048, 3_499,
            3_500, 4_094, 4_095,
        ];
        for form in FORMS {
            let run = steady(form, most_points(form));
            for index in indices {
                if index >= most_points(form) {
                    break;
                }
                let mut moved = run.clone();
                moved.positions[index] += 1;
                self.runs(&format!("largest, the position at {index}"), &run, &moved);
                let mut changed = run.clone();
                changed.ratios[index] ^= 1;
                self.runs(&format!("largest, the ratio at {index}"), &run, &changed);
            }
        }
        // As many points as the wide form has, and more.
        let counts = [WIDE_POINTS - 1, WIDE_POINTS, WIDE_POINTS + 1, MOST_POINTS];
        for (count, other_count) in each_pair(&counts) {
            let name = format!("{count} points and {other_count}");
            self.runs(&name, &steady(OLD, count), &steady(OLD, other_count));
        }
        for _ in 0..12 {
            let form = self.random.pick(&FORMS);
            let kind = self.random.below(Ratios::KINDS);
            let run = Run::new(&mut self.random, form, kind, 3_400);
            let edited = self.edited(&run);
            self.runs_both_ways("some edits of a long run", &run, &edited);
        }
    }

    // Refusals

    /// Files that are no record, nearly all.
    fn bad_files(&mut self, runs: &[Run]) -> Vec<Vec<u8>> {
        let mut bad = Vec::new();
        for run in runs {
            let record = run.record();
            bad.extend((0..record.len()).map(|length| record[..length].to_vec()));
            let fields = Fields::split(&record);
            for field in 0..fields.0.len() {
                for tag in [0, 1, 2, 3, 4, 5, 6, 7, 255] {
                    let mut fields = fields.clone();
                    fields.0[field].0 = tag;
                    bad.push(fields.join());
                }
                let length = fields.0[field].1;
                for length in [0, length - 1, length + 1, 256 + length, 65_535] {
                    let mut fields = fields.clone();
                    fields.0[field].1 = length;
                    bad.push(fields.join());
                }
            }
            let mut with_body = |tag: u8, body: &[u8]| {
                let mut fields = fields.clone();
                fields.set_body(tag, body.to_vec());
                bad.push(fields.join());
            };
            for rate in RATES {
                for rate in [rate - 1, rate + 1, rate << 16] {
                    with_body(RATE, &rate.to_be_bytes());
                }
            }
            for side in [0, 27, 28, 128, 255] {
                with_body(SIDE, &[side]);
            }
            for count in [0_u16, 2, 6, 3_500, 3_501, 4_096, 4_097, 32_768, 65_535] {
                with_body(COUNT, &count.to_be_bytes());
            }
        }
        // Any fault, several at a time, and ratios in forms that are not the written ones.
        for n in 0..400 {
            let count = self.random.below(10);
            let run = Run::short(&mut self.random, count);
            let mut fields = Fields::split(&run.record());
            if n % 4 == 0 {
                let body = chosen_body(&mut self.random, &run.ratios, 2);
                fields.set_body(RATIOS, body);
            } else {
                for _ in 0..1 + self.random.below(2) {
                    fields.spoil(&mut self.random, &run);
                }
            }
            bad.push(fields.join());
        }
        bad
    }

    fn refusals(&mut self) {
        let mut sided = other(OLD, 4);
        sided.side = 4;
        let mut far = other(WIDE, 5);
        far.positions = vec![0, 960, LAST_POSITION, 5, 5];
        let runs = [steady(OLD, 3), sided, far];
        let bad = self.bad_files(&runs);
        for (n, file) in bad.iter().enumerate() {
            let good = Run::any(&mut self.random).record();
            self.both_ways(&format!("bad file {n}"), file, &good);
            let other = self.random.below(bad.len());
            self.pair(&format!("bad files {n} and {other}"), file, &bad[other]);
            if n % 4 == 0 {
                self.pair(&format!("bad file {n} twice"), file, file);
            }
        }
        // Each bit of a record: some are other records.
        for run in runs {
            let record = run.record();
            for bit in 0..8 * record.len() {
                let mut flipped = record.clone();
                flipped[bit / 8] ^= 0x80 >> (bit % 8);
                let name = format!("bit {bit} flipped");
                if bit % 2 == 0 {
                    self.pair(&name, &flipped, &record);
                } else {
                    self.pair(&name, &record, &flipped);
                }
            }
        }
        for (name, run) in [
            ("old", steady(OLD, MOST_POINTS)),
            ("wide", other(WIDE, WIDE_POINTS)),
        ] {
            let record = run.record();
            let cut = &record[..record.len() - 1];
            self.both_ways(&format!("largest {name} record, cut"), cut, &record);
        }
    }

    /// Prints how many pairs passed; whether all did.
    fn report(&self) -> bool {
        println!("pairs: {} passed, {} failed", self.passed, self.failed);
        let numbers = [10, 11, 12, 13, 15, 17, 18, 20];
        let came = |which| numbers.iter().all(|&n| self.refusals.contains(&(n, which)));
        if !came(1) || !came(2) {
            println!("but too few: a refusal never came up");
            return false;
        }
        self.failed == 0
    }
}

fn main() {
    let words: Vec<String> = std::env::args().skip(1).collect();
    let seed = words.get(2).map_or(Ok(SEED), |seed| seed.parse());
    let (Some(program), Some(folder), Ok(seed)) = (words.first(), words.get(1), seed) else {
        println!("usage: pairs PROGRAM FOLDER [SEED]");
        exit(2);
    };
    let mut test = Test {
        program: program.clone(),
        files: ["first", "second"].map(|name| PathBuf::from(folder).join(name)),
        random: Random::new(seed),
        passed: 0,
        failed: 0,
        refusals: BTreeSet::new(),
    };
    test.rates();
    test.sides();
    test.counts();
    test.ratios();
    test.positions();
    test.indices();
    test.forms();
    test.edits();
    test.bytes_behind();
    test.largest();
    test.refusals();
    exit(if test.report() { 0 } else { 1 });
}
