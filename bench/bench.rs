//! A benchmark of the library beside a straightforward implementation (plain.rs) and a plain
//! memory copy of the same positions and ratios, all in one run.
//!
//! Usage: bench [samples]
//!
//! Live addition and stepping are set beside straightforward ones that take and return their
//! state by value; the straightforward step is a C function as the library's is, so that both
//! are handed the state in the same way. A check is set beside a straightforward reading of the
//! record that drops the points. A move of a record to the other form is set beside two calls of the
//! library, fetch and write in that form, by whoever knows rate and side already; moved are runs that
//! both forms take. Positions are timed in runs of one ratio throughout, which takes a
//! byte and no search; so are those of the wide form, in a table of its own. Runs have no side but
//! in a table of their own. Two records are laid side by side from their bytes, by describe and
//! fetch of each, and as runs that were read already: with the library by a call for each
//! position and each ratio, and beside it by one loop. At the end stand the targets that were not met.
//!
//! Each sample of the library is timed between two of what it is set beside. A ratio says how many
//! times as fast the library is as the mean of these two; printed are medians over the samples.
//! MB/s count 8 bytes for each ratio.

#[path = "../tests/rust/answers.rs"]
mod answers;
#[allow(dead_code)]
#[path = "../tests/rust/library.rs"]
mod library;
mod plain;

use answers::{
    Cursor, Described, Difference, Fetched, Live, Making, Move, Reading, Stepped, Write, Written,
    OLD, WIDE,
};
use plain::ReadRun;
use std::hint::black_box;

const POINTS: usize = 4_096;
const WIDE_POINTS: usize = 3_500;
const SHORT: usize = 8;
const RATE: u32 = 96_000;
const LONGEST_RECORD: usize = 61_709;
const SAMPLES: usize = 21;
/// How many seconds a sample of the straightforward implementation should take at least.
const SAMPLE: f64 = 0.000_8;

const KINDS: [&str; 9] = [
    "constant, rare changes",
    "walk over 50 values",
    "decimals, drifting",
    "two sines",
    "random bits",
    "equal top two bytes",
    "whole numbers",
    "one plus noise",
    "mixture of all",
];

/// One ratio throughout: a kind of its own, to time the positions.
const SAME: usize = 9;
const SAME_NAME: &str = "one ratio throughout";

/// The kind with which runs of a side are timed.
const SINES: usize = 3;
const SIDE: u32 = 4;

// Data

/// A xorshift64* generator.
struct Random(u64);

impl Random {
    fn bits(&mut self) -> u64 {
        self.0 ^= self.0 >> 12;
        self.0 ^= self.0 << 25;
        self.0 ^= self.0 >> 27;
        self.0.wrapping_mul(0x2545_f491_4f6c_dd1d)
    }

    fn below(&mut self, bound: u64) -> u64 {
        (self.bits() >> 16) % bound
    }

    /// Uniform from -1 to 1.
    fn fraction(&mut self) -> f64 {
        self.bits() as i64 as f64 / (1_u64 << 63) as f64
    }
}

fn ratios(kind: usize) -> Vec<u64> {
    let random = &mut Random(kind as u64 + 1);
    if kind == 8 {
        let all: Vec<Vec<u64>> = (0..8).map(ratios).collect();
        return (0..POINTS).map(|n| all[n / 32 % 8][n]).collect();
    }
    let values: Vec<u64> = (0..50).map(|_| random.fraction().to_bits()).collect();
    let mut index = 25;
    let mut level = 1.0;
    let mut ratio = 1.0_f64.to_bits();
    let next = |n: usize| {
        let angle = n as f64 * 0.01;
        ratio = match kind {
            0 if random.below(50) != 0 => ratio,
            0 => (1.0 + random.fraction()).to_bits(),
            1 => {
                index = (index + 49 + random.below(3) as usize) % 50;
                values[index]
            }
            2 => {
                level += random.fraction() * 0.01;
                let places = [100.0, 1_000.0, 10_000.0][random.below(3) as usize];
                ((level * places).round() / places).to_bits()
            }
            SINES => (1.0 + 0.1 * angle.sin() + 0.01 * (7.3 * angle).sin()).to_bits(),
            4 => random.bits(),
            5 => 0x3ff0 << 48 | random.bits() >> 16,
            6 => (random.below(2_000) as f64).to_bits(),
            SAME => ratio,
            _ => (1.0 + random.fraction() * 1e-3).to_bits(),
        };
        ratio
    };
    (0..POINTS).map(next).collect()
}

/// Positions 960 apart, each off by nothing or by an irregular amount, or with a long pause after
/// every hundred, for which the old form has no step.
fn positions(steps: &str) -> Vec<u64> {
    let mut random = Random(77);
    let mut pauses = 0;
    let mut off = |n: u64| match (steps, random.below(8)) {
        ("irregular", 0) => random.below(900),
        ("irregular", 1 | 2) => random.below(200),
        ("irregular", _) => random.below(30),
        ("pauses", _) => {
            if n % 100 == 50 {
                pauses += (1 << 32) + random.below(1 << 40);
            }
            pauses
        }
        _ => 0,
    };
    (0..POINTS as u64).map(|n| 960 * n + off(n)).collect()
}

struct Run<'a> {
    side: u32,
    form: u32,
    positions: &'a [u64],
    ratios: &'a [u64],
    record: Vec<u8>,
}

/// The runs of a side in a form, so many points each.
fn runs<'a>(
    side: u32,
    form: u32,
    positions: &'a [u64],
    ratios: &'a [u64],
    length: usize,
) -> Vec<Run<'a>> {
    let run = |(positions, ratios)| {
        let mut record = vec![0; LONGEST_RECORD];
        let written = plain::write(RATE, side, form, positions, ratios, &mut record);
        record.truncate(written.length as usize);
        Run {
            side,
            form,
            positions,
            ratios,
            record,
        }
    };
    let chunks = positions.chunks(length).zip(ratios.chunks(length));
    chunks.map(run).collect()
}

// Calls

/// The outputs lent to all calls.
struct Output {
    bytes: Vec<u8>,
    positions: Vec<u64>,
    ratios: Vec<u64>,
}

impl Output {
    fn new() -> Output {
        Output {
            bytes: vec![0; LONGEST_RECORD],
            positions: vec![0; POINTS],
            ratios: vec![0; POINTS],
        }
    }
}

/// Lists what differs between two records that were read, by a call for each position and ratio.
fn compare_by_calls(first: &ReadRun, second: &ReadRun, list: &mut Vec<Difference>) {
    let mut put = |difference: Difference| {
        if difference.what != 0 {
            list.push(difference);
        }
    };
    let overall = library::compare_overall(first.described, second.described);
    for property in [overall.rate, overall.side, overall.count, overall.form] {
        put(property);
    }
    let both = first.positions.len().min(second.positions.len());
    for index in 0..both as u64 {
        put(library::compare_positions(
            first.positions,
            second.positions,
            index,
        ));
        put(library::compare_ratios(first.ratios, second.ratios, index));
    }
    put(overall.more);
}

// The library's check is lent no output; the straightforward one is.

fn check_alone(expected: u32, record: &[u8], _: &mut [u64], _: &mut [u64]) -> u32 {
    library::check(expected, record)
}

fn describe_alone(expected: u32, record: &[u8], _: &mut [u64], _: &mut [u64]) -> Described {
    library::describe(expected, record)
}

/// One implementation's calls.
struct Calls {
    write: Write,
    check: fn(u32, &[u8], &mut [u64], &mut [u64]) -> u32,
    describe: fn(u32, &[u8], &mut [u64], &mut [u64]) -> Described,
    fetch: fn(u32, &[u8], &mut [u64], &mut [u64]) -> Fetched,
    read_open: fn(u32, &[u8], &mut [u64], &mut [u64]) -> Reading,
    live_new: fn() -> Live,
    live_add: fn(&mut Live, u64, &mut [u8]) -> Written,
    cursor_new: fn(u64) -> Making,
    step: fn(&[u8], Cursor) -> Stepped,
    compare: fn(&ReadRun, &ReadRun, &mut Vec<Difference>),
}

const LIBRARY: Calls = Calls {
    write: library::write,
    check: check_alone,
    describe: describe_alone,
    fetch: library::fetch,
    read_open: library::read_open,
    live_new: library::live_new,
    live_add: library::live_add,
    cursor_new: library::cursor_new,
    step: library::step,
    compare: compare_by_calls,
};

const PLAIN: Calls = Calls {
    write: plain::write,
    check: plain::check,
    describe: plain::describe,
    fetch: plain::fetch,
    read_open: plain::read_open,
    live_new: plain::live_new,
    live_add: plain::live_add_by_value,
    cursor_new: plain::cursor_new,
    step: plain::step,
    compare: plain::compare,
};

#[derive(Clone, Copy, PartialEq)]
enum Call {
    Write,
    Check,
    Describe,
    Fetch,
    Open,
    ToWide,
    ToOld,
    FetchAndWrite,
    Live,
    Step,
}

fn name(call: Call) -> &'static str {
    match call {
        Call::Write => "write",
        Call::Check => "check",
        Call::Describe => "describe",
        Call::Fetch => "fetch",
        Call::Open => "open read",
        Call::ToWide => "move to the wide form",
        Call::ToOld => "move to the old form",
        Call::FetchAndWrite => "fetch, and write in the other form",
        Call::Live => "live addition",
        Call::Step => "step",
    }
}

fn is_move(call: Call) -> bool {
    call == Call::ToWide || call == Call::ToOld
}

/// What a call of the library is set beside.
fn beside(call: Call) -> (&'static Calls, Call) {
    if is_move(call) {
        (&LIBRARY, Call::FetchAndWrite)
    } else {
        (&PLAIN, call)
    }
}

/// The form that a run is not in.
fn other(form: u32) -> u32 {
    if form == WIDE {
        OLD
    } else {
        WIDE
    }
}

/// The body of the ratios' field of a record.
fn ratios_body(record: &[u8]) -> &[u8] {
    let positions = if record[7] == 6 { 16 } else { 12 };
    let length = u16::from_be_bytes([record[positions + 1], record[positions + 2]]);
    &record[positions + 3 + usize::from(length) + 3..]
}

/// Does one call on a run, or two, or one addition or step for each of its ratios.
fn work(calls: &Calls, call: Call, run: &Run, out: &mut Output) {
    match call {
        Call::Write => {
            let (side, form, bytes) = (run.side, run.form, &mut out.bytes);
            let written = (calls.write)(RATE, side, form, run.positions, run.ratios, bytes);
            assert_eq!(written.length, run.record.len() as u64);
        }
        Call::Check => {
            let (positions, ratios) = (&mut out.positions, &mut out.ratios);
            let checked = (calls.check)(RATE, &run.record, positions, ratios);
            assert_eq!(checked as usize, run.record.len());
        }
        Call::Describe => {
            let (positions, ratios) = (&mut out.positions, &mut out.ratios);
            let described = (calls.describe)(RATE, &run.record, positions, ratios);
            assert_eq!(described.size, run.record.len() as u64);
            assert_eq!((described.side, described.form), (run.side, run.form));
        }
        Call::Fetch => {
            let (positions, ratios) = (&mut out.positions, &mut out.ratios);
            let fetched = (calls.fetch)(RATE, &run.record, positions, ratios);
            assert_eq!(
                (fetched.number, fetched.count as usize),
                (0, run.ratios.len())
            );
        }
        Call::Open => {
            let (positions, ratios) = (&mut out.positions, &mut out.ratios);
            let read = (calls.read_open)(RATE, &run.record, positions, ratios);
            assert_eq!(read.used, run.record.len() as u64);
            assert_eq!((read.side, read.form), (run.side, run.form));
        }
        Call::ToWide | Call::ToOld => {
            let move_record: Move = if call == Call::ToWide {
                library::to_wide
            } else {
                library::to_old
            };
            let moved = move_record(&run.record, &mut out.bytes);
            assert_eq!((moved.number, moved.used), (0, run.record.len() as u64));
        }
        Call::FetchAndWrite => {
            let (positions, ratios) = (&mut out.positions, &mut out.ratios);
            let fetched = (calls.fetch)(0, &run.record, positions, ratios);
            let count = fetched.count as usize;
            let (positions, ratios) = (&positions[..count], &ratios[..count]);
            let (side, form, bytes) = (run.side, other(run.form), &mut out.bytes);
            let written = (calls.write)(RATE, side, form, positions, ratios, bytes);
            assert_eq!((written.number, count), (0, run.ratios.len()));
        }
        Call::Live => {
            let mut state = (calls.live_new)();
            let mut at = 0;
            for &ratio in run.ratios {
                let added = (calls.live_add)(&mut state, ratio, &mut out.bytes[at..]);
                at += added.length as usize;
            }
            assert_eq!(state.seen, run.ratios.len() as u64);
        }
        Call::Step => {
            let body = ratios_body(&run.record);
            let mut cursor = (calls.cursor_new)(run.ratios.len() as u64).cursor;
            for ratio in &mut out.ratios[..run.ratios.len()] {
                let step = (calls.step)(body, cursor);
                *ratio = step.ratio;
                cursor = step.next;
            }
            assert_eq!(cursor.place, body.len() as u64);
        }
    }
}

/// Compares what a call gives with the run and its record.
fn check(calls: &Calls, call: Call, run: &Run, out: &mut Output) {
    work(calls, call, run, out);
    let record = &run.record;
    let count = run.ratios.len();
    let same = match call {
        Call::Write => out.bytes.starts_with(record),
        // Nothing more comes of them than what was looked at.
        Call::Check | Call::Describe => true,
        Call::Fetch | Call::Open => {
            out.positions.starts_with(run.positions) && out.ratios.starts_with(run.ratios)
        }
        Call::ToWide | Call::ToOld | Call::FetchAndWrite => {
            let form = other(run.form);
            let moved = &runs(run.side, form, run.positions, run.ratios, count)[0];
            !moved.record.is_empty() && out.bytes.starts_with(&moved.record)
        }
        Call::Live => out.bytes.starts_with(ratios_body(record)),
        Call::Step => out.ratios.starts_with(run.ratios),
    };
    assert!(same, "{} differs on a run of {count} points", name(call));
}

/// Two records to be compared, and what describe answers of each.
struct Pair<'a> {
    runs: [Run<'a>; 2],
    described: [Described; 2],
}

fn pairs<'a>(first: Vec<Run<'a>>, second: Vec<Run<'a>>) -> Vec<Pair<'a>> {
    let describe = |run: &Run| library::describe(0, &run.record);
    let pair = |(first, second)| Pair {
        described: [describe(&first), describe(&second)],
        runs: [first, second],
    };
    first.into_iter().zip(second).map(pair).collect()
}

/// The outputs of reading two records, and what differs.
struct Compared {
    outputs: [Output; 2],
    list: Vec<Difference>,
}

impl Compared {
    fn new() -> Compared {
        Compared {
            outputs: [Output::new(), Output::new()],
            list: Vec::with_capacity(2 * POINTS + 5),
        }
    }
}

/// Lists what differs between two records, which are read first or were read already.
fn compare(calls: &Calls, read_first: bool, pair: &Pair, out: &mut Compared) {
    let mut described = pair.described;
    if read_first {
        for n in 0..2 {
            let (record, out) = (&pair.runs[n].record, &mut out.outputs[n]);
            let (positions, ratios) = (&mut out.positions, &mut out.ratios);
            described[n] = (calls.describe)(0, record, positions, ratios);
            (calls.fetch)(0, record, positions, ratios);
        }
    }
    let [first, second] = [0, 1].map(|n| {
        let count = described[n].count as usize;
        let (run, out) = (&pair.runs[n], &out.outputs[n]);
        let (positions, ratios) = if read_first {
            (&out.positions[..count], &out.ratios[..count])
        } else {
            (run.positions, run.ratios)
        };
        ReadRun {
            described: described[n],
            positions,
            ratios,
        }
    });
    out.list.clear();
    (calls.compare)(&first, &second, &mut out.list);
}

/// Compares what both implementations list; the runs are equal, or differ in the side, the form and
/// every point.
fn check_comparison(read_first: bool, pair: &Pair, out: &mut Compared) {
    compare(&PLAIN, read_first, pair, out);
    let plain = out.list.clone();
    compare(&LIBRARY, read_first, pair, out);
    let [first, second] = &pair.runs;
    let wanted = if first.side == second.side {
        0
    } else {
        2 + 2 * first.ratios.len()
    };
    let good = out.list == plain && plain.len() == wanted;
    assert!(good, "a comparison that should list {wanted} differs");
}

fn copy_both(pair: &Pair, out: &mut Compared) {
    for (run, out) in pair.runs.iter().zip(&mut out.outputs) {
        copy(Call::Fetch, run, out);
    }
}

fn copy(call: Call, run: &Run, out: &mut Output) {
    let count = run.ratios.len();
    if call != Call::Live {
        out.positions[..count].copy_from_slice(run.positions);
    }
    out.ratios[..count].copy_from_slice(run.ratios);
}

// Timing

/// Seconds of processor time of this thread (Linux), which other programs disturb less.
fn now() -> f64 {
    #[repr(C)]
    struct Time {
        seconds: i64,
        nanoseconds: i64,
    }
    unsafe extern "C" {
        fn clock_gettime(clock: i32, time: *mut Time) -> i32;
    }
    const THREAD_CPU_TIME: i32 = 3;
    let mut time = Time {
        seconds: 0,
        nanoseconds: 0,
    };
    // SAFETY: the time is lent to be written, and laid out as C has it on 64-bit Linux.
    let failed = unsafe { clock_gettime(THREAD_CPU_TIME, &mut time) };
    assert_eq!(failed, 0, "no clock of processor time");
    time.seconds as f64 + time.nanoseconds as f64 * 1e-9
}

fn time(repeats: usize, mut work: impl FnMut()) -> f64 {
    let start = now();
    for _ in 0..repeats {
        work();
    }
    (now() - start) / repeats as f64
}

fn median(mut numbers: Vec<f64>) -> f64 {
    numbers.sort_by(f64::total_cmp);
    numbers[numbers.len() / 2]
}

/// Medians for one call on one kind of data.
struct Cell {
    copy: f64,
    beside: f64,
    library: f64,
    ratio: f64,
}

/// Seconds of some work on all inputs.
fn all<I, O>(inputs: &[I], out: &mut O, repeats: usize, work: impl Fn(&I, &mut O)) -> f64 {
    time(repeats, || {
        for input in inputs {
            work(black_box(input), out);
            black_box(&mut *out);
        }
    })
}

/// Medians for inputs of so many ratios: of what the library is set beside, of the library, and of
/// a copy.
fn medians<I, O>(
    (inputs, points): (&[I], usize),
    out: &mut O,
    samples: usize,
    beside: impl Fn(&I, &mut O),
    library: impl Fn(&I, &mut O),
    copy: impl Fn(&I, &mut O),
) -> Cell {
    let once = all(inputs, out, 3, &beside);
    let repeats = (SAMPLE / once).ceil() as usize;
    let (mut besides, mut libraries, mut ratios) = (Vec::new(), Vec::new(), Vec::new());
    for _ in 0..samples {
        let before = all(inputs, out, repeats, &beside);
        let library = all(inputs, out, repeats, &library);
        let after = all(inputs, out, repeats, &beside);
        let beside = (before + after) / 2.0;
        besides.push(beside);
        libraries.push(library);
        ratios.push(beside / library);
    }
    let copies = (0..samples).map(|_| all(inputs, out, 10 * repeats, &copy));
    let megabytes = (8 * points) as f64 / 1e6;
    Cell {
        copy: megabytes / median(copies.collect()),
        beside: megabytes / median(besides),
        library: megabytes / median(libraries),
        ratio: median(ratios),
    }
}

fn measure(call: Call, runs: &[Run], samples: usize) -> Cell {
    let (beside, library) = (beside(call), (&LIBRARY, call));
    for (calls, call) in [beside, library] {
        let out = &mut Output::new();
        for run in runs {
            check(calls, call, run, out);
        }
    }
    let points = runs.iter().map(|run| run.ratios.len()).sum();
    medians(
        (runs, points),
        &mut Output::new(),
        samples,
        |run, out| work(beside.0, beside.1, run, out),
        |run, out| work(library.0, library.1, run, out),
        |run, out| copy(call, run, out),
    )
}

fn measure_comparison(read_first: bool, pairs: &[Pair], samples: usize) -> Cell {
    let out = &mut Compared::new();
    for pair in pairs {
        check_comparison(read_first, pair, out);
    }
    let runs = pairs.iter().flat_map(|pair| &pair.runs);
    let points = runs.map(|run| run.ratios.len()).sum();
    medians(
        (pairs, points),
        out,
        samples,
        |pair, out| compare(&PLAIN, read_first, pair, out),
        |pair, out| compare(&LIBRARY, read_first, pair, out),
        copy_both,
    )
}

/// The least ratio that is wanted of a call on runs of a length: on one of the kinds, where the
/// straightforward implementation does so many MB/s. Short runs are held to a third alone. A move
/// should nowhere be slower than the two calls.
fn target(call: Call, length: usize, kind: usize, plain: f64) -> f64 {
    match call {
        Call::ToWide | Call::ToOld | Call::FetchAndWrite => 1.0,
        _ if length == SHORT => 1.0 / 3.0,
        Call::Write | Call::Check | Call::Describe | Call::Fetch => match kind {
            2..=5 | 8 => 3.0,
            6 | 7 => 2.0,
            _ if plain > 1000.0 => 0.5,
            _ => 1.0,
        },
        Call::Open if matches!(kind, 3 | 5 | 7) => 1.5,
        Call::Open => 0.9,
        Call::Live | Call::Step => 1.0,
    }
}

/// The columns' head of a call's table, with a name for each group of columns.
fn head(call: Call, groups: &[impl AsRef<str>]) {
    let [beside, library] = if is_move(call) {
        ["2 calls", "move"]
    } else {
        ["plain", "library"]
    };
    print!("{:24}", "MB/s");
    for group in groups {
        let group = group.as_ref();
        print!(" | {group:9} copy {beside:>7} {library:>7}   ratio");
    }
    println!();
}

/// Measures and prints a cell, and notes where its ratio is less than wanted.
fn cell(
    call: Call,
    runs: &[Run],
    samples: usize,
    wanted: impl Fn(&Cell) -> f64,
    what: &str,
    missed: &mut Vec<String>,
) -> f64 {
    print_cell(measure(call, runs, samples), wanted, what, missed)
}

/// Prints a cell, and notes where its ratio is less than wanted.
fn print_cell(
    cell: Cell,
    wanted: impl Fn(&Cell) -> f64,
    what: &str,
    missed: &mut Vec<String>,
) -> f64 {
    print!(" | {:14.0} {:7.0}", cell.copy, cell.beside);
    print!(" {:7.0} {:7.2}", cell.library, cell.ratio);
    let wanted = wanted(&cell);
    if cell.ratio < wanted {
        missed.push(format!("{what}: {:.2} and not {wanted:.2}", cell.ratio));
    }
    cell.ratio
}

/// Prints the table of a call, and answers how each target that is not met was missed.
fn table(call: Call, length: usize, samples: usize) -> Vec<String> {
    let mut missed = Vec::new();
    println!("\n{}, {length} points", name(call));
    // Live additions and steps take no positions.
    let steps: &[&str] = match call {
        Call::Live | Call::Step => &[""],
        _ => &["regular", "irregular"],
    };
    head(call, steps);
    let form = if call == Call::ToOld { WIDE } else { OLD };
    // Whole runs alone: those of as many points as the wide form takes leave a rest.
    let points = POINTS / length * length;
    let same = is_move(call).then_some((SAME, SAME_NAME));
    let mut all_ratios = vec![Vec::new(); steps.len()];
    for (kind, name) in KINDS.into_iter().enumerate().chain(same) {
        print!("{name:24}");
        let ratios = ratios(kind);
        for (steps, all_ratios) in steps.iter().zip(&mut all_ratios) {
            let positions = positions(steps);
            let what = format!("{} of {length} points, {name}, {steps}", self::name(call));
            all_ratios.push(cell(
                call,
                &runs(0, form, &positions[..points], &ratios[..points], length),
                samples,
                |cell| target(call, length, kind, cell.beside),
                what.trim_end_matches(", "),
                &mut missed,
            ));
        }
        println!();
    }
    print!("{:24}", "median of the ratios");
    for ratios in all_ratios {
        print!(" | {:38.2}", median(ratios));
    }
    println!();
    missed
}

/// Prints how fast runs of one ratio throughout are in a form, and answers where they are slower
/// than those of the straightforward implementation: positions should never be.
fn positions_table(form: u32, samples: usize) -> Vec<String> {
    let mut missed = Vec::new();
    let (what, points, steps): (_, _, &[&str]) = match form {
        WIDE => {
            let steps = &["regular", "irregular", "pauses"];
            ("positions in the wide form", WIDE_POINTS, steps)
        }
        _ => ("positions", POINTS, &["regular", "irregular"]),
    };
    println!("\n{what}, {points} points of one ratio");
    head(Call::Write, steps);
    let ratios = ratios(SAME);
    for call in [Call::Write, Call::Check, Call::Fetch, Call::Open] {
        print!("{:24}", name(call));
        for steps in steps {
            let positions = positions(steps);
            cell(
                call,
                &runs(0, form, &positions[..points], &ratios[..points], points),
                samples,
                |_| 1.0,
                &format!("{what}, {} of one ratio, {steps}", name(call)),
                &mut missed,
            );
        }
        println!();
    }
    missed
}

/// Prints how fast runs of a side are, and answers how each target that is not met was missed: they
/// are those of runs without a side.
fn sides_table(samples: usize) -> Vec<String> {
    let mut missed = Vec::new();
    println!("\nside {SIDE}, two sines, regular steps, by the number of points");
    let lengths = [POINTS, SHORT];
    head(Call::Write, &lengths.map(|length| length.to_string()));
    let (positions, ratios) = (positions("regular"), ratios(SINES));
    for call in [
        Call::Write,
        Call::Check,
        Call::Describe,
        Call::Fetch,
        Call::Open,
    ] {
        print!("{:24}", name(call));
        for length in lengths {
            cell(
                call,
                &runs(SIDE, OLD, &positions, &ratios, length),
                samples,
                |cell| target(call, length, SINES, cell.beside),
                &format!("side {SIDE}, {} of {length} points", name(call)),
                &mut missed,
            );
        }
        println!();
    }
    missed
}

/// Prints how fast two records are compared that are equal, and that differ in the side, the form,
/// every position and every ratio. Answers where reading both and comparing them is slower than the
/// straightforward implementation, of short runs than a third of it; of comparing runs that were
/// read nothing is wanted, since a call for each position and ratio is set beside one loop.
fn comparisons_table(samples: usize) -> Vec<String> {
    let mut missed = Vec::new();
    println!("\ntwo records side by side, two sines, irregular steps, by the number of points");
    let groups = ["equal", "different"];
    head(Call::Fetch, &groups);
    let (positions, ratios) = (positions("irregular"), ratios(SINES));
    let later: Vec<u64> = positions.iter().map(|position| position + 1).collect();
    let others: Vec<u64> = ratios.iter().map(|ratio| ratio ^ 1).collect();
    for (read_first, what) in [(true, "read and compared"), (false, "compared")] {
        for length in [WIDE_POINTS, SHORT] {
            // Whole runs alone.
            let points = POINTS / length * length;
            print!("{:24}", format!("{what}, {length}"));
            for group in groups {
                let (side, form, later, others) = match group {
                    "equal" => (0, OLD, &positions, &ratios),
                    _ => (SIDE, WIDE, &later, &others),
                };
                let first = runs(0, OLD, &positions[..points], &ratios[..points], length);
                let second = runs(side, form, &later[..points], &others[..points], length);
                print_cell(
                    measure_comparison(read_first, &pairs(first, second), samples),
                    |_| match (read_first, length) {
                        (false, _) => 0.0,
                        (true, SHORT) => 1.0 / 3.0,
                        _ => 1.0,
                    },
                    &format!("{what}, {length} points, {group}"),
                    &mut missed,
                );
            }
            println!();
        }
    }
    missed
}

/// Prints what a point costs in runs of several lengths, and in brackets what it costs the
/// straightforward implementation.
fn growth(samples: usize) {
    println!("\ntwo sines, irregular steps: ns a point by the number of points, library (plain)");
    let (positions, ratios) = (positions("irregular"), ratios(SINES));
    for call in [Call::Write, Call::Check, Call::Fetch, Call::Open] {
        print!("{:24}", name(call));
        for length in [256, 1_024, POINTS] {
            let cell = measure(call, &runs(0, OLD, &positions, &ratios, length), samples);
            let (library, plain) = (8_000.0 / cell.library, 8_000.0 / cell.beside);
            print!(" | {length:5}: {library:6.1} ({plain:6.1})");
        }
        println!();
    }
}

fn main() {
    let samples = match std::env::args().nth(1).map(|samples| samples.parse()) {
        None => SAMPLES,
        Some(Ok(samples)) if samples > 0 => samples,
        Some(_) => {
            println!("the number of samples must be a whole number above 0");
            std::process::exit(2);
        }
    };
    println!("copy: the positions and ratios (live: ratios) copied; plain: straightforward");
    println!("2 calls: the library's fetch, and write in the form moved to");
    println!(
        "ratio: how many times as fast as plain, or as 2 calls, the library is; \
         medians of {samples} samples"
    );
    let mut missed = Vec::new();
    for length in [POINTS, SHORT] {
        for call in [
            Call::Write,
            Call::Check,
            Call::Fetch,
            Call::Open,
            Call::Live,
            Call::Step,
        ] {
            missed.extend(table(call, length, samples));
        }
    }
    for length in [WIDE_POINTS, SHORT] {
        for call in [Call::ToWide, Call::ToOld] {
            missed.extend(table(call, length, samples));
        }
    }
    for form in [OLD, WIDE] {
        missed.extend(positions_table(form, samples));
    }
    missed.extend(sides_table(samples));
    missed.extend(comparisons_table(samples));
    growth(samples);
    println!("\ntargets not met: {}", missed.len());
    for line in missed {
        println!("{line}");
    }
}
