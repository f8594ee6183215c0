//! A differential test of the library (library.rs) against documents 01 and 02 (reference.rs).
//!
//! Usage: differential [seed [trace]]
//!
//! Each case runs both on the same inputs and compares every returned number, every output from
//! end to end with some memory around it, and every byte of a state. On a difference it prints
//! the case in hex and ends with 1. With `trace` it prints each case before it runs.

mod answers;
mod checks;
mod comparisons;
mod forms;
mod inputs;
mod library;
mod moves;
mod reference;
mod spans;

use answers::{
    Cursor, Described, Difference, Explained, Kind, Live, Making, Move, Moved, Overall, Reading,
    Span, Stepped, Write, Written,
};
use answers::{OLD, WIDE, WINDOW};
use checks::Pair;
use inputs::*;
use std::cmp::Reverse;
use std::collections::BTreeMap;
use std::fmt::Debug;
use std::process::exit;

const SEED: u64 = 20_260_101;
const ROUNDS: usize = 10;

// Comparing

struct Test {
    seed: u64,
    trace: bool,
    random: Random,
    cases: u64,
    /// How often each call returned each number, reading and moving each side, reading each form,
    /// some numbers at each place, 18 without a side (0) and with one (1), 17 and 18 in each form,
    /// how many bytes moving added, spans back at each rate, explain each reason, place and sum, and
    /// comparing each difference, each refusal of either record and each pair of kinds.
    numbers: BTreeMap<(&'static str, u32), u64>,
}

type Read = fn(u32, &[u8], &mut [u64], &mut [u64]) -> Reading;
type Add = fn(&mut Live, u64, &mut [u8]) -> Written;
type Compare = fn(&[u64], &[u64], u64) -> Difference;

// The place of 15 where the form gives it, and that of 16 where it would.
const LATER_15: &str = "reading, place of 15 by the form";
const EARLIER_16: &str = "reading, place of 16 before it";

// The places of 11 and 15 in moving where the form gives them.
const MOVED_TO_11: &str = "moving, place of 11 by the form";
const MOVED_15: &str = "moving, place of 15 by the form";

/// Of so many inputs that are read, one is moved as well.
const MOVED: usize = 8;

fn hex(bytes: &[u8]) -> String {
    bytes.iter().map(|byte| format!("{byte:02x}")).collect()
}

/// The bytes of the form that an answer of explain names.
fn form_named(ratios: &[u64], index: usize, explained: Explained) -> Vec<u8> {
    let (at, ratio) = (explained.at as usize, ratios[index]);
    match explained.reason {
        1 => vec![at as u8],
        2 => {
            let (leading, trailing) = (explained.leading as usize, explained.trailing as usize);
            let x = (ratio ^ ratios[index - 1 - at]).to_be_bytes();
            let middle = &x[leading..8 - trailing];
            let head = [at as u8 + 128, (16 * trailing + middle.len()) as u8];
            [&head, middle].concat()
        }
        _ => [&[255][..], &ratio.to_be_bytes()].concat(),
    }
}

impl Test {
    /// Runs a case with the reference and with the library, and compares the outcomes.
    fn case<F, O: PartialEq + Debug>(
        &mut self,
        call: &'static str,
        inputs: impl Fn() -> String,
        run: impl Fn(F) -> O,
        [reference, library]: [F; 2],
        number: impl Fn(&O) -> u32,
    ) -> O {
        if self.trace {
            println!("{call} {}", inputs());
        }
        let expected = run(reference);
        let outcome = run(library);
        self.cases += 1;
        *self.numbers.entry((call, number(&expected))).or_default() += 1;
        if outcome != expected {
            println!("difference in case {} of seed {}", self.cases, self.seed);
            println!("call: {call}\ninputs: {}", inputs());
            println!("reference: {expected:x?}\nlibrary: {outcome:x?}");
            exit(1);
        }
        expected
    }

    fn write(&mut self, run: &Run, room: usize) -> Written {
        let memory = self.random.memory::<u8>(room);
        let call = match run.form {
            WIDE => "write, wide form",
            _ => "write, old form",
        };
        let (written, _) = self.case::<Write, _>(
            call,
            || format!("{run:x?} room {room} memory {}", hex(&memory)),
            |write| {
                let mut memory = memory.clone();
                let written = run.write(write, lent(&mut memory));
                (written, memory)
            },
            [reference::write, library::write],
            |outcome| outcome.0.number,
        );
        written
    }

    fn read_open(&mut self, expected: u32, record: &[u8], rooms: [usize; 2]) -> Reading {
        let memory = rooms.map(|room| self.random.memory::<u64>(room));
        let (reading, ..) = self.case::<Read, _>(
            "read_open",
            || {
                let outputs = format!("rooms {rooms:?} memory {memory:x?}");
                format!("expected {expected:x} record {} {outputs}", hex(record))
            },
            |read| {
                let [mut positions, mut ratios] = memory.clone();
                let reading = read(expected, record, lent(&mut positions), lent(&mut ratios));
                (reading, positions, ratios)
            },
            [reference::read_open, library::read_open],
            |outcome| outcome.0.number,
        );
        reading
    }

    /// Checks, fetches and reads openly; answers what check and fetch answered.
    fn read(&mut self, expected: u32, record: &[u8], rooms: [usize; 2]) -> Pair {
        let front = Front::of(record);
        let pair = self.check_and_fetch(expected, record, rooms);
        let opened = self.read_open(expected, record, rooms);
        let (described, fetched) = (pair.described, pair.fetched);
        for (number, place, side, form) in [
            (
                fetched.number,
                fetched.place,
                described.side,
                described.form,
            ),
            (opened.number, opened.place, opened.side, opened.form),
        ] {
            let mut seen = |what, number| *self.numbers.entry((what, number)).or_default() += 1;
            match number {
                0 => {
                    seen("reading, side", side);
                    seen("reading, form", form);
                }
                10 => seen("reading, place of 10", place),
                11 => seen("reading, place of 11", place),
                12 => seen("reading, place of 12", place),
                15 if front.count <= MOST_POINTS => seen(LATER_15, place),
                15 => seen("reading, place of 15", place),
                16 if front.tag == WIDE && front.count > WIDE_POINTS => seen(EARLIER_16, place),
                16 => seen("reading, place of 16", place),
                17 => {
                    seen("reading, place of 17", place);
                    seen("reading, 17 in a form", front.tag);
                }
                18 => {
                    seen("reading, 18 behind a side", u32::from(front.count_at == 11));
                    seen("reading, 18 in a form", front.tag);
                }
                20 => seen("reading, place of 20", place),
                _ => {}
            }
        }
        if self.random.one_in(MOVED) {
            self.move_in_many_ways(record);
        }
        pair
    }

    /// Moves a record to a form; answers what the move answered, and the output before and after.
    fn move_to(&mut self, form: u32, record: &[u8], room: usize) -> (Moved, [Vec<u8>; 2]) {
        let front = Front::of(record);
        let checked = self.check(0, record);
        let mut memory = self.random.memory::<u8>(room);
        let (call, both): (_, [Move; 2]) = match form {
            WIDE => ("to_wide", [reference::to_wide, library::to_wide]),
            _ => ("to_old", [reference::to_old, library::to_old]),
        };
        let (moved, mut after) = self.case(
            call,
            || {
                let output = format!("room {room} memory {}", hex(&memory));
                format!("record {} {output}", hex(record))
            },
            |move_record| {
                let mut memory = memory.clone();
                let moved = move_record(record, lent(&mut memory));
                (moved, memory)
            },
            both,
            |outcome| outcome.0.number,
        );
        match moved.number {
            // a record that the move takes, or refuses for what the other form or the output takes
            0 | 3 | 5 | 6 => assert_eq!(checked.number, 0, "a move of what a check refuses"),
            // the form moved to, which a check takes
            11 if moved.place as usize == front.count_at + 5 && front.tag == form => {}
            _ => assert_eq!(
                (moved.number, moved.place),
                (checked.number, checked.place),
                "the refusal of a move beside that of a check"
            ),
        }
        let mut seen = |what, number| *self.numbers.entry((what, number)).or_default() += 1;
        match moved.number {
            0 => {
                let side = if front.count_at == 11 { record[10] } else { 0 };
                seen("moving, side", u32::from(side));
                if form == WIDE {
                    seen("to_wide, bytes more", (moved.length - moved.used) as u32);
                }
            }
            5 => seen("to_old, place of 5", moved.place),
            10 => seen("moving, place of 10", moved.place),
            11 if moved.place as usize == front.count_at + 5 && front.tag == form => {
                seen(MOVED_TO_11, moved.place);
            }
            11 => seen("moving, place of 11", moved.place),
            12 => seen("moving, place of 12", moved.place),
            15 if front.count <= MOST_POINTS => seen(MOVED_15, moved.place),
            15 => seen("moving, place of 15", moved.place),
            17 => seen("moving, place of 17", moved.place),
            18 => seen("moving, 18 behind a side", u32::from(front.count_at == 11)),
            _ => {}
        }
        let outputs = [&mut memory, &mut after].map(|output| lent(output).to_vec());
        (moved, outputs)
    }

    fn span(&mut self, rate: u32, positions: &[u64]) -> Span {
        self.case::<fn(u32, &[u64]) -> Span, _>(
            "span",
            || format!("rate {rate:x} positions {positions:x?}"),
            |span| span(rate, positions),
            [reference::span, library::span],
            |span| span.number,
        )
    }

    fn live_new(&mut self) -> Live {
        self.case::<fn() -> Live, _>(
            "live_new",
            String::new,
            |new| new(),
            [reference::live_new, library::live_new],
            |_| 0,
        )
    }

    /// Adds a ratio; answers the state afterwards and the bytes written.
    fn live_add(&mut self, state: Live, ratio: u64, room: usize) -> (Live, Vec<u8>) {
        let memory = self.random.memory::<u8>(room);
        let (written, after, memory) = self.case::<Add, _>(
            "live_add",
            || {
                let memory = hex(&memory);
                format!("state {state:x?} ratio {ratio:x} room {room} memory {memory}")
            },
            |add| {
                let (mut state, mut memory) = (state, memory.clone());
                let written = add(&mut state, ratio, lent(&mut memory));
                (written, state, memory)
            },
            [reference::live_add, library::live_add],
            |outcome| outcome.0.number,
        );
        let length = written.length as usize;
        (after, memory[GUARD..GUARD + length].to_vec())
    }

    fn cursor_new(&mut self, count: u64) -> Cursor {
        let making = self.case::<fn(u64) -> Making, _>(
            "cursor_new",
            || format!("count {count:x}"),
            |new| new(count),
            [reference::cursor_new, library::cursor_new],
            |making| making.number,
        );
        making.cursor
    }

    fn step(&mut self, body: &[u8], cursor: Cursor) -> Stepped {
        self.case::<fn(&[u8], Cursor) -> Stepped, _>(
            "step",
            || format!("body {} cursor {cursor:x?}", hex(body)),
            |step| step(body, cursor),
            [reference::step, library::step],
            |stepped| stepped.number,
        )
    }

    fn kind(&mut self, ratio: u64) {
        self.case::<fn(u64) -> Kind, _>(
            "kind",
            || format!("ratio {ratio:x}"),
            |kind| kind(ratio),
            [reference::kind, library::kind],
            |kind| kind.kind,
        );
    }

    fn explain(&mut self, ratios: &[u64], index: u64) -> Explained {
        let explained = self.case::<fn(&[u64], u64) -> Explained, _>(
            "explain",
            || format!("ratios {ratios:x?} index {index:x}"),
            |explain| explain(ratios, index),
            [reference::explain, library::explain],
            |explained| explained.number,
        );
        let Explained {
            reason, at, sum, ..
        } = explained;
        let mut seen = |what, number| *self.numbers.entry((what, number)).or_default() += 1;
        seen("explain, reason", reason);
        match reason {
            1 => seen("explain, place of an equal ratio", at),
            2 => seen("explain, place of an xor", at),
            _ => {}
        }
        if reason == 2 || reason == 3 {
            seen("explain, sum", sum);
        }
        explained
    }

    fn compare_overall(&mut self, first: Described, second: Described) -> Overall {
        self.case::<fn(Described, Described) -> Overall, _>(
            "compare_overall",
            || format!("first {first:x?} second {second:x?}"),
            |compare| compare(first, second),
            [reference::compare_overall, library::compare_overall],
            |overall| overall.number,
        )
    }

    fn compare_positions(&mut self, first: &[u64], second: &[u64], index: u64) -> Difference {
        self.case::<Compare, _>(
            "compare_positions",
            || format!("first {first:x?} second {second:x?} index {index:x}"),
            |compare| compare(first, second, index),
            [reference::compare_positions, library::compare_positions],
            |difference| difference.what,
        )
    }

    fn compare_ratios(&mut self, first: &[u64], second: &[u64], index: u64) -> Difference {
        let difference = self.case::<Compare, _>(
            "compare_ratios",
            || format!("first {first:x?} second {second:x?} index {index:x}"),
            |compare| compare(first, second, index),
            [reference::compare_ratios, library::compare_ratios],
            |difference| difference.what,
        );
        if difference.what != 0 {
            let kinds = 10 * difference.first_kind.kind + difference.second_kind.kind;
            *self.numbers.entry((comparisons::KINDS, kinds)).or_default() += 1;
        }
        difference
    }

    /// Ends the test unless what explain answered is so.
    fn holds(&self, good: bool, what: &str, ratios: &[u64], index: u64, explained: Explained) {
        if !good {
            println!("explain: {what}\nratios {ratios:x?} index {index:x}\n{explained:x?}");
            exit(1);
        }
    }
}

// Cases

impl Test {
    /// Writes a run into outputs of several lengths, and reads its record.
    fn write_and_read(&mut self, run: &Run) {
        let record = run.record();
        let (length, count) = (record.len(), run.ratios.len());
        let long = length + 1 + self.random.below(20);
        let short = self.random.below(length);
        for room in [length, length - 1, long, short, 0] {
            self.write(run, room);
        }
        self.read(0, &record, [count, count]);
        self.read(run.rate, &record, [count + 3, count + 1]);
        self.read_in_many_ways(&record, run);
    }

    /// Reads with some expected rate and some room, and with bytes after the record.
    fn read_in_many_ways(&mut self, record: &[u8], run: &Run) {
        let random = &mut self.random;
        let stated = Front::of(record).count;
        let mut count = run.ratios.len();
        if stated <= MOST_POINTS + 3 && random.one_in(2) {
            count = stated;
        }
        let in_record = record.get(3..7).map_or(0, |bytes| {
            u32::from_be_bytes([bytes[0], bytes[1], bytes[2], bytes[3]])
        });
        let (listed, unlisted) = (random.pick(&RATES), unlisted_rate(random));
        let expected = [0, 0, 0, run.rate, in_record, listed, unlisted];
        let expected = random.pick(&expected);
        let long = count + 1 + random.below(10);
        let short = random.below(count + 1);
        let rooms = random.pick(&[
            [count, count],
            [count, count],
            [long, long],
            [count, long],
            [long, count],
            [short, count],
            [count, short],
            [count.saturating_sub(1), count],
            [count, count.saturating_sub(1)],
            [short, long],
            [0, 0],
            [MOST_POINTS + 5, MOST_POINTS],
        ]);
        if random.one_in(2) {
            self.read(expected, record, rooms);
        } else {
            let after = random.below(12);
            let after = random.bytes(after);
            self.read(expected, &[record, &after].concat(), rooms);
        }
    }

    /// Writes faulty runs, each in both forms.
    fn spoiled_writes(&mut self, run: &Run) {
        for _ in 0..8 {
            let mut run = run.clone();
            for _ in 0..1 + self.random.below(3) {
                run.spoil(&mut self.random);
            }
            let room = 22 + 18 * run.ratios.len();
            let room = self.random.pick(&[room, room, room / 2, 0]);
            for form in [OLD, WIDE] {
                self.write(&run.in_form(form), room);
            }
        }
    }

    fn spoiled_reads(&mut self, run: &Run) {
        let fields = Fields::split(&run.record());
        for _ in 0..15 {
            let mut fields = fields.clone();
            for _ in 0..1 + self.random.below(3) {
                fields.spoil(&mut self.random, run);
            }
            let mut record = fields.join();
            if self.random.one_in(6) {
                record.truncate(self.random.below(record.len() + 1));
            }
            self.read_in_many_ways(&record, run);
        }
    }

    /// Cuts a record at every byte; what was cut off still stands behind it in memory.
    fn cut_everywhere(&mut self, run: &Run) {
        let record = run.record();
        let count = run.ratios.len();
        for cut in 0..record.len() {
            self.read(0, &record[..cut], [count, count]);
        }
    }

    /// Damages a record at every byte, or at every so many bytes.
    fn damage_everywhere(&mut self, run: &Run, values: usize, stride: usize) {
        let record = run.record();
        let count = run.ratios.len();
        let mut at = self.random.below(stride);
        while at < record.len() {
            for _ in 0..values {
                let mut record = record.clone();
                record[at] = damage(&mut self.random, record[at]);
                self.read(0, &record, [count + 1, count + 1]);
            }
            at += stride;
        }
    }

    /// Sound heads of a run around bodies made by hand.
    fn made_bodies(&mut self, run: &Run) {
        let random = &mut self.random;
        let count = run.ratios.len();
        let mut fields = Fields::split(&run.record());
        fields.set_body(POSITIONS, positions_body(random, run.form, count));
        let record = fields.join();
        self.read(0, &record, [count, count]);

        let random = &mut self.random;
        let fault = random.pick(&[1_000_000, 1_000_000, 40, 5]);
        let wrong = random.pick(&[1, 3, count.max(1), 2 * count.max(1)]);
        let body = if random.one_in(2) {
            open_body(random, count, fault)
        } else {
            chosen_body(random, &run.ratios, wrong)
        };
        let mut fields = Fields::split(&run.record());
        fields.set_body(RATIOS, body.clone());
        let record = fields.join();
        self.read(0, &record, [count, count + 1]);
        self.step_through(&body, count);
    }

    /// Steps through a body, or a beginning of it whose rest still stands behind it in memory.
    fn step_through(&mut self, body: &[u8], count: usize) {
        let cut = self.random.below(body.len() + 1);
        let body = if self.random.one_in(4) {
            &body[..cut]
        } else {
            body
        };
        let choices = [count, count, count, count + 1, count.saturating_sub(1)];
        let count = self.random.pick(&choices);
        let mut cursor = self.cursor_new(count as u64);
        loop {
            let stepped = self.step(body, cursor);
            if stepped.number != 0 {
                break;
            }
            if self.random.one_in(16) {
                self.spoiled_step(body, cursor);
            }
            cursor = stepped.next;
        }
        self.spoiled_step(body, cursor);
    }

    /// Steps from a state with another place, count, number seen, fill or window.
    fn spoiled_step(&mut self, body: &[u8], cursor: Cursor) {
        let random = &mut self.random;
        let mut cursor = cursor;
        let length = body.len() as u64;
        for _ in 0..1 + random.below(2) {
            match random.below(8) {
                0 => cursor.fill = other_number(random, cursor.fill),
                1 => cursor.seen = other_number(random, cursor.seen),
                2 => cursor.count = other_number(random, cursor.count),
                3 => cursor.place = other_number(random, length),
                4 => cursor.place = random.pick(&[length, length + 1, length / 2, 0]),
                5 => cursor.seen = cursor.count,
                6 => {
                    cursor.count = random.pick(&[cursor.count, 4_096, 4_097, 200]);
                    cursor.seen = random.below(cursor.count as usize % 5_000 + 1) as u64;
                    cursor.fill = cursor.seen.min(WINDOW as u64);
                    cursor.ratios.fill_with(|| random.bits());
                }
                _ => {
                    let cell = random.below(WINDOW);
                    cursor.ratios[cell] = random.pick(&[0, 1, 1 << 63]);
                }
            }
        }
        self.step(body, cursor);
    }

    /// Steps from every place of a body with a window of its own.
    fn step_everywhere(&mut self, body: &[u8]) {
        let random = &mut self.random;
        let count = random.pick(&[200, 4_096]);
        let seen = random.below(count);
        let mut cursor = self.cursor_new(count as u64);
        cursor.seen = seen as u64;
        cursor.fill = seen.min(WINDOW) as u64;
        let kind = self.random.below(Ratios::KINDS);
        let ratios = Ratios::list(&mut self.random, kind, WINDOW);
        cursor.ratios.copy_from_slice(&ratios);
        for place in 0..=body.len() as u64 + 1 {
            cursor.place = place;
            self.step(body, cursor);
        }
    }

    /// Adds ratios one by one; the bytes joined must be those of the ratios' field.
    fn live_run(&mut self, run: &Run) {
        let mut state = self.live_new();
        let mut joined = Vec::new();
        for &ratio in &run.ratios {
            // First into an output that may be too short.
            if self.random.one_in(6) {
                let room = self.random.below(10);
                let (after, bytes) = self.live_add(state, ratio, room);
                if after.seen > state.seen {
                    state = after;
                    joined.extend(bytes);
                    continue;
                }
            }
            if self.random.one_in(12) {
                self.spoiled_addition(state, ratio);
            }
            let room = self.random.pick(&[9, 9, 10, 30]);
            let (after, bytes) = self.live_add(state, ratio, room);
            state = after;
            joined.extend(bytes);
        }
        if joined != Fields::split(&run.record()).body(RATIOS) {
            println!(
                "live additions do not join to the ratios' field\nratios {:x?}",
                run.ratios
            );
            exit(1);
        }
        if state.seen == MOST_POINTS as u64 {
            for room in [0, 1, 9, 20] {
                self.live_add(state, run.ratios[0], room);
                self.spoiled_addition(state, 1);
            }
        }
    }

    /// Adds to a state with another number seen, fill or window.
    fn spoiled_addition(&mut self, state: Live, ratio: u64) {
        let random = &mut self.random;
        let mut state = state;
        for _ in 0..1 + random.below(2) {
            match random.below(5) {
                0 => state.fill = other_number(random, state.fill),
                1 => state.seen = other_number(random, state.seen),
                2 => {
                    state.seen = random.pick(&[0, 1, 126, 127, 128, 4_095, 4_096, 4_097, 1 << 32]);
                    state.fill = state.seen.min(WINDOW as u64);
                }
                3 => state.ratios.fill_with(|| random.bits()),
                _ => {
                    let cell = random.below(WINDOW);
                    state.ratios[cell] = change_bytes(random, ratio);
                }
            }
        }
        let room = random.pick(&[9, 9, 9, 12, 3, 0]);
        self.live_add(state, ratio, room);
    }

    fn kinds(&mut self) {
        let special = special_bits(&mut self.random);
        self.kind(special);
        let bits = self.random.bits();
        self.kind(bits);
        self.kind(bits | 0x7ff << 52);
        let height = self.random.below(64);
        self.kind(bits >> height);
    }

    /// Explains a ratio after a window that is made so that the answer is known. With all ratios
    /// before it the sum is 0, but for those given: their places, and the leading and trailing
    /// zero bytes of their xor; eight leading ones are those of an equal ratio.
    fn made_window(&mut self, fill: usize, given: &[(usize, u32, u32)]) {
        let ratio = u64::MAX;
        let plain = (1..=fill as u64).map(|byte| byte * 0x0101_0101_0101_0101);
        let mut ratios: Vec<u64> = plain.chain([ratio]).collect();
        for &(place, leading, trailing) in given {
            // Zero bytes in the middle do not count, nor do zero bits at its ends.
            let inner = self.random.pick(&[0, 0x55]);
            let (first, last) = self.random.pick(&[(1, 0x80), (0x80, 1), (0xff, 0xff)]);
            let mut x = [0; 8];
            if leading < 8 {
                let (from, to) = (leading as usize, 7 - trailing as usize);
                x[from..=to].fill(inner);
                x[to] = last;
                x[from] = first;
            }
            ratios[fill - 1 - place] = ratio ^ u64::from_be_bytes(x);
        }
        let inside = given.iter().filter(|given| given.0 < WINDOW);
        let best = inside.max_by_key(|given| (given.1 + given.2, Reverse(given.0)));
        let none = Explained::default();
        let wanted = match best {
            None => Explained {
                reason: if fill == 0 { 4 } else { 3 },
                ..none
            },
            Some(&(place, leading, trailing)) => match leading + trailing {
                8 => Explained {
                    reason: 1,
                    at: place as u32,
                    ..none
                },
                sum @ 0..=1 => Explained {
                    reason: 3,
                    sum,
                    ..none
                },
                sum => Explained {
                    reason: 2,
                    at: place as u32,
                    leading,
                    trailing,
                    sum,
                    ..none
                },
            },
        };
        let explained = self.explain(&ratios, fill as u64);
        let what = "not the answer that the window was made for";
        self.holds(explained == wanted, what, &ratios, fill as u64, explained);
    }

    /// One ratio, two and several that are given, at the ends of the window and around them, with
    /// every pair of counts, equal sums among them.
    fn made_windows(&mut self, fill: usize) {
        self.made_window(fill, &[]);
        let splits = |sum: u32| (0..=sum).map(move |leading| (leading, sum - leading));
        let mut counts: Vec<(u32, u32)> = (0..8).flat_map(splits).collect();
        counts.push((8, 0));
        let ends = [0, 1, 2, 63, 64, 125, 126, 127, 128];
        let places: Vec<usize> = ends.into_iter().filter(|&place| place < fill).collect();
        for &far in &places {
            for &(leading, trailing) in &counts {
                self.made_window(fill, &[(far, leading, trailing)]);
            }
            for &near in places.iter().filter(|&&near| near < far) {
                for sum in 0..8 {
                    let same: Vec<(u32, u32)> = splits(sum).collect();
                    for others in [&same, &counts] {
                        let (leading, trailing) = self.random.pick(&same);
                        let (far_leading, far_trailing) = self.random.pick(others);
                        let far = (far, far_leading, far_trailing);
                        self.made_window(fill, &[(near, leading, trailing), far]);
                    }
                }
                self.made_window(fill, &[(near, 3, 4), (far, 8, 0)]);
                self.made_window(fill, &[(near, 8, 0), (far, 8, 0)]);
            }
        }
        for _ in 0..if fill == 0 { 0 } else { 100 } {
            let most = self.random.pick(&[counts.len(), counts.len() - 1, 6, 3]);
            let mut given: Vec<(usize, u32, u32)> = Vec::new();
            for _ in 0..2 + self.random.below(8) {
                let place = self.random.below(fill);
                let (leading, trailing) = self.random.pick(&counts[..most]);
                given.retain(|given| given.0 != place);
                given.push((place, leading, trailing));
            }
            self.made_window(fill, &given);
        }
    }

    /// Explains every index of a run, and some that are none; the forms that are named must be
    /// those in the record that the library writes.
    fn explain_everywhere(&mut self, ratios: &[u64]) {
        let count = ratios.len();
        // More ratios stand behind them in memory.
        let longer = [ratios, ratios, &[0, 1]].concat();
        let ratios = &longer[..count];
        let mut run = Run::short(&mut self.random, count);
        run.ratios = ratios.to_vec();
        let mut record = vec![0; LONGEST_RECORD];
        let written = run.write(library::write, &mut record);
        assert_eq!(written.number, 0, "the test made a run that is refused");
        let fields = Fields::split(&record[..written.length as usize]);
        let mut rest = fields.body(RATIOS);
        for index in 0..count {
            let explained = self.explain(ratios, index as u64);
            let form = form_named(ratios, index, explained);
            let what = "not the form that is written";
            let there = rest.starts_with(&form);
            self.holds(there, what, ratios, index as u64, explained);
            rest = &rest[form.len()..];
        }
        assert!(rest.is_empty(), "the forms do not use up the body");
        let count = count as u64;
        let wide = [8, 16, 32, 63].map(|height| count + (1 << height));
        let none = [count, count + 1, 1 << 32, u64::MAX];
        for index in none.into_iter().chain(wide) {
            self.explain(ratios, index);
        }
        if count > 0 {
            // The low bits of an index that there is.
            let height = self.random.pick(&[16, 32, 48, 63]);
            let index = self.random.below(count as usize) as u64 + (1 << height);
            self.explain(ratios, index);
        }
    }

    /// The ratios after an index, and those more than 127 before it, have no part in the answer.
    fn explain_elsewhere(&mut self, ratios: &[u64]) {
        let index = self.random.below(ratios.len());
        let explained = self.explain(ratios, index as u64);
        let start = index.saturating_sub(WINDOW);
        for _ in 0..4 {
            let mut others = ratios.to_vec();
            let manner = self.random.below(3);
            for (n, other) in others.iter_mut().enumerate() {
                if n < start || n > index {
                    *other = match manner {
                        0 => ratios[index],
                        1 => change_bytes(&mut self.random, ratios[index]),
                        _ => self.random.bits(),
                    };
                }
            }
            let more = self.random.below((MOST_POINTS - index).min(200));
            others.resize(index + 1 + more, ratios[index]);
            let again = self.explain(&others, index as u64);
            let what = "another answer by ratios outside the window";
            self.holds(again == explained, what, &others, index as u64, again);
        }
        let (window, index) = (&ratios[start..=index], (index - start) as u64);
        let alone = self.explain(window, index);
        let what = "another answer by the window alone";
        self.holds(alone == explained, what, window, index, alone);
    }

    /// More ratios than a run has, with indices below their number and others: 3 before 22.
    fn explain_too_many(&mut self) {
        let refused = Explained {
            number: 3,
            ..Explained::default()
        };
        for count in [4_097, 4_098, 8_192, 65_536, 65_537] {
            let ratios = vec![self.random.bits(); count];
            let count = count as u64;
            for index in [0, 4_095, 4_096, count - 1, count, 9_999, u64::MAX] {
                let explained = self.explain(&ratios, index);
                let what = "too many ratios, and not refused by 3";
                self.holds(explained == refused, what, &[], index, explained);
            }
        }
    }

    fn explains(&mut self) {
        for fill in [0, 1, 2, 3, 126, 127, 128, 129, 200] {
            self.made_windows(fill);
        }
        self.explain_everywhere(&[]);
        for count in [1, 2, 126, 127, 128, 129, 300] {
            let same = vec![self.random.bits(); count];
            self.explain_everywhere(&same);
            for kind in 0..Ratios::KINDS {
                let ratios = Ratios::list(&mut self.random, kind, count);
                self.explain_everywhere(&ratios);
                for _ in 0..3 {
                    self.explain_elsewhere(&ratios);
                }
            }
        }
        self.explain_too_many();
    }

    /// Writes a run with every side, and with sides above the last.
    fn write_sides(&mut self, run: &Run) {
        let mut run = run.clone();
        for side in (0..=LAST_SIDE).chain(HIGH_SIDES) {
            run.side = side.min(LAST_SIDE);
            let (record, count) = (run.record(), run.ratios.len());
            if side <= LAST_SIDE {
                self.read(0, &record, [count, count]);
            }
            run.side = side;
            for room in [record.len(), record.len() - 1] {
                self.write(&run, room);
            }
        }
    }

    /// Runs that break any of the writer's tests in a form, and several at once: the first in the
    /// order of the tests counts.
    fn tests_of_writing(&mut self, form: u32) {
        for broken in 0..1 << 7 {
            let breaks = |test: usize| broken >> test & 1 == 1;
            let count = if breaks(3) { most_points(form) + 1 } else { 5 };
            let rate = if breaks(0) { 48_001 } else { 48_000 };
            let side = if breaks(1) {
                self.random.pick(&HIGH_SIDES)
            } else {
                any_side(&mut self.random)
            };
            let mut positions = vec![7; count];
            let ratios = vec![1; count - usize::from(breaks(2))];
            if breaks(4) {
                positions[3] = LAST_POSITION + 1;
            }
            if breaks(5) {
                positions[2] = 1 << 40;
            }
            let run = Run {
                rate,
                side,
                form,
                positions,
                ratios,
            };
            let room = if breaks(6) { 17 } else { LONGEST_RECORD };
            let written = self.write(&run, room);
            // The wide form has a code for each step.
            let first = (0..7).find(|&test| breaks(test) && (test, form) != (5, WIDE));
            let wanted = first.map_or(0, |test| [1, 21, 2, 3, 4, 5, 6][test]);
            assert_eq!(written.number, wanted, "another order of the tests");
        }
    }

    /// Sets each byte of the side's field to every value.
    fn damage_side(&mut self, run: &Run) {
        let run = Run {
            side: 4,
            ..run.clone()
        };
        let (record, count) = (run.record(), run.ratios.len());
        for at in 7..11 {
            for value in 0..=255 {
                let mut record = record.clone();
                record[at] = value;
                self.read(0, &record, [count, count]);
            }
        }
    }

    /// Fields of a side, sound and not, in the place of one and in others.
    fn side_fields(&mut self, run: &Run) {
        let sound = Run {
            side: 0,
            ..run.clone()
        };
        let (fields, count) = (Fields::split(&sound.record()), run.ratios.len());
        let sides: [(u8, u16, &[u8]); 15] = [
            (SIDE, 1, &[1]),
            (SIDE, 1, &[4]),
            (SIDE, 1, &[26]),
            (SIDE, 1, &[0]),
            (SIDE, 1, &[27]),
            (SIDE, 1, &[255]),
            (SIDE, 1, &[]),
            (SIDE, 0, &[]),
            (SIDE, 0, &[4]),
            (SIDE, 2, &[4, 4]),
            (SIDE, 3, &[0, 0, 4]),
            (SIDE, 257, &[4]),
            (SIDE, 65_535, &[4]),
            (5, 1, &[4]),
            (7, 1, &[4]),
        ];
        let sides = sides.map(|(tag, length, body)| (tag, length, body.to_vec()));
        for side in &sides {
            // In every place, and with a sound one beside it; then cut within the fields in front.
            for at in 0..=fields.0.len() {
                let mut one = fields.clone();
                one.0.insert(at, side.clone());
                self.read(0, &one.join(), [count, count]);
                for first in [1, at] {
                    let mut two = one.clone();
                    two.0.insert(first, sides[1].clone());
                    self.read(0, &two.join(), [count, count]);
                }
            }
            let mut one = fields.clone();
            one.0.insert(1, side.clone());
            let record = one.join();
            for cut in 7..19.min(record.len()) {
                self.read(0, &record[..cut], [count, count]);
            }
        }
        // Beside faults of the rate before it and of the count after it, and with too little room.
        let above = (MOST_POINTS as u16 + 1).to_be_bytes().to_vec();
        let good = (count as u16).to_be_bytes().to_vec();
        let counts = [
            (COUNT, 2, good.clone()),
            (COUNT, 2, above),
            (COUNT, 3, good.clone()),
            (COUNT, 2, Vec::new()),
            (POSITIONS, 2, good),
        ];
        for side in sides {
            for stated in &counts {
                for rate in [run.rate, 48_001] {
                    let mut fields = fields.clone();
                    fields.set_body(RATE, rate.to_be_bytes().to_vec());
                    fields.0[1] = stated.clone();
                    fields.0.insert(1, side.clone());
                    let record = fields.join();
                    for expected in [0, rate, rate ^ 1] {
                        let rooms = [[count, count], [count - 1, count], [count, 0]];
                        for rooms in rooms {
                            self.read(expected, &record, rooms);
                        }
                    }
                }
            }
        }
    }

    /// The side of the disc.
    fn sides(&mut self) {
        for form in [OLD, WIDE] {
            self.tests_of_writing(form);
        }
        for count in [0, 1, 3] {
            let run = Run::short(&mut self.random, count);
            self.write_sides(&run);
            self.damage_side(&run);
        }
        let run = Run::short(&mut self.random, 2);
        self.side_fields(&run);
    }

    /// The steps and ratios that document 01 lists.
    fn document_cases(&mut self) {
        let start = 1_u64 << 40;
        let beyond = [MOST_STEP + 1, LEAST_STEP - 1];
        for step in EDGE_STEPS.into_iter().chain(beyond) {
            for form in [OLD, WIDE] {
                let run = Run {
                    rate: 96_000,
                    side: 0,
                    form,
                    positions: vec![start, start, start.wrapping_add_signed(step)],
                    ratios: vec![1, 2, 3],
                };
                self.write(&run, 100);
            }
        }
        let pairs: [&[u64]; 6] = [
            &[0xC01A_6666_6666_6666, 0xC00E_6666_6666_6666],
            &[0x4026_9999_9999_999A, 0x4027_0000_0000_0000],
            &[0, 0x0001_0203_0405_0600],
            &[0, 0x0001_0203_0405_0607],
            &[1, 2, 3],
            &[0, 1 << 63],
        ];
        for ratios in pairs {
            for (side, form) in [(0, OLD), (7, OLD), (0, WIDE), (7, WIDE)] {
                let run = Run {
                    rate: 44_100,
                    side,
                    form,
                    positions: any_positions(&mut self.random, form, ratios.len()),
                    ratios: ratios.to_vec(),
                };
                self.write_and_read(&run);
                self.damage_everywhere(&run, 20, 1);
            }
        }
        for (side, form) in [(0, OLD), (4, OLD), (LAST_SIDE, OLD), (0, WIDE), (4, WIDE)] {
            let listing = Run {
                rate: 96_000,
                side,
                form,
                positions: vec![0, 960, 1_920],
                ratios: vec![0x3fe0 << 48; 3],
            };
            self.write_and_read(&listing);
            self.cut_everywhere(&listing);
            self.damage_everywhere(&listing, 20, 1);
        }
        for count in [0, 1, 4_095, 4_096, 4_097, 1 << 32, u64::MAX] {
            let cursor = self.cursor_new(count);
            self.step(&[], cursor);
            self.step(&[255; 9], cursor);
        }
    }

    /// A run of the greatest length of its form, and others next to it.
    fn long_run(&mut self, run: &Run) {
        let most = run.ratios.len();
        self.write_and_read(run);
        let record = run.record();
        for _ in 0..6 {
            let mut record = record.clone();
            let at = self.random.below(record.len());
            record[at] = damage(&mut self.random, record[at]);
            self.read(0, &record, [most, most + 2]);
            let cut = self.random.below(record.len());
            self.read(0, &record[..cut], [most, most]);
        }
        let mut longer = run.clone();
        longer.positions.push(longer.positions[most - 1]);
        self.write(&longer, LONGEST_RECORD + 200);
        longer.ratios.push(1);
        self.write(&longer, LONGEST_RECORD + 200);
        let mut shorter = run.clone();
        shorter.positions.pop();
        shorter.ratios.remove(0);
        self.write(&shorter, LONGEST_RECORD);
        self.spoiled_writes(run);
        self.made_bodies(run);
    }

    /// The ratios of a run of the greatest length, alone.
    fn long_ratios(&mut self, run: &Run) {
        self.live_run(run);
        self.span(run.rate, &run.positions);
        let fields = Fields::split(&run.record());
        self.step_through(fields.body(RATIOS), MOST_POINTS);
        self.explain_everywhere(&run.ratios);
        self.explain_elsewhere(&run.ratios);
    }

    /// The longest open body has ten bytes for each ratio but the first.
    fn longest_open_record(&mut self) {
        for (form, side, length, cut) in [
            (OLD, 0, 59_416, 55_325),
            (OLD, LAST_SIDE, 59_420, 55_325),
            (WIDE, 0, 65_204, LONGEST_RECORD),
            (WIDE, LAST_SIDE, 65_208, LONGEST_RECORD),
        ] {
            let most = most_points(form);
            let mut body = vec![255; 9];
            for _ in 1..most {
                body.extend([128, 8]);
                body.extend(self.random.bytes(8));
            }
            let high = if form == WIDE { LAST_POSITION } else { 1 << 29 };
            let run = Run {
                rate: 48_000,
                side,
                form,
                positions: (0..most as u64).map(|n| n % 2 * high).collect(),
                ratios: vec![0; most],
            };
            let mut fields = Fields::split(&run.record());
            fields.set_body(RATIOS, body);
            let record = fields.join();
            assert_eq!(record.len(), length);
            self.read(48_000, &record, [most, most]);
            self.read(0, &record[..cut], [most, most]);
        }
    }

    /// Positions' and ratios' fields with the greatest length that can be stated.
    fn longest_fields(&mut self) {
        for count in [0, 1, 3, 3_500, 4_096] {
            let zeros = vec![0; 65_535];
            for side in [0, 4] {
                for tag in [POSITIONS, WIDE_POSITIONS] {
                    let fields = Fields::new(48_000, side, count, tag, zeros.clone(), Vec::new());
                    let long = fields.join();
                    self.read(0, &long, [MOST_POINTS, MOST_POINTS]);
                    self.read(0, &long[..long.len() - 4], [MOST_POINTS, MOST_POINTS]);
                }
            }
            let run = Run::short(&mut self.random, usize::from(count));
            let mut fields = Fields::split(&run.record());
            let body = [fields.body(RATIOS), &zeros].concat()[..65_535].to_vec();
            fields.set_body(RATIOS, body);
            let long = fields.join();
            self.read(0, &long, [MOST_POINTS, MOST_POINTS]);
            self.read(0, &long[..long.len() - 1], [MOST_POINTS, MOST_POINTS]);
        }
    }

    fn round(&mut self) {
        for _ in 0..5_000 {
            self.kinds();
            self.spans();
            let count = other_number(&mut self.random, 4_096);
            self.cursor_new(count);
        }
        for _ in 0..3_000 {
            let run = Run::any(&mut self.random);
            self.write_and_read(&run);
            self.spoiled_writes(&run);
            self.spoiled_reads(&run);
        }
        for _ in 0..300 {
            let count = self.random.below(10);
            let run = Run::short(&mut self.random, count);
            self.cut_everywhere(&run);
            self.damage_everywhere(&run, 4, 1);
        }
        for _ in 0..16 {
            let count = 120 + self.random.below(40);
            let run = Run::short(&mut self.random, count);
            self.damage_everywhere(&run, 1, 3);
        }
        for _ in 0..500 {
            let count = 120 + self.random.below(150);
            let run = Run::short(&mut self.random, count);
            self.made_bodies(&run);
            for _ in 0..11 {
                let count = self.random.below(14);
                let run = Run::short(&mut self.random, count);
                self.made_bodies(&run);
            }
        }
        for _ in 0..250 {
            let run = Run::any(&mut self.random);
            self.live_run(&run);
            let fields = Fields::split(&run.record());
            let body = fields.body(RATIOS);
            self.step_through(body, run.ratios.len());
            if body.len() < 200 {
                self.step_everywhere(body);
            }
        }
        for kind in 0..Ratios::KINDS {
            let run = Run::new(&mut self.random, OLD, kind, MOST_POINTS);
            self.long_run(&run);
            self.long_ratios(&run);
        }
        for _ in 0..5 {
            let kind = self.random.below(Ratios::KINDS);
            let run = Run::new(&mut self.random, WIDE, kind, WIDE_POINTS);
            self.long_run(&run);
        }
        self.longest_open_record();
        self.longest_fields();
        self.checks();
        self.sides();
        self.forms();
        self.moves();
        self.explains();
        self.comparisons();
    }

    /// Prints how often each call returned each number, reading and moving each side and the places
    /// that a side shifts, reading each form, moving no bytes more, some and the most, spans back at
    /// each rate, explain each reason, places at the window's ends, and each sum, and comparing each
    /// difference, each refusal of the first record, the second and both, and each pair of kinds;
    /// each must have come up. The place of 18 depends on the positions too, so that 18 itself is
    /// counted, without a side (0) and with one (1).
    fn report(&self) {
        let reading = &[0, 10, 11, 12, 13, 14, 15, 16, 17, 18, 20][..];
        let sides: Vec<u32> = (0..=LAST_SIDE).collect();
        // With no rate expected, and with room for every count.
        let compared = &[10, 11, 12, 13, 15, 17, 18, 20];
        let calls: [(_, &[u32]); 54] = [
            ("write, old form", &[0, 1, 2, 3, 4, 5, 6, 21]),
            ("write, wide form", &[0, 1, 2, 3, 4, 6, 21]),
            ("check", &[0, 10, 11, 12, 13, 14, 15, 17, 18, 20]),
            ("fetch", reading),
            (checks::BESIDE_16, &[0, 10, 11, 15, 17, 18]),
            ("read_open", reading),
            ("reading, side", &sides),
            ("reading, form", &[OLD, WIDE]),
            ("reading, place of 10", &[0, 7, 11, 12, 16]),
            ("reading, place of 11", &[0, 7, 11, 12, 16]),
            ("reading, place of 12", &[0, 7, 11]),
            ("reading, place of 15", &[7, 11]),
            (LATER_15, &[7, 11]),
            ("reading, place of 16", &[7, 11]),
            (EARLIER_16, &[7, 11]),
            ("reading, place of 17", &[12, 16]),
            ("reading, 17 in a form", &[OLD, WIDE]),
            ("reading, 18 behind a side", &[0, 1]),
            ("reading, 18 in a form", &[OLD, WIDE]),
            ("reading, place of 20", &[7]),
            ("to_wide", &[0, 3, 6, 10, 11, 12, 13, 15, 17, 18, 20]),
            ("to_old", &[0, 5, 6, 10, 11, 12, 13, 15, 17, 18, 20]),
            ("moving, side", &sides),
            ("to_wide, bytes more", &[0, 1, 2, moves::MOST_MORE as u32]),
            ("to_old, place of 5", &[2, 3, 4, 3_499]),
            ("moving, place of 10", &[0, 7, 11, 12, 16]),
            ("moving, place of 11", &[0, 7, 11, 12, 16]),
            (MOVED_TO_11, &[12, 16]),
            ("moving, place of 12", &[0, 7, 11]),
            ("moving, place of 15", &[7, 11]),
            (MOVED_15, &[7, 11]),
            ("moving, place of 17", &[12, 16]),
            ("moving, 18 behind a side", &[0, 1]),
            ("span", &[0, 1, 3, 4]),
            (spans::WHOLE_BACK, &RATES),
            (spans::ROUNDED_BACK, &RATES),
            ("live_new", &[0]),
            ("live_add", &[0, 3, 6, 7]),
            ("cursor_new", &[0, 15]),
            ("step", &[0, 7, 8, 18]),
            ("kind", &[0, 1, 2]),
            ("explain", &[0, 3, 22]),
            ("explain, reason", &[0, 1, 2, 3, 4]),
            ("explain, place of an equal ratio", &[0, 1, 125, 126]),
            ("explain, place of an xor", &[0, 1, 125, 126]),
            ("explain, sum", &[0, 1, 2, 3, 4, 5, 6, 7]),
            ("compare_overall", reading),
            ("compare_positions", &[0, 5]),
            ("compare_ratios", &[0, 6]),
            (comparisons::LISTED, &[1, 2, 3, 4, 5, 6, 7]),
            (comparisons::FIRST, compared),
            (comparisons::SECOND, compared),
            (comparisons::BOTH, compared),
            (comparisons::KINDS, &[0, 1, 2, 10, 11, 12, 20, 21, 22]),
        ];
        let mut missing = false;
        for (call, numbers) in calls {
            print!("{call}:");
            for &number in numbers {
                let times = self.numbers.get(&(call, number)).copied().unwrap_or(0);
                print!(" {number}:{times}");
                missing |= times == 0;
            }
            println!();
        }
        println!("{} cases of seed {}, no difference", self.cases, self.seed);
        if missing || self.cases < 100_000 {
            println!("but too few: a number never came up, or cases are missing");
            exit(1);
        }
    }
}

fn main() {
    let arguments: Vec<String> = std::env::args().skip(1).collect();
    let seed = match arguments.first().map(|seed| seed.parse()) {
        None => SEED,
        Some(Ok(seed)) => seed,
        Some(Err(_)) => {
            println!("the seed must be a whole number");
            exit(2);
        }
    };
    let mut test = Test {
        seed,
        trace: arguments.get(1).is_some_and(|word| word == "trace"),
        random: Random::new(seed),
        cases: 0,
        numbers: BTreeMap::new(),
    };
    test.document_cases();
    test.check_cases();
    test.form_cases();
    test.move_cases();
    test.span_cases();
    test.comparison_cases();
    for _ in 0..ROUNDS {
        test.round();
    }
    test.report();
}
