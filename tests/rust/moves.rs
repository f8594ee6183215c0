//! Cases of moving a record to the other form: there and back, with room of every length, bytes cut
//! and changed, the order of the tests, counts around the limits, steps outside the old table,
//! records joined. The answer is known beside that of the reference, but where bytes are changed.

use crate::answers::{OLD, WIDE};
use crate::inputs::*;
use crate::{hex, Test};

/// The most bytes by which a move makes a record longer: a bit for each of 3,498 steps.
pub const MOST_MORE: usize = 438;

const FORMS: [u32; 2] = [OLD, WIDE];

/// The form that a number does not name.
fn other(form: u32) -> u32 {
    match form {
        WIDE => OLD,
        _ => WIDE,
    }
}

/// The index of the first point whose step is outside the old table.
fn first_outside(positions: &[u64]) -> Option<usize> {
    let outside = |three: &[u64]| {
        let [before, last, position] = [0, 1, 2].map(|n| three[n] as i64);
        first_row((position - last) - (last - before)) == 5
    };
    positions.windows(3).position(outside).map(|at| at + 2)
}

/// The record of a run in the form that it is not in, or the number and the place by which a move
/// there is refused, whatever room there is.
fn other_record(run: &Run) -> Result<Vec<u8>, (u32, usize)> {
    match other(run.form) {
        WIDE if run.ratios.len() > WIDE_POINTS => Err((3, 0)),
        WIDE => Ok(run.in_form(WIDE).record()),
        _ => match first_outside(&run.positions) {
            Some(index) => Err((5, index)),
            None => Ok(run.in_form(OLD).record()),
        },
    }
}

/// What is known of a move.
enum Known<'a> {
    /// The record that is written, and the bytes used of the one read.
    Becomes(&'a [u8], usize),
    /// The refusal's number and place.
    Refused(u32, usize),
}

use Known::{Becomes, Refused};

impl Test {
    /// Moves a record to a form with some room, and compares what comes of it with what is known.
    fn known_move(&mut self, form: u32, bytes: &[u8], room: usize, known: Known) {
        let (moved, [before, after]) = self.move_to(form, bytes, room);
        let found = (moved.number, moved.place as usize, moved.length, moved.used);
        let (answer, good) = match known {
            Becomes(record, used) => {
                let (there, past) = after.split_at(record.len().min(room));
                let good = there == record && past == &before[there.len()..];
                ((0, 0, record.len() as u64, used as u64), good)
            }
            Refused(number, place) => {
                let good = after.iter().all(|&byte| byte == 0);
                ((number, place, 0, 0), good)
            }
        };
        let what = || format!("{} to form {form} with room for {room}", hex(bytes));
        assert_eq!(found, answer, "moving {}", what());
        assert!(good, "another output, moving {}", what());
    }

    /// Moves a record that is known to become another, with just enough room and a byte less.
    fn move_closely(&mut self, form: u32, bytes: &[u8], record: &[u8], used: usize) {
        let length = record.len();
        self.known_move(form, bytes, length, Becomes(record, used));
        self.known_move(form, bytes, length - 1, Refused(6, 0));
    }

    /// Moves the record of a run to the other form and back, and tries the form that it is in.
    fn there_and_back(&mut self, run: &Run) {
        let (record, to) = (run.record(), other(run.form));
        let from = other(to);
        let used = record.len();
        let at = Front::of(&record).count_at + 5;
        self.known_move(from, &record, used + 5, Refused(11, at));
        let there = match other_record(run) {
            Ok(there) => there,
            Err((number, place)) => {
                let refused = || Refused(number, place);
                self.known_move(to, &record, used + MOST_MORE, refused());
                return self.known_move(to, &record, 0, refused());
            }
        };
        let length = there.len();
        let (shorter, longer) = if to == WIDE {
            (used, length)
        } else {
            (length, used)
        };
        assert!(
            (shorter..=shorter + MOST_MORE).contains(&longer),
            "{used} bytes moved to {length}"
        );
        self.move_closely(to, &record, &there, used);
        self.move_closely(from, &there, &record, length);
    }

    /// The same with bytes behind the record, with more room than is needed, and with too little.
    fn there_and_back_in_many_ways(&mut self, run: &Run) {
        self.there_and_back(run);
        let (record, to) = (run.record(), other(run.form));
        let Ok(there) = other_record(run) else {
            return;
        };
        let after = self.random.below(12);
        let after = self.random.bytes(after);
        for behind in [&after, &record, &there] {
            let ways = [(to, &record, &there), (other(to), &there, &record)];
            for (form, before, moved) in ways {
                let bytes = [&before[..], behind].concat();
                let long = moved.len() + 1 + self.random.below(20);
                let short = self.random.below(moved.len());
                let becomes = || Becomes(moved, before.len());
                self.known_move(form, &bytes, moved.len(), becomes());
                self.known_move(form, &bytes, long, becomes());
                self.known_move(form, &bytes, short, Refused(6, 0));
            }
        }
    }

    /// Moves a record with every room up to some bytes more than it needs.
    fn every_room(&mut self, run: &Run) {
        let (record, to) = (run.record(), other(run.form));
        let there = other_record(run);
        for room in 0..record.len() + 8 {
            let known = match &there {
                Ok(there) if room < there.len() => Refused(6, 0),
                Ok(there) => Becomes(there, record.len()),
                Err((number, place)) => Refused(*number, *place),
            };
            self.known_move(to, &record, room, known);
        }
    }

    /// Moves a record that is cut at every byte to both forms; what was cut off still stands behind
    /// it in memory.
    fn move_cut_everywhere(&mut self, run: &Run) {
        let record = run.record();
        let mut starts = vec![0];
        for (_, length, _) in Fields::split(&record).0 {
            starts.push(starts[starts.len() - 1] + 3 + usize::from(length));
        }
        let at = Front::of(&record).count_at + 5;
        for cut in 0..record.len() {
            let before = starts.iter().filter(|&&start| start <= cut);
            let field = before.max().copied().unwrap_or(0);
            for form in FORMS {
                let known = if cut >= at + 3 && form != other(run.form) {
                    Refused(11, at)
                } else {
                    Refused(10, field)
                };
                self.known_move(form, &record[..cut], record.len() + 5, known);
            }
        }
    }

    /// Moves any bytes to both forms, with much room, and where they are moved also with little.
    pub fn move_in_many_ways(&mut self, bytes: &[u8]) {
        for form in FORMS {
            let room = bytes.len() + MOST_MORE;
            let room = self.random.pick(&[room, room, room, bytes.len(), 0]);
            let (moved, _) = self.move_to(form, bytes, room);
            if moved.number == 0 {
                let length = moved.length as usize;
                let short = self.random.below(length);
                let room = self.random.pick(&[length, length - 1, short]);
                self.move_to(form, bytes, room);
            }
        }
    }

    /// Changes every byte of a record, and moves what it becomes.
    fn move_damaged_everywhere(&mut self, run: &Run) {
        let record = run.record();
        for at in 0..record.len() {
            let mut record = record.clone();
            record[at] = damage(&mut self.random, record[at]);
            self.move_in_many_ways(&record);
        }
    }

    /// Sets the tag of the positions' field to every value; both forms code the positions alike.
    fn every_tag(&mut self, side: u32) {
        let run = |form| Run {
            rate: 96_000,
            side,
            form,
            positions: vec![0, 960, 1_920],
            ratios: vec![0x3fe0 << 48; 3],
        };
        let at = if side == 0 { 12 } else { 16 };
        for form in FORMS {
            let there = run(form).record();
            for tag in 0..=255 {
                let mut record = there.clone();
                record[at] = tag;
                let known = if u32::from(tag) == other(form) {
                    Becomes(&there, record.len())
                } else {
                    Refused(11, at)
                };
                self.known_move(form, &record, record.len(), known);
            }
        }
    }

    /// Records that break any of the tests of a move to a form, and several at once: the first in
    /// the order of the tests counts.
    fn tests_of_moving(&mut self, form: u32) {
        const AT: usize = 16;
        for broken in 0..1 << 12 {
            // The sixth, of the count by the form that is read, is broken by wide records alone.
            let breaks = |test: usize| broken >> test & 1 == 1 && (test, form) != (5, WIDE);
            let many = breaks(if form == WIDE { 10 } else { 5 });
            let count = if many { WIDE_POINTS + 1 } else { 5 };
            let mut run = Run {
                rate: 48_000,
                side: 4,
                form: if many { OLD } else { other(form) },
                positions: vec![7; count],
                ratios: vec![1; count],
            };
            if breaks(10) && !many {
                run.positions[3] = 1 << 40;
            }
            // Where there is no such record any room will do.
            let there = other_record(&run).unwrap_or_else(|_| run.record());
            let room = there.len() - usize::from(breaks(11));

            let mut fields = Fields::split(&run.record());
            let ratios_at = AT + 3 + fields.0[3].2.len();
            if breaks(0) {
                fields.set_body(RATE, 48_001_u32.to_be_bytes().to_vec());
            }
            if breaks(1) {
                fields.set_body(SIDE, vec![27]);
            }
            if breaks(2) {
                fields.set_body(COUNT, 4_097_u16.to_be_bytes().to_vec());
            }
            // Steps of 0 have the same code in both forms, so that the tag makes the form.
            let tag = if breaks(4) { form } else { other(form) };
            fields.0[3].0 = tag as u8;
            if breaks(7) {
                // A fill bit.
                fields.0[3].2[ratios_at - AT - 4] |= 1;
            }
            if breaks(8) {
                fields.0[4].0 = 9;
            }
            if breaks(9) {
                // A place that holds the same ratio as a nearer one: an open form.
                fields.0[4].2[8 + count - 1] = 1;
            }
            let mut record = fields.join();
            if breaks(3) {
                record.truncate(AT + self.random.below(3));
            } else if breaks(6) {
                record.truncate(AT + 3 + self.random.below(ratios_at - AT - 3));
            }

            let tests = [
                (13, 0),
                (20, 7),
                (15, 11),
                (10, AT),
                (11, AT),
                (15, 11),
                (10, AT),
                (17, AT),
                (11, ratios_at),
                (18, ratios_at),
                if form == WIDE { (3, 0) } else { (5, 3) },
                (6, 0),
            ];
            let known = match (0..tests.len()).find(|&test| breaks(test)) {
                Some(test) => Refused(tests[test].0, tests[test].1),
                None => Becomes(&there, record.len()),
            };
            self.known_move(form, &record, room, known);
        }
    }

    /// Moves to both forms a record whose count is around the limits of the forms and whose tag of
    /// the positions may be another; `refusal` is what the bytes from the positions' field on are
    /// refused by, if by nothing before it, or 0.
    pub fn move_at_limit(&mut self, record: &[u8], count: usize, tag: u8, refusal: u32) {
        let count_at = Front::of(record).count_at;
        let at = count_at + 5;
        for form in FORMS {
            let mut there = record.to_vec();
            let known = if count > MOST_POINTS {
                Refused(15, count_at)
            } else if record.len() < at + 3 {
                Refused(10, at)
            } else if u32::from(tag) != other(form) {
                Refused(11, at)
            } else if form == OLD && count > WIDE_POINTS {
                Refused(15, count_at)
            } else if refusal != 0 {
                Refused(refusal, at)
            } else if form == WIDE && count > WIDE_POINTS {
                Refused(3, 0)
            } else {
                // Steps of 0 have the same code in both forms.
                there[at] = form as u8;
                Becomes(&there, record.len())
            };
            self.known_move(form, record, record.len(), known);
        }
    }

    /// Every step at a bound of a row, and a pause at every index.
    fn far_steps(&mut self) {
        for step in EDGE_STEPS.into_iter().chain(RAW_STEPS) {
            for form in FORMS {
                let mut run = Run::short(&mut self.random, 3).in_form(form);
                run.positions = with_step(&mut self.random, step).to_vec();
                if form == OLD && first_outside(&run.positions).is_some() {
                    continue;
                }
                self.there_and_back_in_many_ways(&run);
            }
        }
        let far = [0, 1, 1 << 40].map(|more| MOST_STEP as u64 + more);
        let count = 2 + self.random.below(12);
        for pause in 0..count {
            let mut run = Run::short(&mut self.random, count).in_form(WIDE);
            let far = self.random.pick(&far);
            let position = |n: usize| 480 * n as u64 + if n < pause { 0 } else { far };
            run.positions = (0..count).map(position).collect();
            self.there_and_back(&run);
        }
    }

    /// Records of as many points as a form takes, and of more than the form moved to does.
    fn long_moves(&mut self) {
        for (form, count) in [
            (OLD, WIDE_POINTS),
            (OLD, WIDE_POINTS + 1),
            (OLD, MOST_POINTS),
            (WIDE, WIDE_POINTS),
        ] {
            let kind = self.random.below(Ratios::KINDS);
            let mut run = Run::new(&mut self.random, form, kind, count);
            if form == WIDE {
                // Mostly such as the old form takes too.
                let positions = any_positions(&mut self.random, OLD, count);
                run.positions = self
                    .random
                    .pick(&[&positions, &positions, &run.positions])
                    .clone();
            }
            self.there_and_back(&run);
        }
    }

    /// The most points that both forms take: every step a bit longer in the wide form, every ratio
    /// nine bytes. Then a pause before the last point, and a point more.
    fn longest_moves(&mut self) {
        for (side, length) in [(0, 47_275), (LAST_SIDE, 47_279)] {
            let points = 0..WIDE_POINTS as u64;
            let mut run = Run {
                rate: 44_100,
                side,
                form: OLD,
                positions: points.clone().map(|n| n % 2 * 5_000).collect(),
                ratios: points.map(|n| n % 128 * ((1 << 56) + 1)).collect(),
            };
            let (old, wide) = (run.record(), run.in_form(WIDE).record());
            assert_eq!((old.len(), wide.len()), (length, length + MOST_MORE));
            self.move_closely(WIDE, &old, &wide, length);
            self.move_closely(OLD, &wide, &old, length + MOST_MORE);
            self.known_move(OLD, &wide, LONGEST_RECORD, Becomes(&old, wide.len()));

            run.positions[WIDE_POINTS - 1] = LAST_POSITION;
            let paused = run.in_form(WIDE).record();
            let refused = || Refused(5, WIDE_POINTS - 1);
            self.known_move(OLD, &paused, LONGEST_RECORD, refused());
            self.known_move(OLD, &paused, 0, refused());

            run.positions[WIDE_POINTS - 1] = 5_000;
            run.positions.push(0);
            run.ratios.push(0);
            let more = run.record();
            self.known_move(WIDE, &more, LONGEST_RECORD, Refused(3, 0));
            self.known_move(WIDE, &more, 0, Refused(3, 0));
        }
    }

    /// Joined records of both forms are moved one after the other; those behind a record have no
    /// part in its move.
    fn joined_moves(&mut self) {
        let mut runs = Vec::new();
        for _ in 0..1 + self.random.below(4) {
            let count = self.random.below(6);
            runs.push(Run::short(&mut self.random, count));
        }
        let joined: Vec<u8> = runs.iter().flat_map(Run::record).collect();
        for form in FORMS {
            let mut rest = &joined[..];
            for run in &runs {
                let record = run.record();
                let at = Front::of(&record).count_at + 5;
                let there = other_record(run);
                let known = match &there {
                    _ if form != other(run.form) => Refused(11, at),
                    Ok(there) => Becomes(there, record.len()),
                    Err((number, place)) => Refused(*number, *place),
                };
                self.known_move(form, rest, joined.len() + 20, known);
                rest = &rest[record.len()..];
            }
        }
    }

    /// Cases that are the same in every round.
    pub fn move_cases(&mut self) {
        for form in FORMS {
            self.tests_of_moving(form);
        }
        for side in [0, 4] {
            self.every_tag(side);
        }
        self.longest_moves();
    }

    /// Random cases of moves.
    pub fn moves(&mut self) {
        self.far_steps();
        self.long_moves();
        for side in 0..=LAST_SIDE {
            let count = self.random.below(5);
            let run = Run::short(&mut self.random, count);
            self.there_and_back_in_many_ways(&Run { side, ..run });
        }
        for _ in 0..300 {
            let run = Run::any(&mut self.random);
            self.there_and_back_in_many_ways(&run);
            self.joined_moves();
        }
        for _ in 0..20 {
            let count = self.random.below(10);
            let run = Run::short(&mut self.random, count);
            self.every_room(&run);
            self.move_cut_everywhere(&run);
            self.move_damaged_everywhere(&run);
        }
    }
}
