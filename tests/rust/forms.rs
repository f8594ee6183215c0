//! Cases of the two forms of a record: steps laid by hand in every row, counts around the limits,
//! tags exchanged, records joined, numbers that name a form. The answer is known beside that of
//! the reference where it says so.

use crate::answers::{OLD, WIDE};
use crate::inputs::*;
use crate::Test;

/// Steps of 64 bits that no two positions have.
const NO_STEPS: [i64; 3] = [i64::MIN, i64::MIN + 1, i64::MAX];

/// The step that the bits mean which a row of a form has for a step.
fn meant(form: u32, row: usize, step: i64) -> i64 {
    let (_, _, width) = rows(form)[row];
    if width == 0 || width == 64 {
        return if width == 0 { 0 } else { step };
    }
    let low = step & ((1 << width) - 1);
    if low > 1 << (width - 1) {
        low - (1 << width)
    } else {
        low
    }
}

/// Whether the tables of both forms have the same codes for the steps of these positions.
fn coded_alike(positions: &[u64]) -> bool {
    positions.windows(3).all(|three| {
        let [before, last, position] = [0, 1, 2].map(|n| three[n] as i64);
        first_row((position - last) - (last - before)) < 4
    })
}

impl Test {
    /// Reads three positions, the third laid by hand in a row of a form. It is known whether they
    /// are sound: the row is the first for what its bits mean, and that leads to a position.
    fn laid_step(&mut self, form: u32, [first, second]: [u64; 2], row: usize, step: i64) {
        let mut bits = Bits::default();
        bits.lay(first as i64, 64);
        bits.lay(second as i64, 64);
        bits.lay_step(form, row, step);
        let side = any_side(&mut self.random);
        let ratios = vec![255, 0, 0, 0, 0, 0, 0, 0, 7, 0, 0];
        let fields = Fields::new(48_000, side as u8, 3, form as u8, bits.bytes(), ratios);
        let record = fields.join();
        let described = self.read(0, &record, [3, 3]).described;

        let meant = meant(form, row, step);
        let third = 2 * i128::from(second) - i128::from(first) + i128::from(meant);
        let place = if side == 0 { 12 } else { 16 };
        let wanted = match u64::try_from(third) {
            Ok(third) if third <= LAST_POSITION && row == first_row(meant) => {
                let run = Run {
                    rate: 48_000,
                    side,
                    form,
                    positions: vec![first, second, third],
                    ratios: vec![7; 3],
                };
                assert_eq!(run.record(), record, "a step that is written otherwise");
                self.write(&run, record.len());
                (0, 0, form)
            }
            _ => (17, place, 0),
        };
        let found = (described.number, described.place, described.form);
        assert_eq!(found, wanted, "step {step} in row {row} of form {form}");
    }

    /// Lays a step in a row of each form from one on.
    fn laid_from(&mut self, least: usize, before: [u64; 2], step: i64) {
        for form in [OLD, WIDE] {
            for row in least..rows(form).len() {
                self.laid_step(form, before, row, step);
            }
        }
    }

    /// Every step at a bound of a row, between several positions that have it.
    fn edge_steps(&mut self) {
        for step in EDGE_STEPS.into_iter().chain(RAW_STEPS) {
            for _ in 0..3 {
                let [first, second, third] = with_step(&mut self.random, step);
                self.laid_from(0, [first, second], step);
                for form in [OLD, WIDE] {
                    let run = Run {
                        rate: 192_000,
                        side: any_side(&mut self.random),
                        form,
                        positions: vec![first, second, third],
                        ratios: vec![0, 1, 0],
                    };
                    let written = self.write(&run, 100);
                    let held = first_row(step) < rows(form).len();
                    let wanted = if held { (0, 0) } else { (5, 2) };
                    assert_eq!((written.number, written.place), wanted, "step {step}");
                }
            }
        }
    }

    /// Steps after positions at the bounds that lead to the bounds, next to them and far outside,
    /// where sums need more than 64 bits; and every other step at a bound of a row.
    fn steps_at_bounds(&mut self) {
        let top = i128::from(LAST_POSITION);
        let least = i128::from(i64::MIN);
        let bounds = [0, 1, 1 << 61, LAST_POSITION - 1, LAST_POSITION];
        for first in bounds {
            for second in bounds {
                let straight = 2 * i128::from(second) - i128::from(first);
                let around = |position: i128| [position - 1, position, position + 1];
                let to = [0, top, least, -least].into_iter().flat_map(around);
                let to = to.filter_map(|third| i64::try_from(third - straight).ok());
                let steps = EDGE_STEPS.into_iter().chain(RAW_STEPS).chain(NO_STEPS);
                for step in to.chain(steps) {
                    self.laid_from(first_row(step), [first, second], step);
                }
            }
        }
    }

    /// The first position and the last in turn, whose steps are the farthest.
    fn back_and_forth(&mut self) {
        for count in [3, 4, 5, 40] {
            for start in [0, 1] {
                let mut run = Run::new(&mut self.random, WIDE, 0, count);
                let turn = |n: u64| (start + n) % 2 * LAST_POSITION;
                run.positions = (0..count as u64).map(turn).collect();
                self.write_and_read(&run);
                self.cut_everywhere(&run);
                self.damage_everywhere(&run, 4, 1);
                let written = self.write(&run.in_form(OLD), LONGEST_RECORD);
                assert_eq!((written.number, written.place), (5, 2));
            }
        }
    }

    /// The longest wide records: each step takes 69 bits, and each ratio nine bytes.
    fn longest_wide_record(&mut self) {
        for (side, length) in [(0, 61_705), (LAST_SIDE, LONGEST_RECORD)] {
            let points = 0..WIDE_POINTS as u64;
            let run = Run {
                rate: 44_100,
                side,
                form: WIDE,
                positions: points.clone().map(|n| n % 2 * LAST_POSITION).collect(),
                ratios: points.map(|n| n % 128 * ((1 << 56) + 1)).collect(),
            };
            let record = run.record();
            assert_eq!(record.len(), length);
            assert_eq!(Fields::split(&record).body(POSITIONS).len(), 30_187);
            for room in [length, length - 1] {
                self.write(&run, room);
            }
            let rooms = [WIDE_POINTS, WIDE_POINTS];
            self.read(0, &record, rooms);
            self.read(0, &record[..length - 1], rooms);
            self.read(0, &[&record[..], &record].concat(), rooms);
        }
    }

    /// Counts around the limits of both forms, with the forms' tags and others, behind which the
    /// bytes end, are no coding, or are sound. The answer is known.
    fn limits(&mut self) {
        for count in [3_499, 3_500, 3_501, 4_095, 4_096, 4_097] {
            for side in [0, 4] {
                for tag in [POSITIONS, WIDE_POSITIONS, 0, 1, 2, 4, 6, 7, 9, 255] {
                    self.limit(count, side, tag);
                }
            }
        }
    }

    fn limit(&mut self, count: usize, side: u8, tag: u8) {
        // All positions are 0, and all ratios the same; the last fill bit may be 1.
        let [sound, dirty] = [0, 1].map(|fill| {
            let mut positions = vec![0; 16 + (count - 2) / 8];
            positions.push(fill);
            let ratios = [&[255][..], &[0; 8], &vec![0; count - 1]].concat();
            Fields::new(88_200, side, count as u16, tag, positions, ratios).join()
        });

        let count_at = if side == 0 { 7 } else { 11 };
        let at = count_at + 5;
        // What the bytes from the positions' field on are refused by, if by nothing before it.
        let behind = [
            (&sound[..at], 10),
            (&sound[..at + 1], 10),
            (&sound[..at + 2], 10),
            (&sound[..at + 3], 10),
            (&sound[..at + 100], 10),
            (&dirty[..], 17),
            (&sound[..], 0),
        ];
        let rooms = [
            [count, count],
            [count - 1, count],
            [count, count - 1],
            [3_000, 0],
        ];
        for (record, refusal) in behind {
            for rooms in rooms {
                // Check, then fetch with these rooms.
                let [checked, fetched] = [[count, count], rooms].map(|rooms| {
                    if count > MOST_POINTS {
                        (15, count_at)
                    } else if rooms != [count, count] {
                        (16, count_at)
                    } else if record.len() < at + 3 {
                        (10, at)
                    } else if tag != POSITIONS && tag != WIDE_POSITIONS {
                        (11, at)
                    } else if tag == WIDE_POSITIONS && count > WIDE_POINTS {
                        (15, count_at)
                    } else if refusal != 0 {
                        (refusal, at)
                    } else {
                        (0, 0)
                    }
                });
                let form = if checked == (0, 0) { tag } else { 0 };
                let pair = self.read(0, record, rooms);
                let what = format!("count {count}, side {side}, tag {tag}, room {rooms:?}");
                let found = (pair.described.number, pair.described.place as usize);
                assert_eq!(found, checked, "{what}");
                assert_eq!(pair.described.form, u32::from(form), "{what}");
                let found = (pair.fetched.number, pair.fetched.place as usize);
                assert_eq!(found, fetched, "{what}");
            }
            self.move_at_limit(record, count, tag, refusal);
        }
    }

    /// Every number but the one of the wide form names the old form.
    fn form_numbers(&mut self) {
        let run = Run::new(&mut self.random, OLD, 0, 3);
        let step = self.random.pick(&RAW_STEPS);
        let mut paused = run.clone();
        paused.positions = with_step(&mut self.random, step).to_vec();
        let record = run.record();
        for number in OTHER_FORMS {
            assert_eq!(run.in_form(number).record(), record);
            self.write(&run.in_form(number), record.len());
            let written = self.write(&paused.in_form(number), 100);
            assert_eq!((written.number, written.place), (5, 2), "form {number}");
        }
        self.write(&paused.in_form(WIDE), 100);
    }

    /// A record with the tag of the other form is one of that form where both code it alike, and
    /// else mostly none.
    fn exchanged(&mut self, run: &Run) {
        let mut fields = Fields::split(&run.record());
        fields.exchange_forms();
        let record = fields.join();
        let count = run.ratios.len();
        let described = self.read(0, &record, [count, count]).described;
        if coded_alike(&run.positions) {
            let form = if run.form == WIDE { OLD } else { WIDE };
            let found = (described.number, described.form, described.size);
            assert_eq!(found, (0, form, record.len() as u64), "{run:x?}");
        }
        self.read_in_many_ways(&record, run);
    }

    /// Joined records of both forms are read one after the other, each in its form.
    fn joined(&mut self) {
        let mut runs = Vec::new();
        for _ in 0..1 + self.random.below(4) {
            let count = self.random.below(6);
            let run = Run::short(&mut self.random, count);
            if self.random.one_in(2) {
                runs.push(run.in_form(WIDE));
            }
            runs.push(run);
        }
        if self.random.one_in(2) {
            runs.reverse();
        }
        let joined: Vec<u8> = runs.iter().flat_map(Run::record).collect();
        let mut rest = &joined[..];
        for run in &runs {
            let (length, count) = (run.record().len(), run.ratios.len());
            let form = if run.form == WIDE { WIDE } else { OLD };
            let described = self.read(0, rest, [count, count]).described;
            let found = (described.number, described.form, described.size);
            assert_eq!(found, (0, form, length as u64), "{run:x?}");
            rest = &rest[length..];
        }
        assert!(rest.is_empty(), "bytes behind the last record");
    }

    /// Cases that are the same in every round.
    pub fn form_cases(&mut self) {
        self.limits();
        self.steps_at_bounds();
        self.back_and_forth();
        self.longest_wide_record();
    }

    /// Random cases of both forms.
    pub fn forms(&mut self) {
        self.edge_steps();
        for _ in 0..20 {
            self.form_numbers();
        }
        for _ in 0..300 {
            let count = self.random.below(12);
            let run = Run::short(&mut self.random, count);
            self.exchanged(&run);
            self.joined();
        }
    }
}
