//! Cases of two records laid side by side: the same, different in each way and in all ways, of any
//! counts, with bytes behind either, and refused, the first, the second and both. Then answers of
//! describe and lists that are made up, and indices below, at and past the ends. The answer is known
//! beside that of the reference, but where all is random.

use crate::answers::{Described, Difference, Kind, OLD, WIDE};
use crate::inputs::*;
use crate::{hex, library, reference, Test};

// What was listed of two records; by which number the first was refused, the second, and the first
// where both were; and of two ratios that differ ten times the first's kind plus the second's.
pub const LISTED: &str = "comparing, listed";
pub const FIRST: &str = "comparing, first refused";
pub const SECOND: &str = "comparing, second refused";
pub const BOTH: &str = "comparing, both refused";
pub const KINDS: &str = "comparing, kinds";

/// All that differs, or a refusal's number and place and the record that it is of.
type Comparison = Result<Vec<Difference>, [u32; 3]>;

/// A record that was read to be compared, and the outputs that were lent.
struct ReadRecord {
    described: Described,
    positions: Vec<u64>,
    ratios: Vec<u64>,
}

impl ReadRecord {
    /// The library reads it, so that a comparison is made of its own calls alone.
    fn new(random: &mut Random, record: &[u8]) -> ReadRecord {
        let [mut positions, mut ratios] = [0; 2].map(|_| vec![random.bits(); MOST_POINTS]);
        library::fetch(0, record, &mut positions, &mut ratios);
        ReadRecord {
            described: library::describe(0, record),
            positions,
            ratios,
        }
    }

    fn positions(&self) -> &[u64] {
        &self.positions[..self.described.count as usize]
    }

    fn ratios(&self) -> &[u64] {
        &self.ratios[..self.described.count as usize]
    }
}

/// The kind of a ratio, by what the language says of its value.
fn known_kind(ratio: u64) -> Kind {
    let (value, none) = (f64::from_bits(ratio), Kind::default());
    if value.is_nan() {
        Kind {
            kind: 2,
            bits: ratio,
            ..none
        }
    } else if value.is_infinite() {
        Kind {
            kind: 1,
            negative: u32::from(value < 0.0),
            ..none
        }
    } else {
        Kind { value, ..none }
    }
}

/// A difference that is known.
fn known(what: u32, index: usize, first: u64, second: u64) -> Difference {
    let kinds = [first, second].map(|ratio| match what {
        6 => known_kind(ratio),
        _ => Kind::default(),
    });
    Difference {
        what,
        index: index as u64,
        first,
        second,
        first_kind: kinds[0],
        second_kind: kinds[1],
    }
}

/// The same difference with the records in the other order.
fn swapped(difference: Difference) -> Difference {
    match difference.what {
        7 => difference,
        _ => Difference {
            first: difference.second,
            second: difference.first,
            first_kind: difference.second_kind,
            second_kind: difference.first_kind,
            ..difference
        },
    }
}

/// A run that both forms take, and take still when its positions are changed a little.
fn steady_run(random: &mut Random, count: usize) -> Run {
    let kind = random.below(Ratios::KINDS);
    let mut run = Run::new(random, OLD, kind, count);
    let first = random.below(1 << 40) as u64;
    run.positions = (0..count as u64).map(|n| first + 480 * n).collect();
    run.form = random.pick(&[OLD, WIDE]);
    run
}

// The ways in which a run is changed, as bits of a number.
const RATES_WAY: usize = 1;
const SIDES_WAY: usize = 2;
const COUNTS_WAY: usize = 4;
const FORMS_WAY: usize = 8;
const POSITIONS_WAY: usize = 16;
const RATIOS_WAY: usize = 32;
const ALL_WAYS: usize = 63;

/// A run changed in these ways, and what differs. Of the points that both have at least one is
/// changed, and about one in `often`.
fn changed(random: &mut Random, run: &Run, ways: usize, often: usize) -> (Run, Vec<Difference>) {
    let (mut other, mut list) = (run.clone(), Vec::new());
    let count = run.ratios.len();
    if ways & RATES_WAY != 0 {
        while other.rate == run.rate {
            other.rate = random.pick(&RATES);
        }
        list.push(known(1, 0, run.rate.into(), other.rate.into()));
    }
    if ways & SIDES_WAY != 0 {
        let sides = LAST_SIDE as usize + 1;
        other.side = (run.side + 1 + random.below(sides - 1) as u32) % sides as u32;
        list.push(known(2, 0, run.side.into(), other.side.into()));
    }
    if ways & COUNTS_WAY != 0 && count > 0 {
        let any = random.below(count);
        let less = random.pick(&[any, count - 1]);
        other.positions.truncate(less);
        other.ratios.truncate(less);
        list.push(known(3, 0, count as u64, less as u64));
    }
    if ways & FORMS_WAY != 0 {
        other.form = OLD + WIDE - run.form;
        list.push(known(4, 0, run.form.into(), other.form.into()));
    }
    let both = other.ratios.len();
    let [one_position, one_ratio] = [0; 2].map(|_| random.below(both.max(1)));
    for n in 0..both {
        if ways & POSITIONS_WAY != 0 && (n == one_position || random.one_in(often)) {
            other.positions[n] += 1 + random.below(50) as u64;
            list.push(known(5, n, run.positions[n], other.positions[n]));
        }
        if ways & RATIOS_WAY != 0 && (n == one_ratio || random.one_in(often)) {
            let (bit, any) = (1 << random.below(64), random.bits() | 1);
            other.ratios[n] ^= random.pick(&[bit, bit, 1 << 63, any]);
            list.push(known(6, n, run.ratios[n], other.ratios[n]));
        }
    }
    if both < count {
        list.push(known(7, 0, (count - both) as u64, 0));
    }
    (other, list)
}

/// Ratios of every kind and their neighbours.
const SPECIAL: [u64; 16] = [
    0,
    1 << 63,
    1,
    (1 << 63) + 1,
    (1 << 52) - 1,
    1 << 52,
    0x3ff0 << 48,
    0xbff0 << 48,
    (0x7ff0 << 48) - 1,
    0x7ff0 << 48,
    0xfff0 << 48,
    (0x7ff0 << 48) + 1,
    (0xfff0 << 48) + 1,
    0x7ff8 << 48,
    0xfff8 << 48,
    u64::MAX,
];

impl Test {
    /// Compares two records by the calls, as the header says, and all at once by the reference.
    fn compare(&mut self, first: &[u8], second: &[u8]) -> Comparison {
        for record in [first, second] {
            self.check_and_fetch(0, record, [MOST_POINTS; 2]);
        }
        let [one, other] = [first, second].map(|record| ReadRecord::new(&mut self.random, record));
        let overall = self.compare_overall(one.described, other.described);
        let both = one.positions().len().min(other.positions().len()) as u64;
        let all = one.positions().len().max(other.positions().len()) as u64;
        let mut list = vec![overall.rate, overall.side, overall.count, overall.form];
        for index in 0..both {
            list.push(self.compare_positions(one.positions(), other.positions(), index));
            list.push(self.compare_ratios(one.ratios(), other.ratios(), index));
        }
        list.push(overall.more);
        list.retain(|difference| difference.what != 0);
        let far = both.max(other_number(&mut self.random, all));
        for index in [both, all, all + 1, far, u64::MAX] {
            let position = self.compare_positions(one.positions(), other.positions(), index);
            let ratio = self.compare_ratios(one.ratios(), other.ratios(), index);
            assert_eq!((position.what, ratio.what), (0, 0), "at {index}");
        }

        let what = || format!("comparing {} with {}", hex(first), hex(second));
        let refusals = [one.described.number, other.described.number];
        let mut seen = |what, number| *self.numbers.entry((what, number)).or_default() += 1;
        let found = if overall.number == 0 {
            let records = [
                &first[..one.described.size as usize],
                &second[..other.described.size as usize],
            ];
            let same = records[0] == records[1];
            assert_eq!(list.is_empty(), same, "equal records alone, {}", what());
            for difference in &list {
                seen(LISTED, difference.what);
            }
            Ok(list)
        } else {
            match refusals {
                [number, 0] => seen(FIRST, number),
                [0, number] => seen(SECOND, number),
                [number, _] => seen(BOTH, number),
            }
            assert!(list.is_empty(), "refused, {}", what());
            Err([overall.number, overall.place, overall.which])
        };
        let expected = reference::comparison(first, second);
        assert!(found == expected, "{}: {found:x?}, {expected:x?}", what());
        found
    }

    /// Compares two records whose differences are known, in both orders, with bytes behind some.
    fn known_comparison(&mut self, first: &[u8], second: &[u8], list: &[Difference]) {
        let [first, second] = [first, second].map(|record| {
            let after = self.random.pick(&[0, 0, 1, 5, 60]);
            [record, &self.random.bytes(after)].concat()
        });
        let what = || format!("comparing {} with {}", hex(&first), hex(&second));
        let found = self.compare(&first, &second);
        assert!(found.as_deref() == Ok(list), "{}: {found:x?}", what());
        let list: Vec<Difference> = list.iter().copied().map(swapped).collect();
        let found = self.compare(&second, &first);
        assert!(found == Ok(list), "swapped, {}: {found:x?}", what());
    }

    /// A run beside one that is changed in some ways.
    fn compare_changed(&mut self, run: &Run, ways: usize, often: usize) {
        let (other, list) = changed(&mut self.random, run, ways, often);
        self.known_comparison(&run.record(), &other.record(), &list);
    }

    /// Records that are refused, each by another test or in another field, with number and place.
    fn refused_records(&mut self) -> Vec<(Vec<u8>, [u32; 2])> {
        let run = Run {
            rate: 48_000,
            side: 4,
            form: self.random.pick(&[OLD, WIDE]),
            positions: vec![7; 5],
            ratios: vec![1; 5],
        };
        let (record, fields) = (run.record(), Fields::split(&run.record()));
        let mut at = vec![0];
        for (_, length, _) in &fields.0 {
            at.push(at[at.len() - 1] + 3 + usize::from(*length));
        }
        let mut refused = Vec::new();
        let mut refuse = |record: Vec<u8>, number: u32, place: usize| {
            refused.push((record, [number, place as u32]));
        };
        for (n, (_, length, body)) in fields.0.iter().enumerate() {
            // Cut in the head and in the body; another tag; another length of the fixed ones.
            refuse(record[..at[n] + 2].to_vec(), 10, at[n]);
            refuse(record[..at[n + 1] - 1].to_vec(), 10, at[n]);
            let mut tagged = fields.clone();
            tagged.0[n].0 = 9;
            refuse(tagged.join(), 11, at[n]);
            if n < 3 {
                let mut longer = fields.clone();
                longer.0[n] = (longer.0[n].0, length + 1, [body, &[0][..]].concat());
                refuse(longer.join(), 12, at[n]);
            }
        }
        let with = |tag, body| {
            let mut fields = fields.clone();
            fields.set_body(tag, body);
            fields.join()
        };
        let changed = |tag, last| {
            let mut body = fields.body(tag).to_vec();
            let end = body.len() - 1;
            body[end] = last;
            with(tag, body)
        };
        refuse(changed(RATE, 0), 13, 0);
        refuse(changed(SIDE, 0), 20, at[1]);
        refuse(changed(SIDE, 27), 20, at[1]);
        refuse(with(COUNT, vec![0x10, 1]), 15, at[2]);
        refuse(changed(COUNT, 2), 17, at[3]);
        refuse(changed(COUNT, 4), 18, at[4]);
        // A fill bit, and a place that holds the same ratio as a nearer one.
        refuse(changed(POSITIONS, 1), 17, at[3]);
        refuse(changed(RATIOS, 1), 18, at[4]);
        let mut many = run.in_form(OLD);
        many.positions.resize(WIDE_POINTS + 1, 7);
        many.ratios.resize(WIDE_POINTS + 1, 1);
        let mut wide = Fields::split(&many.record());
        wide.exchange_forms();
        refuse(wide.join(), 15, at[2]);
        refused
    }

    /// Each record that is refused beside a sound one and beside each other one.
    fn refused_comparisons(&mut self) {
        let refused = self.refused_records();
        let sound = Run::short(&mut self.random, 3).record();
        for (record, [number, place]) in &refused {
            let found = self.compare(record, &sound);
            assert_eq!(found, Err([*number, *place, 1]), "{}", hex(record));
            let found = self.compare(&sound, record);
            assert_eq!(found, Err([*number, *place, 2]), "{}", hex(record));
            for (other, _) in &refused {
                let found = self.compare(record, other);
                assert_eq!(found, Err([*number, *place, 1]), "{}", hex(record));
            }
        }
    }

    /// Every two special ratios, at an index below others.
    fn every_two_kinds(&mut self) {
        for first in SPECIAL {
            for second in SPECIAL {
                let lists = [[7, first, 9], [7, second, 8]];
                let found = self.compare_ratios(&lists[0], &lists[1], 1);
                let wanted = if first == second {
                    Difference::default()
                } else {
                    known(6, 1, first, second)
                };
                assert_eq!(found, wanted, "{first:x} with {second:x}");
            }
        }
    }

    /// Lists of every two short lengths, at every index near their ends and at some far ones.
    fn every_two_lengths(&mut self) {
        let (first, second) = ([10, 11, 12, 13, 14], [20, 21, 12, 23, 24]);
        for m in 0..=first.len() {
            for n in 0..=second.len() {
                let far = [1 << 8, 1 << 16, 1 << 32, (1 << 32) + 1, 1 << 61, 1 << 63];
                for index in (0..8).chain(far).chain([u64::MAX - 1, u64::MAX]) {
                    let at = index as usize;
                    // Both have the same number at 2.
                    let differ = at < m.min(n) && at != 2;
                    let wanted = |what| {
                        if differ {
                            known(what, at, first[at], second[at])
                        } else {
                            Difference::default()
                        }
                    };
                    let found = self.compare_positions(&first[..m], &second[..n], index);
                    assert_eq!(found, wanted(5), "{m} and {n} positions at {index}");
                    let found = self.compare_ratios(&first[..m], &second[..n], index);
                    assert_eq!(found, wanted(6), "{m} and {n} ratios at {index}");
                }
            }
        }
    }

    /// Two answers of describe of which any member is made up, and many are the same.
    fn made_up_answers(&mut self) {
        let random = &mut self.random;
        let refused = [10, 11, 12, 13, 14, 15, 16, 17, 18, 20];
        let [number, other] = [0; 2].map(|_| random.pick(&refused));
        let any = random.bits() as u32;
        let numbers = [0, 0, 0, 0, 0, 0, number, other, 1, 1 << 31, u32::MAX, any];
        let few = [0, 1, 3, 5, 26, 4_096, 48_000, any, any ^ 1, u32::MAX];
        let sizes = [0, 46, u64::MAX, random.bits()];
        let [first, second] = [0; 2].map(|_| Described {
            number: random.pick(&numbers),
            place: random.pick(&few),
            rate: random.pick(&few),
            side: random.pick(&few),
            count: random.pick(&few),
            form: random.pick(&few),
            size: random.pick(&sizes),
        });
        self.compare_overall(first, second);
    }

    /// Two lists of any lengths, whose numbers are partly the same, at any index.
    fn made_up_lists(&mut self) {
        let random = &mut self.random;
        let any = [0; 4].map(|_| random.bits());
        let special = [0; 4].map(|_| special_bits(random));
        let [first, second] = [0; 2].map(|_| {
            let number = |_| match random.below(3) {
                0 => random.pick(&any),
                1 => random.pick(&special),
                _ => random.pick(&[0, 1, LAST_POSITION, LAST_POSITION + 1, u64::MAX]),
            };
            (0..12).map(number).collect::<Vec<u64>>()
        });
        let [m, n] = [0; 2].map(|_| random.below(13));
        let (first, second) = (&first[..m], &second[..n]);
        let near = random.below(13) as u64;
        let far = other_number(random, near);
        let index = random.pick(&[near, near, near, far]);
        self.compare_positions(first, second, index);
        self.compare_ratios(first, second, index);
    }

    /// Two records of which one or both are damaged or cut, and with another behind them.
    fn spoiled_comparisons(&mut self, run: &Run) {
        let (other, _) = changed(&mut self.random, run, ALL_WAYS, 4);
        let records = [run.record(), other.record()];
        for _ in 0..6 {
            let [first, second] = [run, &other].map(|run| {
                let mut fields = Fields::split(&run.record());
                for _ in 0..self.random.below(3) {
                    fields.spoil(&mut self.random, run);
                }
                let mut record = fields.join();
                if self.random.one_in(8) {
                    record.truncate(self.random.below(record.len() + 1));
                }
                if self.random.one_in(3) {
                    record.extend(&records[self.random.below(2)]);
                }
                record
            });
            let _ = self.compare(&first, &second);
            let _ = self.compare(&second, &first);
        }
    }

    /// Runs of the greatest lengths of the forms: equal, different in one point or in all, and of
    /// other numbers of points.
    fn long_comparisons(&mut self) {
        let mut runs = Vec::new();
        for count in [WIDE_POINTS, MOST_POINTS] {
            let mut run = steady_run(&mut self.random, count);
            if count > WIDE_POINTS {
                run.form = OLD;
            }
            let (points, forms) = (POSITIONS_WAY | RATIOS_WAY, ALL_WAYS - FORMS_WAY);
            for (ways, often) in [(0, 1), (points, count), (points, 1), (forms, 3)] {
                self.compare_changed(&run, ways, often);
            }
            runs.push(run.record());
        }
        let found = self.compare(&runs[0], &runs[1]);
        let count = known(3, 0, WIDE_POINTS as u64, MOST_POINTS as u64);
        let more = known(7, 0, (MOST_POINTS - WIDE_POINTS) as u64, 0);
        let list = found.unwrap_or_default();
        assert!(
            list.contains(&count) && list.ends_with(&[more]),
            "{list:x?}"
        );
    }

    /// Cases that are the same in every round.
    pub fn comparison_cases(&mut self) {
        self.every_two_kinds();
        self.every_two_lengths();
        for ways in 0..=ALL_WAYS {
            for count in [0, 1, 2, 5, 130] {
                let run = steady_run(&mut self.random, count);
                for often in [1, 5, 1_000] {
                    self.compare_changed(&run, ways, often);
                }
            }
        }
    }

    /// Random cases of comparisons.
    pub fn comparisons(&mut self) {
        for _ in 0..5_000 {
            self.made_up_answers();
            self.made_up_lists();
        }
        self.refused_comparisons();
        for _ in 0..200 {
            let count = self.random.below(12);
            let run = steady_run(&mut self.random, count);
            let ways = self.random.below(ALL_WAYS + 1);
            self.compare_changed(&run, ways, 3);
            self.spoiled_comparisons(&run);
            let [one, other] = [0; 2].map(|_| Run::any(&mut self.random).record());
            let _ = self.compare(&one, &other);
            self.known_comparison(&one, &one, &[]);
        }
        self.long_comparisons();
    }
}
