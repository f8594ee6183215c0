//! Check and fetch. Each input is checked, by one number and in full, and fetched, and what both
//! answer is compared with each other and with what they answer when other bytes follow. Then cases
//! whose answer is known beside that of the reference: the order of the tests, rooms of every length,
//! and the largest sizes and places.

use crate::answers::{Described, Fetched, OLD, WIDE};
use crate::inputs::*;
use crate::{hex, library, reference, Test};

type Check = fn(u32, &[u8]) -> (u32, Described);
type Fetch = fn(u32, &[u8], &mut [u64], &mut [u64]) -> Fetched;

/// What check gave where fetch was refused by 16.
pub const BESIDE_16: &str = "check, beside 16 of fetch";

/// Of so many inputs, one is tried again with other bytes behind it.
const FOLLOWED: usize = 8;

/// What check, in full, and fetch answer of an input.
#[derive(Clone, Copy, Debug, PartialEq)]
pub struct Pair {
    pub described: Described,
    pub fetched: Fetched,
}

fn reference_check(expected: u32, record: &[u8]) -> (u32, Described) {
    let described = reference::describe(expected, record);
    (reference::one_number(described), described)
}

fn library_check(expected: u32, record: &[u8]) -> (u32, Described) {
    let number = library::check(expected, record);
    (number, library::describe(expected, record))
}

impl Test {
    /// Checks an input by one number and in full; both say the same.
    pub fn check(&mut self, expected: u32, record: &[u8]) -> Described {
        let (number, described) = self.case::<Check, _>(
            "check",
            || format!("expected {expected:x} record {}", hex(record)),
            |check| check(expected, record),
            [reference_check, library_check],
            |outcome| outcome.1.number,
        );
        let said = match (number / 65_536, number % 65_536) {
            (0, size) => (0, 0, u64::from(size)),
            (number, place) => (number, place, 0),
        };
        let in_full = (described.number, described.place, described.size);
        assert_eq!(said, in_full, "{number} for {}", hex(record));
        assert_ne!(described.number, 16, "check is lent no output");
        described
    }

    /// Fetches into outputs of some rooms: zeros on a refusal, and else kept past the points.
    fn fetch(&mut self, expected: u32, record: &[u8], rooms: [usize; 2]) -> Fetched {
        let memory = rooms.map(|room| self.random.memory::<u64>(room));
        let (fetched, positions, ratios) = self.case::<Fetch, _>(
            "fetch",
            || {
                let outputs = format!("rooms {rooms:?} memory {memory:x?}");
                format!("expected {expected:x} record {} {outputs}", hex(record))
            },
            |fetch| {
                let [mut positions, mut ratios] = memory.clone();
                let fetched = fetch(expected, record, lent(&mut positions), lent(&mut ratios));
                (fetched, positions, ratios)
            },
            [reference::fetch, library::fetch],
            |outcome| outcome.0.number,
        );
        for (mut before, mut after) in memory.into_iter().zip([positions, ratios]) {
            let (before, after) = (lent(&mut before), lent(&mut after));
            let good = match (fetched.number, fetched.count as usize) {
                (0, count) => after[count..] == before[count..],
                (_, count) => count == 0 && after.iter().all(|&number| number == 0),
            };
            assert!(good, "{fetched:?}, {after:x?} for {}", hex(record));
        }
        fetched
    }

    /// Checks and fetches: both give the same refusal, but for 16, which is fetch's alone and comes
    /// straight after 15 of the count.
    fn pair(&mut self, expected: u32, record: &[u8], rooms: [usize; 2]) -> Pair {
        let described = self.check(expected, record);
        let fetched = self.fetch(expected, record, rooms);
        let (front, room) = (Front::of(record), rooms[0].min(rooms[1]));
        let what = || format!("{described:?}, {fetched:?} for {}", hex(record));
        if fetched.number == 16 {
            let place = fetched.place;
            assert_eq!(place as usize, front.count_at, "{}", what());
            assert!(room < front.count, "{}", what());
            // What check finds is none of the tests before 16.
            let behind = described.number == 0
                || described.place > place
                || (described.number, described.place) == (15, place) && front.tag == WIDE;
            assert!(behind && front.count <= MOST_POINTS, "{}", what());
            let seen = self.numbers.entry((BESIDE_16, described.number));
            *seen.or_default() += 1;
        } else {
            let [of_check, of_fetch] = [
                (described.number, described.place, described.count),
                (fetched.number, fetched.place, fetched.count),
            ];
            assert_eq!(of_check, of_fetch, "{}", what());
            assert!(room >= fetched.count as usize, "{}", what());
        }
        Pair { described, fetched }
    }

    /// Checks and fetches an input, and for some again with other bytes behind it.
    pub fn check_and_fetch(&mut self, expected: u32, record: &[u8], rooms: [usize; 2]) -> Pair {
        let pair = self.pair(expected, record, rooms);
        if self.random.one_in(FOLLOWED) {
            self.followed(expected, record, rooms, pair);
        }
        pair
    }

    /// Bytes that follow a record change no answer, nor do bytes that follow an input in which
    /// something else is wrong than that it ends too early.
    fn followed(&mut self, expected: u32, record: &[u8], rooms: [usize; 2], pair: Pair) {
        let alone = match pair.described.number {
            0 => &record[..pair.described.size as usize],
            10 => return,
            _ => record,
        };
        let length = self.random.pick(&[1, 3, 60]);
        let after = self.random.bytes(length);
        let after = self.random.pick(&[&after[..], &[0; 4], record]);
        for bytes in [alone, &[alone, after].concat()] {
            let again = self.pair(expected, bytes, rooms);
            assert_eq!(again, pair, "{} with others behind", hex(alone));
        }
    }

    /// Records that break any of the tests of check and fetch in a form, and several at once: the
    /// first in the order of the tests counts, and check has no test of the room.
    fn tests_of_reading(&mut self, form: u32) {
        const AT: usize = 16;
        const OF_ROOM: usize = 4;
        let [few, many] = [5, WIDE_POINTS + 1].map(|count| {
            let run = Run {
                rate: 48_000,
                side: 4,
                form: OLD,
                positions: vec![7; count],
                ratios: vec![1; count],
            };
            (Fields::split(&run.record()), count)
        });
        for broken in 0..1 << 12 {
            // The eighth, of the count by the form, is broken by wide records alone.
            let breaks = |test: usize| broken >> test & 1 == 1 && (test, form) != (7, OLD);
            let (mut fields, count) = if breaks(7) { many.clone() } else { few.clone() };
            let ratios_at = AT + 3 + fields.0[3].2.len();
            if breaks(0) {
                fields.set_body(RATE, 48_001_u32.to_be_bytes().to_vec());
            }
            let expected = if breaks(1) { 96_000 } else { 48_000 };
            if breaks(2) {
                fields.set_body(SIDE, vec![27]);
            }
            if breaks(3) {
                fields.set_body(COUNT, 4_097_u16.to_be_bytes().to_vec());
            }
            let short = count - usize::from(breaks(OF_ROOM));
            let rooms = self
                .random
                .pick(&[[short, count], [count, short], [short, short]]);
            // Steps of 0 have the same code in both forms, so that the tag makes the form.
            fields.0[3].0 = if breaks(6) { 9 } else { form as u8 };
            if breaks(9) {
                // A fill bit.
                fields.0[3].2[ratios_at - AT - 4] |= 1;
            }
            if breaks(10) {
                fields.0[4].0 = 9;
            }
            if breaks(11) {
                // A place that holds the same ratio as a nearer one: an open form.
                fields.0[4].2[8 + count - 1] = 1;
            }
            let mut record = fields.join();
            if breaks(5) {
                record.truncate(AT + self.random.below(3));
            } else if breaks(8) {
                record.truncate(AT + 3 + self.random.below(ratios_at - AT - 3));
            }

            let tests = [
                (13, 0),
                (14, 0),
                (20, 7),
                (15, 11),
                (16, 11),
                (10, AT),
                (11, AT),
                (15, 11),
                (10, AT),
                (17, AT),
                (11, ratios_at),
                (18, ratios_at),
            ];
            let first = |tests_of: fn(&usize) -> bool| {
                let mut all = (0..tests.len()).filter(tests_of);
                let found = all.find(|&test| breaks(test));
                found.map_or((0, 0), |test| tests[test])
            };
            let Pair { described, fetched } = self.pair(expected, &record, rooms);
            let found = (described.number, described.place as usize);
            assert_eq!(found, first(|&test| test != OF_ROOM), "{}", hex(&record));
            let found = (fetched.number, fetched.place as usize);
            assert_eq!(found, first(|_| true), "{rooms:?} for {}", hex(&record));
        }
    }

    /// Fetches a sound record with every two rooms around its count: 16 where one is too short, and
    /// check takes it all the while.
    fn every_two_rooms(&mut self, run: &Run) {
        let (record, count) = (run.record(), run.ratios.len());
        let count_at = Front::of(&record).count_at as u32;
        for rooms in (0..count + 3).flat_map(|room| (0..count + 3).map(move |other| [room, other]))
        {
            let Pair { described, fetched } = self.check_and_fetch(run.rate, &record, rooms);
            let wanted = Described {
                number: 0,
                place: 0,
                rate: run.rate,
                side: run.side,
                count: count as u32,
                form: if run.form == WIDE { WIDE } else { OLD },
                size: record.len() as u64,
            };
            assert_eq!(described, wanted, "{}", hex(&record));
            let [number, place, fetched_count] = if rooms[0].min(rooms[1]) < count {
                [16, count_at, 0]
            } else {
                [0, 0, wanted.count]
            };
            let found = [fetched.number, fetched.place, fetched.count];
            assert_eq!(found, [number, place, fetched_count], "{rooms:?}");
        }
    }

    /// The number that check answers to C is known.
    fn known_number(&mut self, record: &[u8], number: u32) {
        let rooms = [MOST_POINTS; 2];
        self.check_and_fetch(0, record, rooms);
        assert_eq!(library::check(0, record), number, "{}", hex(record));
    }

    /// The smallest records and the longest, whole and with a fault in the ratios' field, whose place
    /// is then the largest.
    fn ends_of_numbers(&mut self) {
        for (side, form, size, place) in [
            (0, OLD, 55_321, 18_454),
            (LAST_SIDE, OLD, 55_325, 18_458),
            (0, WIDE, 61_705, 30_202),
            (LAST_SIDE, WIDE, LONGEST_RECORD, 30_206),
        ] {
            let most = most_points(form);
            let far = if form == WIDE { LAST_POSITION } else { 5_000 };
            let run = Run {
                rate: 44_100,
                side,
                form,
                positions: (0..most as u64).map(|n| n % 2 * far).collect(),
                ratios: (0..most as u64)
                    .map(|n| n % 128 * ((1 << 56) + 1))
                    .collect(),
            };
            let record = run.record();
            assert_eq!(record.len(), size, "a shorter record than the longest");
            self.known_number(&record, size as u32);
            self.known_number(&[&record[..], &record].concat()[..65_536], size as u32);
            self.known_number(&record[..size - 1], 10 << 16 | place);
            let mut damaged = record.clone();
            damaged[place as usize] = 5;
            self.known_number(&damaged, 11 << 16 | place);
            damaged[place as usize] = RATIOS;
            // A reference to no place.
            damaged[place as usize + 3] = 0;
            self.known_number(&damaged, 18 << 16 | place);

            let none = Run {
                positions: Vec::new(),
                ratios: Vec::new(),
                ..run
            };
            let (record, least) = (none.record(), if side == 0 { 18 } else { 22 });
            assert_eq!(record.len(), least, "a record of no points");
            self.known_number(&record, least as u32);
            self.known_number(&[&record[..], &damaged].concat(), least as u32);
            self.known_number(&record[..least - 1], 10 << 16 | (least as u32 - 3));
        }
        self.known_number(&[], 10 << 16);
    }

    /// Cases that are the same in every round.
    pub fn check_cases(&mut self) {
        for form in [OLD, WIDE] {
            self.tests_of_reading(form);
        }
        self.ends_of_numbers();
    }

    /// Random cases of check and fetch.
    pub fn checks(&mut self) {
        for _ in 0..20 {
            let count = self.random.below(7);
            let run = Run::short(&mut self.random, count);
            self.every_two_rooms(&run);
        }
    }
}
