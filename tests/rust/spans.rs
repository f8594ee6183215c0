//! Cases of spans: any positions and rates, and at every rate, both ways, every remainder that the
//! division can leave. Of these the milliseconds are known beside those of the reference.

use crate::answers::{Span, WIDE};
use crate::inputs::*;
use crate::Test;

// Spans back by their rate, where the division leaves no remainder and where it leaves one.
pub const WHOLE_BACK: &str = "span back, no remainder";
pub const ROUNDED_BACK: &str = "span back, rounded down";

impl Test {
    /// The span of two positions, whose milliseconds are known.
    fn known_span(&mut self, rate: u32, positions: [u64; 2], milliseconds: i64) {
        let span = self.span(rate, &positions);
        let known = Span {
            number: 0,
            place: 0,
            milliseconds,
        };
        assert_eq!(span, known, "span of {positions:?} at {rate}");
    }

    /// At each rate, both ways, the spans of every number of samples up to a second, alone and with
    /// whole seconds beside them. Of some samples forwards those milliseconds count that are over,
    /// and backwards those that are begun; both are counted up from 0 and not divided for.
    pub fn span_cases(&mut self) {
        for rate in RATES {
            let second = u64::from(rate);
            let (mut over, mut begun) = (0, 0);
            for samples in 0..=second {
                over += u64::from((over + 1) * second <= samples * 1_000);
                begun += u64::from(begun * second < samples * 1_000);
                let back = if over == begun {
                    WHOLE_BACK
                } else {
                    ROUNDED_BACK
                };
                let most = ((LAST_POSITION - samples) / second) as usize;
                for seconds in [0, self.random.below(most + 1) as u64] {
                    let far = seconds * second + samples;
                    let from = self.random.below((LAST_POSITION - far) as usize + 1) as u64;
                    let [over, begun] = [over, begun].map(|part| (seconds * 1_000 + part) as i64);
                    self.known_span(rate, [from, from + far], over);
                    self.known_span(rate, [from + far, from], -begun);
                    if far > 0 {
                        *self.numbers.entry((back, rate)).or_default() += 1;
                    }
                }
            }
        }
    }

    /// A span of any positions, some too large, at any rate.
    pub fn spans(&mut self) {
        let random = &mut self.random;
        let any = |random: &mut Random| random.below(LAST_POSITION as usize + 1) as u64;
        let count = match random.below(40) {
            0 => random.pick(&[3_501, 4_095, 4_096, 4_097, 5_000]),
            1..=10 => random.below(20),
            _ => random.below(4),
        };
        let mut rate = random.pick(&RATES);
        let mut positions: Vec<u64> = match random.below(3) {
            0 => (0..count).map(|_| any(random)).collect(),
            1 => any_positions(random, WIDE, count),
            _ => (0..count)
                .map(|_| random.pick(&[0, LAST_POSITION, 1, 1 << 61]))
                .collect(),
        };
        // Close to a whole number of milliseconds, forwards or backwards.
        if count > 1 && random.one_in(2) {
            let whole = random.below(1 << 40) as u64 * u64::from(rate) / 1_000;
            let far = whole + random.below(3) as u64;
            let (first, last) = random.pick(&[(0, far), (far, 0)]);
            positions[0] = first;
            positions[count - 1] = last;
        }
        if count > 0 && random.one_in(4) {
            for _ in 0..1 + random.below(2) {
                let above = LAST_POSITION + random.bits() / 2;
                let choices = [LAST_POSITION + 1, u64::MAX, above, LAST_POSITION];
                positions[random.below(count)] = random.pick(&choices);
            }
        }
        if random.one_in(8) {
            rate = unlisted_rate(random);
        }
        self.span(rate, &positions);
    }
}
