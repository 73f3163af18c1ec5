//! The cases of the clock. Commands: 1 start (reading), 2 advance (r, y, reading), 3 advance of the
//! clock that the last command handed back (reading), 4 UNIX time (seconds, nanoseconds), 5 arrival
//! time (y). Lines: `start t -> number r y time`, `advance r y t -> number r y time`,
//! `unix s n -> number units`, `arrival y -> time`.

use super::tape::Tape;
use crate::clock::{arrival, unix, Clock, Tick, LIMIT};
use crate::rng::Rng;

const START: u8 = 1;
const ADVANCE: u8 = 2;
const AGAIN: u8 = 3;
const UNIX: u8 = 4;
const ARRIVAL: u8 = 5;

pub fn tape() -> Tape {
    let mut cases = Cases { tape: Tape::default(), held: Clock { reading: 0, issued: 0 } };
    cases.worked_examples();
    cases.edges();
    cases.falls_stands_rises();
    cases.at_the_end();
    cases.until_the_end();
    cases.chains(&mut Rng::new(1));
    cases.random(&mut Rng::new(2));
    cases.tape
}

struct Cases {
    tape: Tape,
    held: Clock,
}

impl Cases {
    fn answer(&mut self, asked: String, tick: Tick) {
        self.held = tick.clock;
        self.tape
            .line(format!("{asked} -> {} {} {} {}", tick.number, tick.clock.reading, tick.clock.issued, tick.time));
    }

    fn start(&mut self, reading: u64) {
        self.tape.numbers(START, &[reading]);
        self.answer(format!("start {reading}"), Clock::start(reading));
    }

    fn advance(&mut self, r: u64, y: u64, reading: u64) {
        self.tape.numbers(ADVANCE, &[r, y, reading]);
        self.advanced(Clock { reading: r, issued: y }, reading);
    }

    /// Advances the clock that was handed back last.
    fn again(&mut self, reading: u64) {
        self.tape.numbers(AGAIN, &[reading]);
        self.advanced(self.held, reading);
    }

    fn advanced(&mut self, clock: Clock, reading: u64) {
        let asked = format!("advance {} {} {reading}", clock.reading, clock.issued);
        self.answer(asked, clock.advance(reading));
    }

    fn unix(&mut self, seconds: u64, nanoseconds: u64) {
        self.tape.numbers(UNIX, &[seconds, nanoseconds]);
        let (number, units) = match unix(seconds, nanoseconds) {
            Ok(units) => (0, units),
            Err(number) => (number, 0),
        };
        self.tape.line(format!("unix {seconds} {nanoseconds} -> {number} {units}"));
    }

    fn arrival(&mut self, y: u64) {
        self.tape.numbers(ARRIVAL, &[y]);
        self.tape.line(format!("arrival {y} -> {}", arrival(y)));
    }

    /// P6, P7 and P8.
    fn worked_examples(&mut self) {
        self.start(1000);
        for reading in [1010, 1000, 1004, 1016, 1024] {
            self.again(reading);
        }
        self.unix(0, 0);
        self.arrival(unix(0, 0).unwrap_or(0));
        self.unix(0, 999_999_999);
    }

    /// Every combination of numbers at the edges.
    fn edges(&mut self) {
        let edges = [0, 1, 2, LIMIT / 2, LIMIT - 2, LIMIT - 1, LIMIT, LIMIT + 1, 1 << 63, u64::MAX - 1, u64::MAX];
        for t in edges {
            self.start(t);
            self.arrival(t);
            for r in edges {
                for y in edges {
                    self.advance(r, y, t);
                }
            }
        }
        for y in [(1 << 32) - 1, 1 << 32, (1 << 32) + 1] {
            self.arrival(y);
        }
        let seconds = [0, 1, 2_085_978_494, 2_085_978_495, 2_085_978_496, 1 << 32, 1 << 48, u64::MAX];
        let nanoseconds = [
            0,
            1,
            15_258,
            15_259,
            999_984_741,
            999_984_742,
            999_999_999,
            1_000_000_000,
            1_000_000_001,
            1 << 57,
            u64::MAX,
        ];
        for s in seconds {
            for n in nanoseconds {
                self.unix(s, n);
            }
        }
    }

    /// Leads of 0 to 9, and readings from 3 below the last one to 12 above.
    fn falls_stands_rises(&mut self) {
        for lead in 0..10 {
            for step in 0..16 {
                self.advance(1000, 1000 + lead, 997 + step);
            }
        }
    }

    /// The last three times as y, with leads of 0 to 9. A rise of 2 or 3 is over the limit where the lead is small, and
    /// half of a rise to the limit passes it where the lead is large.
    fn at_the_end(&mut self) {
        for lead in 0..10 {
            for y in LIMIT - 2..=LIMIT {
                let r = y - lead;
                for reading in [r - 1, r, r + 1, r + 2, r + 3, LIMIT, LIMIT + 1] {
                    self.advance(r, y, reading);
                }
            }
        }
    }

    /// Clocks near the last time, until they have issued it and after.
    fn until_the_end(&mut self) {
        for left in 0..6 {
            for rise in -2..=3 {
                let mut reading = LIMIT - left;
                self.start(reading);
                while self.held.issued < LIMIT {
                    reading = reading.saturating_add_signed(rise).min(LIMIT);
                    self.again(reading);
                }
                for refused in [reading, 0, LIMIT, LIMIT + 1] {
                    self.again(refused);
                }
            }
        }
    }

    /// Clocks handed back go in again.
    fn chains(&mut self, rng: &mut Rng) {
        for _ in 0..40 {
            let mut reading = match rng.below(3) {
                0 => rng.below(100),
                1 => LIMIT - rng.below(100),
                _ => rng.below(LIMIT),
            };
            self.start(reading);
            for _ in 0..30 {
                reading = match rng.below(8) {
                    0 => reading.saturating_sub(rng.below(40)),
                    1 => reading,
                    2 => reading + 1,
                    3 => reading + 2,
                    4 => reading + 3,
                    5 => reading + rng.below(1 << 20),
                    6 => reading.saturating_sub(rng.below(1 << 20)),
                    _ => reading + rng.below(20),
                };
                self.again(reading);
            }
        }
    }

    fn random(&mut self, rng: &mut Rng) {
        for _ in 0..200 {
            let r = rng.below(LIMIT + 1);
            let y = r + rng.below(LIMIT + 1 - r);
            self.advance(r, y, rng.below(LIMIT + 1));
            self.advance(r, y, r.saturating_sub(2) + rng.below(6));
        }
        for _ in 0..200 {
            let mut any = || rng.draw() >> rng.below(64);
            let (r, y, t) = (any(), any(), any());
            self.advance(r, y, t);
        }
        for _ in 0..200 {
            self.unix(rng.below(2_085_978_500), rng.below(1_000_000_100));
            self.arrival(rng.draw());
        }
    }
}
