//! The clock of document 01, "Clock", with the distinct times of document 02 (M-106): units of 1/65536 s since NTP era
//! 0, from 0 to 2^48 - 1.

/// The largest time and the largest reading, 2^48 - 1.
pub const LIMIT: u64 = (1 << 48) - 1;
/// Seconds from the start of NTP era 0 (1900) to the start of UNIX time (1970).
const UNIX_EPOCH: u64 = 2_208_988_800;
const UNITS_PER_SECOND: u64 = 65_536;
const LAST_UNIX_SECOND: u64 = 2_085_978_495;
const NANOSECONDS_PER_SECOND: u64 = 1_000_000_000;

const BAD_READING: u32 = 31;
const BAD_UNIX_TIME: u32 = 32;
const BAD_CLOCK: u32 = 33;

/// A clock: its last reading and the last time it issued.
#[derive(Clone, Copy, Debug, PartialEq, Eq)]
pub struct Clock {
    pub reading: u64,
    pub issued: u64,
}

/// What a start or an advance answers: a number (0: accepted), the new clock, the time issued.
#[derive(Clone, Copy, Debug, PartialEq, Eq)]
pub struct Tick {
    pub number: u32,
    pub clock: Clock,
    pub time: u64,
}

impl Tick {
    fn accepted(clock: Clock) -> Tick {
        Tick { number: 0, clock, time: clock.issued }
    }

    fn refused(number: u32, clock: Clock) -> Tick {
        Tick { number, clock, time: 0 }
    }
}

impl Clock {
    /// The clock that starts from a reading, and issues it.
    fn of(reading: u64) -> Clock {
        Clock { reading, issued: reading }
    }

    pub fn start(reading: u64) -> Tick {
        if reading > LIMIT {
            Tick::refused(BAD_READING, Clock::of(0))
        } else {
            Tick::accepted(Clock::of(reading))
        }
    }

    fn is_sound(self) -> bool {
        self.issued >= self.reading && self.issued <= LIMIT
    }

    /// Every reading issues a time above the last, so after 2^48 - 1 there is none to issue.
    pub fn advance(self, reading: u64) -> Tick {
        if !self.is_sound() {
            return Tick::refused(BAD_CLOCK, self);
        }
        if reading > LIMIT || self.issued == LIMIT {
            return Tick::refused(BAD_READING, self);
        }
        let above = self.issued + 1;
        let issued = match reading.checked_sub(self.reading) {
            None => above,
            // of the three the half alone can pass the limit
            Some(passed) => reading.max(self.issued + passed / 2).max(above).min(LIMIT),
        };
        Tick::accepted(Clock { reading, issued })
    }
}

/// UNIX time to units, or the number of the refusal.
pub fn unix(seconds: u64, nanoseconds: u64) -> Result<u64, u32> {
    if seconds > LAST_UNIX_SECOND || nanoseconds >= NANOSECONDS_PER_SECOND {
        return Err(BAD_UNIX_TIME);
    }
    Ok((seconds + UNIX_EPOCH) * UNITS_PER_SECOND + nanoseconds * 128 / 1_953_125)
}

/// The Query Arrival Time of a time: its low 32 bits.
pub fn arrival(time: u64) -> u32 {
    time as u32
}

#[cfg(test)]
mod tests {
    use super::*;
    use crate::rng::Rng;

    fn of(reading: u64, issued: u64) -> Clock {
        Clock { reading, issued }
    }

    #[test]
    fn p6_a_clock_from_1000() {
        let mut clock = Clock::start(1000).clock;
        let issued: Vec<u64> = [1010, 1000, 1004, 1016, 1024]
            .into_iter()
            .map(|reading| {
                let tick = clock.advance(reading);
                assert_eq!(tick.number, 0);
                clock = tick.clock;
                tick.time
            })
            .collect();
        assert_eq!(issued, [1010, 1011, 1013, 1019, 1024]);
    }

    #[test]
    fn p7_unix_0() {
        assert_eq!(unix(0, 0).map(arrival), Ok(2_122_317_824));
    }

    #[test]
    fn p8_the_last_nanosecond() {
        assert_eq!(unix(0, 999_999_999).unwrap() - unix(0, 0).unwrap(), 65_535);
    }

    #[test]
    fn unix_times_at_the_limits() {
        assert_eq!(unix(LAST_UNIX_SECOND, 999_999_999), Ok(LIMIT));
        assert_eq!(unix(LAST_UNIX_SECOND + 1, 0), Err(32));
        assert_eq!(unix(0, 1_000_000_000), Err(32));
    }

    #[test]
    fn refusals_in_order() {
        let refused = |number, reading, issued| Tick { number, clock: of(reading, issued), time: 0 };
        assert_eq!(Clock::start(LIMIT + 1), refused(31, 0, 0));
        assert_eq!(of(2, 1).advance(LIMIT + 1), refused(33, 2, 1));
        assert_eq!(of(2, LIMIT + 1).advance(3), refused(33, 2, LIMIT + 1));
        assert_eq!(of(LIMIT + 1, LIMIT).advance(3), refused(33, LIMIT + 1, LIMIT));
        assert_eq!(of(2, 2).advance(LIMIT + 1), refused(31, 2, 2));
        for reading in [0, 1, 2, 3, LIMIT - 1, LIMIT, LIMIT + 1, u64::MAX] {
            for last in [0, 2, LIMIT] {
                assert_eq!(of(last, LIMIT).advance(reading), refused(31, last, LIMIT));
            }
        }
    }

    #[test]
    fn the_last_time_is_issued_once() {
        assert_eq!(Clock::start(LIMIT), Tick::accepted(of(LIMIT, LIMIT)));
        for reading in [0, 1, LIMIT / 2, LIMIT - 2, LIMIT - 1, LIMIT] {
            for last in [0, LIMIT / 2, LIMIT - 1] {
                let tick = of(last, LIMIT - 1).advance(reading);
                assert_eq!(tick, Tick::accepted(of(reading, LIMIT)));
            }
        }
    }

    #[test]
    fn a_half_stops_at_the_limit() {
        let issued = |reading| of(0, LIMIT - 5).advance(reading).time;
        assert_eq!([9, 10, 11, 12, LIMIT].map(issued), [LIMIT - 1, LIMIT, LIMIT, LIMIT, LIMIT]);
    }

    #[test]
    fn falls_stands_and_small_rises() {
        let issued = |y| [97, 99, 100, 101, 102, 103, 104, 105].map(|t| of(100, y).advance(t).time);
        assert_eq!(issued(100), [101, 101, 101, 101, 102, 103, 104, 105]);
        assert_eq!(issued(101), [102, 102, 102, 102, 102, 103, 104, 105]);
        assert_eq!(issued(102), [103, 103, 103, 103, 103, 103, 104, 105]);
        assert_eq!(issued(109), [110, 110, 110, 110, 110, 110, 111, 111]);
    }

    /// Sound, with a small lead or any, far from the limit or near it.
    fn any_clock(rng: &mut Rng) -> Clock {
        let reading = match rng.below(3) {
            0 => rng.below(100),
            1 => LIMIT - rng.below(100),
            _ => rng.below(LIMIT),
        };
        let lead = if rng.one_in(4) { rng.below(LIMIT) } else { rng.below(30) };
        of(reading, (reading + lead).min(LIMIT))
    }

    /// One that rose by 2 or more in most cases.
    fn any_reading(rng: &mut Rng, last: u64) -> u64 {
        let reading = match rng.below(16) {
            0 => last.saturating_sub(rng.below(40)),
            1 => rng.below(LIMIT),
            2 => last,
            3 => last + 1,
            4 => last + rng.below(1 << 40),
            _ => last + 2 + rng.below(12),
        };
        reading.min(LIMIT)
    }

    /// What is to be proved of any list of readings.
    #[test]
    fn lists_of_readings() {
        let mut rng = Rng::new(106);
        for _ in 0..3000 {
            let mut clock = any_clock(&mut rng);
            let lead = |clock: Clock| clock.issued - clock.reading;
            // where the calls began whose readings all rose by at least 2
            let mut began = clock;
            for _ in 0..40 {
                let reading = any_reading(&mut rng, clock.reading);
                let tick = clock.advance(reading);
                if clock.issued == LIMIT {
                    assert_eq!(tick, Tick::refused(31, clock));
                    break;
                }
                assert_eq!((tick.number, tick.clock), (0, of(reading, tick.time)));
                assert!(tick.time > clock.issued && tick.time >= reading && tick.time <= LIMIT);
                if reading <= clock.reading {
                    assert_eq!(lead(tick.clock), lead(clock) + (clock.reading - reading) + 1);
                    began = tick.clock;
                } else if reading == clock.reading + 1 {
                    assert_eq!(lead(tick.clock), lead(clock));
                    began = tick.clock;
                } else {
                    let risen = reading - began.reading;
                    assert!(2 * lead(tick.clock) <= (2 * lead(began)).saturating_sub(risen));
                }
                clock = tick.clock;
            }
        }
    }
}
