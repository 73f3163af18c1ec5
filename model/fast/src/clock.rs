//! The clock: units of 1/65536 s since NTP era 0.

const LAST: u64 = (1 << 48) - 1;
const UNIX_EPOCH: u64 = 2_208_988_800;
const LAST_UNIX_SECOND: u64 = 2_085_978_495;
const ROOM: u32 = 1;
const READING: u32 = 31;
const STATE: u32 = 33;

pub fn start(reading: u64, out: &mut [u8]) -> u32 {
    let Some(out) = out.first_chunk_mut() else { return ROOM };
    if reading > LAST {
        return READING;
    }
    hand_over(reading, reading, out)
}

pub fn advance(r: u64, y: u64, reading: u64, out: &mut [u8]) -> u32 {
    let Some(out) = out.first_chunk_mut() else { return ROOM };
    // where this wraps to 0 it is not above r; else it tells of y below r, over LAST and at LAST
    let above = y.wrapping_add(1);
    if above <= r || (above | reading) > LAST {
        return refused(r, y);
    }
    // a rise of more than twice the lead: more than half of it goes above y
    if reading + r > 2 * y {
        return hand_over(reading, reading, out);
    }
    let issued = match reading.checked_sub(r + 2) {
        None => above,
        // 1 of the half is in y + 1
        Some(more) => (above + more / 2).min(LAST),
    };
    hand_over(reading, issued, out)
}

#[cold]
fn refused(r: u64, y: u64) -> u32 {
    if y < r || y > LAST {
        STATE
    } else {
        READING
    }
}

#[inline(always)]
fn hand_over(reading: u64, issued: u64, out: &mut [u8; 24]) -> u32 {
    out[..8].copy_from_slice(&reading.to_be_bytes());
    out[8..16].copy_from_slice(&issued.to_be_bytes());
    out[16..].copy_from_slice(&issued.to_be_bytes());
    0
}

/// 0 where it is refused.
pub fn unix(seconds: u64, nanoseconds: u64) -> u64 {
    if seconds > LAST_UNIX_SECOND || nanoseconds > 999_999_999 {
        return 0;
    }
    (seconds + UNIX_EPOCH) * 65_536 + nanoseconds * 128 / 1_953_125
}

pub fn arrival(y: u64) -> u32 {
    y as u32
}

#[cfg(test)]
mod tests {
    use super::*;

    fn issued(r: u64, y: u64, reading: u64) -> (u32, u64) {
        let mut out = [0; 24];
        let number = advance(r, y, reading, &mut out);
        (number, out[16..].iter().fold(0, |time, byte| time << 8 | u64::from(*byte)))
    }

    #[test]
    fn p6_a_lead_is_worked_off_at_half_rate() {
        let (mut r, mut y) = (1000, 1000);
        for (reading, time) in [(1010, 1010), (1000, 1011), (1004, 1013), (1016, 1019), (1024, 1024)] {
            assert_eq!(issued(r, y, reading), (0, time));
            (r, y) = (reading, time);
        }
    }

    #[test]
    fn refusals_in_order() {
        assert_eq!(advance(2, 1, LAST + 1, &mut [0; 23]), 1);
        assert_eq!([issued(2, 1, LAST + 1).0, issued(0, LAST + 1, 0).0, issued(1, 2, LAST + 1).0], [33, 33, 31]);
        assert_eq!([issued(0, u64::MAX, 0).0, issued(u64::MAX, u64::MAX, 0).0, issued(LAST + 1, LAST, 0).0], [33; 3]);
        assert_eq!([0, 1, 2, LAST, LAST + 1].map(|reading| issued(1, LAST, reading)), [(31, 0); 5]);
        assert_eq!(start(LAST + 1, &mut [0; 24]), 31);
    }

    /// The rule as it is said, by numbers that have room for all.
    fn said(r: u64, y: u64, reading: u64) -> (u32, u64) {
        if y < r || y > LAST {
            return (33, 0);
        }
        if reading > LAST || y == LAST {
            return (31, 0);
        }
        let half = reading.checked_sub(r).map_or(0, |passed| passed / 2);
        (0, reading.max(y + half).max(y + 1).min(LAST))
    }

    #[test]
    fn small_numbers_and_edges() {
        let near = |edge: u64| edge - 12..=edge + 3;
        let numbers: Vec<u64> = near(12).chain(near(LAST)).chain([LAST / 2, 1 << 63, u64::MAX - 1, u64::MAX]).collect();
        for r in &numbers {
            for y in &numbers {
                for reading in &numbers {
                    assert_eq!(issued(*r, *y, *reading), said(*r, *y, *reading), "{r} {y} {reading}");
                }
            }
        }
    }

    #[test]
    fn p7_p8_unix_times() {
        assert_eq!(arrival(unix(0, 0)), 2_122_317_824);
        assert_eq!(unix(0, 999_999_999) - unix(0, 0), 65_535);
        assert_eq!(
            [unix(LAST_UNIX_SECOND, 999_999_999), unix(LAST_UNIX_SECOND + 1, 0), unix(0, 1_000_000_000)],
            [LAST, 0, 0]
        );
    }
}
