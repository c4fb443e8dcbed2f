//! Dates and times: which integers they may have (01, "Date").

/// Whether year, month and day are a date.
pub fn is_date(year: i64, month: i64, day: i64) -> bool {
    (0..=9999).contains(&year) && (1..=12).contains(&month) && (1..=days(year, month)).contains(&day)
}

/// The days of a month, by the Gregorian leap rule carried back to year 0.
fn days(year: i64, month: i64) -> i64 {
    let leap = year % 4 == 0 && (year % 100 != 0 || year % 400 == 0);
    match month {
        2 if leap => 29,
        2 => 28,
        4 | 6 | 9 | 11 => 30,
        _ => 31,
    }
}

/// Whether hour, minute, second, fraction and zone are a time. The fraction is in milliseconds, or in negated nanoseconds.
pub fn is_time(time: [i64; 5]) -> bool {
    let [hour, minute, second, fraction, zone] = time;
    (0..=23).contains(&hour)
        && (0..=59).contains(&minute)
        && (0..=59).contains(&second)
        && (-999_999_999..=999).contains(&fraction)
        && (0..=2).contains(&zone)
}

/// Whether hours and minutes are an offset.
pub fn is_offset(hours: i64, minutes: i64) -> bool {
    (-18..=18).contains(&hours) && (0..=59).contains(&minutes)
}

#[cfg(test)]
mod tests {
    use super::*;

    #[test]
    fn leap_days() {
        for year in [0, 4, 400, 2000, 2024] {
            assert!(is_date(year, 2, 29));
        }
        for year in [1, 100, 1900, 2023] {
            assert!(!is_date(year, 2, 29));
        }
        assert!(!is_date(2024, 4, 31) && !is_date(10_000, 1, 1) && !is_date(2024, 13, 1));
    }

    #[test]
    fn times() {
        assert!(is_time([23, 59, 59, 999, 2]) && is_time([0, 0, 0, -999_999_999, 0]));
        assert!(!is_time([24, 0, 0, 0, 0]) && !is_time([0, 0, 60, 0, 0]) && !is_time([0, 0, 0, 1000, 0]));
        assert!(is_offset(-18, 59) && !is_offset(-19, 0) && !is_offset(0, -1));
    }
}
