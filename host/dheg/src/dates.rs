//! QL dates: seconds since 1961-01-01 00:00:00, in 32 bits.

use std::time::SystemTime;

const FIRST_YEAR: u32 = 1961;

const DAY: u32 = 86_400;

/// Seconds from the start of QL dates to 1970, where the system clock's begin.
const TO_1970: u64 = 3_287 * DAY as u64;

/// How a date is written; a 0 stands for any digit.
const PATTERN: &str = "0000-00-00 00:00:00";

/// A date as text.
pub fn shown(date: u32) -> String {
    let (year, month, day) = calendar(date / DAY);
    let second = date % DAY;
    format!(
        "{year:04}-{month:02}-{day:02} {:02}:{:02}:{:02}",
        second / 3600,
        second / 60 % 60,
        second % 60
    )
}

/// A date from the command line: `now`, seconds, or what `shown` gives.
pub fn parse(text: &str) -> Result<u32, String> {
    let date = match text {
        "now" => now(),
        _ if text.bytes().all(|byte| byte.is_ascii_digit()) => text.parse().ok(),
        _ => fields(text).and_then(seconds),
    };
    date.ok_or_else(|| {
        format!(
            "{text} is not a date from {} to {}, nor its seconds, nor now",
            shown(0),
            shown(u32::MAX)
        )
    })
}

/// The system clock's time, which is UTC; none where no date can hold it.
fn now() -> Option<u32> {
    let passed = SystemTime::now()
        .duration_since(SystemTime::UNIX_EPOCH)
        .ok()?;
    u32::try_from(passed.as_secs().checked_add(TO_1970)?).ok()
}

/// The six numbers of a text that follows the pattern.
fn fields(text: &str) -> Option<[u32; 6]> {
    if text.len() != PATTERN.len() {
        return None;
    }
    let mut done = Vec::new();
    let mut field = 0;
    for (byte, form) in text.bytes().zip(PATTERN.bytes()) {
        if form == b'0' {
            field = field * 10 + char::from(byte).to_digit(10)?;
        } else if byte == form {
            done.push(field);
            field = 0;
        } else {
            return None;
        }
    }
    done.push(field);
    done.try_into().ok()
}

/// The seconds up to this time, if there is such a time and it has a date.
fn seconds([year, month, day, hour, minute, second]: [u32; 6]) -> Option<u32> {
    let exists = year >= FIRST_YEAR
        && (1..=12).contains(&month)
        && (1..=month_days(year, month)).contains(&day)
        && hour < 24
        && minute < 60
        && second < 60;
    if !exists {
        return None;
    }
    let years: u32 = (FIRST_YEAR..year).map(year_days).sum();
    let months: u32 = (1..month).map(|month| month_days(year, month)).sum();
    let days = years + months + day - 1;
    let in_day = hour * 3600 + minute * 60 + second;
    u32::try_from(u64::from(days) * u64::from(DAY) + u64::from(in_day)).ok()
}

/// Year, month and day, so many days after the first.
fn calendar(mut days: u32) -> (u32, u32, u32) {
    let mut year = FIRST_YEAR;
    while days >= year_days(year) {
        days -= year_days(year);
        year += 1;
    }
    let mut month = 1;
    while days >= month_days(year, month) {
        days -= month_days(year, month);
        month += 1;
    }
    (year, month, days + 1)
}

fn leap(year: u32) -> bool {
    match (year % 4, year % 100, year % 400) {
        (_, _, 0) => true,
        (_, 0, _) => false,
        (by_four, _, _) => by_four == 0,
    }
}

fn year_days(year: u32) -> u32 {
    365 + u32::from(leap(year))
}

fn month_days(year: u32, month: u32) -> u32 {
    match month {
        2 => 28 + u32::from(leap(year)),
        4 | 6 | 9 | 11 => 30,
        _ => 31,
    }
}

#[cfg(test)]
mod tests {
    use super::*;

    fn parsed(text: &str) -> Option<u32> {
        parse(text).ok()
    }

    #[test]
    fn known_dates() {
        for (date, text) in [
            (0, "1961-01-01 00:00:00"),
            (59, "1961-01-01 00:00:59"),
            (86_399, "1961-01-01 23:59:59"),
            (86_400, "1961-01-02 00:00:00"),
            (283_996_800, "1970-01-01 00:00:00"),
            (730_944_000, "1984-03-01 00:00:00"),
            (730_943_999, "1984-02-29 23:59:59"),
            (1_235_836_800, "2000-02-29 16:00:00"),
            (u32::MAX, "2097-02-06 06:28:15"),
        ] {
            assert_eq!(shown(date), text);
            assert_eq!(parsed(text), Some(date));
            assert_eq!(parsed(&date.to_string()), Some(date));
        }
    }

    #[test]
    fn every_day_comes_back() {
        for day in 0..=u32::MAX / DAY {
            let date = day * DAY + day % 1000;
            assert_eq!(parsed(&shown(date)), Some(date));
        }
    }

    #[test]
    fn no_dates() {
        for text in [
            "",
            "4294967296",
            "-1",
            "+1",
            "1e3",
            "yesterday",
            "1960-12-31 23:59:59",
            "2097-02-06 06:28:16",
            "9999-12-31 23:59:59",
            "1984-00-01 00:00:00",
            "1984-13-01 00:00:00",
            "1984-01-00 00:00:00",
            "1983-02-29 00:00:00",
            "1984-04-31 00:00:00",
            "1984-01-01 24:00:00",
            "1984-01-01 00:60:00",
            "1984-01-01 00:00:60",
            "1984-01-01T00:00:00",
            "1984-01-01 00:00",
            "1984-01-01",
            "1984-1-1 0:00:00000",
            "1984-01-01 00:00:0\u{E9}",
        ] {
            assert_eq!(parsed(text), None, "{text}");
        }
    }

    #[test]
    fn the_clock() {
        // This test is younger than that.
        assert!(parsed("now") > parsed("2024-01-01 00:00:00"));
    }
}
