//! Durations, dates and times as Structured Text writes them. Long ones have
//! the prefix with an L.

const DAY: u64 = 24 * 60 * 60;

fn prefix(short: &str, is_long: bool) -> String {
    format!("{}{short}#", if is_long { "L" } else { "" })
}

/// Milliseconds as days, hours, minutes, seconds and milliseconds; parts that
/// are 0 are left out, but for one.
pub fn duration(milliseconds: i128, is_long: bool) -> String {
    let mut text = prefix("T", is_long);
    if milliseconds < 0 {
        text.push('-');
    }
    let mut rest = milliseconds.unsigned_abs();
    let begin = text.len();
    for (unit, size) in [("d", 86_400_000), ("h", 3_600_000), ("m", 60_000), ("s", 1000), ("ms", 1)] {
        let count = rest / size;
        rest %= size;
        if count > 0 || (unit == "ms" && text.len() == begin) {
            text += &format!("{count}{unit}");
        }
    }
    text
}

/// Seconds of a day as hours, minutes and seconds.
fn clock(seconds: u64) -> String {
    format!("{:02}:{:02}:{:02}", seconds / 3600, seconds / 60 % 60, seconds % 60)
}

/// Milliseconds since midnight.
pub fn time_of_day(milliseconds: u64, is_long: bool) -> String {
    let text = prefix("TOD", is_long) + &clock(milliseconds / 1000);
    match milliseconds % 1000 {
        0 => text,
        rest => format!("{text}.{rest:03}"),
    }
}

/// Year, month and day of a day since the first of January 1970.
fn calendar(day: u64) -> String {
    // Counted from the first of March of the year 0, in eras of 400 years.
    let day = day + 719_468;
    let era = day / 146_097;
    let of_era = day % 146_097;
    let year = (of_era - of_era / 1460 + of_era / 36_524 - of_era / 146_096) / 365;
    let of_year = of_era - (365 * year + year / 4 - year / 100);
    let month = (5 * of_year + 2) / 153;
    let of_month = of_year - (153 * month + 2) / 5 + 1;
    let month = if month < 10 { month + 3 } else { month - 9 };
    let year = 400 * era + year + u64::from(month <= 2);
    format!("{year:04}-{month:02}-{of_month:02}")
}

/// Seconds since the first of January 1970. A date has no part of a day; one
/// that has is shown with it.
pub fn date(seconds: u64, is_long: bool) -> String {
    let text = prefix("D", is_long) + &calendar(seconds / DAY);
    match seconds % DAY {
        0 => text,
        rest => format!("{text}-{}", clock(rest)),
    }
}

pub fn date_and_time(seconds: u64, is_long: bool) -> String {
    prefix("DT", is_long) + &calendar(seconds / DAY) + "-" + &clock(seconds % DAY)
}
