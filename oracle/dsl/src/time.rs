//! Literals of durations, dates and times of day.

use crate::core::SourceSpan;

/// Whether a literal is of a short type (`TIME`) or a long one (`LTIME`).
#[derive(Debug, Clone, Copy, PartialEq)]
pub enum TemporalWidth {
    Short,
    Long,
}

/// A length of time in whole milliseconds: a file leaves out the parts of one.
#[derive(Debug, Clone, PartialEq)]
pub struct Interval {
    pub milliseconds: i128,
}

impl Interval {
    pub fn whole_milliseconds(&self) -> i128 {
        self.milliseconds
    }
}

#[derive(Debug, Clone, PartialEq)]
pub struct DurationLiteral {
    pub interval: Interval,
    pub width: TemporalWidth,
}

impl DurationLiteral {
    pub fn zero(_span: SourceSpan) -> Self {
        DurationLiteral {
            interval: Interval { milliseconds: 0 },
            width: TemporalWidth::Short,
        }
    }

    pub fn with_width(self, width: TemporalWidth) -> Self {
        DurationLiteral { width, ..self }
    }
}

#[derive(Debug, Clone, PartialEq)]
pub struct TimeOfDayLiteral {
    pub milliseconds: u64,
    pub width: TemporalWidth,
}

impl TimeOfDayLiteral {
    pub fn midnight() -> Self {
        TimeOfDayLiteral {
            milliseconds: 0,
            width: TemporalWidth::Short,
        }
    }

    pub fn with_width(self, width: TemporalWidth) -> Self {
        TimeOfDayLiteral { width, ..self }
    }

    pub fn whole_milliseconds(&self) -> u64 {
        self.milliseconds
    }
}

#[derive(Debug, Clone, PartialEq)]
pub struct DateLiteral {
    pub seconds: u64,
    pub width: TemporalWidth,
}

impl DateLiteral {
    pub fn epoch() -> Self {
        DateLiteral {
            seconds: 0,
            width: TemporalWidth::Short,
        }
    }

    pub fn with_width(self, width: TemporalWidth) -> Self {
        DateLiteral { width, ..self }
    }

    pub fn seconds_since_epoch(&self) -> u64 {
        self.seconds
    }
}

#[derive(Debug, Clone, PartialEq)]
pub struct DateAndTimeLiteral {
    pub seconds: u64,
    pub width: TemporalWidth,
}

impl DateAndTimeLiteral {
    pub fn epoch() -> Self {
        DateAndTimeLiteral {
            seconds: 0,
            width: TemporalWidth::Short,
        }
    }

    pub fn with_width(self, width: TemporalWidth) -> Self {
        DateAndTimeLiteral { width, ..self }
    }

    pub fn seconds_since_epoch(&self) -> u64 {
        self.seconds
    }
}
