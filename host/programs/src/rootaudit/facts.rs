//! When an audit was made, and of which file: what makes a page or a line of JSON a document of its own.

use super::stamp::Stamp;
use std::time::{Duration, SystemTime, UNIX_EPOCH};

#[derive(Clone, Copy, Debug)]
pub struct Facts {
    pub when: SystemTime,
    /// Of a file that was audited.
    pub stamp: Option<Stamp>,
    /// Whether `--read` was given, and whether every byte was fetched.
    pub read: bool,
    pub fetched: bool,
}

impl Facts {
    /// Those of an audit that is made now.
    pub fn now(stamp: Option<Stamp>, read: bool, fetched: bool) -> Self {
        Facts { when: SystemTime::now(), stamp, read, fetched }
    }

    /// When the audit was made.
    pub fn time(&self) -> String {
        date(seconds(self.when)) + "Z"
    }

    pub fn bytes(&self) -> Option<u64> {
        self.stamp.map(|stamp| stamp.len)
    }

    /// When the content of the file was last changed.
    pub fn modified(&self) -> Option<String> {
        self.stamp.map(|stamp| exact(stamp.modified()))
    }

    /// When its entry in the file system was.
    pub fn changed(&self) -> Option<String> {
        self.stamp.map(|stamp| exact(stamp.changed()))
    }
}

/// A date with nanoseconds.
fn exact((seconds, nanoseconds): (i64, i64)) -> String {
    format!("{}.{nanoseconds:09}Z", date(seconds))
}

/// Whole seconds since 1970, below 0 before it.
fn seconds(time: SystemTime) -> i64 {
    let whole = |time: Duration| i64::try_from(time.as_secs()).unwrap_or(i64::MAX);
    match time.duration_since(UNIX_EPOCH) {
        Ok(after) => whole(after),
        Err(before) => -whole(before.duration()) - i64::from(before.duration().subsec_nanos() > 0),
    }
}

const DAY: i64 = 86_400;

/// Days in 400 years, which are the same in all of them, in a century and in four years that begin with a March.
const DAYS: [i64; 3] = [146_097, 36_524, 1_461];

/// From the first of March of the year 0 to the first of January 1970.
const TO_1970: i64 = 719_468;

/// Seconds since 1970 as date and time of day, in UTC and ISO 8601. A year that has not four digits has a sign.
pub fn date(seconds: i64) -> String {
    let (days, second) = (seconds.div_euclid(DAY) + TO_1970, seconds.rem_euclid(DAY));
    let (year, month, day) = civil(days);
    let year = if (0..=9999).contains(&year) { format!("{year:04}") } else { format!("{year:+05}") };
    format!("{year}-{month:02}-{day:02}T{:02}:{:02}:{:02}", second / 3600, second / 60 % 60, second % 60)
}

/// Year, month and day so many days after the first of March of the year 0. A leap day ends a year that begins in
/// March.
fn civil(days: i64) -> (i64, i64, i64) {
    let (eras, mut rest) = (days.div_euclid(DAYS[0]), days.rem_euclid(DAYS[0]));
    // The last century of 400 years, and the last year of four, may have a day more.
    let centuries = (rest / DAYS[1]).min(3);
    rest -= centuries * DAYS[1];
    let fours = rest / DAYS[2];
    rest -= fours * DAYS[2];
    let years = (rest / 365).min(3);
    rest -= years * 365;
    // Five months from March on, and again from August on, have 153 days.
    let month = (5 * rest + 2) / 153;
    let day = rest - (153 * month + 2) / 5 + 1;
    let year = 400 * eras + 100 * centuries + 4 * fours + years;
    if month < 10 {
        (year, month + 3, day)
    } else {
        (year + 1, month - 9, day)
    }
}
