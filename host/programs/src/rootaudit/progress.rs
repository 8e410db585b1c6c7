//! A line for a terminal while audits take long.

use std::time::Duration;

/// How long the command may take before a line says how far it is, and how often it is then renewed.
pub const PAUSE: Duration = Duration::from_secs(1);

/// The line has at most as many columns, and one less than the terminal: a longer one would not be cleared.
const COLUMNS: usize = 79;

/// How far the command is.
#[derive(Clone, Copy, Debug)]
pub struct State<'a> {
    /// The first file that is not done, counted from 1, and its name.
    pub file: usize,
    pub name: &'a str,
    pub files: usize,
    /// Bytes that are done, and those of all files.
    pub done: u64,
    pub all: u64,
    /// Since when.
    pub time: Duration,
}

impl State<'_> {
    /// One line for a terminal of this width, if that is known: which file, percent of all bytes, bytes a second, and how
    /// long it may still take.
    pub fn text(&self, width: Option<usize>) -> String {
        let columns = width.map_or(COLUMNS, |width| width.saturating_sub(1).min(COLUMNS));
        let State { file, files, done, all, time, .. } = *self;
        let percent = (u128::from(done) * 100).checked_div(all.into()).unwrap_or(0).min(99);
        let text = format!("file {file} of {files}: {percent} %, ");
        let seconds = time.as_secs_f64();
        let text = if done == 0 || seconds == 0.0 {
            text + &lasting(time)
        } else {
            let rate = done as f64 / seconds;
            let left = Duration::try_from_secs_f64(all.saturating_sub(done) as f64 / rate).unwrap_or(Duration::MAX);
            text + &format!("{}/s, {} left", amount(rate as u64), lasting(left))
        };
        match columns.saturating_sub(text.len() + 2) {
            0..4 => text.chars().take(columns).collect(),
            room => format!("{text}: {}", fitted(self.name, room)),
        }
    }
}

/// A number of bytes in two or three digits.
pub fn amount(bytes: u64) -> String {
    let units = ["bytes", "kB", "MB", "GB", "TB", "PB", "EB"];
    let mut amount = bytes as f64;
    let mut unit = 0;
    while amount >= 999.5 {
        amount /= 1000.0;
        unit += 1;
    }
    let digits = usize::from(unit > 0 && amount < 9.95);
    format!("{amount:.digits$} {}", units[unit])
}

/// How long something takes, roughly.
pub fn lasting(time: Duration) -> String {
    match time.as_secs() {
        seconds @ 0..120 => format!("{seconds} s"),
        seconds @ 120..7200 => format!("{} min", seconds / 60),
        seconds @ 7200..360_000 => format!("{} h {} min", seconds / 3600, seconds / 60 % 60),
        _ => "days".into(),
    }
}

/// The end of a name, in so many columns. A character that is no ASCII may take two.
pub fn fitted(name: &str, columns: usize) -> String {
    let columns_of = |c: char| if c.is_ascii() { 1 } else { 2 };
    if name.chars().map(columns_of).sum::<usize>() <= columns {
        return name.into();
    }
    let mut left = columns.saturating_sub(3);
    let fits = |&(_, c): &(usize, char)| {
        let fits = columns_of(c) <= left;
        left = if fits { left - columns_of(c) } else { 0 };
        fits
    };
    let start = name.char_indices().rev().take_while(fits).last().map_or(name.len(), |(at, _)| at);
    format!("...{}", &name[start..])
}
