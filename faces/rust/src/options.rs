//! How workbooks are opened.

use crate::error::Error;
use crate::library::Book;
use crate::rules::{Rule, Table};
use crate::workbook::Workbook;
use std::time::{SystemTime, UNIX_EPOCH};

const UNDO_LIMIT: u32 = 20;

const SECONDS_OF_A_DAY: u64 = 86_400;

// The serial number of 1970-01-01.
const UNIX_DAY: i32 = 25_569;

/// How a workbook is opened: what it can undo, which day it sees as today, which functions its formulas can call.
///
/// ```no_run
/// use fazhundel::{Options, Rule};
///
/// let tax = Rule::Tiers(vec![(0.into(), "0.1".parse()?), (1000.into(), "0.2".parse()?)]);
/// let book = Options::new().undo_limit(100).today(45_292).rule("TAX", tax).open()?;
/// # Ok::<(), Box<dyn std::error::Error>>(())
/// ```
#[derive(Debug, Clone)]
pub struct Options {
    undo_limit: u32,
    today: i32,
    rules: Vec<(String, Rule)>,
}

impl Options {
    /// 20 steps of undo, the day that the system's clock tells (in UTC), no functions.
    pub fn new() -> Options {
        Options {
            undo_limit: UNDO_LIMIT,
            today: day_of(SystemTime::now()),
            rules: Vec::new(),
        }
    }

    /// So many steps can be undone, at most 1,000.
    pub fn undo_limit(mut self, steps: u32) -> Options {
        self.undo_limit = steps;
        self
    }

    /// Formulas see the day of this serial number as today, counted from 1899-12-30: 45,292 is 2024-01-01.
    pub fn today(mut self, day: i32) -> Options {
        self.today = day;
        self
    }

    /// Formulas can call this function too. Its word has letters, digits, `_` and `.` behind a letter or `_`, and is none of
    /// the words of `docs/FORMULAS.md`; the words of all functions differ in any case of their letters.
    pub fn rule(mut self, word: &str, rule: Rule) -> Options {
        self.rules.push((word.to_owned(), rule));
        self
    }

    /// Opens a workbook without sheets. [`Error::BadLimit`], [`Error::BadTable`], [`Error::NoMemory`].
    pub fn open(&self) -> Result<Workbook, Error> {
        let table = Table::new(&self.rules);
        Book::open(self.undo_limit, self.today, &table).map(Workbook::of)
    }
}

impl Default for Options {
    fn default() -> Options {
        Options::new()
    }
}

// The serial number of the day, in UTC, of a time; of one before 1970 that of 1970-01-01.
fn day_of(time: SystemTime) -> i32 {
    let since = time.duration_since(UNIX_EPOCH).unwrap_or_default();
    let days = i32::try_from(since.as_secs() / SECONDS_OF_A_DAY).unwrap_or(0);
    days.saturating_add(UNIX_DAY)
}
