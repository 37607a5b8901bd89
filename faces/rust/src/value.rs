//! Numbers, faults, values and kinds of contents.

use std::error;
use std::fmt;
use std::str::FromStr;

const MILLION: i64 = 1_000_000;

// The first whole number that is out of range.
const TOO_LARGE: i64 = 1_000_000_000_000;

/// A whole number of millionths, below 10^12 in absolute value.
///
/// ```
/// use fazhundel::Number;
///
/// let price: Number = "10.50".parse()?;
/// assert_eq!(price.millionths(), 10_500_000);
/// assert_eq!(price.to_string(), "10.5");
/// assert_eq!(Number::from(381).to_string(), "381");
/// # Ok::<(), fazhundel::BadNumber>(())
/// ```
#[derive(Debug, Clone, Copy, Default, PartialEq, Eq, PartialOrd, Ord, Hash)]
pub struct Number(i64);

impl Number {
    /// The number of so many millionths, if it is in range.
    pub fn from_millionths(millionths: i64) -> Result<Number, BadNumber> {
        if millionths.unsigned_abs() / MILLION.unsigned_abs() < TOO_LARGE.unsigned_abs() {
            Ok(Number(millionths))
        } else {
            Err(BadNumber)
        }
    }

    /// A number that the library answers, which is in range.
    pub(crate) fn of_library(millionths: i64) -> Number {
        Number(millionths)
    }

    /// How many millionths it has.
    pub fn millionths(self) -> i64 {
        self.0
    }
}

impl From<i32> for Number {
    fn from(whole: i32) -> Number {
        Number(i64::from(whole) * MILLION)
    }
}

impl From<u32> for Number {
    fn from(whole: u32) -> Number {
        Number(i64::from(whole) * MILLION)
    }
}

impl TryFrom<i64> for Number {
    type Error = BadNumber;

    fn try_from(whole: i64) -> Result<Number, BadNumber> {
        Number::from_millionths(whole.checked_mul(MILLION).ok_or(BadNumber)?)
    }
}

impl TryFrom<Number> for i64 {
    type Error = BadNumber;

    fn try_from(number: Number) -> Result<i64, BadNumber> {
        if number.0 % MILLION == 0 {
            Ok(number.0 / MILLION)
        } else {
            Err(BadNumber)
        }
    }
}

/// Reads what a formula reads as a number: an optional sign and digits, with a point before them, after them or between them.
/// Decimals past the sixth are rounded, a half away from zero.
impl FromStr for Number {
    type Err = BadNumber;

    fn from_str(text: &str) -> Result<Number, BadNumber> {
        let size = text.strip_prefix(['-', '+']).unwrap_or(text);
        let (whole, decimals) = size.split_once('.').unwrap_or((size, ""));
        let is_digits = |part: &str| part.bytes().all(|byte| byte.is_ascii_digit());
        if !is_digits(whole) || !is_digits(decimals) || whole.len() + decimals.len() == 0 {
            return Err(BadNumber);
        }
        let digit = |place: usize| {
            decimals
                .as_bytes()
                .get(place)
                .map_or(0, |byte| i64::from(byte - b'0'))
        };
        let part = (0..6).fold(0, |part, place| part * 10 + digit(place)) + digit(6) / 5;
        let whole = format!("0{whole}").parse::<i64>().map_err(|_| BadNumber)?;
        let millionths = Number::try_from(whole)?.0 + part;
        Number::from_millionths(if text.starts_with('-') {
            -millionths
        } else {
            millionths
        })
    }
}

/// Prints the shortest form: `-3`, `0.5`.
impl fmt::Display for Number {
    fn fmt(&self, f: &mut fmt::Formatter<'_>) -> fmt::Result {
        let (whole, part) = (
            (self.0 / MILLION).unsigned_abs(),
            (self.0 % MILLION).unsigned_abs(),
        );
        let digits = format!("{whole}.{part:06}");
        let shortest = digits.trim_end_matches('0').trim_end_matches('.');
        f.pad_integral(self.0 >= 0, "", shortest)
    }
}

/// A text, an integer or a number of millionths isn't a [`Number`], or a [`Number`] isn't whole.
#[derive(Debug, Clone, Copy, PartialEq, Eq, Hash)]
pub struct BadNumber;

impl fmt::Display for BadNumber {
    fn fmt(&self, f: &mut fmt::Formatter<'_>) -> fmt::Result {
        f.write_str("that is no such number")
    }
}

impl error::Error for BadNumber {}

/// Why a cell has no value.
#[derive(Debug, Clone, Copy, PartialEq, Eq, Hash)]
pub enum Fault {
    /// `#DIV/0!`
    Div0 = 1,
    /// `#NAME?`
    Name = 2,
    /// `#VALUE!`
    Value = 3,
    /// `#NUM!`
    Num = 4,
    /// `#N/A`
    Na = 5,
    /// `#CYCLE!`
    Cycle = 6,
    /// `#REF!`
    Ref = 7,
    /// `#ERROR!`
    Error = 8,
}

impl Fault {
    /// The fault of a number that the library answers.
    pub(crate) fn of_library(number: i64) -> Fault {
        match number {
            1 => Fault::Div0,
            2 => Fault::Name,
            3 => Fault::Value,
            4 => Fault::Num,
            5 => Fault::Na,
            6 => Fault::Cycle,
            7 => Fault::Ref,
            _ => Fault::Error,
        }
    }

    /// Its number, 1 to 8.
    pub fn number(self) -> u8 {
        self as u8
    }

    /// What a cell shows that has it.
    pub fn text(self) -> &'static str {
        match self {
            Fault::Div0 => "#DIV/0!",
            Fault::Name => "#NAME?",
            Fault::Value => "#VALUE!",
            Fault::Num => "#NUM!",
            Fault::Na => "#N/A",
            Fault::Cycle => "#CYCLE!",
            Fault::Ref => "#REF!",
            Fault::Error => "#ERROR!",
        }
    }
}

impl fmt::Display for Fault {
    fn fmt(&self, f: &mut fmt::Formatter<'_>) -> fmt::Result {
        f.pad(self.text())
    }
}

/// What a cell, a name or a formula shows.
#[derive(Debug, Clone, Default, PartialEq, Eq, Hash)]
pub enum Value {
    /// What an empty cell shows.
    #[default]
    Empty,
    /// A number.
    Number(Number),
    /// A text.
    Text(String),
    /// A truth value.
    Truth(bool),
    /// No value, and why: no refusal, but a value like any other.
    Fault(Fault),
}

/// Prints what a person sees: no characters, `-3`, the text itself, `TRUE`, `#DIV/0!`.
impl fmt::Display for Value {
    fn fmt(&self, f: &mut fmt::Formatter<'_>) -> fmt::Result {
        match self {
            Value::Empty => f.pad(""),
            Value::Number(number) => number.fmt(f),
            Value::Text(text) => f.pad(text),
            Value::Truth(true) => f.pad("TRUE"),
            Value::Truth(false) => f.pad("FALSE"),
            Value::Fault(fault) => fault.fmt(f),
        }
    }
}

/// What kind of content a cell has.
#[derive(Debug, Clone, Copy, Default, PartialEq, Eq, Hash)]
pub enum Kind {
    /// None: the cell isn't filled.
    #[default]
    Empty = 0,
    /// A number.
    Number = 1,
    /// A text.
    Text = 2,
    /// A truth value.
    Truth = 3,
    /// A formula.
    Formula = 5,
    /// A formula that has no tree, kept as its text.
    Unreadable = 6,
}

impl Kind {
    /// The kind of a number that the library answers.
    pub(crate) fn of_library(number: u32) -> Kind {
        match number {
            0 => Kind::Empty,
            1 => Kind::Number,
            2 => Kind::Text,
            3 => Kind::Truth,
            5 => Kind::Formula,
            _ => Kind::Unreadable,
        }
    }
}
