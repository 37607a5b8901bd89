//! How calls end that weren't done.

use std::error;
use std::fmt;

/// Why a call wasn't done. The workbook is as it was, with its steps of undo and what waits to be pasted.
#[derive(Debug, Clone, Copy, PartialEq, Eq, Hash)]
#[non_exhaustive]
pub enum Error {
    /// The call was refused, for this cause.
    Refused(Refusal),
    /// There was no memory for the call.
    NoMemory,
    /// More than 1,000 steps were to be undone.
    BadLimit,
    /// The rules aren't those of custom functions.
    BadTable,
    /// A cell was to be written twice.
    BadCells,
    /// A status that none of these calls ends with: the library is another one than this crate was written for.
    Unknown(u8),
}

impl Error {
    /// What a status means that isn't the one of a call that was done.
    pub(crate) fn from_status(status: u8) -> Error {
        match status {
            64 => Error::NoMemory,
            68 => Error::BadLimit,
            69 => Error::BadTable,
            72 => Error::BadCells,
            _ => Refusal::numbered(status).map_or(Error::Unknown(status), Error::Refused),
        }
    }

    /// The status by which the library says so.
    pub fn status(self) -> u8 {
        match self {
            Error::Refused(refusal) => refusal.number(),
            Error::NoMemory => 64,
            Error::BadLimit => 68,
            Error::BadTable => 69,
            Error::BadCells => 72,
            Error::Unknown(status) => status,
        }
    }

    /// The refusal, where it is one.
    pub fn refusal(self) -> Option<Refusal> {
        match self {
            Error::Refused(refusal) => Some(refusal),
            _ => None,
        }
    }
}

impl fmt::Display for Error {
    fn fmt(&self, f: &mut fmt::Formatter<'_>) -> fmt::Result {
        match self {
            Error::Refused(refusal) => refusal.fmt(f),
            Error::NoMemory => f.write_str("there was no memory"),
            Error::BadLimit => f.write_str("at most 1,000 steps can be undone"),
            Error::BadTable => f.write_str("the rules aren't those of custom functions"),
            Error::BadCells => f.write_str("a cell was to be written twice"),
            Error::Unknown(status) => write!(f, "the library answered the status {status}"),
        }
    }
}

impl error::Error for Error {}

impl From<Refusal> for Error {
    fn from(refusal: Refusal) -> Error {
        Error::Refused(refusal)
    }
}

/// Why a call is refused: of the causes that hold the first one in the order of `docs/SCRIPT.md`.
#[derive(Debug, Clone, Copy, PartialEq, Eq, Hash)]
pub enum Refusal {
    /// There is no such sheet.
    NoSheet = 1,
    /// Another sheet has the name, in some case of its ASCII letters.
    SheetNameTaken = 2,
    /// The name hasn't 1 to 100 bytes, or has a control character.
    SheetNameInvalid = 3,
    /// The place, the block or the rows or columns aren't inside the sheet.
    Outside = 4,
    /// A filled cell would be pushed off the sheet.
    SizeLimit = 5,
    /// More than 1,000,000 cells would be filled.
    CellLimit = 6,
    /// The scope has a name of this word.
    NameTaken = 7,
    /// The word can't be a name.
    NameInvalid = 8,
    /// There is no name of this word.
    NoSuchName = 9,
    /// A reference of a name's formula lacks a `$`, or, for the whole workbook, its sheet.
    RelativeAddress = 10,
    /// No step is done that could be taken back.
    NothingToUndo = 11,
    /// No step is taken back that could be done again.
    NothingToRedo = 12,
    /// Nothing waits to be pasted.
    NothingToPaste = 13,
    /// Evaluation is suspended, or a batch is open.
    Suspended = 14,
    /// A batch is open.
    BatchOpen = 15,
    /// No batch is open.
    NoBatch = 16,
    /// No rows or columns are named, or they would stay where they are.
    BadSpan = 17,
    /// The text has more than 8,192 bytes.
    TextLimit = 18,
    /// All 1,024 numbers of sheets were given out.
    SheetLimit = 19,
    /// The text doesn't begin with `=`, or is no formula.
    BadFormula = 20,
}

impl Refusal {
    /// Every refusal, by its number from 1 on.
    pub const ALL: [Refusal; 20] = [
        Refusal::NoSheet,
        Refusal::SheetNameTaken,
        Refusal::SheetNameInvalid,
        Refusal::Outside,
        Refusal::SizeLimit,
        Refusal::CellLimit,
        Refusal::NameTaken,
        Refusal::NameInvalid,
        Refusal::NoSuchName,
        Refusal::RelativeAddress,
        Refusal::NothingToUndo,
        Refusal::NothingToRedo,
        Refusal::NothingToPaste,
        Refusal::Suspended,
        Refusal::BatchOpen,
        Refusal::NoBatch,
        Refusal::BadSpan,
        Refusal::TextLimit,
        Refusal::SheetLimit,
        Refusal::BadFormula,
    ];

    /// The refusal of a number.
    pub fn numbered(number: u8) -> Option<Refusal> {
        let index = number.checked_sub(1)?;
        Refusal::ALL.get(usize::from(index)).copied()
    }

    /// Its number, 1 to 20.
    pub fn number(self) -> u8 {
        self as u8
    }

    /// Its name, as a reply prints it behind its number.
    pub fn name(self) -> &'static str {
        match self {
            Refusal::NoSheet => "NoSheet",
            Refusal::SheetNameTaken => "SheetNameTaken",
            Refusal::SheetNameInvalid => "SheetNameInvalid",
            Refusal::Outside => "Outside",
            Refusal::SizeLimit => "SizeLimit",
            Refusal::CellLimit => "CellLimit",
            Refusal::NameTaken => "NameTaken",
            Refusal::NameInvalid => "NameInvalid",
            Refusal::NoSuchName => "NoSuchName",
            Refusal::RelativeAddress => "RelativeAddress",
            Refusal::NothingToUndo => "NothingToUndo",
            Refusal::NothingToRedo => "NothingToRedo",
            Refusal::NothingToPaste => "NothingToPaste",
            Refusal::Suspended => "Suspended",
            Refusal::BatchOpen => "BatchOpen",
            Refusal::NoBatch => "NoBatch",
            Refusal::BadSpan => "BadSpan",
            Refusal::TextLimit => "TextLimit",
            Refusal::SheetLimit => "SheetLimit",
            Refusal::BadFormula => "BadFormula",
        }
    }

    // What it says.
    fn cause(self) -> &'static str {
        match self {
            Refusal::NoSheet => "there is no such sheet",
            Refusal::SheetNameTaken => "another sheet has the name",
            Refusal::SheetNameInvalid => "a sheet can't have that name",
            Refusal::Outside => "that isn't inside the sheet",
            Refusal::SizeLimit => "a filled cell would be pushed off the sheet",
            Refusal::CellLimit => "more than 1,000,000 cells would be filled",
            Refusal::NameTaken => "the scope has a name of this word",
            Refusal::NameInvalid => "the word can't be a name",
            Refusal::NoSuchName => "there is no name of this word",
            Refusal::RelativeAddress => {
                "a reference of a name's formula lacks a $, or, for the whole workbook, its sheet"
            }
            Refusal::NothingToUndo => "there is no step to take back",
            Refusal::NothingToRedo => "there is no step to do again",
            Refusal::NothingToPaste => "nothing waits to be pasted",
            Refusal::Suspended => "evaluation is suspended, or a batch is open",
            Refusal::BatchOpen => "a batch is open",
            Refusal::NoBatch => "no batch is open",
            Refusal::BadSpan => "no rows or columns are named, or they would stay where they are",
            Refusal::TextLimit => "the text has more than 8,192 bytes",
            Refusal::SheetLimit => "all 1,024 numbers of sheets were given out",
            Refusal::BadFormula => "the text is no formula",
        }
    }
}

impl fmt::Display for Refusal {
    fn fmt(&self, f: &mut fmt::Formatter<'_>) -> fmt::Result {
        write!(f, "{} ({}): {}", self.name(), self.number(), self.cause())
    }
}
