//! Places, blocks, their addresses, names and links.

use std::error;
use std::fmt;

const LETTERS: u32 = 26;

/// A cell: the number of its sheet, its row and its column, both counted from 0. [`address`](Place::address) prints it.
#[derive(Debug, Clone, Copy, PartialEq, Eq, PartialOrd, Ord, Hash)]
pub struct Place {
    /// The sheet's number.
    pub sheet: u32,
    /// The row.
    pub row: u32,
    /// The column.
    pub col: u32,
}

impl Place {
    /// The cell of a sheet in a row and a column.
    pub const fn new(sheet: u32, row: u32, col: u32) -> Place {
        Place { sheet, row, col }
    }

    /// The cell of a sheet at an address: one to three letters, and at once one to seven digits that don't begin with 0.
    ///
    /// ```
    /// use fazhundel::Place;
    ///
    /// assert_eq!(Place::read(0, "B5"), Ok(Place::new(0, 4, 1)));
    /// assert_eq!(Place::new(0, 4, 27).address(), "AB5");
    /// ```
    pub fn read(sheet: u32, address: &str) -> Result<Place, BadAddress> {
        let (row, col) = spot(address).ok_or(BadAddress)?;
        Ok(Place { sheet, row, col })
    }

    /// Its address without the sheet, as `B5`.
    pub fn address(self) -> String {
        address(self.row, self.col)
    }
}

/// A rectangle of cells, by its first and last row and column.
#[derive(Debug, Clone, Copy, PartialEq, Eq, PartialOrd, Ord, Hash)]
pub struct Block {
    /// The sheet's number.
    pub sheet: u32,
    /// The first row.
    pub top: u32,
    /// The first column.
    pub left: u32,
    /// The last row.
    pub bottom: u32,
    /// The last column.
    pub right: u32,
}

impl Block {
    /// The block of a sheet from a row and a column to others.
    pub const fn new(sheet: u32, top: u32, left: u32, bottom: u32, right: u32) -> Block {
        Block {
            sheet,
            top,
            left,
            bottom,
            right,
        }
    }

    /// The block of a sheet at an address: two opposite corners with a colon, in any order, or one cell.
    ///
    /// ```
    /// use fazhundel::Block;
    ///
    /// assert_eq!(Block::read(0, "A1:B5"), Ok(Block::new(0, 0, 0, 4, 1)));
    /// ```
    pub fn read(sheet: u32, address: &str) -> Result<Block, BadAddress> {
        let (first, last) = address.split_once(':').unwrap_or((address, address));
        let (row, col) = spot(first).ok_or(BadAddress)?;
        let (other_row, other_col) = spot(last).ok_or(BadAddress)?;
        Ok(Block {
            sheet,
            top: row.min(other_row),
            left: col.min(other_col),
            bottom: row.max(other_row),
            right: col.max(other_col),
        })
    }

    /// Its address without the sheet, as `A1:B5`.
    pub fn address(self) -> String {
        let first = address(self.top, self.left);
        format!("{first}:{}", address(self.bottom, self.right))
    }
}

impl From<Place> for Block {
    fn from(at: Place) -> Block {
        Block::new(at.sheet, at.row, at.col, at.row, at.col)
    }
}

/// A named expression.
#[derive(Debug, Clone, PartialEq, Eq, PartialOrd, Ord, Hash)]
pub struct Name {
    /// The number of the sheet that it belongs to; none where that is the whole workbook.
    pub scope: Option<u32>,
    /// Its word, in capitals.
    pub word: String,
}

/// What a formula needs, or what needs a cell.
#[derive(Debug, Clone, PartialEq, Eq, Hash)]
pub enum Link {
    /// A cell.
    Cell(Place),
    /// A block.
    Block(Block),
    /// A named expression.
    Name(Name),
}

/// A text isn't an address.
#[derive(Debug, Clone, Copy, PartialEq, Eq, Hash)]
pub struct BadAddress;

impl fmt::Display for BadAddress {
    fn fmt(&self, f: &mut fmt::Formatter<'_>) -> fmt::Result {
        f.write_str("that is no address")
    }
}

impl error::Error for BadAddress {}

// The row and the column of an address.
fn spot(address: &str) -> Option<(u32, u32)> {
    let digits = address.trim_start_matches(|letter: char| letter.is_ascii_alphabetic());
    let letters = &address[..address.len() - digits.len()];
    let is_row = (1..=7).contains(&digits.len())
        && !digits.starts_with('0')
        && digits.bytes().all(|byte| byte.is_ascii_digit());
    if !is_row || !(1..=3).contains(&letters.len()) {
        return None;
    }
    let letter = |byte: u8| u32::from(byte.to_ascii_uppercase() - b'A') + 1;
    let col = letters
        .bytes()
        .fold(0, |col, byte| col * LETTERS + letter(byte));
    Some((digits.parse::<u32>().ok()? - 1, col - 1))
}

fn address(row: u32, col: u32) -> String {
    let mut letters = Vec::new();
    let mut rest = u64::from(col) + 1;
    while rest > 0 {
        rest -= 1;
        letters.push(char::from(b'A' + (rest % u64::from(LETTERS)) as u8));
        rest /= u64::from(LETTERS);
    }
    let letters: String = letters.iter().rev().collect();
    format!("{letters}{}", u64::from(row) + 1)
}
