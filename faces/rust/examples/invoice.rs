//! An application that holds a workbook: it works an invoice out and prints what it comes to.

use fazhundel::{Error, Options, Place, Value};

// Two lines of a quantity and a price, and what each and both come to.
const CELLS: [(u32, u32, &str); 7] = [
    (0, 0, "2"),
    (0, 1, "10.5"),
    (0, 2, "=A1*B1"),
    (1, 0, "3"),
    (1, 1, "120"),
    (1, 2, "=A2*B2"),
    (2, 2, "=C1+C2"),
];

// The day that formulas see as today: 2024-01-01.
const TODAY: i32 = 45_292;

fn main() -> Result<(), Error> {
    println!("{}", total()?);
    Ok(())
}

/// The invoice's total, as its formula says after a row for titles came above the lines.
fn total() -> Result<Value, Error> {
    let mut book = Options::new().today(TODAY).open()?;
    let sheet = book.add_sheet("Invoice")?;
    book.batch(|book| {
        for (row, col, text) in CELLS {
            book.set(Place::new(sheet, row, col), text)?;
        }
        book.insert_rows(sheet, 0, 1)
    })?;
    book.value(Place::new(sheet, 3, 2))
}
