//! A workbook engine: sheets, formulas that follow rows and columns, undo.
//!
//! ```
//! use fazhundel::{Place, Workbook};
//!
//! let mut book = Workbook::open()?;
//! let sheet = book.add_sheet("Invoice")?;
//! book.set(Place::new(sheet, 0, 0), "=2*10.5")?;
//! assert_eq!(book.value(Place::new(sheet, 0, 0))?.to_string(), "21");
//! # Ok::<(), fazhundel::Error>(())
//! ```
//!
//! The engine is a proved library with calls for C; this crate makes them safe for Rust. Rows, columns and sheets are numbers,
//! counted from 0, in a [`Place`] or a [`Block`]; a [`Number`] is a whole number of millionths. A call that can be refused
//! answers a `Result`, and one that ends with an [`Error`] changes nothing. A [`Workbook`] stays in the thread that opened it.
#![deny(missing_docs)]
#![deny(unsafe_code)]
#![forbid(unsafe_op_in_unsafe_fn)]

mod change;
mod error;
mod library;
mod options;
mod place;
mod rules;
mod value;
mod workbook;

pub use change::Change;
pub use error::{Error, Refusal};
pub use options::Options;
pub use place::{BadAddress, Block, Link, Name, Place};
pub use rules::Rule;
pub use value::{BadNumber, Fault, Kind, Number, Value};
pub use workbook::Workbook;
