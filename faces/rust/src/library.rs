//! The library's calls made safe: the one module with unsafe code.
//!
//! What the header asks of a caller holds here by types: a [`Book`] holds a workbook from `open` to its drop, and can neither be
//! copied nor sent to another thread; a text is a `&str`, and a room a `&mut [u8]`. Questions take `&self`, although they write
//! into the workbook what they worked out: the library calls nobody back, so no two calls are ever made at once.
#![allow(unsafe_code)]

mod header;

pub(crate) use header::{Change as ChangeRow, Pair, Rule as RuleRow, DONE, NO_NUMBER};

use crate::change::Change;
use crate::error::{Error, Refusal};
use crate::place::{Block, Link, Name, Place};
use crate::rules::Table;
use crate::value::{Fault, Kind, Number, Value};
use header::{Shown, Sizes, Status, Used, Written, Wrong, NO_ROOM};
use std::borrow::Cow;
use std::cell::UnsafeCell;
use std::ops::Range;
use std::ptr;

// How many bytes, and how many rows, a first try has room for.
const ROOM: usize = 256;
const ROWS: usize = 16;

/// Holds a workbook.
pub(crate) struct Book {
    held: UnsafeCell<header::Book>,
}

impl Drop for Book {
    fn drop(&mut self) {
        // SAFETY: `at` leads to a book of the library.
        unsafe { header::fz_close(self.at()) }
    }
}

// Calls that take numbers alone.
macro_rules! numbers {
    ($($name:ident = $call:ident($($number:ident),*);)*) => {$(
        pub(crate) fn $name(&mut self, $($number: u32),*) -> Result<(), Error> {
            // SAFETY: `at` leads to a book of the library.
            ended(unsafe { header::$call(self.at(), $($number),*) })
        }
    )*};
}

// Calls that answer a truth value.
macro_rules! truths {
    ($($name:ident = $call:ident;)*) => {$(
        pub(crate) fn $name(&self) -> bool {
            // SAFETY: `at` leads to a book of the library.
            unsafe { header::$call(self.at()) }
        }
    )*};
}

impl Book {
    pub(crate) fn open(undo_limit: u32, today: i32, table: &Table) -> Result<Book, Error> {
        let closed = header::Book {
            is_open: false,
            held: ptr::null_mut(),
        };
        let book = Book {
            held: UnsafeCell::new(closed),
        };
        let (rules, pairs, words) = (&table.rules, &table.pairs, &table.words);
        // SAFETY: `at` leads to a book that holds nothing yet; rows, pairs and bytes are given with their numbers.
        ended(unsafe {
            header::fz_open(
                book.at(),
                undo_limit,
                today,
                rules.as_ptr(),
                rules.len(),
                pairs.as_ptr(),
                pairs.len(),
                words.as_ptr(),
                words.len(),
            )
        })?;
        Ok(book)
    }

    pub(crate) fn is_open(&self) -> bool {
        // SAFETY: `at` leads to a book of the library.
        unsafe { header::fz_is_open(self.at()) }
    }

    // The book as the library takes it.
    fn at(&self) -> *mut header::Book {
        self.held.get()
    }

    numbers! {
        clear = fz_clear(sheet, top, left, bottom, right);
        insert_rows = fz_insert_rows(sheet, at, count);
        insert_cols = fz_insert_cols(sheet, at, count);
        delete_rows = fz_delete_rows(sheet, at, count);
        delete_cols = fz_delete_cols(sheet, at, count);
        move_rows = fz_move_rows(sheet, from, count, before);
        move_cols = fz_move_cols(sheet, from, count, before);
        drop_sheet = fz_drop_sheet(sheet);
        clear_sheet = fz_clear_sheet(sheet);
        paste = fz_paste(sheet, row, col);
        copy = fz_copy(sheet, top, left, bottom, right);
        cut = fz_cut(sheet, top, left, bottom, right);
        clear_clipboard = fz_clear_clipboard();
        undo = fz_undo();
        redo = fz_redo();
        clear_history = fz_clear_history();
        begin = fz_begin();
        commit = fz_commit();
        suspend = fz_suspend();
        resume = fz_resume();
    }

    truths! {
        can_undo = fz_can_undo;
        can_redo = fz_can_redo;
        has_batch = fz_has_batch;
        is_suspended = fz_is_suspended;
        is_clipboard_empty = fz_is_clipboard_empty;
    }
}

// Calls that take more than numbers.
impl Book {
    pub(crate) fn move_block(&mut self, area: Block, to: Place) -> Result<(), Error> {
        let Block {
            sheet,
            top,
            left,
            bottom,
            right,
        } = area;
        let Place {
            sheet: to_sheet,
            row,
            col,
        } = to;
        // SAFETY: `at` leads to a book of the library.
        ended(unsafe {
            header::fz_move_block(
                self.at(),
                sheet,
                top,
                left,
                bottom,
                right,
                to_sheet,
                row,
                col,
            )
        })
    }

    pub(crate) fn set(&mut self, at: Place, text: &str) -> Result<(), Error> {
        let Place { sheet, row, col } = at;
        // SAFETY: `at` leads to a book of the library; the text is given with its length.
        ended(unsafe { header::fz_set(self.at(), sheet, row, col, text.as_ptr(), text.len()) })
    }

    pub(crate) fn set_number(&mut self, at: Place, number: Number) -> Result<(), Error> {
        let Place { sheet, row, col } = at;
        // SAFETY: `at` leads to a book of the library.
        ended(unsafe { header::fz_set_number(self.at(), sheet, row, col, number.millionths()) })
    }

    pub(crate) fn set_truth(&mut self, at: Place, truth: bool) -> Result<(), Error> {
        let Place { sheet, row, col } = at;
        // SAFETY: `at` leads to a book of the library.
        ended(unsafe { header::fz_set_truth(self.at(), sheet, row, col, truth) })
    }

    pub(crate) fn set_text(&mut self, at: Place, text: &str) -> Result<(), Error> {
        let Place { sheet, row, col } = at;
        // SAFETY: `at` leads to a book of the library; the text is given with its length.
        ended(unsafe { header::fz_set_text(self.at(), sheet, row, col, text.as_ptr(), text.len()) })
    }

    pub(crate) fn write_all<T: AsRef<str>>(&mut self, cells: &[(Place, T)]) -> Result<(), Error> {
        let mut sorted: Vec<&(Place, T)> = cells.iter().collect();
        sorted.sort_by_key(|cell| cell.0);
        let mut texts = String::new();
        let mut rows = Vec::with_capacity(sorted.len());
        for (Place { sheet, row, col }, text) in sorted {
            let (text, text_start) = (text.as_ref(), texts.len());
            texts.push_str(text);
            rows.push(Written {
                sheet: *sheet,
                row: *row,
                col: *col,
                text_start,
                text_length: text.len(),
            });
        }
        let (row, count, text, size) = (rows.as_ptr(), rows.len(), texts.as_ptr(), texts.len());
        // SAFETY: `at` leads to a book of the library; rows and bytes are given with their numbers.
        ended(unsafe { header::fz_write_all(self.at(), row, count, text, size) })
    }

    pub(crate) fn settle_idle(&mut self, budget: u64) -> Result<bool, Error> {
        let mut none_left = 0;
        // SAFETY: `at` leads to a book of the library.
        ended(unsafe { header::fz_settle_idle(self.at(), budget, &mut none_left) })?;
        Ok(none_left == 1)
    }

    pub(crate) fn add_sheet(&mut self, name: &str) -> Result<u32, Error> {
        let mut number = NO_NUMBER;
        // SAFETY: `at` leads to a book of the library; the text is given with its length.
        ended(unsafe { header::fz_add_sheet(self.at(), name.as_ptr(), name.len(), &mut number) })?;
        Ok(number)
    }

    pub(crate) fn rename_sheet(&mut self, sheet: u32, name: &str) -> Result<(), Error> {
        // SAFETY: `at` leads to a book of the library; the text is given with its length.
        ended(unsafe { header::fz_rename_sheet(self.at(), sheet, name.as_ptr(), name.len()) })
    }

    pub(crate) fn add_name(&mut self, name: &str, scope: u32, text: &str) -> Result<(), Error> {
        let text = apart(text, name);
        // SAFETY: `at` leads to a book of the library; the texts are given with their lengths, and lie apart.
        ended(unsafe {
            header::fz_add_name(
                self.at(),
                name.as_ptr(),
                name.len(),
                scope,
                text.as_ptr(),
                text.len(),
            )
        })
    }

    pub(crate) fn change_name(&mut self, name: &str, scope: u32, text: &str) -> Result<(), Error> {
        let text = apart(text, name);
        // SAFETY: `at` leads to a book of the library; the texts are given with their lengths, and lie apart.
        ended(unsafe {
            header::fz_change_name(
                self.at(),
                name.as_ptr(),
                name.len(),
                scope,
                text.as_ptr(),
                text.len(),
            )
        })
    }

    pub(crate) fn remove_name(&mut self, name: &str, scope: u32) -> Result<(), Error> {
        // SAFETY: `at` leads to a book of the library; the text is given with its length.
        ended(unsafe { header::fz_remove_name(self.at(), name.as_ptr(), name.len(), scope) })
    }

    pub(crate) fn sheet_id(&self, name: &str) -> Option<u32> {
        // SAFETY: `at` leads to a book of the library; the text is given with its length.
        let number = unsafe { header::fz_sheet_id(self.at(), name.as_ptr(), name.len()) };
        (number != NO_NUMBER).then_some(number)
    }
}

// The text in memory that the other one has no part of: no two pointers of a call may lead to the same memory.
fn apart<'a>(text: &'a str, other: &str) -> Cow<'a, str> {
    let (text_range, other_range) = (
        text.as_bytes().as_ptr_range(),
        other.as_bytes().as_ptr_range(),
    );
    if text_range.start < other_range.end && other_range.start < text_range.end {
        Cow::Owned(text.to_owned())
    } else {
        Cow::Borrowed(text)
    }
}

// Questions.
impl Book {
    pub(crate) fn cause(&self, change: Change<'_>) -> Result<Option<Refusal>, Error> {
        let (row, name, text) = change.row();
        let text = apart(text, name);
        let (name, name_length) = (name.as_ptr(), name.len());
        let mut refusal = DONE;
        // SAFETY: `at` leads to a book of the library; the texts are given with their lengths, and lie apart.
        ended(unsafe {
            header::fz_cause(
                self.at(),
                &row,
                name,
                name_length,
                text.as_ptr(),
                text.len(),
                &mut refusal,
            )
        })?;
        Ok(Refusal::numbered(refusal))
    }

    pub(crate) fn sheet_count(&self) -> usize {
        // SAFETY: `at` leads to a book of the library.
        unsafe { header::fz_sheet_count(self.at()) }
    }

    pub(crate) fn sheet_at(&self, index: usize) -> Option<u32> {
        // SAFETY: `at` leads to a book of the library.
        let number = unsafe { header::fz_sheet_at(self.at(), index) };
        (number != NO_NUMBER).then_some(number)
    }

    pub(crate) fn sheet_name(&self, sheet: u32) -> Result<String, Error> {
        asked_text(|room, length| {
            // SAFETY: `at` leads to a book of the library; the room is given with its size.
            unsafe {
                header::fz_sheet_name(self.at(), sheet, room.as_mut_ptr(), room.len(), length)
            }
        })
    }

    pub(crate) fn value(&self, at: Place) -> Result<Value, Error> {
        let Place { sheet, row, col } = at;
        asked_value(|room, shown| {
            let (start, size) = (room.as_mut_ptr(), room.len());
            // SAFETY: `at` leads to a book of the library; the room is given with its size.
            unsafe { header::fz_value(self.at(), sheet, row, col, start, size, shown) }
        })
    }

    pub(crate) fn name_value(&self, name: &str, sheet: u32) -> Result<Value, Error> {
        asked_value(|room, shown| {
            let (start, size) = (room.as_mut_ptr(), room.len());
            // SAFETY: `at` leads to a book of the library; the text is given with its length, and the room with its size.
            unsafe {
                header::fz_name_value(
                    self.at(),
                    name.as_ptr(),
                    name.len(),
                    sheet,
                    start,
                    size,
                    shown,
                )
            }
        })
    }

    pub(crate) fn try_formula(&self, sheet: u32, text: &str) -> Result<Value, Error> {
        asked_value(|room, shown| {
            let (start, size) = (room.as_mut_ptr(), room.len());
            // SAFETY: `at` leads to a book of the library; the text is given with its length, and the room with its size.
            unsafe {
                header::fz_try(
                    self.at(),
                    sheet,
                    text.as_ptr(),
                    text.len(),
                    start,
                    size,
                    shown,
                )
            }
        })
    }

    pub(crate) fn value_text(&self, at: Place) -> Result<String, Error> {
        let Place { sheet, row, col } = at;
        asked_text(|room, length| {
            let (start, size) = (room.as_mut_ptr(), room.len());
            // SAFETY: `at` leads to a book of the library; the room is given with its size.
            unsafe { header::fz_value_text(self.at(), sheet, row, col, start, size, length) }
        })
    }

    pub(crate) fn formula(&self, at: Place) -> Result<String, Error> {
        let Place { sheet, row, col } = at;
        asked_text(|room, length| {
            let (start, size) = (room.as_mut_ptr(), room.len());
            // SAFETY: `at` leads to a book of the library; the room is given with its size.
            unsafe { header::fz_formula(self.at(), sheet, row, col, start, size, length) }
        })
    }

    pub(crate) fn content(&self, at: Place) -> Result<String, Error> {
        let Place { sheet, row, col } = at;
        asked_text(|room, length| {
            let (start, size) = (room.as_mut_ptr(), room.len());
            // SAFETY: `at` leads to a book of the library; the room is given with its size.
            unsafe { header::fz_content(self.at(), sheet, row, col, start, size, length) }
        })
    }

    pub(crate) fn normal_text(&self, sheet: u32, text: &str) -> Result<String, Error> {
        asked_text(|room, length| {
            let (start, size) = (room.as_mut_ptr(), room.len());
            // SAFETY: `at` leads to a book of the library; the text is given with its length, and the room with its size.
            unsafe {
                header::fz_normal_text(
                    self.at(),
                    sheet,
                    text.as_ptr(),
                    text.len(),
                    start,
                    size,
                    length,
                )
            }
        })
    }

    pub(crate) fn parse_error(
        &self,
        sheet: u32,
        text: &str,
    ) -> Result<Option<Range<usize>>, Error> {
        let mut wrong = Wrong::default();
        // SAFETY: `at` leads to a book of the library; the text is given with its length.
        ended(unsafe {
            header::fz_parse_error(self.at(), sheet, text.as_ptr(), text.len(), &mut wrong)
        })?;
        Ok((wrong.is_wrong == 1).then_some(wrong.start..wrong.start + wrong.length))
    }

    pub(crate) fn name_text(&self, name: &str, scope: u32) -> Result<String, Error> {
        asked_text(|room, length| {
            let (start, size) = (room.as_mut_ptr(), room.len());
            // SAFETY: `at` leads to a book of the library; the text is given with its length, and the room with its size.
            unsafe {
                header::fz_name_text(
                    self.at(),
                    name.as_ptr(),
                    name.len(),
                    scope,
                    start,
                    size,
                    length,
                )
            }
        })
    }
}

// Questions about cells and areas.
impl Book {
    pub(crate) fn kind(&self, at: Place) -> Result<Kind, Error> {
        let Place { sheet, row, col } = at;
        let mut kind = header::EMPTY;
        // SAFETY: `at` leads to a book of the library.
        ended(unsafe { header::fz_kind(self.at(), sheet, row, col, &mut kind) })?;
        Ok(Kind::of_library(kind))
    }

    pub(crate) fn used_area(&self, sheet: u32) -> Result<Option<Block>, Error> {
        let mut used = Used::default();
        // SAFETY: `at` leads to a book of the library.
        ended(unsafe { header::fz_used_area(self.at(), sheet, &mut used) })?;
        let Used {
            is_used,
            top,
            left,
            bottom,
            right,
        } = used;
        let area = Block::new(sheet, top, left, bottom, right);
        Ok((is_used == 1).then_some(area))
    }

    pub(crate) fn filled(&self, area: Block) -> Result<Vec<Place>, Error> {
        let Block {
            sheet,
            top,
            left,
            bottom,
            right,
        } = area;
        asked_places(sheet, |places, count| {
            let (rows, row_room) = (places.as_mut_ptr(), places.len());
            // SAFETY: `at` leads to a book of the library; the room is given with its size.
            unsafe {
                header::fz_filled(
                    self.at(),
                    sheet,
                    top,
                    left,
                    bottom,
                    right,
                    rows,
                    row_room,
                    count,
                )
            }
        })
    }

    pub(crate) fn filled_in(&self, sheet: u32) -> Result<Vec<Place>, Error> {
        asked_places(sheet, |places, count| {
            let (rows, row_room) = (places.as_mut_ptr(), places.len());
            // SAFETY: `at` leads to a book of the library; the room is given with its size.
            unsafe { header::fz_filled_in(self.at(), sheet, rows, row_room, count) }
        })
    }

    pub(crate) fn on_cycle(&self, sheet: u32) -> Result<Vec<Place>, Error> {
        asked_places(sheet, |places, count| {
            let (rows, row_room) = (places.as_mut_ptr(), places.len());
            // SAFETY: `at` leads to a book of the library; the room is given with its size.
            unsafe { header::fz_on_cycle(self.at(), sheet, rows, row_room, count) }
        })
    }

    pub(crate) fn values(&self, area: Block) -> Result<Vec<(Place, Value)>, Error> {
        let Block {
            sheet,
            top,
            left,
            bottom,
            right,
        } = area;
        let ask = |cells: &mut [header::Cell], texts: &mut [u8], sizes: &mut Sizes| {
            let (rows, row_room) = (cells.as_mut_ptr(), cells.len());
            let (start, size) = (texts.as_mut_ptr(), texts.len());
            // SAFETY: `at` leads to a book of the library; both rooms are given with their sizes.
            unsafe {
                header::fz_values(
                    self.at(),
                    sheet,
                    top,
                    left,
                    bottom,
                    right,
                    rows,
                    row_room,
                    start,
                    size,
                    sizes,
                )
            }
        };
        asked_cells(sheet, ask, value_of)
    }

    pub(crate) fn contents(&self, area: Block) -> Result<Vec<(Place, String)>, Error> {
        let Block {
            sheet,
            top,
            left,
            bottom,
            right,
        } = area;
        let ask = |cells: &mut [header::Cell], texts: &mut [u8], sizes: &mut Sizes| {
            let (rows, row_room) = (cells.as_mut_ptr(), cells.len());
            let (start, size) = (texts.as_mut_ptr(), texts.len());
            // SAFETY: `at` leads to a book of the library; both rooms are given with their sizes.
            unsafe {
                header::fz_contents(
                    self.at(),
                    sheet,
                    top,
                    left,
                    bottom,
                    right,
                    rows,
                    row_room,
                    start,
                    size,
                    sizes,
                )
            }
        };
        asked_cells(sheet, ask, |_, text| text_of(text))
    }
}

// Questions about names and links.
impl Book {
    pub(crate) fn names(&self) -> Result<Vec<Name>, Error> {
        let ask = |names: &mut [header::Name], words: &mut [u8], sizes: &mut Sizes| {
            let (rows, row_room) = (names.as_mut_ptr(), names.len());
            let (start, size) = (words.as_mut_ptr(), words.len());
            // SAFETY: `at` leads to a book of the library; both rooms are given with their sizes.
            unsafe { header::fz_names(self.at(), rows, row_room, start, size, sizes) }
        };
        asked_list(ask, name_of)
    }

    pub(crate) fn names_in(&self, sheet: u32, text: &str) -> Result<Vec<String>, Error> {
        let ask = |names: &mut [header::Name], words: &mut [u8], sizes: &mut Sizes| {
            let (rows, row_room) = (names.as_mut_ptr(), names.len());
            let (start, size) = (words.as_mut_ptr(), words.len());
            // SAFETY: `at` leads to a book of the library; the text is given with its length, and both rooms with their sizes.
            unsafe {
                header::fz_names_in(
                    self.at(),
                    sheet,
                    text.as_ptr(),
                    text.len(),
                    rows,
                    row_room,
                    start,
                    size,
                    sizes,
                )
            }
        };
        asked_list(ask, |name, words| name_of(name, words).word)
    }

    pub(crate) fn precedents(&self, at: Place) -> Result<Vec<Link>, Error> {
        let Place { sheet, row, col } = at;
        let ask = |links: &mut [header::Link], words: &mut [u8], counts: &mut Sizes| {
            let (rows, row_room) = (links.as_mut_ptr(), links.len());
            let (start, size) = (words.as_mut_ptr(), words.len());
            // SAFETY: `at` leads to a book of the library; both rooms are given with their sizes.
            unsafe {
                header::fz_precedents(
                    self.at(),
                    sheet,
                    row,
                    col,
                    rows,
                    row_room,
                    start,
                    size,
                    counts,
                )
            }
        };
        asked_list(ask, link_of)
    }

    pub(crate) fn dependents(&self, at: Place) -> Result<Vec<Link>, Error> {
        let Place { sheet, row, col } = at;
        let ask = |links: &mut [header::Link], words: &mut [u8], counts: &mut Sizes| {
            let (rows, row_room) = (links.as_mut_ptr(), links.len());
            let (start, size) = (words.as_mut_ptr(), words.len());
            // SAFETY: `at` leads to a book of the library; both rooms are given with their sizes.
            unsafe {
                header::fz_dependents(
                    self.at(),
                    sheet,
                    row,
                    col,
                    rows,
                    row_room,
                    start,
                    size,
                    counts,
                )
            }
        };
        asked_list(ask, link_of)
    }
}

// What a status means.
fn ended(status: Status) -> Result<(), Error> {
    match status {
        DONE => Ok(()),
        status => Err(Error::from_status(status)),
    }
}

// What a question tells, with its text: asked with a small room, and once more with one that is long enough where that was too
// short.
fn asked<T: Default, A>(
    ask: impl Fn(&mut [u8], &mut T) -> Status,
    length: impl Fn(&T) -> usize,
    read: impl FnOnce(&T, &[u8]) -> A,
) -> Result<A, Error> {
    let mut told = T::default();
    let mut room = [0; ROOM];
    let status = ask(&mut room, &mut told);
    if status != NO_ROOM {
        ended(status)?;
        return Ok(read(&told, &room[..length(&told)]));
    }
    let mut room = vec![0; length(&told)];
    ended(ask(&mut room, &mut told))?;
    Ok(read(&told, &room))
}

fn asked_text(ask: impl Fn(&mut [u8], &mut usize) -> Status) -> Result<String, Error> {
    asked(ask, |length| *length, |_, bytes| text_of(bytes))
}

fn asked_value(ask: impl Fn(&mut [u8], &mut Shown) -> Status) -> Result<Value, Error> {
    asked(ask, |shown| shown.length, value_of)
}

// What a question lists, each row read with the texts of all: asked as often, with rooms of rows and of bytes.
fn asked_list<R: Clone + Default, A>(
    ask: impl Fn(&mut [R], &mut [u8], &mut Sizes) -> Status,
    read: impl Fn(&R, &[u8]) -> A,
) -> Result<Vec<A>, Error> {
    let mut sizes = Sizes::default();
    let mut rows = vec![R::default(); ROWS];
    let mut texts = vec![0; ROOM];
    let mut status = ask(&mut rows, &mut texts, &mut sizes);
    if status == NO_ROOM {
        rows.resize(sizes.rows, R::default());
        texts.resize(sizes.bytes, 0);
        status = ask(&mut rows, &mut texts, &mut sizes);
    }
    ended(status)?;
    let rows = &rows[..sizes.rows];
    Ok(rows.iter().map(|row| read(row, &texts)).collect())
}

// Cells of a sheet, each with what is read of its value and its text.
fn asked_cells<A>(
    sheet: u32,
    ask: impl Fn(&mut [header::Cell], &mut [u8], &mut Sizes) -> Status,
    read: impl Fn(&Shown, &[u8]) -> A,
) -> Result<Vec<(Place, A)>, Error> {
    asked_list(ask, |cell, texts| {
        let text = &texts[cell.text_start..cell.text_start + cell.shown.length];
        (
            Place::new(sheet, cell.row, cell.col),
            read(&cell.shown, text),
        )
    })
}

// Places of a sheet, which have no texts.
fn asked_places(
    sheet: u32,
    ask: impl Fn(&mut [header::Place], &mut usize) -> Status,
) -> Result<Vec<Place>, Error> {
    asked_list(
        |places, _, sizes| ask(places, &mut sizes.rows),
        |place: &header::Place, _| Place::new(sheet, place.row, place.col),
    )
}

fn text_of(bytes: &[u8]) -> String {
    String::from_utf8(bytes.to_vec()).expect("the library answers UTF-8")
}

fn value_of(shown: &Shown, text: &[u8]) -> Value {
    match shown.kind {
        header::EMPTY => Value::Empty,
        header::NUMBER => Value::Number(Number::of_library(shown.number)),
        header::TEXT => Value::Text(text_of(text)),
        header::TRUTH => Value::Truth(shown.number == 1),
        _ => Value::Fault(Fault::of_library(shown.number)),
    }
}

fn link_of(link: &header::Link, words: &[u8]) -> Link {
    let &header::Link {
        kind,
        sheet,
        top,
        left,
        bottom,
        right,
        word_start,
        word_length,
    } = link;
    match kind {
        header::LINK_CELL => Link::Cell(Place::new(sheet, top, left)),
        header::LINK_BLOCK => Link::Block(Block::new(sheet, top, left, bottom, right)),
        _ => Link::Name(name_of(
            &header::Name {
                scope: sheet,
                word_start,
                word_length,
            },
            words,
        )),
    }
}

fn name_of(name: &header::Name, words: &[u8]) -> Name {
    let &header::Name {
        scope,
        word_start,
        word_length,
    } = name;
    Name {
        scope: (scope != NO_NUMBER).then_some(scope),
        word: text_of(&words[word_start..word_start + word_length]),
    }
}
