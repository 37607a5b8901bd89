//! The calls of `faces/c/fazhundel.h`, in its order.

use std::ffi::c_void;

/// A status.
pub type Status = u8;

pub const DONE: Status = 0;
pub const NO_ROOM: Status = 65;

/// A number that no sheet has: as a scope, the whole workbook.
pub const NO_NUMBER: u32 = u32::MAX;

/// Holds a workbook, or none.
#[repr(C)]
pub struct Book {
    pub is_open: bool,
    pub held: *mut c_void,
}

/// A custom function: where its word and its pairs stand, and whether they are tiers.
#[repr(C)]
pub struct Rule {
    pub word_start: usize,
    pub word_length: usize,
    pub pairs_start: usize,
    pub pairs_count: usize,
    pub has_tiers: bool,
}

/// A pair of a rule, in millionths.
#[repr(C)]
pub struct Pair {
    pub from: i64,
    pub gives: i64,
}

pub const EMPTY: u32 = 0;
pub const NUMBER: u32 = 1;
pub const TEXT: u32 = 2;
pub const TRUTH: u32 = 3;

/// A value, whose text is in the room.
#[repr(C)]
#[derive(Clone, Default)]
pub struct Shown {
    pub kind: u32,
    pub number: i64,
    pub length: usize,
}

/// A place of the sheet that was asked for.
#[repr(C)]
#[derive(Clone, Default)]
pub struct Place {
    pub row: u32,
    pub col: u32,
}

/// How far a sheet is used: 1 and the least block, or 0 and no block.
#[repr(C)]
#[derive(Default)]
pub struct Used {
    pub is_used: u32,
    pub top: u32,
    pub left: u32,
    pub bottom: u32,
    pub right: u32,
}

/// A filled cell of the sheet that was asked for, whose text is in the room of texts.
#[repr(C)]
#[derive(Clone, Default)]
pub struct Cell {
    pub row: u32,
    pub col: u32,
    pub shown: Shown,
    pub text_start: usize,
}

/// A cell to write, whose text is among the bytes of all texts.
#[repr(C)]
pub struct Written {
    pub sheet: u32,
    pub row: u32,
    pub col: u32,
    pub text_start: usize,
    pub text_length: usize,
}

/// A change that is asked about.
#[repr(C)]
#[derive(Clone, Default)]
pub struct Change {
    pub kind: u32,
    pub sheet: u32,
    pub row: u32,
    pub col: u32,
    pub last_row: u32,
    pub last_col: u32,
    pub count: u32,
    pub to_sheet: u32,
    pub to_row: u32,
    pub to_col: u32,
}

/// A part of a text.
#[repr(C)]
#[derive(Default)]
pub struct Wrong {
    pub is_wrong: u32,
    pub start: usize,
    pub length: usize,
}

/// How much room a list needs: the counts of links, and the sizes of any other list.
#[repr(C)]
#[derive(Default)]
pub struct Sizes {
    pub rows: usize,
    pub bytes: usize,
}

/// A name, whose word is in the room of words.
#[repr(C)]
#[derive(Clone, Default)]
pub struct Name {
    pub scope: u32,
    pub word_start: usize,
    pub word_length: usize,
}

pub const LINK_CELL: u32 = 0;
pub const LINK_BLOCK: u32 = 1;

/// A link, whose word is in the room of words.
#[repr(C)]
#[derive(Clone, Default)]
pub struct Link {
    pub kind: u32,
    pub sheet: u32,
    pub top: u32,
    pub left: u32,
    pub bottom: u32,
    pub right: u32,
    pub word_start: usize,
    pub word_length: usize,
}

#[rustfmt::skip]
extern "C" {
    pub fn fz_open(book: *mut Book, undo_limit: u32, today: i32, rules: *const Rule, rule_count: usize,
                   pairs: *const Pair, pair_count: usize, words: *const u8, words_length: usize) -> Status;
    pub fn fz_close(book: *mut Book);
    pub fn fz_is_open(book: *const Book) -> bool;

    pub fn fz_set(book: *mut Book, sheet: u32, row: u32, col: u32, text: *const u8, length: usize) -> Status;
    pub fn fz_set_number(book: *mut Book, sheet: u32, row: u32, col: u32, millionths: i64) -> Status;
    pub fn fz_set_truth(book: *mut Book, sheet: u32, row: u32, col: u32, truth: bool) -> Status;
    pub fn fz_set_text(book: *mut Book, sheet: u32, row: u32, col: u32, text: *const u8, length: usize) -> Status;
    pub fn fz_write_all(book: *mut Book, cells: *const Written, count: usize, texts: *const u8, texts_size: usize) -> Status;
    pub fn fz_clear(book: *mut Book, sheet: u32, top: u32, left: u32, bottom: u32, right: u32) -> Status;
    pub fn fz_insert_rows(book: *mut Book, sheet: u32, at: u32, count: u32) -> Status;
    pub fn fz_insert_cols(book: *mut Book, sheet: u32, at: u32, count: u32) -> Status;
    pub fn fz_delete_rows(book: *mut Book, sheet: u32, at: u32, count: u32) -> Status;
    pub fn fz_delete_cols(book: *mut Book, sheet: u32, at: u32, count: u32) -> Status;
    pub fn fz_move_rows(book: *mut Book, sheet: u32, from: u32, count: u32, before: u32) -> Status;
    pub fn fz_move_cols(book: *mut Book, sheet: u32, from: u32, count: u32, before: u32) -> Status;
    pub fn fz_move_block(book: *mut Book, sheet: u32, top: u32, left: u32, bottom: u32, right: u32,
                         to_sheet: u32, to_row: u32, to_col: u32) -> Status;
    pub fn fz_add_sheet(book: *mut Book, name: *const u8, length: usize, number: *mut u32) -> Status;
    pub fn fz_drop_sheet(book: *mut Book, sheet: u32) -> Status;
    pub fn fz_rename_sheet(book: *mut Book, sheet: u32, name: *const u8, length: usize) -> Status;
    pub fn fz_clear_sheet(book: *mut Book, sheet: u32) -> Status;
    pub fn fz_add_name(book: *mut Book, name: *const u8, name_length: usize, scope: u32,
                       text: *const u8, length: usize) -> Status;
    pub fn fz_change_name(book: *mut Book, name: *const u8, name_length: usize, scope: u32,
                          text: *const u8, length: usize) -> Status;
    pub fn fz_remove_name(book: *mut Book, name: *const u8, name_length: usize, scope: u32) -> Status;
    pub fn fz_paste(book: *mut Book, sheet: u32, row: u32, col: u32) -> Status;

    pub fn fz_copy(book: *mut Book, sheet: u32, top: u32, left: u32, bottom: u32, right: u32) -> Status;
    pub fn fz_cut(book: *mut Book, sheet: u32, top: u32, left: u32, bottom: u32, right: u32) -> Status;
    pub fn fz_clear_clipboard(book: *mut Book) -> Status;
    pub fn fz_undo(book: *mut Book) -> Status;
    pub fn fz_redo(book: *mut Book) -> Status;
    pub fn fz_clear_history(book: *mut Book) -> Status;
    pub fn fz_begin(book: *mut Book) -> Status;
    pub fn fz_commit(book: *mut Book) -> Status;
    pub fn fz_suspend(book: *mut Book) -> Status;
    pub fn fz_resume(book: *mut Book) -> Status;
    pub fn fz_settle_idle(book: *mut Book, budget: u64, none_left: *mut u32) -> Status;

    pub fn fz_value(book: *mut Book, sheet: u32, row: u32, col: u32, room: *mut u8, size: usize, value: *mut Shown) -> Status;
    pub fn fz_value_text(book: *mut Book, sheet: u32, row: u32, col: u32, room: *mut u8, size: usize,
                         length: *mut usize) -> Status;
    pub fn fz_name_value(book: *mut Book, name: *const u8, name_length: usize, sheet: u32, room: *mut u8, size: usize,
                         value: *mut Shown) -> Status;
    pub fn fz_try(book: *mut Book, sheet: u32, text: *const u8, text_length: usize, room: *mut u8, size: usize,
                  value: *mut Shown) -> Status;
    pub fn fz_formula(book: *mut Book, sheet: u32, row: u32, col: u32, room: *mut u8, size: usize, length: *mut usize) -> Status;
    pub fn fz_content(book: *mut Book, sheet: u32, row: u32, col: u32, room: *mut u8, size: usize, length: *mut usize) -> Status;
    pub fn fz_kind(book: *mut Book, sheet: u32, row: u32, col: u32, kind: *mut u32) -> Status;

    pub fn fz_filled(book: *mut Book, sheet: u32, top: u32, left: u32, bottom: u32, right: u32,
                     places: *mut Place, place_room: usize, count: *mut usize) -> Status;
    pub fn fz_filled_in(book: *mut Book, sheet: u32, places: *mut Place, place_room: usize, count: *mut usize) -> Status;
    pub fn fz_used_area(book: *mut Book, sheet: u32, used: *mut Used) -> Status;
    pub fn fz_values(book: *mut Book, sheet: u32, top: u32, left: u32, bottom: u32, right: u32,
                     cells: *mut Cell, cell_room: usize, texts: *mut u8, texts_size: usize, sizes: *mut Sizes) -> Status;
    pub fn fz_contents(book: *mut Book, sheet: u32, top: u32, left: u32, bottom: u32, right: u32,
                       cells: *mut Cell, cell_room: usize, texts: *mut u8, texts_size: usize, sizes: *mut Sizes) -> Status;

    pub fn fz_names(book: *mut Book, names: *mut Name, name_room: usize, words: *mut u8, words_size: usize,
                    sizes: *mut Sizes) -> Status;
    pub fn fz_name_text(book: *mut Book, name: *const u8, name_length: usize, scope: u32, room: *mut u8, size: usize,
                        length: *mut usize) -> Status;
    pub fn fz_normal_text(book: *mut Book, sheet: u32, text: *const u8, text_length: usize, room: *mut u8, size: usize,
                          length: *mut usize) -> Status;
    pub fn fz_parse_error(book: *mut Book, sheet: u32, text: *const u8, length: usize, wrong: *mut Wrong) -> Status;
    pub fn fz_names_in(book: *mut Book, sheet: u32, text: *const u8, text_length: usize, names: *mut Name, name_room: usize,
                       words: *mut u8, words_size: usize, sizes: *mut Sizes) -> Status;

    pub fn fz_precedents(book: *mut Book, sheet: u32, row: u32, col: u32, links: *mut Link, link_room: usize,
                         words: *mut u8, words_size: usize, counts: *mut Sizes) -> Status;
    pub fn fz_dependents(book: *mut Book, sheet: u32, row: u32, col: u32, links: *mut Link, link_room: usize,
                         words: *mut u8, words_size: usize, counts: *mut Sizes) -> Status;
    pub fn fz_on_cycle(book: *mut Book, sheet: u32, places: *mut Place, place_room: usize, count: *mut usize) -> Status;

    pub fn fz_can_undo(book: *mut Book) -> bool;
    pub fn fz_can_redo(book: *mut Book) -> bool;
    pub fn fz_has_batch(book: *mut Book) -> bool;
    pub fn fz_is_suspended(book: *mut Book) -> bool;
    pub fn fz_is_clipboard_empty(book: *mut Book) -> bool;
    pub fn fz_cause(book: *mut Book, change: *const Change, name: *const u8, name_length: usize, text: *const u8,
                    length: usize, refusal: *mut Status) -> Status;

    pub fn fz_sheet_count(book: *mut Book) -> usize;
    pub fn fz_sheet_at(book: *mut Book, index: usize) -> u32;
    pub fn fz_sheet_id(book: *mut Book, name: *const u8, length: usize) -> u32;
    pub fn fz_sheet_name(book: *mut Book, sheet: u32, room: *mut u8, size: usize, length: *mut usize) -> Status;
}
