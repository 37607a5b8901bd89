//! Changes that a workbook is asked about before they are made.

use crate::library::{ChangeRow, NO_NUMBER};
use crate::place::{Block, Place};

/// A call that [`Workbook::cause`](crate::Workbook::cause) is asked about, with what it is given.
#[derive(Debug, Clone, Copy, PartialEq, Eq, Hash)]
pub enum Change<'a> {
    /// [`set`](crate::Workbook::set).
    Set(Place, &'a str),
    /// [`clear`](crate::Workbook::clear).
    Clear(Block),
    /// [`insert_rows`](crate::Workbook::insert_rows): the sheet, the row and how many.
    InsertRows(u32, u32, u32),
    /// [`delete_rows`](crate::Workbook::delete_rows), likewise.
    DeleteRows(u32, u32, u32),
    /// [`move_rows`](crate::Workbook::move_rows): the sheet, the first row, how many, and the row before which they go.
    MoveRows(u32, u32, u32, u32),
    /// [`insert_cols`](crate::Workbook::insert_cols): the sheet, the column and how many.
    InsertCols(u32, u32, u32),
    /// [`delete_cols`](crate::Workbook::delete_cols), likewise.
    DeleteCols(u32, u32, u32),
    /// [`move_cols`](crate::Workbook::move_cols): the sheet, the first column, how many, and the column before which they go.
    MoveCols(u32, u32, u32, u32),
    /// [`move_block`](crate::Workbook::move_block).
    MoveBlock(Block, Place),
    /// [`drop_sheet`](crate::Workbook::drop_sheet).
    DropSheet(u32),
    /// [`add_sheet`](crate::Workbook::add_sheet).
    AddSheet(&'a str),
    /// [`rename_sheet`](crate::Workbook::rename_sheet).
    RenameSheet(u32, &'a str),
    /// [`clear_sheet`](crate::Workbook::clear_sheet).
    ClearSheet(u32),
    /// [`add_name`](crate::Workbook::add_name): the name, the scope and the text.
    AddName(&'a str, Option<u32>, &'a str),
    /// [`change_name`](crate::Workbook::change_name), likewise.
    ChangeName(&'a str, Option<u32>, &'a str),
    /// [`remove_name`](crate::Workbook::remove_name): the name and the scope.
    RemoveName(&'a str, Option<u32>),
    /// [`copy`](crate::Workbook::copy).
    Copy(Block),
    /// [`cut`](crate::Workbook::cut).
    Cut(Block),
    /// [`paste`](crate::Workbook::paste).
    Paste(Place),
    /// [`begin`](crate::Workbook::begin).
    Begin,
    /// [`commit`](crate::Workbook::commit).
    Commit,
    /// [`undo`](crate::Workbook::undo).
    Undo,
    /// [`redo`](crate::Workbook::redo).
    Redo,
}

impl<'a> Change<'a> {
    // The change as the library takes it, with its name and its text.
    pub(crate) fn row(self) -> (ChangeRow, &'a str, &'a str) {
        let (name, text) = self.texts();
        (self.numbers(), name, text)
    }

    fn texts(self) -> (&'a str, &'a str) {
        match self {
            Change::Set(_, text) => ("", text),
            Change::AddName(name, _, text) | Change::ChangeName(name, _, text) => (name, text),
            Change::AddSheet(name) | Change::RenameSheet(_, name) | Change::RemoveName(name, _) => {
                (name, "")
            }
            _ => ("", ""),
        }
    }

    fn numbers(self) -> ChangeRow {
        match self {
            Change::Set(at, _) => place(1, at),
            Change::Clear(area) => block(2, area),
            Change::InsertRows(sheet, row, count) => rows(3, sheet, row, count),
            Change::DeleteRows(sheet, row, count) => rows(4, sheet, row, count),
            Change::MoveRows(sheet, row, count, to_row) => ChangeRow {
                to_row,
                ..rows(5, sheet, row, count)
            },
            Change::InsertCols(sheet, col, count) => cols(6, sheet, col, count),
            Change::DeleteCols(sheet, col, count) => cols(7, sheet, col, count),
            Change::MoveCols(sheet, col, count, to_col) => ChangeRow {
                to_col,
                ..cols(8, sheet, col, count)
            },
            Change::MoveBlock(area, to) => ChangeRow {
                to_sheet: to.sheet,
                to_row: to.row,
                to_col: to.col,
                ..block(9, area)
            },
            Change::DropSheet(sheet) => of_sheet(10, sheet),
            Change::AddSheet(_) => of_sheet(11, 0),
            Change::RenameSheet(sheet, _) => of_sheet(12, sheet),
            Change::ClearSheet(sheet) => of_sheet(13, sheet),
            Change::AddName(_, scope, _) => scoped(14, scope),
            Change::ChangeName(_, scope, _) => scoped(15, scope),
            Change::RemoveName(_, scope) => scoped(16, scope),
            Change::Copy(area) => block(17, area),
            Change::Cut(area) => block(18, area),
            Change::Paste(at) => place(19, at),
            Change::Begin => of_sheet(20, 0),
            Change::Commit => of_sheet(21, 0),
            Change::Undo => of_sheet(22, 0),
            Change::Redo => of_sheet(23, 0),
        }
    }
}

fn of_sheet(kind: u32, sheet: u32) -> ChangeRow {
    ChangeRow {
        kind,
        sheet,
        ..ChangeRow::default()
    }
}

fn scoped(kind: u32, scope: Option<u32>) -> ChangeRow {
    of_sheet(kind, scope.unwrap_or(NO_NUMBER))
}

fn rows(kind: u32, sheet: u32, row: u32, count: u32) -> ChangeRow {
    ChangeRow {
        row,
        count,
        ..of_sheet(kind, sheet)
    }
}

fn cols(kind: u32, sheet: u32, col: u32, count: u32) -> ChangeRow {
    ChangeRow {
        col,
        count,
        ..of_sheet(kind, sheet)
    }
}

fn place(kind: u32, at: Place) -> ChangeRow {
    ChangeRow {
        row: at.row,
        col: at.col,
        ..of_sheet(kind, at.sheet)
    }
}

fn block(kind: u32, area: Block) -> ChangeRow {
    ChangeRow {
        row: area.top,
        col: area.left,
        last_row: area.bottom,
        last_col: area.right,
        ..of_sheet(kind, area.sheet)
    }
}
