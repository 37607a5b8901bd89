//! Workbooks.

use crate::change::Change;
use crate::error::{Error, Refusal};
use crate::library::{Book, NO_NUMBER};
use crate::options::Options;
use crate::place::{Block, Link, Name, Place};
use crate::value::{Kind, Number, Value};
use std::fmt;
use std::ops::Range;

/// A workbook: sheets with their cells, named expressions, steps of undo and what waits to be pasted.
///
/// It is closed when it is dropped. One thread opens it, makes each call and drops it:
///
/// ```compile_fail
/// fn sent<T: Send>() {}
/// sent::<fazhundel::Workbook>();
/// ```
///
/// ```compile_fail
/// fn shared<T: Sync>() {}
/// shared::<fazhundel::Workbook>();
/// ```
///
/// A call that ends with an error changes nothing. Which refusals a call has, and in what order, `docs/SCRIPT.md` says at the
/// command of its name.
pub struct Workbook {
    book: Book,
}

impl Workbook {
    /// Opens a workbook without sheets, as [`Options::new`] says.
    pub fn open() -> Result<Workbook, Error> {
        Options::new().open()
    }

    pub(crate) fn of(book: Book) -> Workbook {
        debug_assert!(book.is_open());
        Workbook { book }
    }

    /// Closes the workbook at once, as its drop does.
    pub fn close(self) {}
}

impl fmt::Debug for Workbook {
    fn fmt(&self, f: &mut fmt::Formatter<'_>) -> fmt::Result {
        let sheets = self.sheets();
        f.debug_struct("Workbook")
            .field("sheets", &sheets)
            .finish_non_exhaustive()
    }
}

/// Cells, rows and columns. Each of these calls that is done is a step of undo, or a part of the open batch's.
impl Workbook {
    /// Gives a cell the content that the text says: nothing, a formula behind `=`, a number, TRUE or FALSE, or a text.
    pub fn set(&mut self, at: Place, text: &str) -> Result<(), Error> {
        self.book.set(at, text)
    }

    /// Gives a cell a number, and is refused as [`set`](Workbook::set) is.
    pub fn set_number(&mut self, at: Place, number: Number) -> Result<(), Error> {
        self.book.set_number(at, number)
    }

    /// Gives a cell a truth value, likewise.
    pub fn set_truth(&mut self, at: Place, truth: bool) -> Result<(), Error> {
        self.book.set_truth(at, truth)
    }

    /// Gives a cell this text as it is, which needs no apostrophe: `007` stays three characters, and `=A1` is no formula.
    ///
    /// The apostrophe that [`content`](Workbook::content) answers in front of such a text counts among the 8,192 bytes that a
    /// text may have.
    pub fn set_text(&mut self, at: Place, text: &str) -> Result<(), Error> {
        self.book.set_text(at, text)
    }

    /// Gives many cells the contents that their texts say, as one change: all of them or none, and one step of undo.
    ///
    /// [`Error::BadCells`] where a cell is listed twice.
    pub fn write_all<T: AsRef<str>>(&mut self, cells: &[(Place, T)]) -> Result<(), Error> {
        self.book.write_all(cells)
    }

    /// Empties the cells of a block.
    pub fn clear(&mut self, area: Block) -> Result<(), Error> {
        let Block {
            sheet,
            top,
            left,
            bottom,
            right,
        } = area;
        self.book.clear(sheet, top, left, bottom, right)
    }

    /// Puts so many rows before a row of the sheet.
    pub fn insert_rows(&mut self, sheet: u32, at: u32, count: u32) -> Result<(), Error> {
        self.book.insert_rows(sheet, at, count)
    }

    /// Puts so many columns before a column of the sheet.
    pub fn insert_cols(&mut self, sheet: u32, at: u32, count: u32) -> Result<(), Error> {
        self.book.insert_cols(sheet, at, count)
    }

    /// Deletes so many rows of the sheet from a row on.
    pub fn delete_rows(&mut self, sheet: u32, at: u32, count: u32) -> Result<(), Error> {
        self.book.delete_rows(sheet, at, count)
    }

    /// Deletes so many columns of the sheet from a column on.
    pub fn delete_cols(&mut self, sheet: u32, at: u32, count: u32) -> Result<(), Error> {
        self.book.delete_cols(sheet, at, count)
    }

    /// Moves so many rows of the sheet from a row on to before another row.
    pub fn move_rows(
        &mut self,
        sheet: u32,
        from: u32,
        count: u32,
        before: u32,
    ) -> Result<(), Error> {
        self.book.move_rows(sheet, from, count, before)
    }

    /// Moves so many columns of the sheet from a column on to before another column.
    pub fn move_cols(
        &mut self,
        sheet: u32,
        from: u32,
        count: u32,
        before: u32,
    ) -> Result<(), Error> {
        self.book.move_cols(sheet, from, count, before)
    }

    /// Moves the cells of a block to the block of the same size that begins at a place.
    pub fn move_block(&mut self, area: Block, to: Place) -> Result<(), Error> {
        self.book.move_block(area, to)
    }
}

/// Sheets. Adding, dropping, renaming and emptying one is a step of undo, or a part of the open batch's.
impl Workbook {
    /// Adds a sheet at the end of the list, and answers its number, which no other sheet of the workbook ever gets.
    pub fn add_sheet(&mut self, name: &str) -> Result<u32, Error> {
        self.book.add_sheet(name)
    }

    /// Drops a sheet with its cells and the names of its scope.
    pub fn drop_sheet(&mut self, sheet: u32) -> Result<(), Error> {
        self.book.drop_sheet(sheet)
    }

    /// Gives a sheet another name.
    pub fn rename_sheet(&mut self, sheet: u32, name: &str) -> Result<(), Error> {
        self.book.rename_sheet(sheet, name)
    }

    /// Empties the cells of a sheet.
    pub fn clear_sheet(&mut self, sheet: u32) -> Result<(), Error> {
        self.book.clear_sheet(sheet)
    }

    /// How many sheets there are.
    pub fn sheet_count(&self) -> usize {
        self.book.sheet_count()
    }

    /// The number of the sheet at a place of the list, counted from 0.
    pub fn sheet_at(&self, index: usize) -> Option<u32> {
        self.book.sheet_at(index)
    }

    /// The numbers of the sheets, in the order of their list.
    pub fn sheets(&self) -> Vec<u32> {
        (0..self.sheet_count())
            .filter_map(|index| self.sheet_at(index))
            .collect()
    }

    /// The number of the sheet of this name, in any case of its ASCII letters.
    pub fn sheet_id(&self, name: &str) -> Option<u32> {
        self.book.sheet_id(name)
    }

    /// The name of a sheet.
    pub fn sheet_name(&self, sheet: u32) -> Result<String, Error> {
        self.book.sheet_name(sheet)
    }
}

/// Named expressions, in the scope of a sheet, or of the whole workbook where there is no scope. Adding, changing and taking
/// one away is a step of undo, or a part of the open batch's.
impl Workbook {
    /// All names: those of the whole workbook, then those of each sheet by its number, within a scope by the bytes of their words.
    pub fn names(&self) -> Result<Vec<Name>, Error> {
        self.book.names()
    }

    /// The text of the formula of the scope's own name, which [`add_name`](Workbook::add_name) takes. `NoSheet`, `NoSuchName`.
    pub fn name_text(&self, name: &str, scope: Option<u32>) -> Result<String, Error> {
        self.book.name_text(name, scope_number(scope))
    }

    /// Adds a name with the formula of the text.
    pub fn add_name(&mut self, name: &str, scope: Option<u32>, text: &str) -> Result<(), Error> {
        self.book.add_name(name, scope_number(scope), text)
    }

    /// Gives a name another formula.
    pub fn change_name(&mut self, name: &str, scope: Option<u32>, text: &str) -> Result<(), Error> {
        self.book.change_name(name, scope_number(scope), text)
    }

    /// Takes a name away.
    pub fn remove_name(&mut self, name: &str, scope: Option<u32>) -> Result<(), Error> {
        self.book.remove_name(name, scope_number(scope))
    }

    /// What a name shows that the word finds on the sheet.
    pub fn name_value(&self, name: &str, sheet: u32) -> Result<Value, Error> {
        self.book.name_value(name, sheet)
    }
}

/// What is copied, cut and pasted.
impl Workbook {
    /// Copies a block, which then waits to be pasted, as often as one likes.
    pub fn copy(&mut self, area: Block) -> Result<(), Error> {
        let Block {
            sheet,
            top,
            left,
            bottom,
            right,
        } = area;
        self.book.copy(sheet, top, left, bottom, right)
    }

    /// Cuts a block, which is moved where it is pasted.
    pub fn cut(&mut self, area: Block) -> Result<(), Error> {
        let Block {
            sheet,
            top,
            left,
            bottom,
            right,
        } = area;
        self.book.cut(sheet, top, left, bottom, right)
    }

    /// Pastes what was copied or cut, its first cell at a place: a step of undo, or a part of the open batch's.
    pub fn paste(&mut self, at: Place) -> Result<(), Error> {
        self.book.paste(at.sheet, at.row, at.col)
    }

    /// Empties the clipboard: nothing waits to be pasted then. Nothing refuses it.
    pub fn clear_clipboard(&mut self) -> Result<(), Error> {
        self.book.clear_clipboard()
    }

    /// Whether nothing waits to be pasted.
    pub fn is_clipboard_empty(&self) -> bool {
        self.book.is_clipboard_empty()
    }
}

/// Steps, batches, suspended evaluation and idle time.
impl Workbook {
    /// Takes the newest step back.
    pub fn undo(&mut self) -> Result<(), Error> {
        self.book.undo()
    }

    /// Does the step again that was taken back last.
    pub fn redo(&mut self) -> Result<(), Error> {
        self.book.redo()
    }

    /// Whether [`undo`](Workbook::undo) would be accepted now.
    pub fn can_undo(&self) -> bool {
        self.book.can_undo()
    }

    /// Whether [`redo`](Workbook::redo) would be accepted now.
    pub fn can_redo(&self) -> bool {
        self.book.can_redo()
    }

    /// Why a call would be refused now; `None` where it would be accepted. Nothing changes.
    ///
    /// ```
    /// use fazhundel::{Change, Refusal, Workbook};
    ///
    /// let mut book = Workbook::open()?;
    /// let sheet = book.add_sheet("Invoice")?;
    /// assert_eq!(book.cause(Change::InsertRows(sheet, 0, 0))?, Some(Refusal::BadSpan));
    /// assert_eq!(book.cause(Change::InsertRows(sheet, 0, 1))?, None);
    /// # Ok::<(), fazhundel::Error>(())
    /// ```
    pub fn cause(&self, change: Change<'_>) -> Result<Option<Refusal>, Error> {
        self.book.cause(change)
    }

    /// Forgets the steps that can be undone and done again; an open batch stays open. Nothing refuses it.
    pub fn clear_history(&mut self) -> Result<(), Error> {
        self.book.clear_history()
    }

    /// Opens a batch: the changes until [`commit`](Workbook::commit) are one step. Values aren't answered in it.
    pub fn begin(&mut self) -> Result<(), Error> {
        self.book.begin()
    }

    /// Closes the batch.
    pub fn commit(&mut self) -> Result<(), Error> {
        self.book.commit()
    }

    /// Whether a batch is open.
    pub fn has_batch(&self) -> bool {
        self.book.has_batch()
    }

    /// Does what the closure does as one step.
    ///
    /// The batch is closed in any case, also where the closure ends with an error or unwinds. What it had changed by then stays,
    /// as one step: whoever doesn't want it takes it back by [`undo`](Workbook::undo).
    ///
    /// ```no_run
    /// # use fazhundel::{Error, Place, Workbook};
    /// # let mut book = Workbook::open()?;
    /// # let sheet = book.add_sheet("Plan")?;
    /// book.batch(|book| {
    ///     book.set(Place::new(sheet, 0, 0), "2")?;
    ///     book.insert_rows(sheet, 0, 1)
    /// })?;
    /// book.undo()?; // takes both back
    /// # Ok::<(), Error>(())
    /// ```
    pub fn batch<T, E: From<Error>>(
        &mut self,
        inside: impl FnOnce(&mut Workbook) -> Result<T, E>,
    ) -> Result<T, E> {
        self.begin()?;
        between(self, inside, Workbook::commit)
    }

    /// Suspends evaluation: values aren't answered until [`resume`](Workbook::resume).
    pub fn suspend(&mut self) -> Result<(), Error> {
        self.book.suspend()
    }

    /// Resumes evaluation.
    pub fn resume(&mut self) -> Result<(), Error> {
        self.book.resume()
    }

    /// Whether evaluation is suspended.
    pub fn is_suspended(&self) -> bool {
        self.book.is_suspended()
    }

    /// Does what the closure does while evaluation is suspended, and resumes it in any case.
    pub fn suspended<T, E: From<Error>>(
        &mut self,
        inside: impl FnOnce(&mut Workbook) -> Result<T, E>,
    ) -> Result<T, E> {
        self.suspend()?;
        between(self, inside, Workbook::resume)
    }

    /// Spends idle time on formulas that weren't read since structural operations went past them, so that no later call takes
    /// all of them over these at once.
    ///
    /// Each costs as many units of the budget as there are such operations, and one for which what is left of it doesn't
    /// suffice stays as it is. Whether no such formula is left; what every other call answers is as before.
    pub fn settle_idle(&mut self, budget: u64) -> Result<bool, Error> {
        self.book.settle_idle(budget)
    }
}

/// Areas. A cell is filled where it has a content, also a formula that shows nothing. These calls are refused with `NoSheet`,
/// those of a place or a block with `Outside`, and `values` with `Suspended`, as a value is.
impl Workbook {
    /// What kind of content a cell has.
    pub fn kind(&self, at: Place) -> Result<Kind, Error> {
        self.book.kind(at)
    }

    /// The filled places of a block, row by row.
    pub fn filled(&self, area: Block) -> Result<Vec<Place>, Error> {
        self.book.filled(area)
    }

    /// Those of a sheet.
    pub fn filled_in(&self, sheet: u32) -> Result<Vec<Place>, Error> {
        self.book.filled_in(sheet)
    }

    /// How far a sheet is used: the least block over its filled cells; none where no cell is filled.
    pub fn used_area(&self, sheet: u32) -> Result<Option<Block>, Error> {
        self.book.used_area(sheet)
    }

    /// What the filled cells of a block show, row by row: of a whole sheet those of its [`used_area`](Workbook::used_area). One
    /// such call takes far less time than to ask cell by cell.
    pub fn values(&self, area: Block) -> Result<Vec<(Place, Value)>, Error> {
        self.book.values(area)
    }

    /// The texts that give the filled cells of a block their contents, row by row.
    pub fn contents(&self, area: Block) -> Result<Vec<(Place, String)>, Error> {
        self.book.contents(area)
    }
}

/// Values, texts and links. Values are worked out when they are first asked for.
impl Workbook {
    /// What a cell shows.
    pub fn value(&self, at: Place) -> Result<Value, Error> {
        self.book.value(at)
    }

    /// The same as a text: `-3`, `0.5`, `TRUE`, `#DIV/0!`.
    pub fn value_text(&self, at: Place) -> Result<String, Error> {
        self.book.value_text(at)
    }

    /// What the formula of the text would show in the first cell of the sheet, without being in a cell.
    pub fn try_formula(&self, sheet: u32, text: &str) -> Result<Value, Error> {
        self.book.try_formula(sheet, text)
    }

    /// The text that [`formula`](Workbook::formula) answers of a cell of the sheet that is given the formula of the text, without
    /// being in a cell. `NoSheet`, `TextLimit`, `BadFormula`.
    pub fn normal_text(&self, sheet: u32, text: &str) -> Result<String, Error> {
        self.book.normal_text(sheet, text)
    }

    /// The bytes of the text at which it stops being a formula: its first token at which no formula goes on. `None` where it is one.
    ///
    /// At the text's end there are no bytes: the text is but the front of formulas. One that doesn't begin with `=` is wrong as a
    /// whole, and where no token begins, as at a quote that isn't closed, the rest of the text is. `NoSheet`, `TextLimit`.
    ///
    /// ```
    /// use fazhundel::Workbook;
    ///
    /// let mut book = Workbook::open()?;
    /// let sheet = book.add_sheet("Invoice")?;
    /// assert_eq!(book.parse_error(sheet, "=1+*2")?, Some(3..4));
    /// assert_eq!(book.parse_error(sheet, "=SUM(1,2)")?, None);
    /// # Ok::<(), fazhundel::Error>(())
    /// ```
    pub fn parse_error(&self, sheet: u32, text: &str) -> Result<Option<Range<usize>>, Error> {
        self.book.parse_error(sheet, text)
    }

    /// The words in capitals that the formula of the text uses as names, in its order and each once, also where there is no such
    /// name. It is refused likewise.
    pub fn names_in(&self, sheet: u32, text: &str) -> Result<Vec<String>, Error> {
        self.book.names_in(sheet, text)
    }

    /// The text of a cell's formula, if it has one.
    pub fn formula(&self, at: Place) -> Result<Option<String>, Error> {
        let text = self.book.formula(at)?;
        Ok((!text.is_empty()).then_some(text))
    }

    /// The text that gives the cell its content, when [`set`](Workbook::set) is given it.
    pub fn content(&self, at: Place) -> Result<String, Error> {
        self.book.content(at)
    }

    /// What a cell's formula needs, in its order and each once.
    pub fn precedents(&self, at: Place) -> Result<Vec<Link>, Error> {
        self.book.precedents(at)
    }

    /// The cells and then the names whose formulas need a cell.
    pub fn dependents(&self, at: Place) -> Result<Vec<Link>, Error> {
        self.book.dependents(at)
    }

    /// The cells of a sheet that are on a cycle, row by row: those whose needs lead back to them. A cell that only reads one of
    /// these isn't among them. They are told in a batch and suspended too. `NoSheet`.
    pub fn on_cycle(&self, sheet: u32) -> Result<Vec<Place>, Error> {
        self.book.on_cycle(sheet)
    }
}

// The number of a scope. A sheet of the number that stands for the whole workbook there can't be, so another number that no
// sheet has takes its place.
fn scope_number(scope: Option<u32>) -> u32 {
    scope.map_or(NO_NUMBER, |sheet| sheet.min(NO_NUMBER - 1))
}

// Makes the last call also where what comes before it unwinds.
struct AtEnd<'a> {
    book: &'a mut Workbook,
    last: fn(&mut Workbook) -> Result<(), Error>,
    is_made: bool,
}

impl AtEnd<'_> {
    fn make(&mut self) -> Result<(), Error> {
        self.is_made = true;
        (self.last)(self.book)
    }
}

impl Drop for AtEnd<'_> {
    fn drop(&mut self) {
        if !self.is_made {
            // It unwinds, and nobody is told.
            let _ = self.make();
        }
    }
}

// What the closure answers, after the last call; where that isn't done, its error.
fn between<T, E: From<Error>>(
    book: &mut Workbook,
    inside: impl FnOnce(&mut Workbook) -> Result<T, E>,
    last: fn(&mut Workbook) -> Result<(), Error>,
) -> Result<T, E> {
    let mut end = AtEnd {
        book,
        last,
        is_made: false,
    };
    let answer = inside(end.book);
    let ended = end.make();
    let answer = answer?;
    ended?;
    Ok(answer)
}
