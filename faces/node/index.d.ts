/** A workbook engine: sheets, formulas that follow rows and columns, undo. */

/** A cell: the number of its sheet, its row and its column, both counted from 0. */
export interface Place {
  sheet: number;
  row: number;
  col: number;
}

/** A rectangle of cells, by its first and last row and column. */
export interface Block {
  sheet: number;
  top: number;
  left: number;
  bottom: number;
  right: number;
}

/** A named expression: its scope, which is a sheet's number or null for the whole workbook, and its word in capitals. */
export interface Name {
  scope: number | null;
  word: string;
}

/** What a formula needs, or what needs a cell: a cell has `row`, a block `top`, a name `word`. */
export type Link = Place | Block | Name;

/** Why a cell has no value. It is a value like any other, and no error. */
export class Fault {
  private constructor();
  /** Its number, 1 to 8. */
  readonly number: number;
  readonly name: 'DIV0' | 'NAME' | 'VALUE' | 'NUM' | 'NA' | 'CYCLE' | 'REF' | 'ERROR';
  /** What a cell shows that has it, as #DIV/0!. */
  readonly text: string;
  toString(): string;
}

/** The faults by their names. */
export const Faults: Readonly<Record<Fault['name'], Fault>>;

/** What a cell shows: null where it is empty, a number in millionths, a text, a truth value or a fault. */
export type Value = null | bigint | string | boolean | Fault;

/** What kind of content a cell has; an unreadable one is a formula that has no tree, kept as its text. */
export type Kind = 'empty' | 'number' | 'text' | 'truth' | 'formula' | 'unreadable';

/** A filled cell, with what it shows. */
export interface ShownCell extends Place {
  value: Value;
}

/** A filled cell, with the text that gives it its content. */
export interface HeldCell extends Place {
  content: string;
}

/** The number that a text spells, in millionths: '10.5' is 10500000n. RangeError where it spells none. */
export function millionths(text: string): bigint;

/** The shortest decimal text of a number of millionths: 10500000n is '10.5'. */
export function decimal(millionths: bigint): string;

/** What a person sees of a value: nothing, -3, the text itself, TRUE, #DIV/0!. */
export function shown(value: Value): string;

/** The cell of a sheet at an address, as 'B5'. RangeError where that is none. */
export function place(sheet: number, address: string): Place;

/** The block of a sheet at an address: two opposite corners, as 'A1:B5', or one cell. RangeError where that is none. */
export function block(sheet: number, address: string): Block;

/** The address of a place or a block, without its sheet: 'B5', 'A1:B5'. */
export function address(of: Place | Block): string;

/** A custom function of one value, made by `bands` or `tiers`. */
export interface Rule {
  readonly pairs: ReadonlyArray<readonly [bigint, bigint]>;
  readonly hasTiers: boolean;
}

/** Pairs of numbers whose first ones rise, 1 to 64 of them: each number in millionths, or as a decimal text. */
export type Pairs = Iterable<readonly [bigint | string, bigint | string]>;

/** Answers the second number of the last pair whose first one isn't above the value; #N/A below the first pair. */
export function bands(pairs: Pairs): Rule;

/** Answers the sum over all tiers of the rate times the part of the value that lies in the tier, for a first tier that begins at
 * 0; #NUM! of a negative value. */
export function tiers(pairs: Pairs): Rule;

/** How a workbook is opened. */
export interface Options {
  /** How many steps can be undone, at most 1,000; 20 without it. */
  undoLimit?: number;
  /** The day that formulas see as today, as a Date (its local day) or a serial number, counted from 1899-12-30: 45292 is
   * 2024-01-01. Without it, the day that the clock tells. */
  today?: Date | number;
  /** Custom functions by their words. */
  rules?: Readonly<Record<string, Rule>>;
}

/** A call that can be asked about beforehand. */
export type Change =
  | 'set' | 'clear' | 'insertRows' | 'deleteRows' | 'moveRows' | 'insertCols' | 'deleteCols' | 'moveCols' | 'moveBlock'
  | 'dropSheet' | 'addSheet' | 'renameSheet' | 'clearSheet' | 'addName' | 'changeName' | 'removeName'
  | 'copy' | 'cut' | 'paste' | 'begin' | 'commit' | 'undo' | 'redo';

/** A call wasn't done, and the workbook is as it was. */
export class FazhundelError extends Error {
  constructor(status: number);
  /** The number of a refusal, 1 to 20, or 64 and more for another cause. */
  readonly status: number;
  /** The name of the refusal, as docs/SCRIPT.md has it ('NothingToUndo'), or 'NoMemory', 'NotOpen', 'NotUtf8', 'BadLimit',
   * 'BadTable', 'BadCells'. */
  readonly name: string;
  /** Whether the call was refused. */
  readonly isRefusal: boolean;
}

/**
 * A workbook without sheets.
 *
 * `close` frees it at once, after which its calls throw NotOpen; one that is forgotten is freed some time later. It stays in its
 * thread: no worker can be given it.
 */
export class Workbook {
  /** Throws BadLimit, BadTable, NoMemory. */
  constructor(options?: Options);

  /** Frees the workbook. Once more does nothing. */
  close(): void;
  /** Whether it isn't closed. */
  readonly isOpen: boolean;

  // Cells, rows and columns. Each of these calls that is done is a step of undo, or a part of the open batch's.

  /** Gives a cell the content that the text says: nothing, a formula behind =, a number, TRUE or FALSE, or a text. */
  set(at: Place, text: string): void;
  /** Gives a cell a number, in millionths or as a decimal text: 10500000n and '10.5' are the same. RangeError where it is 10^12 or
   * more in absolute value, or the text spells no number; else it throws as set does. */
  setNumber(at: Place, number: bigint | string): void;
  /** Gives a cell a truth value. It throws as set does. */
  setTruth(at: Place, truth: boolean): void;
  /** Gives a cell this text as it is, which needs no apostrophe: '007' stays three characters, '=A1' is no formula. The apostrophe
   * that content answers in front of such a text counts among the 8,192 bytes that a text may have. */
  setText(at: Place, text: string): void;
  /** Gives many cells the contents that their texts say, as one change: all of them or none, and one step of undo. They may
   * come in any order, also as a Map. BadCells where a cell is listed twice. */
  writeAll(cells: Iterable<readonly [Place, string]>): void;
  /** Empties the cells of a block. */
  clear(area: Block): void;
  /** Puts so many rows before a row of the sheet. */
  insertRows(sheet: number, at: number, count: number): void;
  /** Puts so many columns before a column of the sheet. */
  insertCols(sheet: number, at: number, count: number): void;
  /** Deletes so many rows of the sheet from a row on. */
  deleteRows(sheet: number, at: number, count: number): void;
  /** Deletes so many columns of the sheet from a column on. */
  deleteCols(sheet: number, at: number, count: number): void;
  /** Moves so many rows of the sheet from a row on to before another row. */
  moveRows(sheet: number, from: number, count: number, before: number): void;
  /** Moves so many columns of the sheet from a column on to before another column. */
  moveCols(sheet: number, from: number, count: number, before: number): void;
  /** Moves the cells of a block to the block of the same size that begins at a place. */
  moveBlock(area: Block, to: Place): void;

  // Sheets. Adding, dropping, renaming and emptying one is a step of undo, or a part of the open batch's.

  /** Adds a sheet at the end of the list, and answers its number, which no other sheet of the workbook ever gets. */
  addSheet(name: string): number;
  /** Drops a sheet with its cells and the names of its scope. */
  dropSheet(sheet: number): void;
  /** Gives a sheet another name. */
  renameSheet(sheet: number, name: string): void;
  /** Empties the cells of a sheet. */
  clearSheet(sheet: number): void;
  /** How many sheets there are. */
  readonly sheetCount: number;
  /** The number of the sheet at a place of the list, counted from 0. */
  sheetAt(index: number): number | null;
  /** The numbers of the sheets, in the order of their list. */
  sheets(): number[];
  /** The number of the sheet of this name, in any case of its ASCII letters. */
  sheetId(name: string): number | null;
  /** The name of a sheet. */
  sheetName(sheet: number): string;

  // Named expressions, in the scope of a sheet, or of the whole workbook where there is none. Adding, changing and taking one away
  // is a step too.

  /** Adds a name with the formula of the text. */
  addName(name: string, text: string, scope?: number | null): void;
  /** Gives a name another formula. */
  changeName(name: string, text: string, scope?: number | null): void;
  /** Takes a name away. */
  removeName(name: string, scope?: number | null): void;
  /** All names: those of the whole workbook, then those of each sheet by its number, within a scope by the bytes of their words. */
  names(): Name[];
  /** The text of the formula of the scope's own name, which addName takes. Throws NoSheet, NoSuchName. */
  nameText(name: string, scope?: number | null): string;
  /** What a name shows that the word finds on the sheet. */
  nameValue(name: string, sheet: number): Value;

  // What is copied, cut and pasted.

  /** Copies a block, which then waits to be pasted, as often as one likes. */
  copy(area: Block): void;
  /** Cuts a block, which is moved where it is pasted. */
  cut(area: Block): void;
  /** Pastes what waits, its first cell at a place: a step of undo, or a part of the open batch's. */
  paste(at: Place): void;
  /** Empties the clipboard: nothing waits to be pasted then. Nothing refuses it. */
  clearClipboard(): void;
  /** Whether nothing waits to be pasted. */
  readonly isClipboardEmpty: boolean;

  // Steps, batches, suspended evaluation and idle time.

  /** Takes the newest step back. */
  undo(): void;
  /** Does the step again that was taken back last. */
  redo(): void;
  /** Forgets the steps that can be undone and done again; an open batch stays open. Nothing refuses it. */
  clearHistory(): void;
  /** Whether undo would be accepted now. */
  readonly canUndo: boolean;
  /** Whether redo would be accepted now. */
  readonly canRedo: boolean;
  /** Why a call of those in Change would be refused now, by its name and its words: book.cause('insertRows', sheet, 0, 1). It
   * answers the refusal's name, or null where the call would be accepted. Nothing changes. */
  cause<C extends Change>(change: C, ...words: Parameters<Workbook[C]>): string | null;
  /** Opens a batch: the changes until commit are one step. Values aren't answered in it. */
  begin(): void;
  /** Closes the batch. */
  commit(): void;
  /** Whether a batch is open. */
  readonly hasBatch: boolean;
  /** Does what the function does as one step. The batch is closed where it throws too, and what it had changed by then stays,
   * as one step. It isn't waited for: the function is no async one. */
  batch<T>(inside: (book: this) => T): T;
  /** Suspends evaluation: values aren't answered until resume. */
  suspend(): void;
  /** Resumes evaluation. */
  resume(): void;
  /** Whether evaluation is suspended. */
  readonly isSuspended: boolean;
  /** Does what the function does while evaluation is suspended, and resumes it in any case. */
  suspended<T>(inside: (book: this) => T): T;
  /** Spends idle time on formulas that weren't read since structural operations went past them, so that no later call takes all of
   * them over these at once. Each costs as many units of the budget, a whole number below 2^53, as there are such operations, and
   * one for which what is left of it doesn't suffice stays as it is. Whether no such formula is left; what every other call answers
   * is as before. */
  settleIdle(budget: number): boolean;

  // Areas. A cell is filled where it has a content, also a formula that shows nothing. These calls throw NoSheet, those of a place
  // or a block Outside, and values Suspended, as a value does.

  /** What kind of content a cell has. */
  kind(at: Place): Kind;
  /** The filled places of a block, row by row. */
  filled(area: Block): Place[];
  /** Those of a sheet. */
  filledIn(sheet: number): Place[];
  /** How far a sheet is used: the least block over its filled cells, or null where no cell is filled. */
  usedArea(sheet: number): Block | null;
  /** What the filled cells of a block show, row by row: of a whole sheet those of its usedArea. One such call takes far less time
   * than to ask cell by cell. */
  values(area: Block): ShownCell[];
  /** The texts that give the filled cells of a block their contents, row by row. */
  contents(area: Block): HeldCell[];

  // Values, texts and links. Values are worked out when they are first asked for.

  /** What a cell shows. */
  value(at: Place): Value;
  /** The same as a text: -3, 0.5, TRUE, #DIV/0!. */
  valueText(at: Place): string;
  /** What the formula of the text would show in the first cell of the sheet, without being in a cell. */
  tryFormula(sheet: number, text: string): Value;
  /** The text that formula answers of a cell of the sheet that is given the formula of the text, without being in a cell. Throws
   * NoSheet, TextLimit, BadFormula. */
  normalText(sheet: number, text: string): string;
  /** Where a text stops being a formula: its first token at which no formula goes on, by its first character and the one behind it,
   * as slice takes them; null where the text is a formula. At the text's end the two are the same: the text is but the front of
   * formulas. One that doesn't begin with = is wrong as a whole. NoSheet, TextLimit. */
  parseError(sheet: number, text: string): { start: number; end: number } | null;
  /** The words in capitals that the formula of the text uses as names, in its order and each once, also where there is no such
   * name. It throws likewise. */
  namesIn(sheet: number, text: string): string[];
  /** The text of a cell's formula, or null. */
  formula(at: Place): string | null;
  /** The text that gives the cell its content, when set is given it. */
  content(at: Place): string;
  /** What a cell's formula needs, in its order and each once. */
  precedents(at: Place): Link[];
  /** The cells and then the names whose formulas need a cell. */
  dependents(at: Place): Link[];
  /** The cells of a sheet that are on a cycle, row by row: those whose needs lead back to them. A cell that only reads one of these
   * isn't among them. They are told in a batch and suspended too. Throws NoSheet. */
  onCycle(sheet: number): Place[];
}
