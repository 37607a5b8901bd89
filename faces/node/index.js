'use strict';

/**
 * A workbook engine: sheets, formulas that follow rows and columns, undo.
 *
 *     const { Workbook, decimal, place } = require('fazhundel');
 *
 *     const book = new Workbook();
 *     const sheet = book.addSheet('Invoice');
 *     book.set(place(sheet, 'A1'), '=2*10.5');
 *     decimal(book.value(place(sheet, 'A1')));   // '21'
 *     book.close();
 *
 * index.d.ts has the types of all calls. The addon is looked for where FAZHUNDEL_ADDON says, else beside the faces, where
 * faces/build.sh puts it.
 */
const path = require('node:path');

const { changeOf } = require('./changes.js');
const { FazhundelError, refusalName } = require('./errors.js');
const { bands, table, tiers } = require('./rules.js');
const {
  Fault, Faults, address, block, decimal, kindOf, linkOf, millionths, numberOf, place, shown, valueOf,
} = require('./values.js');

const ADDON = process.env.FAZHUNDEL_ADDON ?? path.join(__dirname, '..', 'out', 'fazhundel.node');
const calls = require(path.resolve(ADDON))(FazhundelError);

const NOT_UTF8 = 67;
const DAY = 86_400_000;

/** The serial number of 1970-01-01. */
const UNIX_DAY = 25_569;

/** A text of whole characters: half of a surrogate pair can't be told in UTF-8. */
function textOf(text) {
  if (typeof text !== 'string') {
    throw new TypeError('a string was expected');
  }
  if (/\p{Surrogate}/u.test(text)) {
    throw new FazhundelError(NOT_UTF8);
  }
  return text;
}

/** The serial number of a day, counted from 1899-12-30; of a Date it is that of its local day. */
function serial(day) {
  if (!(day instanceof Date)) {
    return day;
  }
  return Date.UTC(day.getFullYear(), day.getMonth(), day.getDate()) / DAY + UNIX_DAY;
}

/** Cells to write as the addon takes them: five numbers for each, in order, and all texts as one. */
function written(cells) {
  const sorted = [...cells].sort(([a], [b]) => a.sheet - b.sheet || a.row - b.row || a.col - b.col);
  const rows = [];
  let start = 0;
  for (const [{ sheet, row, col }, text] of sorted) {
    const length = Buffer.byteLength(textOf(text));
    rows.push(sheet, row, col, start, length);
    start += length;
  }
  return [rows, sorted.map(([, text]) => text).join('')];
}

/** The part of a text that has these bytes in UTF-8, by its first character and the one behind it, as slice takes them. */
function partOf(text, start, length) {
  const bytes = Buffer.from(text);
  const first = bytes.toString('utf8', 0, start).length;
  return { start: first, end: first + bytes.toString('utf8', start, start + length).length };
}

/** Places of a sheet as the addon answers them. */
function placesOf(sheet, places) {
  return places.map(([row, col]) => ({ sheet, row, col }));
}

class Workbook {
  #book;

  constructor({ undoLimit = 20, today = new Date(), rules = {} } = {}) {
    const { rows, pairs, words } = table(rules);
    this.#book = calls.open(undoLimit, serial(today), rows, pairs, textOf(words));
  }

  close() {
    calls.close(this.#book);
  }

  get isOpen() {
    return calls.isOpen(this.#book);
  }

  // Cells, rows and columns.

  set({ sheet, row, col }, text) {
    calls.set(this.#book, sheet, row, col, textOf(text));
  }

  setNumber({ sheet, row, col }, number) {
    calls.setNumber(this.#book, sheet, row, col, numberOf(number));
  }

  setTruth({ sheet, row, col }, truth) {
    calls.setTruth(this.#book, sheet, row, col, truth);
  }

  setText({ sheet, row, col }, text) {
    calls.setText(this.#book, sheet, row, col, textOf(text));
  }

  writeAll(cells) {
    calls.writeAll(this.#book, ...written(cells));
  }

  clear({ sheet, top, left, bottom, right }) {
    calls.clear(this.#book, sheet, top, left, bottom, right);
  }

  insertRows(sheet, at, count) {
    calls.insertRows(this.#book, sheet, at, count);
  }

  insertCols(sheet, at, count) {
    calls.insertCols(this.#book, sheet, at, count);
  }

  deleteRows(sheet, at, count) {
    calls.deleteRows(this.#book, sheet, at, count);
  }

  deleteCols(sheet, at, count) {
    calls.deleteCols(this.#book, sheet, at, count);
  }

  moveRows(sheet, from, count, before) {
    calls.moveRows(this.#book, sheet, from, count, before);
  }

  moveCols(sheet, from, count, before) {
    calls.moveCols(this.#book, sheet, from, count, before);
  }

  moveBlock({ sheet, top, left, bottom, right }, to) {
    calls.moveBlock(this.#book, sheet, top, left, bottom, right, to.sheet, to.row, to.col);
  }

  // Sheets.

  addSheet(name) {
    return calls.addSheet(this.#book, textOf(name));
  }

  dropSheet(sheet) {
    calls.dropSheet(this.#book, sheet);
  }

  renameSheet(sheet, name) {
    calls.renameSheet(this.#book, sheet, textOf(name));
  }

  clearSheet(sheet) {
    calls.clearSheet(this.#book, sheet);
  }

  get sheetCount() {
    return calls.sheetCount(this.#book);
  }

  sheetAt(index) {
    return calls.sheetAt(this.#book, index);
  }

  sheets() {
    return Array.from({ length: this.sheetCount }, (_, index) => this.sheetAt(index));
  }

  sheetId(name) {
    return calls.sheetId(this.#book, textOf(name));
  }

  sheetName(sheet) {
    return calls.sheetName(this.#book, sheet);
  }

  // Named expressions: of the whole workbook, where the scope is null.

  addName(name, text, scope = null) {
    calls.addName(this.#book, textOf(name), scope, textOf(text));
  }

  changeName(name, text, scope = null) {
    calls.changeName(this.#book, textOf(name), scope, textOf(text));
  }

  removeName(name, scope = null) {
    calls.removeName(this.#book, textOf(name), scope);
  }

  names() {
    return calls.names(this.#book).map(([scope, word]) => ({ scope, word }));
  }

  nameText(name, scope = null) {
    return calls.nameText(this.#book, textOf(name), scope);
  }

  nameValue(name, sheet) {
    return valueOf(calls.nameValue(this.#book, textOf(name), sheet));
  }

  // What is copied, cut and pasted.

  copy({ sheet, top, left, bottom, right }) {
    calls.copy(this.#book, sheet, top, left, bottom, right);
  }

  cut({ sheet, top, left, bottom, right }) {
    calls.cut(this.#book, sheet, top, left, bottom, right);
  }

  paste({ sheet, row, col }) {
    calls.paste(this.#book, sheet, row, col);
  }

  clearClipboard() {
    calls.clearClipboard(this.#book);
  }

  get isClipboardEmpty() {
    return calls.isClipboardEmpty(this.#book);
  }

  // Steps, batches, suspended evaluation and idle time.

  undo() {
    calls.undo(this.#book);
  }

  redo() {
    calls.redo(this.#book);
  }

  clearHistory() {
    calls.clearHistory(this.#book);
  }

  get canUndo() {
    return calls.canUndo(this.#book);
  }

  get canRedo() {
    return calls.canRedo(this.#book);
  }

  cause(change, ...words) {
    const [numbers, name, text] = changeOf(change, words);
    return refusalName(calls.cause(this.#book, numbers, textOf(name), textOf(text)));
  }

  begin() {
    calls.begin(this.#book);
  }

  commit() {
    calls.commit(this.#book);
  }

  get hasBatch() {
    return calls.hasBatch(this.#book);
  }

  batch(inside) {
    this.begin();
    try {
      return inside(this);
    } finally {
      this.commit();
    }
  }

  suspend() {
    calls.suspend(this.#book);
  }

  resume() {
    calls.resume(this.#book);
  }

  get isSuspended() {
    return calls.isSuspended(this.#book);
  }

  suspended(inside) {
    this.suspend();
    try {
      return inside(this);
    } finally {
      this.resume();
    }
  }

  settleIdle(budget) {
    return calls.settleIdle(this.#book, budget);
  }

  // Areas.

  kind({ sheet, row, col }) {
    return kindOf(calls.kind(this.#book, sheet, row, col));
  }

  filled({ sheet, top, left, bottom, right }) {
    return placesOf(sheet, calls.filled(this.#book, sheet, top, left, bottom, right));
  }

  filledIn(sheet) {
    return placesOf(sheet, calls.filledIn(this.#book, sheet));
  }

  usedArea(sheet) {
    const used = calls.usedArea(this.#book, sheet);
    if (used === null) {
      return null;
    }
    const [top, left, bottom, right] = used;
    return { sheet, top, left, bottom, right };
  }

  values({ sheet, top, left, bottom, right }) {
    const cells = calls.values(this.#book, sheet, top, left, bottom, right);
    return cells.map(([row, col, value]) => ({ sheet, row, col, value: valueOf(value) }));
  }

  contents({ sheet, top, left, bottom, right }) {
    const cells = calls.contents(this.#book, sheet, top, left, bottom, right);
    return cells.map(([row, col, content]) => ({ sheet, row, col, content }));
  }

  // Values, texts and links.

  value({ sheet, row, col }) {
    return valueOf(calls.value(this.#book, sheet, row, col));
  }

  valueText({ sheet, row, col }) {
    return calls.valueText(this.#book, sheet, row, col);
  }

  tryFormula(sheet, text) {
    return valueOf(calls.tryFormula(this.#book, sheet, textOf(text)));
  }

  normalText(sheet, text) {
    return calls.normalText(this.#book, sheet, textOf(text));
  }

  parseError(sheet, text) {
    const found = calls.parseError(this.#book, sheet, textOf(text));
    return found && partOf(text, ...found);
  }

  namesIn(sheet, text) {
    return calls.namesIn(this.#book, sheet, textOf(text)).map(([, word]) => word);
  }

  formula({ sheet, row, col }) {
    return calls.formula(this.#book, sheet, row, col) || null;
  }

  content({ sheet, row, col }) {
    return calls.content(this.#book, sheet, row, col);
  }

  precedents({ sheet, row, col }) {
    return calls.precedents(this.#book, sheet, row, col).map(linkOf);
  }

  dependents({ sheet, row, col }) {
    return calls.dependents(this.#book, sheet, row, col).map(linkOf);
  }

  onCycle(sheet) {
    return placesOf(sheet, calls.onCycle(this.#book, sheet));
  }
}

// A `using` declaration closes it, where Node has those.
if (Symbol.dispose) {
  Object.defineProperty(Workbook.prototype, Symbol.dispose, { value: Workbook.prototype.close });
}

module.exports = { Fault, Faults, FazhundelError, Workbook, address, bands, block, decimal, millionths, place, shown, tiers };
