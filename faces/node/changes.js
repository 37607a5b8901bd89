'use strict';

/** The number that no sheet has: as a scope, the whole workbook. */
const NO_NUMBER = 4_294_967_295;

/** The number of a scope. A sheet of the number that stands for the whole workbook there can't be. */
function scopeOf(scope) {
  return scope === null ? NO_NUMBER : Math.min(scope, NO_NUMBER - 1);
}

/** A row of numbers: the change's, the sheet's and those that are named. */
function row(kind, sheet, { at = {}, last = {}, count = 0, to = {} } = {}) {
  return [kind, sheet, at.row ?? 0, at.col ?? 0, last.row ?? 0, last.col ?? 0, count, to.sheet ?? 0, to.row ?? 0, to.col ?? 0];
}

const ofPlace = (kind) => ({ sheet, row: atRow, col }) => [row(kind, sheet, { at: { row: atRow, col } })];

const ofBlock = (kind) => ({ sheet, top, left, bottom, right }, to) => [
  row(kind, sheet, { at: { row: top, col: left }, last: { row: bottom, col: right }, to }),
];

const ofRows = (kind) => (sheet, at, count, before) => [row(kind, sheet, { at: { row: at }, count, to: { row: before } })];

const ofCols = (kind) => (sheet, at, count, before) => [row(kind, sheet, { at: { col: at }, count, to: { col: before } })];

const ofSheet = (kind) => (sheet = 0) => [row(kind, sheet)];

const ofName = (kind) => (name, text, scope = null) => [row(kind, scopeOf(scope)), name, text];

/** What each call that changes a workbook tells of its words: a row of numbers, and a name and a text where it has them. */
const CHANGES = {
  set: (at, text) => [...ofPlace(1)(at), '', text],
  clear: ofBlock(2),
  insertRows: ofRows(3),
  deleteRows: ofRows(4),
  moveRows: ofRows(5),
  insertCols: ofCols(6),
  deleteCols: ofCols(7),
  moveCols: ofCols(8),
  moveBlock: ofBlock(9),
  dropSheet: ofSheet(10),
  addSheet: (name) => [row(11, 0), name],
  renameSheet: (sheet, name) => [row(12, sheet), name],
  clearSheet: ofSheet(13),
  addName: ofName(14),
  changeName: ofName(15),
  removeName: (name, scope) => ofName(16)(name, '', scope),
  copy: ofBlock(17),
  cut: ofBlock(18),
  paste: ofPlace(19),
  begin: ofSheet(20),
  commit: ofSheet(21),
  undo: ofSheet(22),
  redo: ofSheet(23),
};

/** The change of a call's name that is given these words: its row, its name and its text. */
function changeOf(name, words) {
  if (!Object.hasOwn(CHANGES, name)) {
    throw new RangeError(`no change is called ${name}`);
  }
  const [numbers, word = '', text = ''] = CHANGES[name](...words);
  return [numbers, word, text];
}

module.exports = { changeOf };
