'use strict';

/** What each status is called, and what it says. */
const STATUSES = {
  1: ['NoSheet', 'there is no such sheet'],
  2: ['SheetNameTaken', 'another sheet has the name'],
  3: ['SheetNameInvalid', "a sheet can't have that name"],
  4: ['Outside', "that isn't inside the sheet"],
  5: ['SizeLimit', 'a filled cell would be pushed off the sheet'],
  6: ['CellLimit', 'more than 1,000,000 cells would be filled'],
  7: ['NameTaken', 'the scope has a name of this word'],
  8: ['NameInvalid', "the word can't be a name"],
  9: ['NoSuchName', 'there is no name of this word'],
  10: ['RelativeAddress', "a reference of a name's formula lacks a $, or, for the whole workbook, its sheet"],
  11: ['NothingToUndo', 'there is no step to take back'],
  12: ['NothingToRedo', 'there is no step to do again'],
  13: ['NothingToPaste', 'nothing waits to be pasted'],
  14: ['Suspended', 'evaluation is suspended, or a batch is open'],
  15: ['BatchOpen', 'a batch is open'],
  16: ['NoBatch', 'no batch is open'],
  17: ['BadSpan', 'no rows or columns are named, or they would stay where they are'],
  18: ['TextLimit', 'the text has more than 8,192 bytes'],
  19: ['SheetLimit', 'all 1,024 numbers of sheets were given out'],
  20: ['BadFormula', 'the text is no formula'],
  64: ['NoMemory', 'there was no memory'],
  66: ['NotOpen', 'the workbook is closed'],
  67: ['NotUtf8', 'the text has half of a surrogate pair'],
  68: ['BadLimit', 'at most 1,000 steps can be undone'],
  69: ['BadTable', "the rules aren't those of custom functions"],
  72: ['BadCells', 'a cell is to be written twice'],
};

/** The last status that is a refusal's. */
const LAST_REFUSAL = 20;

/** A call wasn't done: the workbook is as it was. */
class FazhundelError extends Error {
  /** @param {number} status how the library's call ended */
  constructor(status) {
    const [name, says] = STATUSES[status] ?? ['Unknown', `the library answered the status ${status}`];
    super(says);
    this.name = name;
    this.status = status;
  }

  /** Whether the call was refused, for a cause of docs/SCRIPT.md. */
  get isRefusal() {
    return this.status <= LAST_REFUSAL;
  }
}

/** The name of a refusal by its number; null for 0. */
function refusalName(number) {
  return number === 0 ? null : STATUSES[number][0];
}

module.exports = { FazhundelError, refusalName };
