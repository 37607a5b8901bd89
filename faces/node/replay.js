'use strict';

// Answers a script on standard input through the package, as sheetrun does: `faces/scripts.py` compares the two.
const assert = require('node:assert/strict');
const fs = require('node:fs');
const { Faults, FazhundelError, Workbook, address, bands, block, place, shown, tiers } = require('./index.js');

// The number of a sheet that is gone: no sheet has it.
const GONE = 1024;

// The custom functions of sheetrun.
const rules = {
  POSTAGE: bands([['0', '1.5'], ['0.5', '2.75'], ['2', '5.4'], ['10', '9.9']]),
  LEVY: tiers([['0', '0.1'], ['1000', '0.2'], ['5000', '0.25']]),
};

const book = new Workbook({ rules });

/** The records of a script, as fields. */
function records(script) {
  const fields = /(?:"((?:[^"]|"")*)"|([^,\n]*))([,\n])/gy;
  const found = [];
  let record = [];
  for (const [, quoted, plain, end] of script.matchAll(fields)) {
    record.push(quoted === undefined ? plain : quoted.replaceAll('""', '"'));
    if (end === '\n') {
      found.push(record);
      record = [];
    }
  }
  return found;
}

/** The number of a sheet by its name, or one that no sheet has. */
function sheet(name) {
  return book.sheetId(name) ?? GONE;
}

function scope(name) {
  return name === '' ? null : sheet(name);
}

/** The sheet in front of an address, whose name stands between apostrophes, and the address. */
function parted(text) {
  const mark = text.lastIndexOf('!');
  return [sheet(text.slice(1, mark - 1).replaceAll("''", "'")), text.slice(mark + 1)];
}

const at = (text) => place(...parted(text));
const over = (text) => block(...parted(text));
const row = (text) => Number(text) - 1;
const col = (text) => place(0, `${text}1`).col;

/** The block of a cell alone. */
function alone({ sheet, row, col }) {
  return { sheet, top: row, left: col, bottom: row, right: col };
}

/** Gives a cell what a text says: in every other row by the call for its kind, where it is no formula. */
function give(to, text) {
  if (to.row % 2 === 0 || text === '' || text.startsWith('=')) {
    book.set(to, text);
  } else if (/^-?\d/.test(text)) {
    book.setNumber(to, text);
  } else if (text === 'TRUE') {
    book.setTruth(to, true);
  } else {
    book.setText(to, text.replace(/^'/, ''));
  }
}

/** Adds a name, which is listed then, and whose text uses names or not. */
function addName(word, scope, text) {
  book.addName(word, text, scope);
  assert.ok(book.names().some((name) => name.scope === scope && name.word === word.toUpperCase()), word);
  for (const first of book.sheets().slice(0, 1)) {
    assert.deepEqual(book.namesIn(first, book.nameText(word, scope)), text === '=Total' ? ['TOTAL'] : []);
  }
}

/** What a cell shows, by the three calls that tell it. */
function value(of) {
  const [by, text] = [book.value(of), book.valueText(of)];
  const listed = book.values(alone(of));
  assert.equal(shown(by), text);
  assert.equal(listed[0]?.value ?? null, by);
  assert.deepEqual(listed.map(({ sheet, row, col }) => ({ sheet, row, col })), book.filled(alone(of)));
  return text;
}

/** The text of a cell's formula, which is canonical where it could be read. */
function formula(of) {
  const [text, kind] = [book.formula(of), book.kind(of)];
  assert.equal(text !== null, kind === 'formula' || kind === 'unreadable');
  assert.ok(kind !== 'formula' || book.normalText(of.sheet, text) === text, text);
  return text ?? 'none';
}

/** The text of a cell's content, by both calls that tell it. */
function content(of) {
  const text = book.content(of);
  assert.deepEqual(book.contents(alone(of)), text === '' ? [] : [{ ...of, content: text }]);
  return text;
}

/** Lets the computation go on, and spends idle time, after which each answer is as before. */
function resume() {
  book.resume();
  book.settleIdle(3);
}

/** Looks over the workbook at the end: each sheet is used as far as its cells are filled, and those on a cycle show it; the
 * clipboard is emptied and the history forgotten. */
function left() {
  book.clearClipboard();
  book.clearHistory();
  assert.deepEqual([book.isClipboardEmpty, book.canUndo, book.canRedo], [true, false, false]);
  for (const on of book.sheets()) {
    const [places, used] = [book.filledIn(on), book.usedArea(on)];
    assert.deepEqual(used, least(on, places));
    assert.deepEqual(used && book.contents(used).map(({ sheet, row, col }) => ({ sheet, row, col })), used && places);
    const cyclic = book.onCycle(on);
    assert.ok(book.isSuspended || book.hasBatch || cyclic.every((cell) => book.value(cell) === Faults.CYCLE));
  }
}

/** The least block over places, or null. */
function least(sheet, places) {
  const [rows, cols] = [places.map((at) => at.row), places.map((at) => at.col)];
  return places.length === 0
    ? null
    : { sheet, top: Math.min(...rows), left: Math.min(...cols), bottom: Math.max(...rows), right: Math.max(...cols) };
}

function link(to) {
  const of = 'word' in to ? to.scope : to.sheet;
  const name = 'word' in to ? to.word : address(to);
  return of === null ? name : `${book.sheetName(of)}!${name}`;
}

const links = (list) => list.map(link).join(' ');

// What each command asks of the workbook.
const ANSWERS = {
  set: (to, text) => give(at(to), text),
  clear: (area) => book.clear(over(area)),
  'insert-rows': (on, first, count) => book.insertRows(sheet(on), row(first), Number(count)),
  'insert-cols': (on, first, count) => book.insertCols(sheet(on), col(first), Number(count)),
  'delete-rows': (on, first, count) => book.deleteRows(sheet(on), row(first), Number(count)),
  'delete-cols': (on, first, count) => book.deleteCols(sheet(on), col(first), Number(count)),
  'move-rows': (on, first, count, before) => book.moveRows(sheet(on), row(first), Number(count), row(before)),
  'move-cols': (on, first, count, before) => book.moveCols(sheet(on), col(first), Number(count), col(before)),
  'move-block': (area, to) => book.moveBlock(over(area), at(to)),
  'add-sheet': (name) => `ok ${book.addSheet(name)}`,
  'drop-sheet': (on) => book.dropSheet(sheet(on)),
  'rename-sheet': (on, name) => book.renameSheet(sheet(on), name),
  'clear-sheet': (on) => book.clearSheet(sheet(on)),
  'add-name': (word, of, text) => addName(word, scope(of), text),
  'change-name': (word, of, text) => book.changeName(word, text, scope(of)),
  'remove-name': (word, of) => book.removeName(word, scope(of)),
  copy: (area) => book.copy(over(area)),
  cut: (area) => book.cut(over(area)),
  paste: (to) => book.paste(at(to)),
  undo: () => book.undo(),
  redo: () => book.redo(),
  begin: () => book.begin(),
  commit: () => book.commit(),
  suspend: () => book.suspend(),
  resume: () => resume(),
  value: (of) => value(at(of)),
  formula: (of) => formula(at(of)),
  content: (of) => content(at(of)),
  precedents: (of) => links(book.precedents(at(of))),
  dependents: (of) => links(book.dependents(at(of))),
  'name-value': (word, on) => shown(book.nameValue(word, sheet(on))),
  try: (on, text) => shown(book.tryFormula(sheet(on), text)),
};

/** The line that answers a record. */
function reply([word, ...fields]) {
  try {
    const answer = ANSWERS[word](...fields) ?? 'ok';
    return answer.replaceAll('\\', '\\\\').replaceAll('\n', '\\n').replaceAll('\r', '\\r');
  } catch (error) {
    if (error instanceof FazhundelError && error.isRefusal) {
      return `refused ${error.status} ${error.name}`;
    }
    throw error;
  }
}

book.addSheet('Sheet1');
const replies = records(fs.readFileSync(0, 'utf8')).map((record) => `${reply(record)}\n`);
process.stdout.write(replies.join(''));
left();
book.close();
