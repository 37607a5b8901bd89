'use strict';

// Makes each call at least once, and as it shouldn't be made: node --test faces/node/test.js.
const assert = require('node:assert/strict');
const { spawnSync } = require('node:child_process');
const { test } = require('node:test');
const { Worker } = require('node:worker_threads');

const { Faults, FazhundelError, Workbook, address, bands, block, decimal, millionths, place, shown, tiers } = require('./index.js');

const TODAY = 45_292;

/** Runs what is given on a workbook with one sheet, number 0. */
function opened(inside, options = {}) {
  const book = new Workbook({ today: TODAY, ...options });
  try {
    assert.equal(book.addSheet('Plan'), 0);
    inside(book);
  } finally {
    book.close();
  }
}

const at = (text) => place(0, text);
const over = (text) => block(0, text);

/** That a call throws the error of this name. */
function fails(name, call) {
  assert.throws(call, (error) => error instanceof FazhundelError && error.name === name);
}

function shows(book, where, text) {
  assert.equal(book.valueText(at(where)), text);
  assert.equal(shown(book.value(at(where))), text);
}

test('cells and values', () => opened((book) => {
  book.set(at('A1'), '-1.5');
  book.set(at('B1'), '=A1<0');
  book.set(at('C1'), '=1/0');
  book.set(at('D1'), 'hüte \u{1f600}');
  assert.equal(book.value(at('A1')), -1_500_000n);
  assert.equal(book.value(at('B1')), true);
  assert.equal(book.value(at('C1')), Faults.DIV0);
  assert.equal(book.value(at('D1')), 'hüte \u{1f600}');
  assert.equal(book.value(at('J10')), null);
  shows(book, 'A1', '-1.5');
  shows(book, 'B1', 'TRUE');
  shows(book, 'C1', '#DIV/0!');
  assert.equal(book.formula(at('B1')), '=A1<0');
  assert.equal(book.formula(at('A1')), null);
  assert.equal(book.content(at('C1')), '=1/0');
  book.clear(over('A1:D1'));
  shows(book, 'D1', '');
}));

test('contents are given', () => opened((book) => {
  const gives = (number, text) => {
    book.setNumber(at('A1'), number);
    shows(book, 'A1', text);
    assert.equal(book.kind(at('A1')), 'number');
  };
  gives(-1_500_000n, '-1.5');
  gives('10.5', '10.5');
  gives(10n ** 18n - 1n, '999999999999.999999');
  gives(1n - 10n ** 18n, '-999999999999.999999');
  for (const number of [10n ** 18n, -(10n ** 18n), 2n ** 64n, '1000000000000', 'seven']) {
    assert.throws(() => book.setNumber(at('A1'), number), RangeError);
  }
  for (const number of [7, null, undefined, true]) {
    assert.throws(() => book.setNumber(at('A1'), number), TypeError);
  }
  book.undo();
  shows(book, 'A1', '999999999999.999999');
  for (const truth of [true, false]) {
    book.setTruth(at('A2'), truth);
    assert.deepEqual([book.value(at('A2')), book.kind(at('A2'))], [truth, 'truth']);
  }
  for (const truth of [1, 'true', null, undefined]) {
    assert.throws(() => book.setTruth(at('A2'), truth), TypeError);
  }
  const texts = [['hüte', ''], ['007', "'"], ['true', "'"], ['=A1', "'"], ["'tis", "'"], ['', "'"], ['\u{1f600}', '']];
  for (const [text, front] of texts) {
    const content = front + text;
    book.setText(at('A3'), text);
    assert.deepEqual([book.value(at('A3')), book.content(at('A3')), book.kind(at('A3'))], [text, content, 'text']);
  }
  const long = '='.repeat(8_192);
  fails('TextLimit', () => book.setText(at('A3'), long));
  book.setText(at('A3'), long.slice(1));
  assert.equal(book.value(at('A3')), long.slice(1));
  fails('NotUtf8', () => book.setText(at('A3'), 'half \ud83d'));
  assert.throws(() => book.setText(at('A3'), 7), TypeError);
  fails('NoSheet', () => book.setNumber(place(9, 'A1'), 1n));
  fails('Outside', () => book.setTruth({ sheet: 0, row: 1_048_576, col: 0 }, true));
  fails('NoSheet', () => book.setText(place(9, 'A1'), 'x'));
}));

test('many cells are written at once', () => opened((book) => {
  book.writeAll([[at('B2'), '=A1*2'], [at('A1'), '7'], [at('A2'), 'hüte']]);
  shows(book, 'B2', '14');
  shows(book, 'A2', 'hüte');
  fails('BadCells', () => book.writeAll([[at('A1'), '1'], [at('A1'), '2']]));
  fails('NoSheet', () => book.writeAll([[at('A1'), '1'], [place(9, 'A1'), '2']]));
  fails('NotUtf8', () => book.writeAll([[at('A1'), 'half \ud83d'], [at('A2'), '\ude00']]));
  assert.throws(() => book.writeAll([[at('A1'), 7]]), TypeError);
  shows(book, 'B2', '14');
  book.undo();
  assert.equal(book.usedArea(0), null);
  book.writeAll(new Map());
}));

test('causes are told beforehand', () => opened((book) => {
  const area = over('A1:B2');
  const causes = [
    [null, 'set', at('A1'), '=A1'], ['NoSheet', 'set', place(9, 'A1'), ''], [null, 'clear', area],
    ['BadSpan', 'insertRows', 0, 0, 0], [null, 'insertRows', 0, 0, 1], ['Outside', 'deleteRows', 0, 1_048_576, 1],
    ['BadSpan', 'moveRows', 0, 0, 2, 1], [null, 'moveRows', 0, 0, 2, 3], [null, 'insertCols', 0, 0, 1],
    ['BadSpan', 'deleteCols', 0, 0, 0], ['BadSpan', 'moveCols', 0, 0, 2, 1],
    ['Outside', 'moveBlock', area, { sheet: 0, row: 1_048_575, col: 0 }], [null, 'moveBlock', area, at('F6')],
    ['NoSheet', 'dropSheet', 9], ['SheetNameInvalid', 'addSheet', ''], ['NoSheet', 'renameSheet', 9, 'x'], [null, 'clearSheet', 0],
    ['RelativeAddress', 'addName', 'rate', '=A1'], [null, 'addName', 'rate', '=$A$1', 0], ['NoSuchName', 'changeName', 'rate', '=1'],
    ['NoSuchName', 'removeName', 'rate', 0], [null, 'copy', area], ['Outside', 'cut', { ...area, top: 5 }],
    ['NothingToPaste', 'paste', at('A1')], [null, 'begin'], ['NoBatch', 'commit'], [null, 'undo'], ['NothingToRedo', 'redo'],
  ];
  for (const [cause, ...asked] of causes) {
    assert.equal(book.cause(...asked), cause, asked[0]);
  }
  assert.throws(() => book.cause('value', at('A1')), RangeError);
  assert.throws(() => book.cause('addSheet', 7), TypeError);
  assert.throws(() => book.cause('insertRows', 0, 'first', 1), TypeError);
}));

test('it is told where a text stops being a formula', () => opened((book) => {
  const wrong = [['=1+', ''], ['=1+*2', '*'], ['=1 two', 'two'], ['="hüte', '"hüte'], ['="ü"&)', ')'], ['sum', 'sum'], ['', '']];
  for (const [text, part] of wrong) {
    const { start, end } = book.parseError(0, text);
    assert.equal(text.slice(start, end), part, text);
  }
  assert.deepEqual(book.parseError(0, '="ü"&)'), { start: 5, end: 6 });
  assert.equal(book.parseError(0, '=SUM(A1:B2)*2'), null);
  fails('NoSheet', () => book.parseError(9, '=1'));
  fails('TextLimit', () => book.parseError(0, '='.repeat(8_193)));
  assert.throws(() => book.parseError(0, 7), TypeError);
}));

test('filled cells are listed', () => opened((book) => {
  assert.equal(book.usedArea(0), null);
  assert.deepEqual(book.filledIn(0), []);
  const contents = [['B2', '7'], ['C2', 'x'], ['D2', "'=2"], ['A3', '=Z9'], ['A4', '=1/0'], ['B4', '=1<2']];
  for (const [where, content] of contents) {
    book.set(at(where), content);
  }
  assert.deepEqual(book.values(over('A1:C4')), [
    { ...at('B2'), value: 7_000_000n },
    { ...at('C2'), value: 'x' },
    { ...at('A3'), value: null },
    { ...at('A4'), value: Faults.DIV0 },
    { ...at('B4'), value: true },
  ]);
  assert.deepEqual(book.contents(over('A1:D9')), contents.map(([where, content]) => ({ ...at(where), content })));
  assert.deepEqual(book.filled(over('A1:C3')), ['B2', 'C2', 'A3'].map(at));
  assert.deepEqual(book.filledIn(0), contents.map(([where]) => at(where)));
  assert.deepEqual(book.usedArea(0), over('A2:D4'));
  assert.deepEqual(book.values(over('F1:G9')), []);
  assert.equal(book.usedArea(book.addSheet('Two')), null);
}));

test('areas are refused', () => opened((book) => {
  const [gone, none] = [block(9, 'A1:F6'), { sheet: 0, top: 3, left: 0, bottom: 2, right: 0 }];
  for (const ask of ['values', 'contents', 'filled']) {
    fails('NoSheet', () => book[ask](gone));
    fails('Outside', () => book[ask](none));
    assert.throws(() => book[ask](at('A1')), TypeError);
  }
  fails('NoSheet', () => book.filledIn(9));
  fails('NoSheet', () => book.usedArea(9));
  fails('NoSheet', () => book.kind(place(9, 'A1')));
  fails('Outside', () => book.kind({ sheet: 0, row: 0, col: 18_278 }));
  book.set(at('A1'), '=1');
  book.suspended(() => {
    fails('Suspended', () => book.values(over('A1:C3')));
    assert.deepEqual(book.contents(over('A1:C3')), [{ ...at('A1'), content: '=1' }]);
  });
}));

test('kinds are told', () => opened((book) => {
  const kinds = { 1: 'number', x: 'text', true: 'truth', '=1': 'formula', '=1+': 'unreadable', '': 'empty' };
  for (const [text, kind] of Object.entries(kinds)) {
    book.set(at('A1'), text);
    assert.equal(book.kind(at('A1')), kind);
  }
}));

test('cycles are listed', () => opened((book) => {
  assert.deepEqual(book.onCycle(0), []);
  for (const [where, text] of [['A1', '=B1+1'], ['B1', '=A1'], ['C1', '=A1'], ['B3', '=SUM(B3:B4)']]) {
    book.set(at(where), text);
  }
  assert.deepEqual(book.onCycle(0), ['A1', 'B1', 'B3'].map(at));
  shows(book, 'C1', '#CYCLE!');
  book.suspend();
  book.set(at('B1'), '1');
  assert.deepEqual(book.onCycle(0), [at('B3')]);
  fails('NoSheet', () => book.onCycle(9));
}));

test('long answers come whole', () => opened((book) => {
  const long = 'long ü '.repeat(1_000);
  book.set(at('A1'), long);
  assert.equal(book.value(at('A1')), long);
  assert.equal(book.valueText(at('A1')), long);
  assert.equal(book.content(at('A1')), long);
  for (const length of [255, 256, 257]) {
    book.set(at('A2'), 'x'.repeat(length));
    assert.equal(book.valueText(at('A2')).length, length);
  }
  const cells = Array.from({ length: 100 }, (_, row) => `B${row + 1}`);
  const formula = `=CONCATENATE(${cells.join(',')})`;
  book.set(at('C1'), formula);
  assert.equal(book.precedents(at('C1')).length, 100);
  assert.equal(book.formula(at('C1')), formula);
  for (let row = 2; row <= 40; row++) {
    book.set({ sheet: 0, row, col: 3 }, '=A1');
    book.addName(`name_${'w'.repeat(20)}_${row}`, '=Plan!$A$1');
  }
  const links = book.dependents(at('A1'));
  assert.equal(links.length, 78);
  assert.equal(links[39].scope, null);
  assert.match(links[77].word, /^NAME_W{20}_\d+$/);
  const names = book.names();
  assert.equal(names.length, 39);
  assert.ok(names.every(({ scope, word }) => scope === null && /^NAME_W{20}_\d+$/.test(word)));
  assert.equal(book.filledIn(0).length, 42);
  const [values, contents] = [book.values(over('A1:D41')), book.contents(over('A1:D41'))];
  assert.deepEqual([values.length, values[0], values[41]], [42, { ...at('A1'), value: long }, { ...at('D41'), value: long }]);
  assert.deepEqual([contents.length, contents[41]], [42, { ...at('D41'), content: '=A1' }]);
  const sum = `=${names.map(({ word }) => word).join('+')}`;
  assert.equal(book.namesIn(0, sum).length, 39);
  assert.equal(book.normalText(0, sum), sum);
  book.addName('total', sum);
  assert.equal(book.nameText('TOTAL'), sum);
  book.renameSheet(0, 'n'.repeat(100));
  assert.equal(book.sheetName(0).length, 100);
  fails('TextLimit', () => book.set(at('A1'), 'x'.repeat(8_193)));
}));

test('formulas follow', () => opened((book) => {
  const reads = (where, text) => assert.equal(book.formula(at(where)), text);
  book.set(at('A1'), '=B5+B9');
  book.insertRows(0, 2, 2);
  reads('A1', '=B7+B11');
  book.deleteRows(0, 10, 1);
  reads('A1', '=B7+#REF!');
  book.moveRows(0, 6, 1, 3);
  reads('A1', '=B4+#REF!');
  book.insertCols(0, 1, 1);
  reads('A1', '=C4+#REF!');
  book.moveCols(0, 2, 1, 5);
  reads('A1', '=E4+#REF!');
  book.deleteCols(0, 1, 1);
  reads('A1', '=D4+#REF!');
  book.moveBlock(over('A1'), at('F6'));
  reads('F6', '=D4+#REF!');
  fails('BadSpan', () => book.insertRows(0, 0, 0));
  fails('NoSheet', () => book.insertRows(3, 0, 1));
  fails('Outside', () => book.set({ sheet: 0, row: 1_048_576, col: 0 }, '1'));
}));

test('sheets', () => opened((book) => {
  fails('SheetNameTaken', () => book.addSheet('plan'));
  fails('SheetNameInvalid', () => book.addSheet(''));
  assert.equal(book.addSheet('Two'), 1);
  assert.deepEqual([book.sheetCount, book.sheetAt(1), book.sheetAt(2)], [2, 1, null]);
  book.renameSheet(1, 'Zwei');
  assert.deepEqual([book.sheetId('ZWEI'), book.sheetId('Two'), book.sheetName(1)], [1, null, 'Zwei']);
  fails('NoSheet', () => book.sheetName(5));
  book.set(at('A1'), '3');
  book.clearSheet(0);
  shows(book, 'A1', '');
  book.dropSheet(0);
  assert.deepEqual(book.sheets(), [1]);
}));

test('names', () => opened((book) => {
  book.addSheet('Two');
  book.addName('rate', '=Plan!$A$1');
  book.addName('rate', '=2', 1);
  book.set(at('A1'), '3');
  assert.equal(book.nameValue('RATE', 0), 3_000_000n);
  assert.equal(book.nameValue('rate', 1), 2_000_000n);
  book.changeName('rate', '=4', 1);
  assert.equal(book.nameValue('rate', 1), 4_000_000n);
  book.removeName('rate', 1);
  fails('NoSuchName', () => book.removeName('rate', 1));
  assert.equal(book.tryFormula(1, '=rate*2'), 6_000_000n);
  fails('BadFormula', () => book.tryFormula(1, 'rate'));
  // The number that stands for the whole workbook in C is that of no sheet.
  fails('NoSheet', () => book.removeName('rate', 2 ** 32 - 1));
  book.removeName('rate', null);
}));

test('names are listed', () => opened((book) => {
  assert.deepEqual(book.names(), []);
  book.addName('rate', '=0.50*(2)', 0);
  book.addName('to', '=2');
  assert.deepEqual(book.names(), [{ scope: null, word: 'TO' }, { scope: 0, word: 'RATE' }]);
  assert.deepEqual([book.nameText('RATE', 0), book.nameText('to')], ['=0.5*(2)', '=2']);
  fails('NoSuchName', () => book.nameText('to', 0));
  fails('NoSheet', () => book.nameText('to', 9));
  fails('NoSheet', () => book.nameText('to', 2 ** 32 - 1));
}));

test('texts of formulas are read', () => opened((book) => {
  assert.equal(book.normalText(0, '= sum( a1 )'), '=SUM(A1)');
  assert.deepEqual(book.namesIn(0, '=ab+rate*AB'), ['AB', 'RATE']);
  assert.deepEqual(book.namesIn(0, '=1'), []);
  fails('BadFormula', () => book.normalText(0, 'sum'));
  fails('BadFormula', () => book.namesIn(0, '=ab+'));
  fails('NoSheet', () => book.normalText(9, '=1'));
  fails('NoSheet', () => book.namesIn(9, '=ab'));
  fails('NotUtf8', () => book.namesIn(0, '=\ud83d'));
}));

test('the history is cleared', () => opened((book) => {
  book.set(at('A1'), '1');
  book.set(at('A1'), '2');
  book.undo();
  assert.deepEqual([book.canUndo, book.canRedo], [true, true]);
  book.clearHistory();
  assert.deepEqual([book.canUndo, book.canRedo], [false, false]);
  fails('NothingToUndo', () => book.undo());
  fails('NothingToRedo', () => book.redo());
  book.batch(() => {
    book.set(at('A1'), '3');
    book.clearHistory();
  });
  shows(book, 'A1', '3');
  book.undo();
  shows(book, 'A1', '1');
  assert.equal(book.canUndo, false);
}));

test('idle time is spent', () => opened((book) => {
  book.set(at('A10'), '=B9');
  assert.equal(book.settleIdle(0), true);
  book.insertRows(0, 0, 1);
  book.insertRows(0, 0, 2);
  assert.equal(book.settleIdle(1), false);
  assert.equal(book.settleIdle(Number.MAX_SAFE_INTEGER), true);
  assert.equal(book.settleIdle(0), true);
  assert.equal(book.formula(at('A13')), '=B12');
  for (const budget of [-1, 0.5, 2 ** 53, NaN]) {
    assert.throws(() => book.settleIdle(budget), RangeError);
  }
  assert.throws(() => book.settleIdle(1n), TypeError);
}));

test('steps and batches', () => opened((book) => {
  book.begin();
  assert.equal(book.hasBatch, true);
  fails('BatchOpen', () => book.begin());
  book.set(at('A1'), '1');
  book.set(at('B1'), '2');
  assert.equal(book.canUndo, false);
  fails('Suspended', () => book.value(at('A1')));
  book.commit();
  assert.equal(book.hasBatch, false);
  fails('NoBatch', () => book.commit());
  assert.deepEqual([book.canUndo, book.canRedo], [true, false]);
  book.undo();
  shows(book, 'A1', '');
  assert.equal(book.canRedo, true);
  book.redo();
  shows(book, 'B1', '2');
  fails('NothingToRedo', () => book.redo());
  book.suspend();
  assert.equal(book.isSuspended, true);
  fails('Suspended', () => book.value(at('A1')));
  book.resume();
  assert.equal(book.isSuspended, false);
}));

test('batches of functions', () => opened((book) => {
  assert.equal(book.batch((same) => same.set(at('A1'), '1') ?? 2), 2);
  // What came before an error stays, as one step.
  fails('BadSpan', () => book.batch(() => {
    book.set(at('A1'), '3');
    book.insertRows(0, 0, 0);
  }));
  assert.equal(book.hasBatch, false);
  shows(book, 'A1', '3');
  book.undo();
  shows(book, 'A1', '1');
  assert.throws(() => book.suspended(() => assert.fail('meant')), /meant/);
  assert.equal(book.suspended(() => book.isSuspended), true);
  assert.equal(book.isSuspended, false);
}));

test('blocks are pasted', () => opened((book) => {
  book.set(at('A1'), '=B1');
  assert.equal(book.isClipboardEmpty, true);
  book.copy(over('A1'));
  assert.equal(book.isClipboardEmpty, false);
  book.paste(at('B2'));
  assert.equal(book.formula(at('B2')), '=C2');
  book.cut(over('A1:A1'));
  book.paste(at('A3'));
  assert.equal(book.formula(at('A3')), '=B1');
  fails('NothingToPaste', () => book.paste(at('A5')));
  book.copy(over('A3:B3'));
  book.clearClipboard();
  assert.equal(book.isClipboardEmpty, true);
  fails('NothingToPaste', () => book.paste(at('A5')));
  book.clearClipboard();
}));

test('links are listed', () => opened((book) => {
  book.addName('rate', '=Plan!$A$1');
  book.addName('own', '=$A$1', 0);
  book.set(at('A3'), '=SUM(A1:B1)+A1+rate');
  assert.deepEqual(book.precedents(at('A3')), [over('A1:B1'), at('A1'), { scope: null, word: 'RATE' }]);
  const [rate, own] = [{ scope: null, word: 'RATE' }, { scope: 0, word: 'OWN' }];
  assert.deepEqual(book.dependents(at('A1')), [at('A3'), rate, own]);
  assert.deepEqual(book.dependents(at('J10')), []);
  fails('Outside', () => book.precedents({ sheet: 0, row: 0, col: 18_278 }));
}));

test('rules are called', () => {
  const POST = bands([['0', '1.5'], ['0.5', 2_750_000n]]);
  const TAX = tiers([['0', '0.1'], ['1000', '0.2']]);
  opened((book) => {
    for (const [text, says] of [['=Post(0.5)', '2.75'], ['=POST(-1)', '#N/A'], ['=tax(2000)', '300']]) {
      book.set(at('A1'), text);
      shows(book, 'A1', says);
    }
  }, { rules: { POST, TAX } });
  const bad = (rules) => fails('BadTable', () => new Workbook({ rules }));
  bad({ POST, post: POST });
  bad({ SUM: POST });
  bad({ TAX: bands([]) });
  bad({ TAX: tiers([['1', '1'], ['2', '1']]) });
  bad({ TAX: bands([['2', '1'], ['2', '1']]) });
  assert.throws(() => new Workbook({ rules: { TAX: (x) => x } }), TypeError);
  assert.throws(() => bands([[1, 2]]), TypeError);
  assert.throws(() => bands([[10n ** 18n, 0n]]), RangeError);
});

test('what is given as it should not be', () => opened((book) => {
  fails('NotUtf8', () => book.set(at('A1'), 'half \ud83d'));
  fails('NotUtf8', () => book.addSheet('\udc00'));
  fails('NotUtf8', () => new Workbook({ rules: { 'a\ud800': bands([['0', '0']]) } }));
  assert.throws(() => book.set(at('A1'), 7), TypeError);
  assert.throws(() => book.set({ sheet: 0, row: 0 }, '7'), TypeError);
  assert.throws(() => book.set({ sheet: 0, row: '0', col: 0 }, '7'), TypeError);
  assert.throws(() => book.set(undefined, '7'), TypeError);
  for (const row of [-1, 0.5, NaN, Infinity, 2 ** 32]) {
    assert.throws(() => book.set({ sheet: 0, row, col: 0 }, '7'), RangeError);
  }
  assert.throws(() => book.addName('rate', '=1', 'Plan'), TypeError);
  assert.throws(() => Workbook.prototype.undo.call({}), TypeError);
  assert.equal(book.canUndo, true);
  book.undo();
  assert.equal(book.canUndo, false);
}));

test('books are opened and closed', () => {
  fails('BadLimit', () => new Workbook({ undoLimit: 1_001 }));
  assert.throws(() => new Workbook({ undoLimit: -1 }), RangeError);
  assert.throws(() => new Workbook({ today: new Date(NaN) }), RangeError);
  const book = new Workbook({ undoLimit: 0, today: new Date(2024, 1, 29, 23, 59) });
  book.addSheet('Plan');
  fails('NothingToUndo', () => book.undo());
  assert.equal(book.tryFormula(0, '=TODAY()'), 45_351_000_000n);
  assert.equal(book.isOpen, true);
  book.close();
  book.close();
  assert.equal(book.isOpen, false);
  fails('NotOpen', () => book.set(at('A1'), '1'));
  fails('NotOpen', () => book.value(at('A1')));
  for (const call of ['clearClipboard', 'clearHistory', 'names']) {
    fails('NotOpen', () => book[call]());
  }
  fails('NotOpen', () => book.setNumber(at('A1'), 1n));
  fails('NotOpen', () => book.setTruth(at('A1'), true));
  fails('NotOpen', () => book.setText(at('A1'), ''));
  fails('NotOpen', () => book.writeAll([]));
  fails('NotOpen', () => book.cause('undo'));
  fails('NotOpen', () => book.parseError(0, '=1'));
  fails('NotOpen', () => book.kind(at('A1')));
  fails('NotOpen', () => book.values(over('A1')));
  fails('NotOpen', () => book.filledIn(0));
  fails('NotOpen', () => book.usedArea(0));
  fails('NotOpen', () => book.normalText(0, '=1'));
  fails('NotOpen', () => book.settleIdle(1));
  fails('NotOpen', () => book.onCycle(0));
  fails('NotOpen', () => book.canUndo);
  fails('NotOpen', () => book.sheets());
  fails('NotOpen', () => book.sheetId('Plan'));
  assert.equal(new Workbook()[Symbol.dispose]?.(), undefined);
});

test('errors say what they are', () => opened((book) => {
  assert.throws(() => book.undo() ?? book.undo(), (error) => {
    assert.equal(`${error}`, 'NothingToUndo: there is no step to take back');
    assert.deepEqual([error.status, error.isRefusal], [11, true]);
    return true;
  });
  const [memory, other] = [64, 99].map((status) => new FazhundelError(status));
  assert.deepEqual([memory.name, memory.isRefusal, other.name], ['NoMemory', false, 'Unknown']);
}));

test('numbers are read and printed', () => {
  const read = {
    0: 0n, '-3': -3_000_000n, '.5': 500_000n, '7.': 7_000_000n, '+0001.250': 1_250_000n, '0.0000005': 1n, '-0.0000005': -1n,
    '0.00000049': 0n, '0.9999999': 1_000_000n, '999999999999.999999': 999_999_999_999_999_999n,
  };
  for (const [text, number] of Object.entries(read)) {
    assert.equal(millionths(text), number);
  }
  for (const text of ['', '.', '-', '+-1', '1e3', '1 ', '1\n', '1.2.3', '1000000000000', '999999999999.9999995']) {
    assert.throws(() => millionths(text), RangeError);
  }
  for (const [number, text] of [[0n, '0'], [-500_000n, '-0.5'], [1_250_000n, '1.25'], [100_000_000n, '100'], [-1n, '-0.000001']]) {
    assert.equal(decimal(number), text);
  }
  assert.throws(() => millionths(1), TypeError);
  assert.throws(() => decimal(1), TypeError);
  assert.deepEqual([null, 'x', false, Faults.CYCLE].map(shown), ['', 'x', 'FALSE', '#CYCLE!']);
});

test('addresses are read and printed', () => {
  for (const [text, row, col] of [['A1', 0, 0], ['Z9', 8, 25], ['AA10', 9, 26], ['ZZZ1048576', 1_048_575, 18_277]]) {
    assert.deepEqual(place(3, text), { sheet: 3, row, col });
    assert.equal(address({ sheet: 3, row, col }), text);
  }
  assert.deepEqual(place(0, 'ab12'), { sheet: 0, row: 11, col: 27 });
  assert.deepEqual(block(0, 'A5:B1'), { sheet: 0, top: 0, left: 0, bottom: 4, right: 1 });
  assert.deepEqual(block(0, 'C3'), { sheet: 0, top: 2, left: 2, bottom: 2, right: 2 });
  assert.equal(address(over('B5:A1')), 'A1:B5');
  for (const text of ['', 'A', '1', 'A0', 'A01', 'AAAA1', 'A12345678', '$A$1', 'A1 ', 'Ä1', 'A1:B2', 'Plan!A1']) {
    assert.throws(() => place(0, text), RangeError);
  }
  for (const text of ['', ':', 'A1:', ':A1', 'A1:B2:C3']) {
    assert.throws(() => block(0, text), RangeError);
  }
});

test('workers have workbooks of their own', async () => {
  const works = `
    const { parentPort, workerData } = require('node:worker_threads');
    const { Workbook } = require(workerData);
    const book = new Workbook();
    const sheet = book.addSheet('Plan');
    book.set({ sheet, row: 0, col: 0 }, '=6*7');
    parentPort.postMessage(book.valueText({ sheet, row: 0, col: 0 }));`;
  const answers = [1, 2].map(() => new Promise((resolve, reject) => {
    const worker = new Worker(works, { eval: true, workerData: require.resolve('./index.js') });
    worker.on('message', resolve).on('error', reject);
  }));
  assert.deepEqual(await Promise.all(answers), ['42', '42']);
});

test('forgotten workbooks are freed', () => {
  // Each takes 1 MB, and all of them at once would take 200.
  const works = `
    const { Workbook } = require(process.argv[1]);
    const fill = () => {
      const book = new Workbook();
      const sheet = book.addSheet('Plan');
      for (let row = 0; row < 128; row++) {
        book.set({ sheet, row, col: 0 }, 'x'.repeat(8_000));
      }
    };
    const collected = () => { global.gc(); return new Promise(setImmediate); };
    (async () => {
      for (let i = 0; i < 200; i++) {
        fill();
        await collected();
      }
      console.log(process.memoryUsage().rss);
    })();`;
  const ran = spawnSync(process.execPath, ['--expose-gc', '-e', works, require.resolve('./index.js')]);
  assert.equal(ran.status, 0, ran.stderr.toString());
  assert.ok(Number(ran.stdout) < 150_000_000, `${ran.stdout} bytes`);
});
