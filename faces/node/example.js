'use strict';

// An application that holds a workbook: it works an invoice out and prints what it comes to.
const { Workbook, decimal } = require('./index.js');

// Two lines of a quantity and a price, and what each and both come to.
const CELLS = [
  [0, 0, '2'],
  [0, 1, '10.5'],
  [0, 2, '=A1*B1'],
  [1, 0, '3'],
  [1, 1, '120'],
  [1, 2, '=A2*B2'],
  [2, 2, '=C1+C2'],
];

const book = new Workbook({ today: new Date(2024, 0, 1) });
const sheet = book.addSheet('Invoice');
book.batch(() => {
  for (const [row, col, text] of CELLS) {
    book.set({ sheet, row, col }, text);
  }
  book.insertRows(sheet, 0, 1);
});
console.log(decimal(book.value({ sheet, row: 3, col: 2 })));
book.close();
