'use strict';

const MILLION = 1_000_000n;

/** The first number that is out of range. */
const TOO_LARGE = 1_000_000_000_000n * MILLION;

const NUMBER = /^([+-]?)(?:(\d+)\.?(\d*)|\.(\d+))$/;
const ADDRESS = /^([A-Za-z]{1,3})([1-9][0-9]{0,6})$/;
const LETTERS = 26;

/** Whether a number of millionths is one that a workbook has. */
function isInRange(number) {
  return -TOO_LARGE < number && number < TOO_LARGE;
}

/**
 * The number that a text spells, in millionths: an optional sign and digits, with a point before them, after them or between
 * them. Decimals past the sixth are rounded, a half away from zero.
 */
function millionths(text) {
  if (typeof text !== 'string') {
    throw new TypeError('a number is read from a string');
  }
  const found = NUMBER.exec(text);
  if (!found) {
    throw new RangeError(`${text} is no number`);
  }
  const [, sign, whole = '0', behind, alone] = found;
  const decimals = (behind ?? alone).padEnd(7, '0');
  const size = BigInt(whole) * MILLION + BigInt(decimals.slice(0, 6)) + (decimals[6] >= '5' ? 1n : 0n);
  if (!isInRange(size)) {
    throw new RangeError(`${text} is out of range`);
  }
  return sign === '-' ? -size : size;
}

/** The shortest decimal text of a number of millionths: -3, 0.5. */
function decimal(number) {
  if (typeof number !== 'bigint') {
    throw new TypeError('a number of millionths is a BigInt');
  }
  const size = number < 0n ? -number : number;
  const part = String(size % MILLION).padStart(6, '0').replace(/0+$/, '');
  return `${number < 0n ? '-' : ''}${size / MILLION}${part && '.'}${part}`;
}

/** Why a cell has no value. */
class Fault {
  constructor(number, name, text) {
    this.number = number;
    this.name = name;
    this.text = text;
    Object.freeze(this);
  }

  toString() {
    return this.text;
  }
}

const FAULTS = [
  ['DIV0', '#DIV/0!'],
  ['NAME', '#NAME?'],
  ['VALUE', '#VALUE!'],
  ['NUM', '#NUM!'],
  ['NA', '#N/A'],
  ['CYCLE', '#CYCLE!'],
  ['REF', '#REF!'],
  ['ERROR', '#ERROR!'],
].map(([name, text], index) => new Fault(index + 1, name, text));

/** The faults by their names: Faults.DIV0 and so on. */
const Faults = Object.freeze(Object.fromEntries(FAULTS.map((fault) => [fault.name, fault])));

/** A value as the addon answers it: a fault by its number. */
function valueOf(answer) {
  return typeof answer === 'number' ? FAULTS[answer - 1] : answer;
}

/** The kinds of contents by their numbers; 4 is a fault's, which is no content. */
const KINDS = ['empty', 'number', 'text', 'truth', undefined, 'formula', 'unreadable'];

/** A kind of content as the addon answers it. */
function kindOf(answer) {
  return KINDS[answer];
}

/** What a person sees of a value: nothing, -3, the text itself, TRUE, #DIV/0!. */
function shown(value) {
  switch (typeof value) {
    case 'bigint':
      return decimal(value);
    case 'boolean':
      return value ? 'TRUE' : 'FALSE';
    default:
      return value === null ? '' : String(value);
  }
}

/** A number in millionths, given so or as a text. */
function numberOf(given) {
  if (typeof given !== 'bigint') {
    return millionths(given);
  }
  if (!isInRange(given)) {
    throw new RangeError(`${given} millionths are out of range`);
  }
  return given;
}

/** The row and the column of an address. */
function spot(address) {
  const found = ADDRESS.exec(address);
  if (!found) {
    throw new RangeError(`${address} is no address`);
  }
  const letters = [...found[1].toUpperCase()].map((letter) => letter.charCodeAt(0) - 64);
  return { row: Number(found[2]) - 1, col: letters.reduce((col, letter) => col * LETTERS + letter, 0) - 1 };
}

/** The cell of a sheet at an address, as B5. */
function place(sheet, address) {
  return { sheet, ...spot(address) };
}

/** The block of a sheet at an address: two opposite corners with a colon, as A1:B5, or one cell. */
function block(sheet, address) {
  const [first, last = first, ...more] = String(address).split(':');
  if (more.length > 0) {
    throw new RangeError(`${address} is no address`);
  }
  const [one, other] = [spot(first), spot(last)];
  return {
    sheet,
    top: Math.min(one.row, other.row),
    left: Math.min(one.col, other.col),
    bottom: Math.max(one.row, other.row),
    right: Math.max(one.col, other.col),
  };
}

function spelled(row, col) {
  let letters = '';
  for (let rest = col + 1; rest > 0; rest = Math.floor((rest - 1) / LETTERS)) {
    letters = String.fromCharCode(65 + ((rest - 1) % LETTERS)) + letters;
  }
  return `${letters}${row + 1}`;
}

/** The address of a place or a block, without its sheet: B5, A1:B5. */
function address(of) {
  return 'row' in of ? spelled(of.row, of.col) : `${spelled(of.top, of.left)}:${spelled(of.bottom, of.right)}`;
}

/** The number of a name's scope that is none, but the whole workbook. */
const WORKBOOK = 2 ** 32 - 1;
const [LINK_CELL, LINK_BLOCK] = [0, 1];

/** A link as the addon answers it. */
function linkOf([kind, sheet, top, left, bottom, right, word]) {
  switch (kind) {
    case LINK_CELL:
      return { sheet, row: top, col: left };
    case LINK_BLOCK:
      return { sheet, top, left, bottom, right };
    default:
      return { scope: sheet === WORKBOOK ? null : sheet, word };
  }
}

module.exports = { Fault, Faults, address, block, decimal, kindOf, linkOf, millionths, numberOf, place, shown, valueOf };
