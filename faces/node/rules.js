'use strict';

const { numberOf } = require('./values.js');

/** A custom function of one value. */
class Rule {
  constructor(pairs, hasTiers) {
    this.pairs = Object.freeze(Array.from(pairs, ([from, gives]) => Object.freeze([numberOf(from), numberOf(gives)])));
    this.hasTiers = hasTiers;
    Object.freeze(this);
  }
}

/** Answers the second number of the last pair whose first one isn't above the value; #N/A below the first pair. */
function bands(pairs) {
  return new Rule(pairs, false);
}

/** Answers the sum over all tiers of the rate times the part of the value in the tier; the first tier begins at 0. */
function tiers(pairs) {
  return new Rule(pairs, true);
}

/** The rules of functions by their words as the addon takes them: five numbers for each, all pairs, all words. */
function table(rules) {
  const [rows, pairs] = [[], []];
  let [words, bytes] = ['', 0];
  for (const [word, rule] of Object.entries(rules)) {
    if (!(rule instanceof Rule)) {
      throw new TypeError(`the rule of ${word} isn't one of bands or tiers`);
    }
    const length = Buffer.byteLength(word);
    rows.push(bytes, length, pairs.length / 2, rule.pairs.length, rule.hasTiers ? 1 : 0);
    pairs.push(...rule.pairs.flat());
    words += word;
    bytes += length;
  }
  return { rows, pairs, words };
}

module.exports = { bands, table, tiers };
