//! Custom functions of one value, as rules.

use crate::library::{Pair, RuleRow};
use crate::value::Number;

/// What a custom function answers: 1 to 64 pairs of numbers whose first numbers rise, read in one of two ways.
///
/// ```
/// use fazhundel::{BadNumber, Rule};
///
/// let postage = Rule::Bands(vec![(0.into(), "1.5".parse()?), ("0.5".parse()?, "2.75".parse()?)]);
/// # Ok::<(), BadNumber>(())
/// ```
#[derive(Debug, Clone, PartialEq, Eq)]
pub enum Rule {
    /// The second number of the last pair whose first one isn't above the value; `#N/A` below the first pair.
    Bands(Vec<(Number, Number)>),
    /// The sum over all tiers, of which the first begins at 0, of the rate times the part of the value that lies in the tier;
    /// `#NUM!` of a negative value.
    Tiers(Vec<(Number, Number)>),
}

/// Rules as the library takes them.
#[derive(Default)]
pub(crate) struct Table {
    pub(crate) rules: Vec<RuleRow>,
    pub(crate) pairs: Vec<Pair>,
    pub(crate) words: String,
}

impl Table {
    /// The table of functions by their words.
    pub(crate) fn new(functions: &[(String, Rule)]) -> Table {
        let mut table = Table::default();
        for (word, rule) in functions {
            table.push(word, rule);
        }
        table
    }

    fn push(&mut self, word: &str, rule: &Rule) {
        let (pairs, has_tiers) = match rule {
            Rule::Bands(pairs) => (pairs, false),
            Rule::Tiers(pairs) => (pairs, true),
        };
        self.rules.push(RuleRow {
            word_start: self.words.len(),
            word_length: word.len(),
            pairs_start: self.pairs.len(),
            pairs_count: pairs.len(),
            has_tiers,
        });
        self.words.push_str(word);
        self.pairs.extend(pairs.iter().map(|(from, gives)| Pair {
            from: from.millionths(),
            gives: gives.millionths(),
        }));
    }
}
