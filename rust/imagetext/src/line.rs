//! A line of the text: its words, the numbers among them, and what is wrong with it.

use std::fmt;
use std::ops::RangeInclusive;
use std::str::FromStr;

/// What is wrong with the text, and the line (from 1) where it was met.
#[derive(Debug, Clone, PartialEq, Eq)]
pub struct Fault {
    pub line: usize,
    pub message: String,
}

impl fmt::Display for Fault {
    fn fmt(&self, f: &mut fmt::Formatter) -> fmt::Result {
        write!(f, "{}: {}", self.line, self.message)
    }
}

impl std::error::Error for Fault {}

/// A line that has words, without its comment.
pub struct Line<'a> {
    number: usize,
    pub words: Vec<&'a str>,
}

/// The lines that have words. A comment goes from `#` to the end of its line.
pub fn lines(text: &str) -> impl Iterator<Item = Line<'_>> {
    text.lines()
        .enumerate()
        .map(|(i, line)| {
            let end = line.find('#').unwrap_or(line.len());
            Line { number: i + 1, words: line[..end].split_whitespace().collect() }
        })
        .filter(|line| !line.words.is_empty())
}

impl Line<'_> {
    pub fn fault(&self, message: impl Into<String>) -> Fault {
        Fault { line: self.number, message: message.into() }
    }

    /// A decimal number without leading zeros, of any size.
    pub fn decimal<'w>(&self, word: &'w str) -> Result<&'w str, Fault> {
        if !is_decimal(word) {
            return Err(self.fault(format!("`{word}` is not a decimal number without leading zeros")));
        }
        Ok(word)
    }

    /// A decimal number without leading zeros that fits into its field.
    pub fn number<T: FromStr>(&self, word: &str) -> Result<T, Fault> {
        let too_large = || self.fault(format!("`{word}` is too large for a field of {} bits", 8 * size_of::<T>()));
        self.decimal(word)?.parse().map_err(|_| too_large())
    }

    /// The number of one of the things that have these numbers.
    pub fn one_of(&self, what: &str, word: &str, numbers: RangeInclusive<usize>) -> Result<usize, Fault> {
        let number = self.number(word)?;
        if numbers.contains(&number) {
            return Ok(number);
        }
        let (first, last) = numbers.into_inner();
        let known = if number < first { format!("the first is {first}") } else { format!("the last is {last}") };
        Err(self.fault(format!("there is no {what} {word}: {known}")))
    }
}

/// Whether a word is a decimal number without leading zeros.
pub fn is_decimal(word: &str) -> bool {
    word.bytes().all(|byte| byte.is_ascii_digit()) && (word == "0" || !word.starts_with('0'))
}
