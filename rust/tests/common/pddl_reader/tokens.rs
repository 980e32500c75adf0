//! The tokens of a text: brackets and words, with white space between them.

use std::fmt;

/// Why a text is not read, and where.
#[derive(Clone, Debug, PartialEq, Eq)]
pub struct Error {
    pub offset: usize,
    pub reason: String,
}

impl fmt::Display for Error {
    fn fmt(&self, f: &mut fmt::Formatter<'_>) -> fmt::Result {
        write!(f, "offset {}: {}", self.offset, self.reason)
    }
}

/// A bracket or a word; no word at all is the end of the text.
#[derive(Clone, Copy, Debug, PartialEq, Eq)]
pub struct Token<'t> {
    pub offset: usize,
    pub word: &'t str,
}

impl Token<'_> {
    pub fn error(self, reason: impl Into<String>) -> Error {
        Error {
            offset: self.offset,
            reason: reason.into(),
        }
    }

    /// A letter, then letters, digits, `-` and `_`.
    pub fn is_name(self) -> bool {
        let rest = |byte: u8| matches!(byte, b'a'..=b'z' | b'0'..=b'9' | b'-' | b'_');
        self.word
            .starts_with(|first: char| first.is_ascii_lowercase())
            && self.word.bytes().all(rest)
    }

    /// A whole number, written in the shortest way.
    pub fn number(self) -> Result<i64, Error> {
        let number = self.word.parse::<i64>().ok();
        let number = number.filter(|number| number.to_string() == self.word);
        number.ok_or_else(|| self.error("a whole number is due"))
    }

    /// The number behind the prefix of a name.
    pub fn index(self, prefix: char) -> Option<usize> {
        let digits = self.word.strip_prefix(prefix)?;
        let index = digits.parse::<usize>().ok();
        index.filter(|index| index.to_string() == digits)
    }
}

/// The tokens of a text, from left to right.
#[derive(Clone, Copy)]
pub struct Tokens<'t> {
    text: &'t [u8],
    /// Behind the last token.
    at: usize,
    last: Token<'t>,
}

impl<'t> Tokens<'t> {
    pub fn new(text: &'t [u8]) -> Tokens<'t> {
        let last = Token {
            offset: 0,
            word: "",
        };
        Tokens { text, at: 0, last }
    }

    /// The token that was read last.
    pub fn last(&self) -> Token<'t> {
        self.last
    }

    /// An error at the token that was read last.
    pub fn error(&self, reason: &str) -> Error {
        self.last.error(reason)
    }

    pub fn next(&mut self) -> Result<Token<'t>, Error> {
        let rest = &self.text[self.at..];
        let white = |byte: &u8| matches!(byte, b' ' | b'\t' | b'\n' | b'\r');
        let offset = self.at + rest.iter().take_while(|byte| white(byte)).count();
        let rest = &self.text[offset..];
        let length = match rest.first() {
            Some(b'(' | b')') => 1,
            _ => {
                let ends = |byte: &u8| white(byte) || matches!(byte, b'(' | b')');
                rest.iter().take_while(|byte| !ends(byte)).count()
            }
        };
        if let Some(i) = rest[..length].iter().position(|b| !b.is_ascii_graphic()) {
            return Err(Error {
                offset: offset + i,
                reason: "no ASCII character".into(),
            });
        }
        let word = std::str::from_utf8(&rest[..length]).expect("ASCII is text");
        self.at = offset + length;
        self.last = Token { offset, word };
        Ok(self.last)
    }

    /// The next token is this one; the empty word stands for the end.
    pub fn expect(&mut self, word: &str) -> Result<(), Error> {
        let token = self.next()?;
        match token.word == word {
            true => Ok(()),
            false if word.is_empty() => Err(token.error("the end is due")),
            false => Err(token.error(format!("{word} is due"))),
        }
    }

    /// Passes over the bracket that closes a list, if it comes next.
    pub fn closes(&mut self) -> Result<bool, Error> {
        self.passes(&[")"])
    }

    /// Passes over the opening of this section, if it comes next.
    pub fn opens(&mut self, keyword: &str) -> Result<bool, Error> {
        self.passes(&["(", keyword])
    }

    fn passes(&mut self, words: &[&str]) -> Result<bool, Error> {
        let mut ahead = *self;
        for word in words {
            if ahead.next()?.word != *word {
                return Ok(false);
            }
        }
        *self = ahead;
        Ok(true)
    }
}
