//! The tokens of a line, and the faults of text that the grammar doesn't allow.

use std::ops::RangeInclusive;

pub const VALUES: RangeInclusive<i64> = -1_000_000_000..=1_000_000_000;

/// The fault of a line.
#[derive(Clone, Copy, Debug, PartialEq)]
pub enum Kind {
    NotAscii,
    NoSetup,
    SetupRepeated,
    NoSession,
    UnknownStatement,
    BadPredicate,
    NumberOutOfRange,
    TooDeep,
    TooLong,
    DuplicateSetupRow,
    TooManyTables,
    BadTableName,
}

pub type Parsed<T> = Result<T, Kind>;

pub fn is_word(token: &str) -> bool {
    token.starts_with(|c: char| c.is_ascii_lowercase() || c == '_')
}

fn is_digits(token: &str) -> bool {
    token.starts_with(|c: char| c.is_ascii_digit())
}

/// The number of bytes of the token or the space at the beginning.
fn length(bytes: &[u8]) -> usize {
    let run = |belongs: fn(&u8) -> bool| bytes.iter().take_while(|byte| belongs(byte)).count();
    match bytes {
        [b'a'..=b'z' | b'_', ..] => run(|byte| byte.is_ascii_lowercase() || *byte == b'_'),
        [b'0'..=b'9', ..] => run(u8::is_ascii_digit),
        [b'<', b'=' | b'>', ..] | [b'>', b'=', ..] => 2,
        _ => 1,
    }
}

/// The tokens of code in lower case.
fn split(code: &str) -> Vec<&str> {
    let (mut found, mut rest) = (Vec::new(), code);
    while !rest.is_empty() {
        let (token, behind) = rest.split_at(length(rest.as_bytes()));
        if token != " " && token != "\t" {
            found.push(token);
        }
        rest = behind;
    }
    found
}

/// The tokens of a line, and how many of them have been read.
pub struct Tokens<'a> {
    tokens: Vec<&'a str>,
    at: usize,
}

impl<'a> Tokens<'a> {
    pub fn of(code: &'a str) -> Tokens<'a> {
        Tokens {
            tokens: split(code),
            at: 0,
        }
    }

    /// The next token, empty at the end.
    pub fn peek(&self) -> &'a str {
        self.tokens.get(self.at).copied().unwrap_or_default()
    }

    pub fn is_at_end(&self) -> bool {
        self.at == self.tokens.len()
    }

    /// Skips the next token if it is this one.
    pub fn takes(&mut self, wanted: &str) -> bool {
        let found = self.peek() == wanted;
        self.at += if found { 1 } else { 0 };
        found
    }

    /// Skips the next two tokens if they are these.
    pub fn take_both(&mut self, first: &str, second: &str) -> bool {
        let found = self.tokens[self.at..].starts_with(&[first, second]);
        self.at += if found { 2 } else { 0 };
        found
    }

    /// The fault if the next token isn't allowed here.
    pub fn wrong(&self) -> Kind {
        let before = self.tokens[..self.at].iter().rev();
        if before.take_while(|it| **it != ";").any(|it| *it == "where") {
            Kind::BadPredicate
        } else {
            Kind::UnknownStatement
        }
    }

    /// Skips these tokens, which must come here.
    pub fn expect(&mut self, wanted: &[&str]) -> Parsed<()> {
        for token in wanted {
            if !self.takes(token) {
                return Err(self.wrong());
            }
        }
        Ok(())
    }

    pub fn number(&mut self, range: RangeInclusive<i64>) -> Parsed<i64> {
        let sign = if self.takes("-") { -1 } else { 1 };
        if !is_digits(self.peek()) {
            return Err(self.wrong());
        }
        let number = self.peek().parse::<i64>().map_or(i64::MAX, |it| sign * it);
        self.at += 1;
        if range.contains(&number) {
            Ok(number)
        } else {
            Err(Kind::NumberOutOfRange)
        }
    }

    /// Skips the next token.
    pub fn skip(&mut self) {
        self.at += 1;
    }
}
