//! Reading conditions from tokens.

use crate::statement::{Column, Comparison, Predicate};
use crate::tokens::{Kind, Parsed, Tokens, VALUES};
use std::ops::RangeInclusive;

const MODULI: RangeInclusive<i64> = 1..=1_000_000;
const DEPTH: usize = 16;

impl Tokens<'_> {
    pub fn condition(&mut self) -> Parsed<Option<Predicate>> {
        if self.takes("where") {
            Ok(Some(self.any(0)?))
        } else {
            Ok(None)
        }
    }

    /// Predicates joined by `or`, inside this many parentheses and `not`s.
    fn any(&mut self, depth: usize) -> Parsed<Predicate> {
        let mut found = self.all(depth)?;
        while self.takes("or") {
            found = Predicate::Or(Box::new(found), Box::new(self.all(depth)?));
        }
        Ok(found)
    }

    fn all(&mut self, depth: usize) -> Parsed<Predicate> {
        let mut found = self.one(depth)?;
        while self.takes("and") {
            found = Predicate::And(Box::new(found), Box::new(self.one(depth)?));
        }
        Ok(found)
    }

    fn one(&mut self, depth: usize) -> Parsed<Predicate> {
        if depth == DEPTH && ["not", "("].contains(&self.peek()) {
            return Err(Kind::TooDeep);
        }
        if self.takes("not") {
            return Ok(Predicate::Not(Box::new(self.one(depth + 1)?)));
        }
        if self.takes("(") {
            let inner = self.any(depth + 1)?;
            self.expect(&[")"])?;
            return Ok(inner);
        }
        self.atom()
    }

    fn atom(&mut self) -> Parsed<Predicate> {
        let column = match self.peek() {
            "id" => Column::Id,
            "value" => Column::Value,
            _ => return Err(self.wrong()),
        };
        self.skip();
        if self.takes("%") {
            let modulus = self.number(MODULI)?;
            self.expect(&["="])?;
            return Ok(Predicate::Remainder(column, modulus, self.number(VALUES)?));
        }
        if self.takes("in") {
            return Ok(Predicate::In(column, self.listed()?.into()));
        }
        let comparison = self.comparison()?;
        Ok(Predicate::Compare(column, comparison, self.number(VALUES)?))
    }

    fn comparison(&mut self) -> Parsed<Comparison> {
        let found = match self.peek() {
            "=" => Comparison::Equal,
            "<>" => Comparison::Unequal,
            "<" => Comparison::Less,
            "<=" => Comparison::AtMost,
            ">" => Comparison::Greater,
            ">=" => Comparison::AtLeast,
            _ => return Err(self.wrong()),
        };
        self.skip();
        Ok(found)
    }

    /// Numbers in parentheses, possibly none.
    fn listed(&mut self) -> Parsed<Vec<i64>> {
        self.expect(&["("])?;
        let mut numbers = Vec::new();
        if self.takes(")") {
            return Ok(numbers);
        }
        loop {
            numbers.push(self.number(VALUES)?);
            if !self.takes(",") {
                self.expect(&[")"])?;
                return Ok(numbers);
            }
        }
    }
}
