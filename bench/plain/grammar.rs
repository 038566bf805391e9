//! Reading statements and setups from tokens.

use crate::statement::{Change, Column, Comparison, Predicate, Row, Statement};
use crate::tokens::{is_word, Kind, Parsed, Tokens, VALUES};
use std::collections::BTreeMap;
use std::ops::RangeInclusive;

const IDS: RangeInclusive<i64> = 1..=999_999;
const NAME_BYTES: usize = 16;
const TABLES: usize = 4;
const RESERVED: [&str; 23] = [
    "abort",
    "and",
    "begin",
    "commit",
    "delete",
    "from",
    "id",
    "in",
    "insert",
    "into",
    "isolation",
    "level",
    "not",
    "or",
    "rollback",
    "select",
    "set",
    "setup",
    "transaction",
    "update",
    "value",
    "values",
    "where",
];

/// The tokens of a line, and the names of tables found so far.
pub struct Parser<'a> {
    pub tokens: Tokens<'a>,
    tables: &'a mut Vec<String>,
}

impl<'a> Parser<'a> {
    pub fn new(code: &'a str, tables: &'a mut Vec<String>) -> Parser<'a> {
        let tokens = Tokens::of(code);
        Parser { tokens, tables }
    }

    /// The name of a table.
    pub fn name(&self, table: usize) -> &str {
        &self.tables[table]
    }

    /// The index of a table's name, which may be new.
    fn named(&mut self, name: &str) -> Parsed<usize> {
        if let Some(place) = self.tables.iter().position(|it| it == name) {
            return Ok(place);
        }
        if self.tables.len() == TABLES {
            return Err(Kind::TooManyTables);
        }
        self.tables.push(name.to_string());
        Ok(self.tables.len() - 1)
    }

    fn table(&mut self) -> Parsed<usize> {
        let word = self.tokens.peek();
        if !is_word(word) {
            return Err(self.tokens.wrong());
        }
        if word.len() > NAME_BYTES || RESERVED.contains(&word) {
            return Err(Kind::BadTableName);
        }
        self.tokens.skip();
        self.named(word)
    }

    /// An id and a value in parentheses.
    fn pair(&mut self) -> Parsed<(i64, i64)> {
        self.tokens.expect(&["("])?;
        let id = self.tokens.number(IDS)?;
        self.tokens.expect(&[","])?;
        let value = self.tokens.number(VALUES)?;
        self.tokens.expect(&[")"])?;
        Ok((id, value))
    }

    fn setup_row(&mut self) -> Parsed<(Row, i64)> {
        let table = match self.tokens.peek() {
            "(" => self.named("test")?,
            _ => self.table()?,
        };
        let (id, value) = self.pair()?;
        Ok((Row { table, id }, value))
    }

    /// The rows after the word `setup`.
    pub fn setup_rows(&mut self) -> Parsed<BTreeMap<Row, i64>> {
        let mut rows = BTreeMap::new();
        if self.tokens.take_both("(", ")") {
            return Ok(rows);
        }
        loop {
            let (row, value) = self.setup_row()?;
            if rows.insert(row, value).is_some() {
                return Err(Kind::DuplicateSetupRow);
            }
            if !self.tokens.takes(",") {
                return Ok(rows);
            }
        }
    }

    /// The words after `set`.
    pub fn isolation_level(&mut self) -> Parsed<()> {
        self.tokens.expect(&["transaction", "isolation", "level"])?;
        if !is_word(self.tokens.peek()) {
            return Err(self.tokens.wrong());
        }
        while is_word(self.tokens.peek()) {
            self.tokens.skip();
        }
        Ok(())
    }

    pub fn statement(&mut self) -> Parsed<Statement> {
        match self.tokens.peek() {
            "select" => {
                self.tokens.expect(&["select", "*", "from"])?;
                self.on_table(Change::Nothing)
            }
            "delete" => {
                self.tokens.expect(&["delete", "from"])?;
                self.on_table(Change::Delete)
            }
            "update" => self.update(),
            "insert" => self.insert(),
            _ => Err(self.tokens.wrong()),
        }
    }

    fn on_table(&mut self, change: Change) -> Parsed<Statement> {
        Ok(Statement {
            table: self.table()?,
            change,
            predicate: self.tokens.condition()?,
        })
    }

    fn update(&mut self) -> Parsed<Statement> {
        self.tokens.expect(&["update"])?;
        let table = self.table()?;
        self.tokens.expect(&["set", "value", "="])?;
        Ok(Statement {
            table,
            change: self.assigned()?,
            predicate: self.tokens.condition()?,
        })
    }

    fn assigned(&mut self) -> Parsed<Change> {
        if !self.tokens.takes("value") {
            return Ok(Change::Set(self.tokens.number(VALUES)?));
        }
        if self.tokens.takes("+") {
            return Ok(Change::Plus(self.tokens.number(VALUES)?));
        }
        self.tokens.expect(&["-"])?;
        Ok(Change::Minus(self.tokens.number(VALUES)?))
    }

    fn insert(&mut self) -> Parsed<Statement> {
        self.tokens.expect(&["insert", "into"])?;
        let table = self.table()?;
        self.tokens
            .expect(&["(", "id", ",", "value", ")", "values"])?;
        let (id, value) = self.pair()?;
        Ok(Statement {
            table,
            change: Change::Insert { id, value },
            predicate: Some(Predicate::Compare(Column::Id, Comparison::Equal, id)),
        })
    }
}
