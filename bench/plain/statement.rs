//! Statements: what rows they match, and their printed form.

use std::collections::BTreeMap;
use std::fmt::{self, Display, Formatter};

/// The state of a row: its value, or None if it is absent.
pub type State = Option<i64>;

/// A row by its table's index among the names, and its id.
#[derive(Clone, Copy, Debug, PartialEq, Eq, PartialOrd, Ord, Hash)]
pub struct Row {
    pub table: usize,
    pub id: i64,
}

/// Bounds of all ids and of none.
const ALL: (i64, i64) = (i64::MIN, i64::MAX);
const NONE: (i64, i64) = (i64::MAX, i64::MIN);

#[derive(Clone, Copy, Debug, PartialEq)]
pub enum Column {
    Id,
    Value,
}

#[derive(Clone, Copy, Debug)]
pub enum Comparison {
    Equal,
    Unequal,
    Less,
    AtMost,
    Greater,
    AtLeast,
}

/// Numbers as they are written, and sorted.
#[derive(Clone, Debug)]
pub struct Numbers {
    written: Vec<i64>,
    sorted: Vec<i64>,
}

impl From<Vec<i64>> for Numbers {
    fn from(written: Vec<i64>) -> Numbers {
        let mut sorted = written.clone();
        sorted.sort_unstable();
        Numbers { written, sorted }
    }
}

#[derive(Clone, Debug)]
pub enum Predicate {
    Compare(Column, Comparison, i64),
    Remainder(Column, i64, i64),
    In(Column, Numbers),
    Not(Box<Predicate>),
    And(Box<Predicate>, Box<Predicate>),
    Or(Box<Predicate>, Box<Predicate>),
}

impl Predicate {
    fn holds(&self, id: i64, value: i64) -> bool {
        let of = |column| if column == Column::Id { id } else { value };
        match self {
            Predicate::Compare(column, comparison, number) => match comparison {
                Comparison::Equal => of(*column) == *number,
                Comparison::Unequal => of(*column) != *number,
                Comparison::Less => of(*column) < *number,
                Comparison::AtMost => of(*column) <= *number,
                Comparison::Greater => of(*column) > *number,
                Comparison::AtLeast => of(*column) >= *number,
            },
            Predicate::Remainder(column, modulus, wanted) => of(*column) % modulus == *wanted,
            Predicate::In(column, numbers) => numbers.sorted.binary_search(&of(*column)).is_ok(),
            Predicate::Not(inner) => !inner.holds(id, value),
            Predicate::And(left, right) => left.holds(id, value) && right.holds(id, value),
            Predicate::Or(left, right) => left.holds(id, value) || right.holds(id, value),
        }
    }

    /// Whether it may have the truth value `wanted` for a row with this id.
    fn may(&self, id: i64, wanted: bool) -> bool {
        match self {
            Predicate::Compare(Column::Value, ..)
            | Predicate::Remainder(Column::Value, ..)
            | Predicate::In(Column::Value, _) => true,
            Predicate::Not(inner) => inner.may(id, !wanted),
            Predicate::And(left, right) if wanted => left.may(id, true) && right.may(id, true),
            Predicate::And(left, right) => left.may(id, false) || right.may(id, false),
            Predicate::Or(left, right) if wanted => left.may(id, true) || right.may(id, true),
            Predicate::Or(left, right) => left.may(id, false) && right.may(id, false),
            _ => self.holds(id, 0) == wanted,
        }
    }

    fn names_ids(&self) -> bool {
        match self {
            Predicate::Compare(column, ..)
            | Predicate::Remainder(column, ..)
            | Predicate::In(column, _) => *column == Column::Id,
            Predicate::Not(inner) => inner.names_ids(),
            Predicate::And(left, right) | Predicate::Or(left, right) => {
                left.names_ids() || right.names_ids()
            }
        }
    }

    /// Bounds of the ids of rows that it may match; the range is empty if the first is above the last.
    fn ids(&self) -> (i64, i64) {
        match self {
            Predicate::Compare(Column::Id, comparison, number) => match comparison {
                Comparison::Equal => (*number, *number),
                Comparison::Unequal => ALL,
                Comparison::Less => (ALL.0, number - 1),
                Comparison::AtMost => (ALL.0, *number),
                Comparison::Greater => (number + 1, ALL.1),
                Comparison::AtLeast => (*number, ALL.1),
            },
            Predicate::In(Column::Id, numbers) => match numbers.sorted[..] {
                [] => NONE,
                [first, .., last] => (first, last),
                [only] => (only, only),
            },
            Predicate::And(left, right) => {
                let (left, right) = (left.ids(), right.ids());
                (left.0.max(right.0), left.1.min(right.1))
            }
            Predicate::Or(left, right) => {
                let (left, right) = (left.ids(), right.ids());
                (left.0.min(right.0), left.1.max(right.1))
            }
            _ => ALL,
        }
    }

    /// How tightly it binds: an `or` the least, then an `and`, then everything else.
    fn rank(&self) -> u8 {
        match self {
            Predicate::Or(..) => 0,
            Predicate::And(..) => 1,
            _ => 2,
        }
    }

    /// Prints it, in parentheses unless it binds at least this tightly.
    fn fmt_inside(&self, f: &mut Formatter, rank: u8) -> fmt::Result {
        if self.rank() < rank {
            write!(f, "({self})")
        } else {
            write!(f, "{self}")
        }
    }
}

impl Display for Column {
    fn fmt(&self, f: &mut Formatter) -> fmt::Result {
        f.write_str(if *self == Column::Id { "id" } else { "value" })
    }
}

impl Display for Comparison {
    fn fmt(&self, f: &mut Formatter) -> fmt::Result {
        f.write_str(match self {
            Comparison::Equal => "=",
            Comparison::Unequal => "<>",
            Comparison::Less => "<",
            Comparison::AtMost => "<=",
            Comparison::Greater => ">",
            Comparison::AtLeast => ">=",
        })
    }
}

impl Display for Numbers {
    fn fmt(&self, f: &mut Formatter) -> fmt::Result {
        for (place, number) in self.written.iter().enumerate() {
            let mark = if place > 0 { ", " } else { "" };
            write!(f, "{mark}{number}")?;
        }
        Ok(())
    }
}

impl Display for Predicate {
    fn fmt(&self, f: &mut Formatter) -> fmt::Result {
        match self {
            Predicate::Compare(column, comparison, number) => {
                write!(f, "{column} {comparison} {number}")
            }
            Predicate::Remainder(column, modulus, rest) => {
                write!(f, "{column} % {modulus} = {rest}")
            }
            Predicate::In(column, numbers) => write!(f, "{column} in ({numbers})"),
            Predicate::Not(inner) => {
                f.write_str("not ")?;
                inner.fmt_inside(f, 2)
            }
            Predicate::And(left, right) => {
                left.fmt_inside(f, 1)?;
                f.write_str(" and ")?;
                right.fmt_inside(f, 2)
            }
            Predicate::Or(left, right) => {
                left.fmt_inside(f, 0)?;
                f.write_str(" or ")?;
                right.fmt_inside(f, 1)
            }
        }
    }
}

#[derive(Clone, Debug)]
pub enum Change {
    Nothing,
    Set(i64),
    Plus(i64),
    Minus(i64),
    Insert { id: i64, value: i64 },
    Delete,
}

/// A statement on a table, given by its index among the names. An insert has the predicate that its id matches.
#[derive(Clone, Debug)]
pub struct Statement {
    pub table: usize,
    pub change: Change,
    pub predicate: Option<Predicate>,
}

impl Statement {
    /// Whether it matches a row of its table.
    pub fn matches(&self, id: i64, state: State) -> bool {
        state.is_some_and(|value| {
            self.predicate
                .as_ref()
                .map_or(true, |it| it.holds(id, value))
        })
    }

    /// The entries of rows that it may match, by its table and bounds of ids.
    pub fn among<'a, T>(
        &self,
        rows: &'a BTreeMap<Row, T>,
    ) -> impl Iterator<Item = (&'a Row, &'a T)> {
        let (first, last) = self.predicate.as_ref().map_or(ALL, Predicate::ids);
        let row = |id| Row {
            table: self.table,
            id,
        };
        let found = (first <= last).then(|| rows.range(row(first)..=row(last)));
        found.into_iter().flatten()
    }

    /// Whether it may match a row of its table with this id.
    pub fn may_match(&self, id: i64) -> bool {
        self.predicate.as_ref().map_or(true, |it| it.may(id, true))
    }

    /// Whether its predicate restricts ids.
    pub fn names_ids(&self) -> bool {
        self.predicate.as_ref().is_some_and(Predicate::names_ids)
    }

    /// The new state of a row with this value.
    pub fn makes(&self, before: i64) -> State {
        match self.change {
            Change::Nothing => Some(before),
            Change::Set(value) | Change::Insert { value, .. } => Some(value),
            Change::Plus(number) => Some(before + number),
            Change::Minus(number) => Some(before - number),
            Change::Delete => None,
        }
    }

    /// Its printed form, with its table's name.
    pub fn print(&self, table: &str) -> String {
        let rest = match &self.predicate {
            Some(predicate) => format!(" where {predicate}"),
            None => String::new(),
        };
        let update = |to| format!("update {table} set value = {to}{rest}");
        match self.change {
            Change::Nothing => format!("select * from {table}{rest}"),
            Change::Set(value) => update(value.to_string()),
            Change::Plus(number) => update(format!("value + {number}")),
            Change::Minus(number) => update(format!("value - {number}")),
            Change::Insert { id, value } => {
                format!("insert into {table} (id, value) values ({id}, {value})")
            }
            Change::Delete => format!("delete from {table}{rest}"),
        }
    }
}
