//! A history for the judge: rows and transactions by their indices in it.

use crate::statement::{Row, State, Statement};
use std::collections::HashMap;

/// Rows by their indices.
#[derive(Default)]
pub struct Names {
    rows: HashMap<Row, usize>,
    listed: Vec<Row>,
}

impl Names {
    pub fn row(&mut self, row: Row) -> usize {
        *self.rows.entry(row).or_insert_with(|| {
            self.listed.push(row);
            self.listed.len() - 1
        })
    }

    pub fn states(&mut self, members: impl Iterator<Item = (Row, State)>) -> Vec<(usize, State)> {
        members.map(|(row, state)| (self.row(row), state)).collect()
    }
}

/// An operation: its view has indices of rows, numbers of transactions, and operations counted from 1.
pub struct Op {
    pub statement: Statement,
    pub view: Vec<(usize, usize, usize)>,
    pub rows: Vec<(usize, State)>,
    pub writes: Vec<(usize, State)>,
}

impl Op {
    pub fn written(&self, row: usize) -> Option<State> {
        self.writes.iter().find(|it| it.0 == row).map(|it| it.1)
    }
}

pub struct Txn {
    pub number: usize,
    pub committed: bool,
    pub ops: Vec<Op>,
}

pub struct History {
    pub rows: Vec<Row>,
    pub txns: Vec<Txn>,
    pub places: HashMap<usize, usize>,
    pub initial: Vec<State>,
    pub end: Vec<State>,
    pub installed: Vec<Vec<usize>>,
}

fn all_states(found: &[(usize, State)], rows: usize) -> Vec<State> {
    let mut states = vec![None; rows];
    for (row, state) in found {
        states[*row] = *state;
    }
    states
}

impl History {
    /// A history of these rows, whose installers are given by numbers.
    pub fn new(
        names: Names,
        txns: Vec<Txn>,
        initial: &[(usize, State)],
        end: &[(usize, State)],
        installers: Vec<(usize, Vec<usize>)>,
    ) -> History {
        let numbered = txns
            .iter()
            .enumerate()
            .map(|(place, txn)| (txn.number, place));
        let places: HashMap<usize, usize> = numbered.collect();
        let rows = names.listed;
        let mut installed = vec![Vec::new(); rows.len()];
        for (row, numbers) in installers {
            installed[row] = numbers.iter().map(|number| places[number]).collect();
        }
        History {
            initial: all_states(initial, rows.len()),
            end: all_states(end, rows.len()),
            rows,
            txns,
            places,
            installed,
        }
    }

    /// For each row, the installed versions: the installers, and the states.
    pub fn versions(&self) -> Vec<Vec<(usize, State)>> {
        let left = |row: usize, txn: usize| {
            let mut latest_first = self.txns[txn].ops.iter().rev();
            latest_first.find_map(|op| op.written(row)).flatten()
        };
        let rows = self.installed.iter().enumerate();
        rows.map(|(row, txns)| txns.iter().map(|txn| (*txn, left(row, *txn))).collect())
            .collect()
    }
}
