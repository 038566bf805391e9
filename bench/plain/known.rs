//! Look-ups in a history, and whether its record contradicts itself.

use crate::history::{History, Op};
use crate::statement::{Change, State};
use std::collections::{HashMap, HashSet};

/// The writes of an operation, from what it sees; None if the statement fails.
fn made(
    op: &Op,
    matching: &[(usize, State)],
    target: Option<usize>,
) -> Option<Vec<(usize, State)>> {
    let makes = |before: State| op.statement.makes(before.unwrap_or(0));
    match op.statement.change {
        Change::Nothing => Some(Vec::new()),
        Change::Insert { .. } => matching
            .is_empty()
            .then(|| vec![(target.expect("a row"), makes(None))]),
        _ => Some(
            matching
                .iter()
                .map(|(row, state)| (*row, makes(*state)))
                .collect(),
        ),
    }
}

/// A history with look-up tables: versions of each row, each transaction's position among them, counted from 1 with 0 for
/// none, and the rows of each table in order.
pub struct Known {
    pub history: History,
    pub versions: Vec<Vec<(usize, State)>>,
    places: Vec<u32>,
    tables: HashMap<usize, Vec<usize>>,
}

impl Known {
    pub fn of(history: History) -> Known {
        let (versions, count) = (history.versions(), history.txns.len());
        let mut places = vec![0; history.rows.len() * count];
        for (row, chain) in versions.iter().enumerate() {
            for (at, (txn, _)) in chain.iter().enumerate() {
                places[row * count + txn] = at as u32 + 1;
            }
        }
        let mut rows: Vec<usize> = (0..history.rows.len()).collect();
        rows.sort_by_key(|row| history.rows[*row]);
        let mut tables: HashMap<usize, Vec<usize>> = HashMap::new();
        for row in rows {
            tables.entry(history.rows[row].table).or_default().push(row);
        }
        Known {
            history,
            versions,
            places,
            tables,
        }
    }

    pub fn place(&self, row: usize, txn: usize) -> usize {
        self.places[row * self.history.txns.len() + txn] as usize
    }

    /// The rows whose ids an operation's condition doesn't exclude, with these.
    pub fn about<'a>(&'a self, op: &'a Op) -> impl Iterator<Item = (usize, i64)> + 'a {
        let (all, rows) = (
            !op.statement.names_ids(),
            self.tables.get(&op.statement.table).into_iter().flatten(),
        );
        rows.map(|row| (*row, self.history.rows[*row].id))
            .filter(move |it| all || op.statement.may_match(it.1))
    }

    /// The state of an entry of an operation's view, if that is the latest version of its own transaction, or the last
    /// version of another committed one that isn't installed after its own.
    pub fn viewed(
        &self,
        me: usize,
        at: usize,
        (row, number, from): (usize, usize, usize),
    ) -> Option<State> {
        let writer = *self.history.places.get(&number)?;
        let txn = &self.history.txns[writer];
        let state = txn.ops.get(from - 1)?.written(row)?;
        let is_last = |end: usize| {
            !txn.ops[from..end]
                .iter()
                .any(|it| it.written(row).is_some())
        };
        let own = self.place(row, me);
        let is_right = match writer == me {
            true => from <= at && is_last(at),
            false => {
                txn.committed
                    && is_last(txn.ops.len())
                    && (own == 0 || self.place(row, writer) < own)
            }
        };
        is_right.then_some(state)
    }

    /// Whether an operation returns and writes what its statement does with what it saw.
    pub fn is_right(&self, op: &Op, seen: &[State]) -> bool {
        let (mut matching, mut target) = (Vec::new(), None);
        for (row, id) in self.about(op) {
            target = Some(row);
            if op.statement.matches(id, seen[row]) {
                matching.push((row, seen[row]));
            }
        }
        let lists = if matches!(op.statement.change, Change::Insert { .. }) {
            &[][..]
        } else {
            &matching
        };
        lists == op.rows && made(op, &matching, target).as_ref() == Some(&op.writes)
    }

    /// Whether the installers of each row are its committed writers, each once, and the final rows are what they left.
    pub fn ends_right(&self) -> bool {
        let mut writers = vec![HashSet::new(); self.history.rows.len()];
        for (me, txn) in self
            .history
            .txns
            .iter()
            .enumerate()
            .filter(|it| it.1.committed)
        {
            for (row, _) in txn.ops.iter().flat_map(|op| &op.writes) {
                writers[*row].insert(me);
            }
        }
        self.versions.iter().enumerate().all(|(row, chain)| {
            let installers: HashSet<usize> = chain.iter().map(|it| it.0).collect();
            let last = chain.last().map_or(self.history.initial[row], |it| it.1);
            installers == writers[row]
                && installers.len() == chain.len()
                && last == self.history.end[row]
        })
    }
}
