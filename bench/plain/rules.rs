//! The rules of the levels: blocking sessions, deadlocks, and conflicts of commits.

use crate::engine::{Engine, Level, Target, Txn, SESSIONS};
use crate::event::Refusal;
use crate::script::Command;
use crate::statement::{Row, Statement};
use std::collections::{BTreeMap, VecDeque};

/// Whether a transaction has a pending write of one of these rows.
fn writes_one(other: &Txn, targets: &[Target]) -> bool {
    targets.iter().any(|it| other.pending.contains_key(&it.row))
}

/// Whether a transaction has run a statement that matches one of these rows in its old or its new state.
fn has_read_one(other: &Txn, targets: &[Target]) -> bool {
    targets.iter().any(|target| {
        other.ops.iter().map(|op| op.statement).any(|read| {
            read.table == target.row.table
                && (read.matches(target.row.id, target.before)
                    || read.matches(target.row.id, target.after.flatten()))
        })
    })
}

impl Engine<'_> {
    /// Whether a transaction has a pending write of a row that a statement matches in its committed or in its pending state.
    fn writes_matching(&self, other: &Txn, statement: &Statement) -> bool {
        statement.among(&other.pending).any(|(row, version)| {
            statement.matches(row.id, version.state)
                || statement.matches(row.id, self.rows[row].last())
        })
    }

    /// The sessions that block a statement of a session, by ascending number.
    pub fn blockers(&self, session: usize, txn: &Txn, statement: &Statement) -> Vec<usize> {
        if matches!(self.level, Level::Snapshot | Level::Optimistic) {
            return Vec::new();
        }
        let targets = self.would_write(txn, statement);
        let is_locking = self.level == Level::Locking;
        let blocks = |other: &Txn| {
            writes_one(other, &targets)
                || is_locking
                    && (self.writes_matching(other, statement) || has_read_one(other, &targets))
        };
        let is_blocker = |other: &usize| {
            let active = self.sessions[*other].active;
            *other != session && active.is_some_and(|it| blocks(&self.txns[it]))
        };
        (1..SESSIONS).filter(is_blocker).collect()
    }

    /// The sessions that wait, with those that block them now.
    fn waits(&self) -> BTreeMap<usize, Vec<usize>> {
        let waiting = self
            .sessions
            .iter()
            .enumerate()
            .filter_map(|(session, it)| {
                let (line, txn) = (it.waiting?, it.active?);
                let Command::Run(statement) = &line.command else {
                    return None;
                };
                Some((session, self.blockers(session, &self.txns[txn], statement)))
            });
        waiting.collect()
    }

    /// The shortest cycle of waiting from a session that would wait for these; the least of several.
    pub fn circle(&self, session: usize, blockers: &[usize]) -> Option<Vec<usize>> {
        let mut waits = self.waits();
        waits.insert(session, blockers.to_vec());
        circle_of(&waits, session)
    }

    /// The least session that nobody blocks any more, or that is in a deadlock.
    pub fn retryable(&self) -> Option<usize> {
        let waits = self.waits();
        let mut sessions = waits.iter();
        let found = sessions.find(|(session, blockers)| {
            blockers.is_empty() || circle_of(&waits, **session).is_some()
        });
        found.map(|(session, _)| *session)
    }

    /// The reason why a commit is refused.
    pub fn conflict(&self, txn: &Txn) -> Option<Refusal> {
        match self.level {
            Level::Locking | Level::Committed => None,
            Level::Snapshot => {
                let mut written = txn.pending.keys();
                written.find_map(|row| self.write_conflict(txn, *row))
            }
            Level::Optimistic => {
                let mut rows = self.rows.keys();
                rows.find_map(|row| {
                    self.write_conflict(txn, *row)
                        .or_else(|| self.read_conflict(txn, *row))
                })
            }
        }
    }

    fn write_conflict(&self, txn: &Txn, row: Row) -> Option<Refusal> {
        txn.pending.get(&row)?;
        let by = self.rows[&row].first_since(txn.begun, |_, _| true)?;
        Some(Refusal::WriteConflict { row, by })
    }

    fn read_conflict(&self, txn: &Txn, row: Row) -> Option<Refusal> {
        let by = self.rows[&row].first_since(txn.begun, |before, after| {
            txn.ops.iter().map(|op| op.statement).any(|read| {
                read.table == row.table
                    && (read.matches(row.id, before) || read.matches(row.id, after))
            })
        })?;
        Some(Refusal::ReadConflict { row, by })
    }
}

/// A shortest path from a session along waiting sessions back to it, and of these the least.
fn circle_of(waits: &BTreeMap<usize, Vec<usize>>, session: usize) -> Option<Vec<usize>> {
    let (mut from, mut queue) = ([None; SESSIONS], VecDeque::from([session]));
    while let Some(at) = queue.pop_front() {
        for next in waits.get(&at).into_iter().flatten() {
            if *next == session {
                return Some(way_to(&from, at));
            }
            if from[*next].is_none() {
                from[*next] = Some(at);
                queue.push_back(*next);
            }
        }
    }
    None
}

/// The sessions on the path to one, each reached from the one before.
fn way_to(from: &[Option<usize>; SESSIONS], end: usize) -> Vec<usize> {
    let mut way: Vec<usize> = std::iter::successors(Some(end), |at| from[*at]).collect();
    way.reverse();
    way
}
