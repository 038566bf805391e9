//! An engine: transactions of sessions on versions of rows, and the log of their commands and answers.

use crate::event::{Event, Outcome, Refusal};
use crate::script::{Command, Line, Script};
use crate::statement::{Change, Row, State, Statement};
use crate::tokens::VALUES;
use crate::version::{Chain, Installed, Version};
use std::collections::BTreeMap;

/// Sessions are numbered from 1.
pub const SESSIONS: usize = 10;

#[derive(Clone, Copy, PartialEq)]
pub enum Level {
    Locking,
    Committed,
    Snapshot,
    Optimistic,
}

/// An operation: the statement, the versions that it saw except the setup's, what it returned and what it wrote.
pub struct Op<'a> {
    pub statement: &'a Statement,
    pub text: &'a str,
    pub view: Vec<(Row, usize, usize)>,
    pub rows: Vec<(Row, i64)>,
    pub writes: Vec<(Row, State)>,
}

#[derive(Default)]
pub struct Txn<'a> {
    /// The number of commits before its begin.
    pub begun: usize,
    pub is_committed: bool,
    pub ops: Vec<Op<'a>>,
    /// Its last version of each row that it wrote.
    pub pending: BTreeMap<Row, Version>,
}

/// The index of its transaction, and the line that waits.
#[derive(Clone, Copy, Default)]
pub struct Session<'a> {
    pub active: Option<usize>,
    pub waiting: Option<&'a Line>,
}

/// A row that a statement would write: its state, and its new state, None if that is out of range.
pub struct Target {
    pub row: Row,
    pub before: State,
    pub after: Option<State>,
}

pub struct Engine<'a> {
    pub level: Level,
    pub rows: BTreeMap<Row, Chain>,
    pub txns: Vec<Txn<'a>>,
    pub sessions: [Session<'a>; SESSIONS],
    pub log: Vec<Event<'a>>,
    commits: usize,
}

impl<'a> Engine<'a> {
    pub fn new(level: Level, script: &Script) -> Engine<'a> {
        let chain = |(row, value): (&Row, &i64)| {
            let setup = Some(*value);
            (
                *row,
                Chain {
                    setup,
                    ..Chain::default()
                },
            )
        };
        Engine {
            level,
            rows: script.setup.iter().map(chain).collect(),
            txns: Vec::new(),
            sessions: [Session::default(); SESSIONS],
            log: Vec::new(),
            commits: 0,
        }
    }

    /// The version of a row that a transaction sees; None for the setup's.
    fn seen<'b>(&'b self, txn: &'b Txn, row: &Row, chain: &'b Chain) -> Option<&'b Version> {
        let commits = match self.level {
            Level::Locking | Level::Committed => self.commits,
            Level::Snapshot | Level::Optimistic => txn.begun,
        };
        txn.pending.get(row).or_else(|| chain.after(commits))
    }

    fn state(&self, txn: &Txn, row: &Row, chain: &Chain) -> State {
        self.seen(txn, row, chain)
            .map_or(chain.setup, |it| it.state)
    }

    /// The rows whose seen version isn't the setup's, with these versions.
    fn view(&self, txn: &Txn) -> Vec<(Row, usize, usize)> {
        let versions = self.rows.iter().filter_map(|(row, chain)| {
            let seen = self.seen(txn, row, chain)?;
            Some((*row, seen.txn, seen.op))
        });
        versions.collect()
    }

    /// The rows that a statement of a transaction matches.
    fn matching(&self, txn: &Txn, statement: &Statement) -> Vec<(Row, i64)> {
        let matching = statement.among(&self.rows).filter_map(|(row, chain)| {
            let state = self.state(txn, row, chain);
            statement.matches(row.id, state).then_some((*row, state?))
        });
        matching.collect()
    }

    /// The rows that a statement would write, from those that it matches.
    fn targets(&self, txn: &Txn, statement: &Statement, matching: &[(Row, i64)]) -> Vec<Target> {
        match statement.change {
            Change::Nothing => Vec::new(),
            Change::Insert { id, value } => {
                let row = Row {
                    table: statement.table,
                    id,
                };
                let chain = self.rows.get(&row);
                let before = chain.and_then(|chain| self.state(txn, &row, chain));
                let after = Some(Some(value));
                vec![Target { row, before, after }]
            }
            _ => matching.iter().map(|it| target(statement, *it)).collect(),
        }
    }

    /// The rows that a statement of a transaction would write.
    pub fn would_write(&self, txn: &Txn, statement: &Statement) -> Vec<Target> {
        match statement.change {
            Change::Nothing | Change::Insert { .. } => self.targets(txn, statement, &[]),
            _ => self.targets(txn, statement, &self.matching(txn, statement)),
        }
    }

    fn begin(&mut self, session: usize) -> Outcome {
        self.sessions[session].active = Some(self.txns.len());
        self.txns.push(Txn {
            begun: self.commits,
            ..Txn::default()
        });
        Outcome::Begun(self.txns.len())
    }

    fn abort(&mut self, session: usize, txn: usize) {
        self.sessions[session] = Session::default();
        self.txns[txn].pending.clear();
    }

    fn refuse(&mut self, session: usize, txn: usize, refusal: Refusal) -> Outcome {
        self.abort(session, txn);
        Outcome::Refused(refusal)
    }

    fn commit(&mut self, session: usize, txn: usize) -> Outcome {
        if let Some(conflict) = self.conflict(&self.txns[txn]) {
            return self.refuse(session, txn, conflict);
        }
        self.commits += 1;
        self.txns[txn].is_committed = true;
        let pending = std::mem::take(&mut self.txns[txn].pending);
        for (row, version) in pending {
            let commit = self.commits;
            let chain = self.rows.entry(row).or_default();
            chain.installed.push(Installed { version, commit });
        }
        self.sessions[session] = Session::default();
        Outcome::Committed
    }

    /// Runs a statement that isn't blocked.
    fn run(
        &mut self,
        session: usize,
        txn: usize,
        text: &'a str,
        statement: &'a Statement,
    ) -> Outcome {
        let matching = self.matching(&self.txns[txn], statement);
        let targets = self.targets(&self.txns[txn], statement, &matching);
        let is_insert = matches!(statement.change, Change::Insert { .. });
        if let Some(target) = targets.iter().find(|it| is_insert && it.before.is_some()) {
            return self.refuse(session, txn, Refusal::DuplicateKey(target.row));
        }
        if let Some(target) = targets.iter().find(|it| it.after.is_none()) {
            return self.refuse(session, txn, Refusal::OutOfRange(target.row));
        }
        let op = Op {
            statement,
            text,
            view: self.view(&self.txns[txn]),
            rows: if is_insert { Vec::new() } else { matching },
            writes: targets
                .iter()
                .filter_map(|it| Some((it.row, it.after?)))
                .collect(),
        };
        self.keep(txn, op)
    }

    /// Records an operation that ran, and its writes as pending.
    fn keep(&mut self, place: usize, op: Op<'a>) -> Outcome {
        let txn = &mut self.txns[place];
        let count = txn.ops.len() + 1;
        for (row, state) in &op.writes {
            let version = Version {
                txn: place + 1,
                op: count,
                state: *state,
            };
            txn.pending.insert(*row, version);
            self.rows.entry(*row).or_default();
        }
        txn.ops.push(op);
        Outcome::Ran {
            txn: place,
            op: count - 1,
        }
    }

    /// Runs a statement, or lets it wait for the sessions that block it; refuses it if that would be a deadlock.
    fn attempt(&mut self, line: &'a Line, txn: usize, statement: &'a Statement) -> Outcome {
        let session = line.session;
        self.sessions[session].waiting = None;
        let blockers = self.blockers(session, &self.txns[txn], statement);
        if blockers.is_empty() {
            return self.run(session, txn, &line.text, statement);
        }
        if let Some(circle) = self.circle(session, &blockers) {
            return self.refuse(session, txn, Refusal::Deadlock(circle));
        }
        self.sessions[session].waiting = Some(line);
        Outcome::Waits(blockers)
    }

    fn outcome(&mut self, line: &'a Line) -> Outcome {
        let session = line.session;
        match (&line.command, self.sessions[session].active) {
            (Command::Begin, None) => self.begin(session),
            (Command::Begin, Some(_)) => Outcome::Refused(Refusal::AlreadyBegun),
            (_, None) => Outcome::Refused(Refusal::NoTransaction),
            (Command::Commit, Some(txn)) => self.commit(session, txn),
            (Command::Abort, Some(txn)) => {
                self.abort(session, txn);
                Outcome::Aborted
            }
            (Command::Run(statement), Some(txn)) => self.attempt(line, txn, statement),
        }
    }

    /// Runs a line of a session that doesn't wait, or retries the one that waits.
    pub fn step(&mut self, line: &'a Line) {
        let outcome = self.outcome(line);
        self.log.push(Event {
            session: line.session,
            text: &line.text,
            outcome,
        });
    }

    /// Aborts the transaction of a session that has no line left.
    pub fn give_up(&mut self, session: usize, txn: usize) {
        self.abort(session, txn);
        self.log.push(Event {
            session,
            text: "abort",
            outcome: Outcome::Aborted,
        });
    }
}

/// The result of an update or a delete for a row.
fn target(statement: &Statement, (row, value): (Row, i64)) -> Target {
    let after = statement.makes(value);
    Target {
        row,
        before: Some(value),
        after: after
            .map_or(true, |it| VALUES.contains(&it))
            .then_some(after),
    }
}
