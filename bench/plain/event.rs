//! The outcomes of commands.

use crate::statement::Row;

/// The reason why a command is refused. Transactions and sessions are given by their numbers.
pub enum Refusal {
    DuplicateKey(Row),
    OutOfRange(Row),
    Deadlock(Vec<usize>),
    WriteConflict { row: Row, by: usize },
    ReadConflict { row: Row, by: usize },
    NoTransaction,
    AlreadyBegun,
}

/// The outcome of a command. Returned rows are given by the index of the transaction and of its operation.
pub enum Outcome {
    Begun(usize),
    Ran { txn: usize, op: usize },
    Committed,
    Aborted,
    Waits(Vec<usize>),
    Refused(Refusal),
}

pub struct Event<'a> {
    pub session: usize,
    pub text: &'a str,
    pub outcome: Outcome,
}
