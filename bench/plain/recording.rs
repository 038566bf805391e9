//! The recording of a play: whether it is within the limits of a history, the history file, and the history for the judge.

use crate::engine::{Engine, Op, Txn};
use crate::history::{self, History, Names};
use crate::statement::{Row, State};
use serde::Serialize;

const TXNS: usize = 1_000;
const ROWS: usize = 1_000;
const ENTRIES: usize = 200_000;

/// A limit of histories.
pub fn over_limit(engine: &Engine) -> Option<&'static str> {
    let ops = engine.txns.iter().flat_map(|txn| &txn.ops);
    let entries: usize = ops
        .map(|op| op.view.len() + op.rows.len() + op.writes.len())
        .sum();
    if engine.txns.len() > TXNS {
        Some("transactions")
    } else if engine.rows.len() > ROWS {
        Some("ids")
    } else if entries > ENTRIES {
        Some("entries")
    } else {
        None
    }
}

/// The final states of rows, or the setup's.
fn states<'a>(engine: &'a Engine<'a>, is_end: bool) -> impl Iterator<Item = (Row, State)> + 'a {
    engine.rows.iter().filter_map(move |(row, chain)| {
        let state = if is_end { chain.last() } else { chain.setup };
        state.map(|_| (*row, state))
    })
}

/// For each row with installed versions, the numbers of the installing transactions.
fn installers<'a>(engine: &'a Engine<'a>) -> impl Iterator<Item = (Row, Vec<usize>)> + 'a {
    let rows = engine.rows.iter();
    rows.filter(|(_, chain)| !chain.installed.is_empty())
        .map(|(row, chain)| {
            (
                *row,
                chain.installed.iter().map(|it| it.version.txn).collect(),
            )
        })
}

type Named<'a, T> = (&'a str, i64, T);

/// A history file; the keys of each object are in byte order.
#[derive(Serialize)]
struct File<'a> {
    end: Vec<Named<'a, State>>,
    format: &'static str,
    initial: Vec<Named<'a, State>>,
    installed: Vec<Named<'a, Vec<usize>>>,
    transactions: Vec<Transaction<'a>>,
    version: u8,
}

#[derive(Serialize)]
struct Transaction<'a> {
    no: usize,
    ops: Vec<Operation<'a>>,
    outcome: &'static str,
}

#[derive(Serialize)]
struct Operation<'a> {
    rows: Vec<Named<'a, i64>>,
    statement: &'a str,
    view: Vec<(&'a str, i64, usize, usize)>,
    writes: Vec<Named<'a, State>>,
}

fn named<'a, T>(
    tables: &'a [String],
    members: impl IntoIterator<Item = (Row, T)>,
) -> Vec<Named<'a, T>> {
    let members = members.into_iter();
    members
        .map(|(row, what)| (&*tables[row.table], row.id, what))
        .collect()
}

fn operation<'a>(op: &'a Op, tables: &'a [String]) -> Operation<'a> {
    let view = op.view.iter();
    Operation {
        rows: named(tables, op.rows.iter().copied()),
        statement: op.text,
        view: view
            .map(|(row, txn, number)| (&*tables[row.table], row.id, *txn, *number))
            .collect(),
        writes: named(tables, op.writes.iter().copied()),
    }
}

fn transaction<'a>(place: usize, txn: &'a Txn, tables: &'a [String]) -> Transaction<'a> {
    Transaction {
        no: place + 1,
        ops: txn.ops.iter().map(|op| operation(op, tables)).collect(),
        outcome: if txn.is_committed {
            "committed"
        } else {
            "aborted"
        },
    }
}

/// The history file of a play.
pub fn history_file(engine: &Engine, tables: &[String]) -> serde_json::Result<Vec<u8>> {
    let txns = engine.txns.iter().enumerate();
    serde_json::to_vec(&File {
        end: named(tables, states(engine, true)),
        format: "hermitage-history",
        initial: named(tables, states(engine, false)),
        installed: named(tables, installers(engine)),
        transactions: txns
            .map(|(place, txn)| transaction(place, txn, tables))
            .collect(),
        version: 2,
    })
}

/// The history of a play for the judge.
pub fn history_of(engine: &Engine) -> History {
    let mut names = Names::default();
    let initial = names.states(states(engine, false));
    let mut txns = Vec::new();
    for (place, txn) in engine.txns.iter().enumerate() {
        let ops = txn.ops.iter().map(|op| history::Op {
            statement: op.statement.clone(),
            view: op
                .view
                .iter()
                .map(|(row, txn, op)| (names.row(*row), *txn, *op))
                .collect(),
            rows: names.states(op.rows.iter().map(|(row, value)| (*row, Some(*value)))),
            writes: names.states(op.writes.iter().copied()),
        });
        txns.push(history::Txn {
            ops: ops.collect(),
            number: place + 1,
            committed: txn.is_committed,
        });
    }
    let installed = installers(engine)
        .map(|(row, txns)| (names.row(row), txns))
        .collect();
    let end = names.states(states(engine, true));
    History::new(names, txns, &initial, &end, installed)
}
