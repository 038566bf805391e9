//! A plain judge: reads the file into a value of serde_json, compares what each statement of a committed transaction
//! returned and wrote with what it saw, walks along the versions of each row for dependencies, and looks for cycles. It
//! prints the first two words of each line of a report, and no order, timestamp or cycle.

use lab::grammar::Parser;
use lab::history::{History, Names, Op, Txn};
use lab::report::write_report;
use lab::statement::{Row, State};
use serde_json::Value;
use std::fmt::Debug;

fn list(value: &Value) -> &[Value] {
    value.as_array().expect("a list")
}

fn number<T: TryFrom<i64>>(value: &Value) -> T
where
    T::Error: Debug,
{
    let found = value.as_i64().expect("a number");
    found.try_into().expect("a number in its range")
}

/// The names of a file's tables and rows.
#[derive(Default)]
struct Reader {
    tables: Vec<String>,
    names: Names,
}

impl Reader {
    fn table(&mut self, name: &str) -> usize {
        let known = self.tables.iter().position(|it| it == name);
        known.unwrap_or_else(|| {
            self.tables.push(name.to_string());
            self.tables.len() - 1
        })
    }

    /// The row of a member, and the rest of the member.
    fn row<'a>(&mut self, member: &'a Value) -> (Row, &'a [Value]) {
        let parts = list(member);
        let (name, parts) = match parts[0].as_str() {
            Some(name) => (name, &parts[1..]),
            None => ("test", parts),
        };
        let table = self.table(name);
        let id = number(&parts[0]);
        (Row { table, id }, &parts[1..])
    }

    fn states(&mut self, members: &Value) -> Vec<(usize, State)> {
        let mut state = |member| {
            let (row, rest) = self.row(member);
            (self.names.row(row), rest[0].as_i64())
        };
        list(members).iter().map(&mut state).collect()
    }

    fn op(&mut self, value: &Value) -> Op {
        let text = value["statement"].as_str().expect("a statement");
        let code = text.to_ascii_lowercase();
        let statement = Parser::new(&code, &mut self.tables).statement();
        let mut seen = |member| {
            let (row, rest) = self.row(member);
            (self.names.row(row), number(&rest[0]), number(&rest[1]))
        };
        Op {
            view: list(&value["view"]).iter().map(&mut seen).collect(),
            rows: self.states(&value["rows"]),
            writes: self.states(&value["writes"]),
            statement: statement.expect("a statement"),
        }
    }

    fn txn(&mut self, value: &Value) -> Txn {
        Txn {
            ops: list(&value["ops"]).iter().map(|op| self.op(op)).collect(),
            number: number(&value["no"]),
            committed: value["outcome"] == "committed",
        }
    }

    /// A row, and the numbers of the transactions that installed its versions.
    fn installed(&mut self, member: &Value) -> (usize, Vec<usize>) {
        let (row, rest) = self.row(member);
        (
            self.names.row(row),
            list(&rest[0]).iter().map(number).collect(),
        )
    }
}

fn history_of(value: &Value) -> History {
    let mut reader = Reader::default();
    let initial = reader.states(&value["initial"]);
    let txns = list(&value["transactions"]);
    let txns = txns.iter().map(|txn| reader.txn(txn)).collect();
    let installed = list(&value["installed"]);
    let installed = installed.iter().map(|it| reader.installed(it)).collect();
    let end = reader.states(&value["end"]);
    History::new(reader.names, txns, &initial, &end, installed)
}

fn main() {
    let path = std::env::args().nth(1).expect("the path of a file");
    let bytes = std::fs::read(path).expect("a file that can be read");
    let value: Value = serde_json::from_slice(&bytes).expect("JSON");
    write_report(&mut std::io::stdout(), history_of(&value)).expect("an output that takes it");
}
