//! The log of a play as text.

use crate::engine::Engine;
use crate::event::{Outcome, Refusal};
use crate::statement::Row;
use std::io::{self, Write};

/// A row as a refusal names it.
fn row_name(tables: &[String], row: &Row) -> String {
    match tables[row.table].as_str() {
        "test" => row.id.to_string(),
        name => format!("{name} {}", row.id),
    }
}

fn sessions(of: &[usize], between: &str) -> String {
    let names: Vec<String> = of.iter().map(|session| format!("T{session}")).collect();
    names.join(between)
}

fn write_rows(out: &mut impl Write, rows: &[(Row, i64)]) -> io::Result<()> {
    if rows.is_empty() {
        return write!(out, "rows none");
    }
    for (place, (row, value)) in rows.iter().enumerate() {
        let before = if place > 0 { ", " } else { "rows " };
        write!(out, "{before}({}, {value})", row.id)?;
    }
    Ok(())
}

fn refusal(tables: &[String], refusal: &Refusal) -> String {
    let name = |row| row_name(tables, row);
    match refusal {
        Refusal::DuplicateKey(row) => format!("DuplicateKey {}", name(row)),
        Refusal::OutOfRange(row) => format!("OutOfRange {}", name(row)),
        Refusal::Deadlock(circle) => format!("Deadlock {}", sessions(circle, " ")),
        Refusal::WriteConflict { row, by } => format!("WriteConflict row {} by {by}", name(row)),
        Refusal::ReadConflict { row, by } => format!("ReadConflict row {} by {by}", name(row)),
        Refusal::NoTransaction => "NoTransaction".to_string(),
        Refusal::AlreadyBegun => "AlreadyBegun".to_string(),
    }
}

/// Writes a line for each event.
pub fn write_log(out: &mut impl Write, engine: &Engine, tables: &[String]) -> io::Result<()> {
    for event in &engine.log {
        write!(out, "T{} {}: ", event.session, event.text)?;
        match &event.outcome {
            Outcome::Begun(number) => write!(out, "begun {number}")?,
            Outcome::Ran { txn, op } => write_rows(out, &engine.txns[*txn].ops[*op].rows)?,
            Outcome::Committed => write!(out, "committed")?,
            Outcome::Aborted => write!(out, "aborted")?,
            Outcome::Waits(on) => write!(out, "waits {}", sessions(on, ", "))?,
            Outcome::Refused(why) => write!(out, "refused {}", refusal(tables, why))?,
        }
        writeln!(out)?;
    }
    Ok(())
}
