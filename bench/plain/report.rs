//! The report of a history: the first two words of each line.

use crate::dependencies::Dependencies;
use crate::graph::Graph;
use crate::history::History;
use crate::known::Known;
use std::io::{self, Write};

/// Whether the dependencies allow a start and a commit for each transaction.
fn is_snapshot(before: &Graph, antis: &Graph) -> bool {
    let count = before.rows.len();
    let mut places = Graph::new(2 * count);
    (0..count).for_each(|txn| places.add(2 * txn, 2 * txn + 1));
    before
        .arrows()
        .for_each(|(from, to)| places.add(2 * from + 1, 2 * to));
    antis
        .arrows()
        .for_each(|(from, to)| places.add(2 * from, 2 * to + 1));
    places.is_acyclic()
}

/// The level for the report's findings.
fn level(found: &Dependencies, has_circle: bool, is_item: bool, is_any: bool) -> &'static str {
    match (found.writes.is_acyclic(), has_circle, is_item, is_any) {
        (false, ..) => "below PL-1",
        (_, true, ..) => "PL-1",
        (_, _, true, _) => "PL-2",
        (.., true) => "PL-2.99",
        _ => "PL-3",
    }
}

/// Judges a history whose record doesn't contradict itself, and which has no aborted or intermediate read.
pub fn write_report(out: &mut impl Write, history: History) -> io::Result<()> {
    let known = Known::of(history);
    let found = Dependencies::of(&known).expect("a record that doesn't contradict itself");
    let before = found.writes.with(&found.reads);
    let antis = found.item_antis.with(&found.predicate_antis);
    let all = before.with(&antis);
    let is_serial = all.is_acyclic();
    let closes = |antis: &Graph, ways: &Graph| antis.arrows().any(|(from, to)| ways.has(to, from));
    let ways = if is_serial {
        all.clone()
    } else {
        all.closure()
    };
    let has_circle = !before.is_acyclic();
    let is_item = !is_serial && closes(&found.item_antis, &ways);
    let is_any = !is_serial && closes(&antis, &ways);
    let findings = [
        ("G0", !found.writes.is_acyclic()),
        ("G1a", false),
        ("G1b", false),
        ("G1c", has_circle),
        ("G-single", !is_serial && closes(&antis, &before.closure())),
        ("G2-item", is_item),
        ("G2", is_any),
    ];
    let answer = |is_yes| if is_yes { "yes" } else { "no" };
    writeln!(out, "serializable: {}", answer(is_serial))?;
    writeln!(out, "snapshot: {}", answer(is_snapshot(&before, &antis)))?;
    for (name, is_present) in findings {
        let finding = if is_present { "present" } else { "absent" };
        writeln!(out, "{name}: {finding}")?;
    }
    writeln!(out, "level: {}", level(&found, has_circle, is_item, is_any))
}
