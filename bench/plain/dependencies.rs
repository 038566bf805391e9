//! The dependencies of a history.

use crate::graph::Graph;
use crate::history::Op;
use crate::known::Known;
use std::collections::HashSet;

pub struct Dependencies {
    pub writes: Graph,
    pub reads: Graph,
    pub item_antis: Graph,
    pub predicate_antis: Graph,
}

impl Dependencies {
    /// The dependencies of a history; None if its record contradicts itself.
    pub fn of(known: &Known) -> Option<Dependencies> {
        let history = &known.history;
        let [writes, reads, item_antis, predicate_antis] =
            [(); 4].map(|()| Graph::new(history.txns.len()));
        let mut found = Dependencies {
            writes,
            reads,
            item_antis,
            predicate_antis,
        };
        for chain in &known.versions {
            chain
                .windows(2)
                .for_each(|pair| found.writes.add(pair[0].0, pair[1].0));
        }
        let mut seen = history.initial.clone();
        let mut turns = vec![Some(0); history.rows.len()];
        for (me, txn) in history.txns.iter().enumerate().filter(|it| it.1.committed) {
            let mut own = HashSet::new();
            for (at, op) in txn.ops.iter().enumerate() {
                let mut missed = own.clone();
                for entry in &op.view {
                    let row = entry.0;
                    seen[row] = known.viewed(me, at, *entry)?;
                    turns[row] =
                        (entry.1 != txn.number).then(|| known.place(row, history.places[&entry.1]));
                    if turns[row].is_none() {
                        missed.remove(&row);
                    }
                }
                if !missed.is_empty() || !known.is_right(op, &seen) {
                    return None;
                }
                found.take(known, me, op, &turns);
                for (row, ..) in &op.view {
                    (seen[*row], turns[*row]) = (history.initial[*row], Some(0));
                }
                own.extend(op.writes.iter().map(|it| it.0));
            }
        }
        known.ends_right().then_some(found)
    }

    /// Adds the dependencies of an operation in both directions; `turns` has for each row the position of the version that it
    /// saw.
    fn take(&mut self, known: &Known, me: usize, op: &Op, turns: &[Option<usize>]) {
        for (row, _) in &op.rows {
            let (chain, Some(seen)) = (&known.versions[*row], turns[*row]) else {
                continue;
            };
            if seen > 0 {
                self.reads.add(chain[seen - 1].0, me);
            }
            if let Some(next) = chain.get(seen) {
                self.item_antis.add(me, next.0);
            }
        }
        for (row, id) in known
            .about(op)
            .filter(|it| !known.versions[it.0].is_empty())
        {
            let (chain, Some(seen)) = (&known.versions[row], turns[row]) else {
                continue;
            };
            let mut before = op.statement.matches(id, known.history.initial[row]);
            for (at, (installer, state)) in chain.iter().enumerate() {
                let now = op.statement.matches(id, *state);
                if now != before && at < seen {
                    self.reads.add(*installer, me);
                } else if now != before {
                    self.predicate_antis.add(me, *installer);
                }
                before = now;
            }
        }
    }
}
