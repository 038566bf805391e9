//! Graphs of transactions.

/// A square of bits: edges from each transaction to others.
#[derive(Clone)]
pub struct Graph {
    width: usize,
    pub rows: Vec<Vec<u64>>,
}

impl Graph {
    pub fn new(count: usize) -> Graph {
        let width = count.div_ceil(64);
        Graph {
            width,
            rows: vec![vec![0; width]; count],
        }
    }

    pub fn add(&mut self, from: usize, to: usize) {
        if from != to {
            self.rows[from][to / 64] |= 1 << (to % 64);
        }
    }

    pub fn has(&self, from: usize, to: usize) -> bool {
        self.rows[from][to / 64] >> (to % 64) & 1 == 1
    }

    pub fn arrows(&self) -> impl Iterator<Item = (usize, usize)> + '_ {
        self.rows.iter().enumerate().flat_map(|(from, row)| {
            row.iter().enumerate().flat_map(move |(word, bits)| {
                let mut left = *bits;
                std::iter::from_fn(move || {
                    (left != 0).then(|| {
                        let bit = left.trailing_zeros() as usize;
                        left &= left - 1;
                        (from, 64 * word + bit)
                    })
                })
            })
        })
    }

    pub fn with(&self, other: &Graph) -> Graph {
        let mut both = self.clone();
        for (row, more) in both.rows.iter_mut().zip(&other.rows) {
            row.iter_mut()
                .zip(more)
                .for_each(|(word, bits)| *word |= bits);
        }
        both
    }

    /// Whether the graph has no cycle.
    pub fn is_acyclic(&self) -> bool {
        let mut before = vec![0; self.rows.len()];
        self.arrows().for_each(|(_, to)| before[to] += 1);
        let mut free: Vec<usize> = (0..before.len())
            .filter(|node| before[*node] == 0)
            .collect();
        let mut taken = 0;
        while let Some(from) = free.pop() {
            taken += 1;
            let mut pass = Graph {
                width: self.width,
                rows: Vec::new(),
            };
            pass.rows.push(self.rows[from].clone());
            for (_, to) in pass.arrows() {
                before[to] -= 1;
                if before[to] == 0 {
                    free.push(to);
                }
            }
        }
        taken == before.len()
    }

    /// Which nodes are reachable by one or more edges.
    pub fn closure(&self) -> Graph {
        let mut reached = self.clone();
        for middle in 0..reached.rows.len() {
            let beyond = reached.rows[middle].clone();
            for from in 0..reached.rows.len() {
                if reached.has(from, middle) {
                    reached.rows[from]
                        .iter_mut()
                        .zip(&beyond)
                        .for_each(|(word, bits)| *word |= bits);
                }
            }
        }
        reached
    }
}
