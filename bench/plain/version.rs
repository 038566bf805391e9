//! Versions of rows.

use crate::statement::State;

/// A version of a row: the transaction and the operation, both counted from 1, that left it, and its state.
#[derive(Clone, Copy)]
pub struct Version {
    pub txn: usize,
    pub op: usize,
    pub state: State,
}

/// A version that the commit with this number installed.
pub struct Installed {
    pub version: Version,
    pub commit: usize,
}

/// The installed versions of a row, after the setup's.
#[derive(Default)]
pub struct Chain {
    pub setup: State,
    pub installed: Vec<Installed>,
}

impl Chain {
    /// Its state after this many commits.
    pub fn after(&self, commits: usize) -> Option<&Version> {
        let mut latest_first = self.installed.iter().rev();
        latest_first
            .find(|it| it.commit <= commits)
            .map(|it| &it.version)
    }

    pub fn last(&self) -> State {
        self.installed
            .last()
            .map_or(self.setup, |it| it.version.state)
    }

    /// The first transaction that installed a version after this many commits for which a test holds of the states before
    /// and after.
    pub fn first_since(
        &self,
        commits: usize,
        is_conflict: impl Fn(State, State) -> bool,
    ) -> Option<usize> {
        let mut before = self.after(commits).map_or(self.setup, |it| it.state);
        let mut since = self.installed.iter().filter(|it| it.commit > commits);
        let found = since.find(|it| {
            let was = std::mem::replace(&mut before, it.version.state);
            is_conflict(was, it.version.state)
        });
        found.map(|it| it.version.txn)
    }
}
