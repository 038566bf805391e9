//! Parts of plain programs that do what `judge` and `run` do, without proofs: statements and scripts, engines that play
//! them, the history of a play, and its judgement.

pub mod condition;
pub mod dependencies;
pub mod engine;
pub mod event;
pub mod grammar;
pub mod graph;
pub mod history;
pub mod known;
pub mod log;
pub mod play;
pub mod recording;
pub mod report;
pub mod rules;
pub mod script;
pub mod statement;
pub mod tokens;
pub mod version;
