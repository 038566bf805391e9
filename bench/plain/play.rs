//! Playing a script's lines on an engine by one thread.

use crate::engine::{Engine, Level, SESSIONS};
use crate::script::{Line, Script};
use std::collections::VecDeque;

const EVENTS: usize = 100_000;

/// The remaining lines of each session, with their positions in the script.
type Left<'a> = [VecDeque<(usize, &'a Line)>; SESSIONS];

fn lines_of(script: &Script) -> Left<'_> {
    let mut left = Left::default();
    for (place, line) in script.lines.iter().enumerate() {
        left[line.session].push_back((place, line));
    }
    left
}

/// Takes the first remaining line whose session doesn't wait.
fn next_line<'a>(engine: &Engine, left: &mut Left<'a>) -> Option<&'a Line> {
    let idle = (1..SESSIONS).filter(|session| engine.sessions[*session].waiting.is_none());
    let next = idle
        .filter_map(|session| left[session].front())
        .min_by_key(|it| it.0);
    let session = next?.1.session;
    left[session].pop_front().map(|it| it.1)
}

/// The least session that is in a transaction and doesn't wait, with its transaction.
fn least_active(engine: &Engine) -> Option<(usize, usize)> {
    let sessions = engine.sessions.iter().enumerate();
    let mut idle = sessions.filter(|(_, it)| it.waiting.is_none());
    idle.find_map(|(session, it)| Some((session, it.active?)))
}

/// Runs the next event of a script; returns whether there was one.
fn play_next<'a>(engine: &mut Engine<'a>, left: &mut Left<'a>) -> bool {
    let retried = engine.retryable();
    if let Some(line) = retried.and_then(|session| engine.sessions[session].waiting) {
        engine.step(line);
    } else if let Some(line) = next_line(engine, left) {
        engine.step(line);
    } else if let Some((session, txn)) = least_active(engine) {
        engine.give_up(session, txn);
    } else {
        return false;
    }
    true
}

/// Plays a script: a waiting session is tried again as soon as it needn't wait, the next line is the first whose session
/// doesn't wait, and at the end sessions in a transaction abort. None if the log would have too many events.
pub fn play(script: &Script, level: Level) -> Option<Engine<'_>> {
    let (mut engine, mut left) = (Engine::new(level, script), lines_of(script));
    while play_next(&mut engine, &mut left) {
        if engine.log.len() > EVENTS {
            return None;
        }
    }
    Some(engine)
}
