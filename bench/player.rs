//! Plays the script of standard input as `hermitage_lab run --engine ENGINE [--history]` does, without proofs. With
//! `--history`, its standard output is the same; without it, it prints the log and the first two words of each line of the
//! report: no order, timestamp or cycle. With `--log`, it prints the log and judges nothing. Other options, hints and
//! messages about wrong arguments are left out.

use lab::engine::{Engine, Level};
use lab::log::write_log;
use lab::play::play;
use lab::recording::{history_file, history_of, over_limit};
use lab::report::write_report;
use lab::script::{parse_script, Script};
use std::io::{self, Read, Write};
use std::process::ExitCode;

const FILE_BYTES: usize = 8 << 20;

/// Which output of a play is printed.
#[derive(Clone, Copy, PartialEq)]
enum Form {
    Report,
    Log,
    History,
}

fn level_of(engine: &str) -> Option<Level> {
    match engine {
        "locking" => Some(Level::Locking),
        "committed" => Some(Level::Committed),
        "snapshot" => Some(Level::Snapshot),
        "optimistic" => Some(Level::Optimistic),
        _ => None,
    }
}

/// The engine that was asked for, and the output.
fn asked() -> Option<(Level, Form)> {
    let words: Vec<String> = std::env::args().skip(1).collect();
    let words: Vec<&str> = words.iter().map(String::as_str).collect();
    match words[..] {
        ["--engine", engine] => Some((level_of(engine)?, Form::Report)),
        ["--engine", engine, "--log"] => Some((level_of(engine)?, Form::Log)),
        ["--engine", engine, "--history"] => Some((level_of(engine)?, Form::History)),
        _ => None,
    }
}

/// The history file of a play, or the reason why there is none.
fn file(engine: &Engine, tables: &[String]) -> Result<Vec<u8>, String> {
    match history_file(engine, tables) {
        Ok(bytes) if bytes.len() <= FILE_BYTES => Ok(bytes),
        _ => Err("file: OverLimit bytes".to_string()),
    }
}

/// The play of a script, or the reason why there is none.
fn played(script: &Script, level: Level) -> Result<Engine<'_>, String> {
    let engine = play(script, level).ok_or("play: Full")?;
    match over_limit(&engine) {
        Some(limit) => Err(format!("play: OverLimit {limit}")),
        None => Ok(engine),
    }
}

/// The output, or the line of a fault.
fn answer(text: &[u8], level: Level, form: Form) -> Result<Vec<u8>, String> {
    let script = parse_script(text).map_err(|it| format!("line {}: {:?}", it.line, it.kind))?;
    let engine = played(&script, level)?;
    if form == Form::History {
        return file(&engine, &script.tables);
    }
    let mut bytes = Vec::new();
    write_log(&mut bytes, &engine, &script.tables).expect("a vector takes it");
    if form == Form::Report {
        write_report(&mut bytes, history_of(&engine)).expect("a vector takes it");
    }
    Ok(bytes)
}

fn main() -> io::Result<ExitCode> {
    let Some((level, form)) = asked() else {
        eprintln!("usage: player --engine locking|committed|snapshot|optimistic [--log|--history]");
        return Ok(ExitCode::from(3));
    };
    let mut text = Vec::new();
    io::stdin().read_to_end(&mut text)?;
    let (mut bytes, status) = match answer(&text, level, form) {
        Ok(bytes) => (bytes, ExitCode::SUCCESS),
        Err(fault) => (fault.into_bytes(), ExitCode::from(2)),
    };
    if form == Form::History || status != ExitCode::SUCCESS {
        bytes.push(b'\n');
    }
    io::stdout().write_all(&bytes)?;
    Ok(status)
}
