//! Reading a script: the rows of its setup, and commands of sessions.

use crate::grammar::Parser;
use crate::statement::{Row, Statement};
use crate::tokens::Kind;
use std::collections::BTreeMap;

const LINES: usize = 2_000;
const LINE_BYTES: usize = 4_000;
const STATEMENT_BYTES: usize = 1_000;
const SETUP_BYTES: usize = 4_000;
const COMMANDS: usize = 1_999;

pub enum Command {
    Begin,
    Commit,
    Abort,
    Run(Statement),
}

/// A command of a session, and its printed form.
pub struct Line {
    pub session: usize,
    pub command: Command,
    pub text: String,
}

/// A script. Its tables are in the order of their names, so rows are too.
pub struct Script {
    pub tables: Vec<String>,
    pub setup: BTreeMap<Row, i64>,
    pub lines: Vec<Line>,
}

/// The first fault of a text that isn't a script: the number of its line, and the kind.
pub struct Fault {
    pub line: usize,
    pub kind: Kind,
}

/// A row as a setup spells it.
pub fn print_row(table: &str, id: i64, value: i64) -> String {
    match table {
        "test" => format!("({id}, {value})"),
        _ => format!("{table} ({id}, {value})"),
    }
}

/// The code of a line in lower case, and its comment.
fn split_remark(line: &[u8]) -> Result<(String, &[u8]), Kind> {
    let end = line.windows(2).position(|pair| pair == b"--");
    let (code, remark) = line.split_at(end.unwrap_or(line.len()));
    match code.iter().all(|byte| matches!(byte, b'\t' | b' '..=b'~')) {
        true => Ok((String::from_utf8_lossy(code).to_ascii_lowercase(), remark)),
        false => Err(Kind::NotAscii),
    }
}

/// The session that a comment names.
fn session_of(remark: &[u8]) -> Option<usize> {
    let named = remark.strip_prefix(b"--")?;
    let spaces = named.iter().take_while(|it| matches!(it, b' ' | b'\t'));
    match &named[spaces.count()..] {
        [b'T' | b't', digit @ b'1'..=b'9', rest @ ..] => match rest.first() {
            Some(byte) if byte.is_ascii_alphanumeric() || *byte == b'_' => None,
            _ => Some(usize::from(digit - b'0')),
        },
        _ => None,
    }
}

/// The lines of a text; a carriage return is part of a newline, and the last newline may be missing.
fn lines_of(text: &[u8]) -> impl Iterator<Item = &[u8]> {
    text.split_inclusive(|byte| *byte == b'\n').map(|line| {
        let bare = line.strip_suffix(b"\n");
        bare.map_or(line, |it| it.strip_suffix(b"\r").unwrap_or(it))
    })
}

/// The part of a script read so far. Tables are in the order in which they were named.
#[derive(Default)]
struct Reader {
    tables: Vec<String>,
    setup: Option<BTreeMap<Row, i64>>,
    lines: Vec<Line>,
}

impl Reader {
    fn line(&mut self, number: usize, line: &[u8]) -> Result<(), Kind> {
        if number > LINES || line.len() > LINE_BYTES {
            return Err(Kind::TooLong);
        }
        let (code, remark) = split_remark(line)?;
        let mut parser = Parser::new(&code, &mut self.tables);
        if parser.tokens.is_at_end() {
            return Ok(());
        }
        match (&self.setup, parser.tokens.takes("setup")) {
            (None, false) => Err(Kind::NoSetup),
            (Some(_), true) => Err(Kind::SetupRepeated),
            (None, true) => {
                self.setup = Some(setup(&mut parser)?);
                Ok(())
            }
            (Some(_), false) => {
                let room = COMMANDS - self.lines.len();
                let found = commands(&mut parser, room)?;
                let session = session_of(remark).ok_or(Kind::NoSession)?;
                self.lines
                    .extend(found.into_iter().map(|(command, text)| Line {
                        session,
                        command,
                        text,
                    }));
                Ok(())
            }
        }
    }

    /// The script, with its tables in the order of their names.
    fn script(self, setup: BTreeMap<Row, i64>) -> Script {
        let mut tables = self.tables.clone();
        tables.sort_unstable();
        let place = |table: usize| {
            let name = &self.tables[table];
            tables
                .iter()
                .position(|it| it == name)
                .expect("the same names")
        };
        let mut lines = self.lines;
        for line in &mut lines {
            if let Command::Run(statement) = &mut line.command {
                statement.table = place(statement.table);
            }
        }
        let moved = setup.into_iter().map(|(row, value)| {
            let table = place(row.table);
            (Row { table, ..row }, value)
        });
        let setup = moved.collect();
        Script {
            tables,
            setup,
            lines,
        }
    }
}

/// The rows of a setup, after its first word.
fn setup(parser: &mut Parser) -> Result<BTreeMap<Row, i64>, Kind> {
    let rows = parser.setup_rows()?;
    let is_closed = parser.tokens.takes(";");
    if !is_closed && !parser.tokens.is_at_end() {
        return Err(parser.tokens.wrong());
    }
    let printed = |(row, value): (&Row, &i64)| print_row(parser.name(row.table), row.id, *value);
    let texts: Vec<String> = rows.iter().map(printed).collect();
    if "setup ;".len() + texts.join(", ").len() > SETUP_BYTES {
        return Err(Kind::TooLong);
    }
    if !parser.tokens.is_at_end() {
        return Err(parser.tokens.wrong());
    }
    Ok(rows)
}

/// One command and its printed form; none for an isolation level.
fn command(parser: &mut Parser) -> Result<Option<(Command, String)>, Kind> {
    if parser.tokens.takes("begin") {
        return Ok(Some((Command::Begin, "begin".to_string())));
    }
    if parser.tokens.takes("commit") {
        return Ok(Some((Command::Commit, "commit".to_string())));
    }
    if parser.tokens.takes("abort") || parser.tokens.takes("rollback") {
        return Ok(Some((Command::Abort, "abort".to_string())));
    }
    if parser.tokens.takes("set") {
        parser.isolation_level()?;
        return Ok(None);
    }
    let statement = parser.statement()?;
    let text = statement.print(parser.name(statement.table));
    Ok(Some((Command::Run(statement), text)))
}

/// The commands of a line, at most this many.
fn commands(parser: &mut Parser, room: usize) -> Result<Vec<(Command, String)>, Kind> {
    let mut found = Vec::new();
    loop {
        let read = command(parser)?;
        if !parser.tokens.is_at_end() && parser.tokens.peek() != ";" {
            return Err(parser.tokens.wrong());
        }
        if let Some((command, text)) = read {
            if found.len() == room || text.len() > STATEMENT_BYTES {
                return Err(Kind::TooLong);
            }
            found.push((command, text));
        }
        parser.tokens.takes(";");
        if parser.tokens.is_at_end() {
            return Ok(found);
        }
    }
}

/// Reads a text as a script.
pub fn parse_script(text: &[u8]) -> Result<Script, Fault> {
    let (mut reader, mut count) = (Reader::default(), 0);
    for line in lines_of(text) {
        count += 1;
        reader
            .line(count, line)
            .map_err(|kind| Fault { line: count, kind })?;
    }
    match reader.setup.take() {
        Some(setup) => Ok(reader.script(setup)),
        None => Err(Fault {
            line: count + 1,
            kind: Kind::NoSetup,
        }),
    }
}
