"""Reads a script: its setup, and the commands of its sessions (docs/FORMATS.md, "A script").

`read` follows the grammar of FORMATS, with its limits and the order of its faults.
"""
import re
from dataclasses import dataclass

from statement import TEST, Command, Statement, printed_setup

LINES, COMMANDS, LINE_BYTES, STATEMENT_BYTES, SETUP_BYTES = 2000, 1999, 4000, 1000, 4000
READ_BYTES = 8_388_609
OPEN, TABLES, NAME_BYTES = 16, 4, 16
IDS, VALUES, MODULI = (1, 999_999), (-1_000_000_000, 1_000_000_000), (1, 1_000_000)
WORDS = set(
    "abort and begin commit delete from id in insert into isolation level not or rollback select set setup transaction"
    " update value values where".split()
)
COMPARISONS = ("=", "<>", "<", "<=", ">", ">=")
TOKEN = re.compile(r"[ \t]*([A-Za-z_]+|[0-9]+|<>|<=|>=|.)")
SESSION = re.compile(rb"[ \t]*[Tt]([1-9])(?![A-Za-z0-9_])")


class Fault(Exception):
    """Why a text is not a script: a line and a kind of fault."""

    def __init__(self, line, kind):
        super().__init__(f"line {line}: {kind}")


class Wrong(Exception):
    """A kind of fault, in the current line."""


@dataclass(frozen=True)
class Script:
    setup: dict  # a value for each row; a row is a table and an id
    commands: tuple
    tables: tuple


class Reader:
    """Reads the tokens of one line after another, and keeps the state of the whole script."""

    def __init__(self):
        self.tokens, self.begun, self.at = [], 0, 0
        self.tables, self.setup, self.commands = [], None, []

    def take_line(self, code):
        self.tokens, self.begun, self.at = TOKEN.findall(code.rstrip(" \t").lower()), 0, 0

    def peek(self):
        return self.tokens[self.at] if self.at < len(self.tokens) else ""

    def unexpected(self):
        """The fault of an unexpected token."""
        return Wrong("BadPredicate" if "where" in self.tokens[self.begun : self.at] else "UnknownStatement")

    def have(self, *texts):
        """Takes the next token if it is one of these; returns whether it was."""
        if self.peek() not in texts or not self.peek():
            return False
        self.at += 1
        return True

    def want(self, *texts):
        for text in texts:
            if not self.have(text):
                raise self.unexpected()

    def one_of(self, *texts):
        found = self.peek()
        if not self.have(*texts):
            raise self.unexpected()
        return found

    def number(self, bounds):
        sign = -1 if self.have("-") else 1
        if not self.peek().isdigit():
            raise self.unexpected()
        number = sign * int(self.peek()) if len(self.peek().lstrip("0")) < 12 else bounds[1] + 1
        if not bounds[0] <= number <= bounds[1]:
            raise Wrong("NumberOutOfRange")
        self.at += 1
        return number

    def is_word(self):
        return self.peek()[:1].isalpha() or self.peek()[:1] == "_"

    def name(self):
        """The name of a table."""
        if not self.is_word():
            raise self.unexpected()
        if self.peek() in WORDS or len(self.peek()) > NAME_BYTES:
            raise Wrong("BadTableName")
        found = self.peek()
        self.note(found)
        self.at += 1
        return found

    def note(self, table):
        if table not in self.tables:
            if len(self.tables) == TABLES:
                raise Wrong("TooManyTables")
            self.tables.append(table)

    def read_setup(self):
        self.want("setup")
        rows = {}
        if self.tokens[self.at : self.at + 2] == ["(", ")"]:
            self.at += 2
        else:
            self.setup_row(rows)
            while self.have(","):
                self.setup_row(rows)
        self.end(len(printed_setup(rows)) > SETUP_BYTES)
        if self.peek():
            raise self.unexpected()
        self.setup = rows

    def end(self, is_too_long):
        """Takes the end of the setup or of a statement: a `;` or the end of the line."""
        if self.peek() not in (";", ""):
            raise self.unexpected()
        if is_too_long:
            raise Wrong("TooLong")
        self.have(";")

    def setup_row(self, rows):
        table = self.name() if self.is_word() else TEST
        if self.peek() != "(":
            raise self.unexpected()
        self.note(table)
        id, value = self.row(lambda id: (table, id) in rows)
        rows[table, id] = value

    def row(self, is_known=lambda id: False):
        self.want("(")
        id = self.number(IDS)
        self.want(",")
        value = self.number(VALUES)
        if self.peek() == ")" and is_known(id):
            raise Wrong("DuplicateSetupRow")
        self.want(")")
        return id, value

    def read_statements(self):
        """A line's commands, without the session, which is read last."""
        found = []
        while not found or self.peek():
            self.begun = self.at
            command = self.command()
            found.append(command)
            count = len(self.commands) + sum(it is not None for it in found)
            self.end(command and (command[1] and len(command[1].printed()) > STATEMENT_BYTES or count > COMMANDS))
        return [command for command in found if command]

    def command(self):
        """The kind and the statement of a command, or None for `set transaction`."""
        kind = self.one_of("begin", "commit", "abort", "rollback", "set", "select", "update", "insert", "delete")
        if kind == "set":
            self.want("transaction", "isolation", "level")
            if not self.is_word():
                raise self.unexpected()
            while self.is_word():
                self.at += 1
            return None
        if kind in ("begin", "commit", "abort", "rollback"):
            return ("abort" if kind == "rollback" else kind), None
        return kind, getattr(self, kind)()

    def select(self):
        self.want("*", "from")
        table = self.name()
        return Statement("select", table, self.where())

    def update(self):
        table = self.name()
        self.want("set", "value", "=")
        sign = ""
        if self.have("value"):
            sign = self.one_of("+", "-")
        change = sign, self.number(VALUES)
        return Statement("update", table, self.where(), change)

    def insert(self):
        self.want("into")
        table = self.name()
        self.want("(", "id", ",", "value", ")", "values")
        return Statement("insert", table, row=self.row())

    def delete(self):
        self.want("from")
        table = self.name()
        return Statement("delete", table, self.where())

    def where(self):
        if not self.have("where"):
            return None
        return self.joined("or", lambda open: self.joined("and", self.negated, open), 0)

    def joined(self, word, part, open):
        """Parts joined by a connective, left-associative; `open` counts the open parentheses and `not`s."""
        tree = part(open)
        while self.have(word):
            tree = word, tree, part(open)
        return tree

    def negated(self, open):
        if self.peek() in ("not", "("):
            if open == OPEN:
                raise Wrong("TooDeep")
            if self.have("not"):
                return "not", self.negated(open + 1)
            self.want("(")
            tree = self.joined("or", lambda inner: self.joined("and", self.negated, inner), open + 1)
            self.want(")")
            return tree
        return self.atom()

    def atom(self):
        column = self.one_of("id", "value")
        kind = self.one_of("%", "in", *COMPARISONS)
        if kind == "%":
            modulus = self.number(MODULI)
            self.want("=")
            return kind, column, modulus, self.number(VALUES)
        if kind != "in":
            return kind, column, self.number(VALUES)
        self.want("(")
        numbers = [] if self.peek() == ")" else [self.number(VALUES)]
        while numbers and self.have(","):
            numbers.append(self.number(VALUES))
        self.want(")")
        return kind, column, tuple(numbers)


def take(reader, number, text):
    """Takes one line."""
    if number > LINES or len(text) > LINE_BYTES:
        raise Wrong("TooLong")
    code, _, remark = text.partition(b"--")
    if any(byte != 9 and not 32 <= byte <= 126 for byte in code):
        raise Wrong("NotAscii")
    if not code.strip(b" \t"):
        return
    reader.take_line(code.decode("ascii"))
    if (reader.peek() == "setup") != (reader.setup is None):
        raise Wrong("NoSetup" if reader.setup is None else "SetupRepeated")
    if reader.setup is None:
        reader.read_setup()
        return
    found = reader.read_statements()
    session = SESSION.match(remark)
    if not session:
        raise Wrong("NoSession")
    reader.commands += [Command(number, int(session[1]), *command) for command in found]


def lines_of(text):
    """The lines of a text. Each ends with a newline, optionally after a carriage return; the last one needs none."""
    *whole, last = text.split(b"\n")
    return [line[:-1] if line.endswith(b"\r") else line for line in whole] + ([last] if last else [])


def read(text):
    """The script of some bytes."""
    reader, number = Reader(), 0
    for number, line in enumerate(lines_of(text[:READ_BYTES]), 1):
        try:
            take(reader, number, line)
        except Wrong as wrong:
            raise Fault(number, wrong) from None
    if reader.setup is None:
        raise Fault(number + 1, "NoSetup")
    return Script(reader.setup, tuple(reader.commands), tuple(sorted(reader.tables)))


def statement_of(text):
    """The statement of a text that has exactly one, as in a history's operations."""
    reader = Reader()
    reader.take_line(text)
    kind, statement = reader.command() or ("set", None)
    reader.have(";")
    if reader.peek() or not statement:
        raise Wrong("UnknownStatement")
    return statement
