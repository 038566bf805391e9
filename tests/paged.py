"""A reference implementation of `page`: makes the page that is expected for a history, as docs/PAGE.md describes it.

It takes its sentences from the output of `explain`, whose lines it joins, and the picture as it is. For a history whose
explanation is shortened it makes no page and raises `Cut`. The fixed HTML and CSS are in tests/page.html; what each
phenomenon means is read from the table in docs/PAGE.md."""
import itertools
import json
import re

from explained import ROUND
from harness import TOP

MOST_STEPS, MOST_TXNS, MOST_OPS, MOST_ENTRIES, MOST_VERSIONS, MOST_ROWS = 20, 25, 8, 8, 7, 40
MOST_BYTES = 65_536  # of a picture, and of a history
WIDE = 12  # columns of a picture that isn't folded
PHENOMENA = "G0", "G1a", "G1b", "G1c", "G-single", "G2-item", "G2"
LEVELS = {
    "PL-3": "PL-3 (serializable)", "PL-2.99": "PL-2.99 (repeatable read)", "PL-2": "PL-2 (read committed)",
    "PL-1": "PL-1 (read uncommitted)", "below PL-1": "below PL-1",
}
YES = ("The committed transactions could have run one after another: there is an order in which every recorded row comes "
       "out.")
FAULT = ("The record contradicts itself at one place: either the recorder wrote what didn't happen, or the database did "
         "what no statement does.")
OPERATION = re.compile(r"statement (\d+) of T(\d+) \(")
DEPENDENCY = re.compile(r"T(\d+) ([a-z-]+)\(([^)]*)\)(?= T(\d+))")


class Cut(Exception):
    """The explanation leaves something out."""


def block_of(name):
    """The block of tests/page.html with this name: the lines between its comment line and the next one."""
    with open(f"{TOP}/tests/page.html", encoding="utf-8") as file:
        text = file.read()
    return re.split(r"^<!-- .* -->\n", text.partition(f"\n<!-- {name} -->\n")[2], maxsplit=1, flags=re.M)[0]


def style():
    first, last = block_of("style"), block_of("style, after the rules for steps")
    rules = ",\n".join(f":root:has(#s{s}:is(:hover,:focus-within,:target)) :is(.s{s},.p-{s})"
                       for s in range(MOST_STEPS + 1))
    return f"{first}{rules}{{outline:3px solid;outline-offset:-1px;stroke-width:5}}\n{last}"


def meanings():
    """The meaning of each phenomenon and the lowest level that forbids it, by the table in docs/PAGE.md."""
    with open(f"{TOP}/docs/PAGE.md", encoding="utf-8") as file:
        lines = re.findall(r"^\| (G[\w-]+) \| (.*) \| (.*) \|$", file.read(), re.M)
    return {name: (meaning, level) for name, meaning, level in lines}


def escaped(text):
    for sign, name in ("&", "&amp;"), ("<", "&lt;"), (">", "&gt;"), ('"', "&quot;"):
        text = text.replace(sign, name)
    return text


def led(sentence):
    lead, colon, rest = sentence.partition(":")
    return f"<b>{escaped(lead)}</b>{escaped(colon + rest)}"


def state(value):
    return "absent" if value is None else str(value)


def name(row):
    return str(row[1]) if row[0] == "test" else f"{row[0]} {row[1]}"


def row_named(text):
    table, _, number = text.rpartition(" ")
    return (table or "test", int(number))


class History:
    def __init__(self, data):
        file = json.loads(data)

        def row(entry):
            return tuple(entry[:2]) if file["version"] == 2 else ("test", entry[0])

        def entries(lists):
            cut = 2 if file["version"] == 2 else 1
            return {row(it): it[cut] if len(it) == cut + 1 else tuple(it[cut:]) for it in lists}

        self.initial, self.end = entries(file["initial"]), entries(file["end"])
        self.installed = entries(file["installed"])
        self.txns = {it["no"]: it for it in file["transactions"]}
        self.ops = {no: [{"statement": op["statement"], **{key: entries(op[key]) for key in ("view", "rows", "writes")}}
                         for op in it["ops"]] for no, it in self.txns.items()}

    def written(self):
        """The file as the program writes it, where its statements are in printed form."""
        def lists(rows):
            return [[*row, *(value if isinstance(value, tuple) else (value,))] for row, value in sorted(rows.items())]

        ops = {no: [{key: op[key] if key == "statement" else lists(op[key]) for key in op} for op in it]
               for no, it in self.ops.items()}
        whole = {"format": "hermitage-history", "version": 2, "initial": lists(self.initial), "end": lists(self.end),
                 "installed": lists(self.installed),
                 "transactions": [{"no": no, "outcome": it["outcome"], "ops": ops[no]} for no, it in self.txns.items()]}
        return json.dumps(whole, separators=(",", ":"), sort_keys=True)

    def op(self, no, number):
        ops = self.ops.get(no, [])
        return ops[number - 1] if 1 <= number <= len(ops) else None

    def last_write(self, no, row):
        return max((k for k, op in enumerate(self.ops.get(no, []), 1) if row in op["writes"]), default=None)

    def version(self, row, seen):
        """The state of a version that a view names."""
        op = self.op(*seen)
        return state(op["writes"][row]) if op and row in op["writes"] else "no such version"

    def place(self, row, no):
        installers = self.installed.get(row, [])
        return installers.index(no) + 1 if no in installers else None

    def place_seen(self, row, no, number):
        seen = self.op(no, number)["view"].get(row)
        return 0 if seen is None else self.place(row, seen[0])


class Page:
    """The page of a history, of its report, what `explain` writes of it and of the serial verdict, and its picture."""

    def __init__(self, data, report, explained, whole, picture, asked=None, title=""):
        self.history, self.report, self.picture = History(data), report, picture
        self.asked, self.title, self.meanings = asked, title, meanings()
        self.said = dict(line.split(": ", 1) for line in report.splitlines())
        if " lines more" in explained or " lines more" in whole:
            raise Cut
        self.sentences = explained.replace("\n    ", " ").splitlines()
        self.whole = whole.replace("\n    ", " ").splitlines()
        self.told = self.said[asked] if asked else self.said["serializable"]
        self.walk = [(int(a), kind, row_named(row), int(b)) for a, kind, row, b in DEPENDENCY.findall(self.told)]
        self.questions = list(self.asked_of())
        self.rows = list(dict.fromkeys([*self.fault_row(), *(row for _, _, _, row, _ in self.questions)]))
        self.shown = self.transactions()

    # ---- what is shown

    def steps(self):
        """The sentences of the steps, which stand right behind the first one."""
        return [it[2:] for it in itertools.takewhile(lambda it: it.startswith("  "), self.sentences[1:])]

    def asked_of(self):
        """Each question: step, transaction, operation, row, and what it did."""
        if self.walk:
            for step, (sentence, (first, kind, row, second)) in enumerate(zip(self.steps()[:MOST_STEPS], self.walk), 1):
                plain = re.sub(r" \(the (initial version|version of [^)]*)\)", "", sentence)
                found = [(int(no), int(number)) for number, no in OPERATION.findall(plain)]
                yield step, *found[0], row, "saw" if kind.startswith("rw") else "wrote"
                yield step, *found[1], row, "saw" if kind.startswith("wr") else "wrote"
        else:
            found = re.search(r"T(\d+) op (\d+) row (.*)$", self.told)
            if found and not self.told.startswith("yes"):
                yield 0, int(found[1]), int(found[2]), row_named(found[3]), "saw"

    def fault_row(self):
        found = re.match(r"no F\d \w+ row (.*)$", self.told)
        return [row_named(found[1])] if found else []

    def columns(self):
        return [int(no) for no in re.findall(r"<text[^>]*>T(\d+) (?:committed|aborted|isn't there)</text>", self.picture)]

    def transactions(self):
        named = self.columns()[:MOST_TXNS]
        others = [no for no in self.history.txns if no not in named]
        return named + (others if len(self.history.txns) <= MOST_TXNS else [])

    def at(self, no, number):
        return [it for it in self.questions if it[1:3] == (no, number)]

    def has_line(self, no, number):
        is_there = self.history.op(no, number) is not None and no in self.shown
        return is_there and (number <= MOST_OPS or bool(self.at(no, number)))

    def op(self, no, number):
        text = f"T{no}.{number}"
        return f'<a href="#t{no}-{number}">{text}</a>' if self.has_line(no, number) else text

    # ---- parts

    def versions(self, row, asked=()):
        asked = [place for place in asked if place is not None]
        installers = self.history.installed.get(row, [])
        least = min(asked, default=0)
        start = 0 if least < MOST_VERSIONS else least - 2
        start = min(start, len(installers))
        texts = [f"{start + 1} more"] if start else [(0, f"{state(self.history.initial.get(row))} at first")]
        shown = installers[start:start + MOST_VERSIONS]
        for place, no in enumerate(shown, start + 1):
            last = self.history.last_write(no, row)
            value = self.history.op(no, last)["writes"][row] if last else None
            texts.append((place, f"{state(value)} by {self.op(no, last) if last else f'T{no}'}"))
        more = len(installers) - start - len(shown)
        texts += [f"{more} more"] if more else []
        return " &rarr; ".join(it if isinstance(it, str) else f"<b>{it[1]}</b>" if it[0] in asked else it[1] for it in texts)

    def headline(self):
        return "Serializable" if not self.asked and self.told.startswith("yes") else \
            re.search(r"<title>(.*?)</title>", self.picture)[1]

    def lede(self):
        if self.asked:
            return self.meanings[self.asked][0]
        if self.told.startswith("yes"):
            return YES
        if self.walk:
            return self.meanings[re.search(r": (G[\w-]+)", self.headline())[1]][0]
        found = {"F2": "G1a", "F3": "G1b"}.get(self.told.split()[1])
        return self.meanings[found][0] if found else FAULT

    def head(self):
        level, present = self.said["level"], [it for it in PHENOMENA if self.said[it].startswith("present")]
        words = LEVELS.get(level, "not looked for")
        names = "".join(f" {it}" for it in present) or ("not judged" if level == "unsound" else "none")
        parts = [("Serializable", self.said["serializable"].split()[0]), ("Snapshot isolation", self.said["snapshot"].split()[0])]
        tiles = [(term, said, said == "no") for term, said in parts]
        tiles += [("Level", words, level != "PL-3"), ("Phenomena", names, bool(present))]
        block = block_of("head")
        links = block_of("links").rstrip("\n")
        block = re.sub(r'<li class="no">.*?</ul>', lambda _: "".join(
            f'<li{" class=" + chr(34) + "no" + chr(34) if bad else ""}>{term} <b>{said}</b></li>\n' for term, said, bad in tiles
        ) + "</ul>", block, flags=re.S)
        title = escaped(self.title)
        above = f'<p class="of">{title}</p>\n' if title else ""
        block = block.replace('<p class="of">{TEXT}</p>\n', above).replace("{. TEXT}", f". {title}" if title else "")
        committed = sum(it["outcome"] == "committed" for it in self.history.txns.values())
        for place, text in (("{headline}", self.headline()), ("{level}", words), ("{style}", style()),
                            ("{what it means}", escaped(self.lede())), ("{links}", links)):
            block = block.replace(place, text)
        return block.replace("{how many}", str(len(self.history.txns)), 1).replace("{how many}", str(committed), 1)

    def below(self, step):
        """The text below a step: its operations, and the versions of its row."""
        (_, no, number, row, did), (_, other, last, _, then) = [it for it in self.questions if it[0] == step]
        places = [self.history.place_seen(row, txn, k) if what == "saw" else self.history.place(row, txn)
                  for txn, k, what in ((no, number, did), (other, last, then))]
        return (f'\n<p class="chain">{self.op(no, number)} and {self.op(other, last)}; row {name(row)}, version by version: '
                f"{self.versions(row, places)}</p>")

    def why(self):
        heading = "What is found" if self.asked else "An order that gives every row" if self.told.startswith("yes") else \
            "Why no order fits" if self.walk else "What is wrong"
        steps = self.steps()
        if not self.walk and self.asked:
            steps = []
        items = "".join(f'<li id="s{s}">{led(text)}{self.below(s) if self.walk else ""}</li>\n'
                        for s, text in enumerate(steps[:MOST_STEPS], 1))
        behind = ""
        if self.walk:
            more = len(self.walk) - MOST_STEPS
            behind = f'<p>{more} more steps aren\'t shown; <a href="#report">the report</a> names them.</p>\n' if more > 0 else ""
            behind += block_of("dependency kinds")
        return (f'<section aria-labelledby="why">\n<h2 id="why">{heading}</h2>\n<div class="why">\n<div>\n'
                f'<p id="s0" class="order" tabindex="0">{escaped(self.sentences[0])}</p>\n<ol class="steps">\n{items}</ol>\n'
                f"{behind}</div>\n{self.figure()}</div>\n</section>\n")

    def figure(self):
        if len(self.picture.encode()) > MOST_BYTES:
            return ("<p>The picture has more than 65,536 bytes and isn't here: <code>hermitage_lab picture</code> draws it.</p>\n")
        figure = block_of("picture").replace("{picture}", self.picture)
        count = len(self.columns()) if " transactions are drawn" not in self.picture else WIDE + 1
        return f"<details>\n<summary>The picture</summary>\n{figure}</details>\n" if count > WIDE else figure

    def found(self):
        """The finding for each phenomenon: `explain`'s sentence, or the report's cycle where `explain` shows the cycle step by step."""
        for line in self.whole:
            if re.match(r"G[\w-]+( \(.*?\))?: ", line):
                name, told = re.match(r"[\w-]+", line)[0], line.removesuffix(f": present: {ROUND}")
                walk = self.said[name].removeprefix("present ")
                yield line if told == line else f"{told}: present, by another cycle: {walk}. (--phenomenon {name} explains it.)"

    def levels(self):
        level = self.said["level"]
        ladder, phenomena = block_of("ladder"), block_of("phenomena")
        names = list(LEVELS)
        if level in names:
            for rank, rung in enumerate(names):
                said = "met" if rank >= names.index(level) else "not met"
                line = re.search(rf'<tr><th scope="row">{re.escape(LEVELS[rung])}</th>.*\n', ladder)[0]
                due = line.replace("{met or not met}", said)
                ladder = ladder.replace(line, due.replace("<tr>", '<tr class="here">') if rung == level else due)
        else:
            ladder = ""
        line = re.search(r"<tr><th scope=\"row\">.*\n", phenomena)[0]
        lines = "".join(f'<tr><th scope="row">{led(said)}</th><td>{self.meanings[it][0]}</td><td data-l="forbidden from">'
                        f"{self.meanings[it][1]}</td></tr>\n" for it, said in zip(PHENOMENA, self.found(), strict=True))
        snapshot = next(it for it in self.whole if it.startswith(("A snapshot run", "Not a snapshot run")))
        return (f'<section aria-labelledby="levels">\n<h2 id="levels">Levels and phenomena</h2>\n<p>{escaped(self.whole[-2])}\n</p>\n'
                f"<p>{escaped(snapshot)}</p>\n{ladder}{phenomena.replace(line, lines)}</section>\n")

    def cell(self, entries, asked, empty):
        if not entries:
            return empty
        shown = [it for k, it in enumerate(entries) if k < MOST_ENTRIES or it[0] in asked]
        text = "".join(f'<span class="e{" b" if row in asked else ""}">{said}</span>' for row, said in shown)
        return text + (f'<span class="e">of {len(entries)} in all</span>' if len(entries) > MOST_ENTRIES else "")

    def operation(self, no, number):
        op, asked = self.history.op(no, number), self.at(no, number)
        rows = {it[3] for it in asked}
        seen = [(row, f"row {name(row)} as {self.history.version(row, by)} by {self.op(*by)}")
                for row, by in sorted(op["view"].items())]
        cells = [self.cell(seen, rows, "all at first")]
        for key, empty in ("rows", "none"), ("writes", ""):
            cells.append(self.cell([(row, f"({name(row)}, {state(value)})") for row, value in sorted(op[key].items())], rows, empty))
        notes = "".join(f' <span class="note"><a href="#s{s}">{f"step {s}" if s else "in question"}</a>: {did} row {name(row)}</span>'
                        for s, _, _, row, did in asked)
        marks = "".join(f" s{it[0]}" for it in asked)
        return (f'<tr id="t{no}-{number}" class="o{marks}"><th scope="row" class="m">T{no}.{number}</th><td class="m">'
                f'{escaped(op["statement"])}{notes}</td><td class="m" data-l="saw">{cells[0]}</td><td class="m" data-l="listed">'
                f'{cells[1]}</td><td class="m" data-l="wrote">{cells[2]}</td></tr>\n')

    def table(self, name, shown, count, lines):
        """A table of tests/page.html with these lines in it."""
        block = block_of(name).replace("{how many are shown}", str(shown)).replace("{how many there are}", str(count))
        return re.sub(r"</thead>\n.*</table>", lambda _: f"</thead>\n{lines}</table>", block, flags=re.S)

    def transactions_part(self):
        lines = ""
        for no in self.shown:
            ended = self.history.txns[no]["outcome"] if no in self.history.txns else "isn't there"
            ops = self.history.ops.get(no, [])
            lines += f'<tbody>\n<tr class="t" id="t{no}"><th scope="rowgroup" colspan="5">T{no} {ended}</th></tr>\n'
            lines += "".join(self.operation(no, k) for k in range(1, len(ops) + 1) if self.has_line(no, k))
            if len(ops) > MOST_OPS:
                lines += (f'<tr><td colspan="5">Of {len(ops)} statements the first eight are here, and those in question.</td></tr>\n')
            lines += "</tbody>\n"
        return self.table("transactions", len(self.shown), len(self.history.txns), lines)

    def rows_part(self):
        history = self.history
        others = [row for row in sorted(history.initial) if row not in self.rows]
        others += [row for row in sorted(history.installed) if row not in self.rows and row not in history.initial]
        count = len(self.rows) + len(others)
        shown = others if count <= MOST_ROWS else [] if self.rows else others[:MOST_ROWS]
        lines = "".join(f'<tr{" class=" + chr(34) + "b" + chr(34) if row in self.rows else ""}><th scope="row" class="m">{name(row)}</th>'
                        f'<td class="m">{self.versions(row)}</td><td class="m" data-l="in the end">{state(history.end.get(row))}</td></tr>\n'
                        for row in self.rows + shown)
        return self.table("rows", len(self.rows) + len(shown), count, f"<tbody>\n{lines}</tbody>\n")

    def check(self):
        order, cycle, fault = (block_of(f"check: {how}") for how in ("an order", "a cycle", "a fault or a read"))
        how = cycle if self.walk else order if self.told.startswith("yes") else fault if self.questions or not self.asked else ""
        return block_of("check").replace("{how}\n", how)

    def evidence(self):
        block = block_of("report and history")
        file = self.history.written()
        if len(file.encode()) > MOST_BYTES:
            block = re.sub(r"<details>.*</details>", lambda _: "<p>It has more than 65,536 bytes of JSON, and isn't here: attach the file.</p>",
                           block, flags=re.S)
        return block.replace("{the ten lines}", escaped(self.report)).replace("{history}", escaped(file))

    def text(self):
        parts = (self.head, self.why, self.levels, self.transactions_part, self.rows_part, self.check, self.evidence)
        return "".join(part() for part in parts)
