#!/usr/bin/env python3
"""A small SQL front end: it turns a query over CSV files into a plan, and lets `algebricks` answer it.

    python3 sql.py [--plan] 'SELECT name FROM emp WHERE pay > 5'

is called in a folder with tables.txt and the CSV files; with --plan it prints the plan alone.
tables.txt has a line for each table: its name, its file, and its columns as name:kind. The front end checks the query's form
and its names; all else it leaves to `algebricks`, whose refusals it leads back to their places in the query.
"""
import re
import shutil
import subprocess
import sys
import tempfile
from pathlib import Path

TOKEN = re.compile(r"\s+|(?P<number>\d+)|(?P<text>'(?:[^']|'')*')|(?P<word>[A-Za-z_]\w*)|(?P<sign><>|<=|>=|\|\||[-+*/%=<>(),.])|(?P<bad>.)")
FUNCTIONS = {"LENGTH": "length", "LOWER": "lower_ascii", "COALESCE": "coalesce", "SUM": "sum", "MIN": "min", "MAX": "max", "COUNT": "count"}
ESCAPES = str.maketrans({"\\": "\\\\", '"': '\\"', "\n": "\\n", "\t": "\\t", "\r": "\\r"})
AGGREGATES = ("countall", "count", "sum", "min", "max")
# how tight an operator binds, its function, and whether its arguments are turned round and its value is negated
BINARY = {
    "OR": (1, "or", False, False), "AND": (2, "and", False, False), "=": (4, "eq", False, False), "<>": (4, "eq", False, True),
    "<": (4, "lt", False, False), "<=": (4, "le", False, False), ">": (4, "lt", True, False), ">=": (4, "le", True, False),
    "+": (5, "add", False, False), "-": (5, "sub", False, False), "||": (5, "concat", False, False),
    "*": (6, "mul", False, False), "/": (6, "div", False, False), "%": (6, "mod", False, False),
}
RESERVED = set("SELECT FROM WHERE GROUP BY HAVING ORDER LIMIT OFFSET JOIN LEFT ON AS ASC DESC AND OR NOT IS NULL".split())


class Refused(Exception):
    """Where a query is wrong, and what is wrong there."""


class Word(str):
    """A word of the plan that came of a place in the query."""

    def __new__(cls, place, text):
        word = super().__new__(cls, text)
        word.place = place
        return word


class Node:
    """Words in parentheses that came of a place in the query; a word is a text or a node."""

    def __init__(self, place, *words):
        self.place, self.words = place, words

    def pieces(self):
        """Its text in pieces, each with its place."""
        yield self.place, "("
        for number, word in enumerate(self.words):
            yield None, " " if number else ""
            yield from word.pieces() if isinstance(word, Node) else [(getattr(word, "place", None), word)]
        yield None, ")"

    def __str__(self):
        return "".join(text for _, text in self.pieces())

    def has_total(self):
        return self.words[0] in AGGREGATES or any(isinstance(word, Node) and word.has_total() for word in self.words)

    def written(self):
        """Its text, and for each place there the place in the query that it came of."""
        text, places = "", {}
        for place, piece in self.pieces():
            if place is not None:
                places[len(text.encode())] = place
            text += piece
        return text + "\n", places


class Query:
    """Reads a query word by word, and makes its plan. A column is the variable of its table's scan."""

    def __init__(self, text, tables):
        self.tables, self.used, self.columns, self.at = tables, {}, [], 0
        found = [(t.start(), t.lastgroup, t[0]) for t in TOKEN.finditer(text)]
        self.all = [token for token in found if token[1]] + [(len(text), "end", "")]
        for place, kind, _ in self.all:
            if kind == "bad":
                raise Refused(place, "this is no token")

    def next(self):
        return self.all[self.at][2].upper(), self.all[self.at][0]

    def takes(self, words):
        """The place of these words where they come next, which are then passed."""
        wanted, place = words.split(), self.all[self.at][0]
        if [t[2].upper() for t in self.all[self.at:self.at + len(wanted)]] != wanted:
            return None
        self.at += len(wanted)
        return place

    def wants(self, words):
        if self.takes(words) is None:
            raise Refused(self.next()[1], f"{words} is missing here")

    def token(self, kind):
        place, found, text = self.all[self.at]
        if found != kind or text.upper() in RESERVED:
            raise Refused(place, f"a {kind} is missing here")
        self.at += 1
        return Word(place, text)

    def list_of(self, item):
        items = [item()]
        while self.takes(",") is not None:
            items.append(item())
        return items

    def expression(self, least=0):
        """An expression of operators that bind as tight as this at least."""
        left = self.operand()
        while True:
            sign, place = self.next()
            if sign == "IS" and least <= 3:
                self.takes(sign)
                negated = self.takes("NOT") is not None
                self.wants("NULL")
                left = Node(place, "is_null", left)
            elif sign in BINARY and BINARY[sign][0] >= least:
                strength, name, turned, negated = BINARY[sign]
                self.takes(sign)
                right = self.expression(strength + 1)
                left = Node(place, name, right, left) if turned else Node(place, name, left, right)
            else:
                return left
            left = Node(place, "not", left) if negated else left

    def operand(self):
        place = self.next()[1]
        if self.takes("NOT") is not None:
            return Node(place, "not", self.expression(3))
        if self.takes("-") is None:
            return self.primary()
        return Word(place, "-" + self.token("number")) if self.all[self.at][1] == "number" else Node(place, "neg", self.expression(7))

    def primary(self):
        place, kind, text = self.all[self.at]
        if kind in ("number", "text"):
            word = self.token(kind)
            return word if kind == "number" else Word(place, '"' + word[1:-1].replace("''", "'").translate(ESCAPES) + '"')
        if self.takes("(") is not None:
            inner = self.expression()
            self.wants(")")
            return inner
        if text.upper() in ("NULL", "TRUE", "FALSE"):
            self.at += 1
            return Word(place, text.lower())
        name = self.token("word")
        if self.takes("(") is not None:
            return self.call(name)
        return self.column(name, self.token("word") if self.takes(".") is not None else None)

    def call(self, name):
        arguments = [] if name.upper() == "COUNT" and self.takes("*") is not None else self.list_of(self.expression)
        self.wants(")")
        if name.upper() not in FUNCTIONS:
            raise Refused(name.place, "there is no such function")
        return Node(name.place, FUNCTIONS[name.upper()], *arguments) if arguments else Node(name.place, "countall")

    def column(self, first, second):
        found = [f"$_{a}_{c}" for a, c in self.columns if c == (second or first) and second is None or (a, c) == (first, second)]
        if len(found) == 1:
            return Word(first.place, found[0])
        raise Refused(first.place, "this column is in several tables" if found else "there is no such column")

    def table(self):
        name = self.token("word")
        self.takes("AS")
        alias = self.token("word") if self.all[self.at][1] == "word" and self.next()[0] not in RESERVED else name
        if name not in self.tables or alias in self.used:
            raise Refused(name.place, "there is no such table, or its name is taken: give it another by AS")
        self.used[alias] = str(name)
        mine = [(alias, column.split(":")[0]) for column in self.tables[name][1:]]
        self.columns += mine
        return Node(name.place, "scan", name, Node(None, *(f"$_{a}_{c}" for a, c in mine)))

    def source(self):
        plan = self.table()
        while self.next()[0] in ("JOIN", "LEFT"):
            place, name = self.next()[1], "join" if self.takes("LEFT") is None else "leftjoin"
            self.wants("JOIN")
            right = self.table()
            self.wants("ON")
            plan = Node(place, name, self.expression(), plan, right)
        return plan

    def item(self):
        """A value of the select list, with its name."""
        value = self.expression()
        if self.takes("AS") is not None:
            return self.token("word"), value
        if isinstance(value, Word) and value.startswith("$_"):
            return Word(value.place, self.all[self.at - 1][2]), value
        raise Refused(self.next()[1], "this value wants a name: AS is missing here")

    def clause(self, words, plan, name, arguments):
        """The plan under an operator, where the clause is there."""
        place = self.takes(words)
        return plan if place is None else Node(place, name, *arguments(), plan)

    def sort(self):
        name = self.token("word")
        return Node(name.place, "$" + name, "asc" if self.takes("ASC") is not None or self.takes("DESC") is None else "desc")

    def over_groups(self, value, keys, totals):
        """What a value is over the rows of groups: a key and an aggregate are variables there."""
        if str(value) in keys:
            return Word(value.place, keys[str(value)])
        if isinstance(value, Node) and value.words[0] in AGGREGATES:
            return Word(value.place, totals.setdefault(str(value), (f"$_total{len(totals)}", value))[0])
        if isinstance(value, Node):
            return Node(value.place, value.words[0], *(self.over_groups(v, keys, totals) for v in value.words[1:]))
        if value.startswith("$_"):
            raise Refused(value.place, "this column is no key of the groups")
        return value

    def grouped(self, place, plan, keys, totals):
        """The plan with one row for each group, or with one row where there are no keys."""
        made = Node(None, *(Node(None, name, total) for name, total in totals.values() or [("$_total0", "(countall)")]))
        if not keys:
            return Node(place, "aggregate", made, plan)
        plan = Node(place, "assign", Node(None, *(Node(None, f"$_key{i}", key) for i, key in enumerate(keys))), plan)
        pairs = Node(None, *(Node(None, f"$_by{i}", f"$_key{i}") for i in range(len(keys))))
        return Node(place, "group", pairs, Node(place, "aggregate", made, "(nested)"), plan)

    def plan(self):
        """The plan of the whole query. FROM is read before the select list, since it says what the columns are."""
        self.wants("SELECT")
        start = self.at
        while self.next()[0] not in ("FROM", ""):
            self.at += 1
        self.wants("FROM")
        plan = self.source()
        plan = self.clause("WHERE", plan, "select", lambda: [self.expression()])
        behind, self.at = self.at, start
        items = self.list_of(self.item)
        self.wants("FROM")
        self.at, place = behind, items[0][1].place
        keys = self.list_of(self.expression) if self.takes("GROUP BY") is not None else []
        kept = None if (having := self.takes("HAVING")) is None else self.expression()
        totals, by = {}, {str(key): f"$_by{i}" for i, key in enumerate(keys)}
        if keys or any(isinstance(value, Node) and value.has_total() for _, value in items):
            items = [(name, self.over_groups(value, by, totals)) for name, value in items]
            kept = self.over_groups(kept, by, totals) if having is not None else None
            plan = self.grouped(place, plan, keys, totals)
        plan = plan if having is None else Node(having, "select", kept, plan)
        plan = Node(items[0][0].place, "assign", Node(None, *(Node(n.place, "$" + n, v) for n, v in items)), plan)
        plan = self.clause("ORDER BY", plan, "order", lambda: [Node(None, *self.list_of(self.sort))])
        plan = self.clause("LIMIT", plan, "limit", lambda: [self.token("number"), "0" if self.takes("OFFSET") is None else self.token("number")])
        if self.all[self.at][1] != "end":
            raise Refused(self.next()[1], "the query should end here")
        sets = [Node(0, "dataset", n, f'"{Path(self.tables[n][0]).name}"', *(f"({c.replace(':', ' ')})" for c in self.tables[n][1:])) for n in sorted(set(self.used.values()))]
        return Node(0, "algebricks", "1", *sets, Node(0, "result", Node(None, *("$" + n for n, _ in items)), plan))


def tables_of(text):
    return {line.split()[0]: line.split()[1:] for line in text.splitlines() if line.strip()}


def pointed(query, place, why):
    """A complaint, the query's line, and a mark below the place."""
    start = query.rfind("\n", 0, place) + 1
    return f"{why}\n{query[start:].partition(chr(10))[0]}\n{' ' * (place - start)}^\n"


def led_back(query, places, error):
    """A refusal of `algebricks` as one of the query."""
    found = re.fullmatch(r"plan refused: (\w+) at (\d+)\n", error)
    return pointed(query, places.get(int(found[2]), 0), f"refused: {found[1]}") if found else error


def main():
    alone = sys.argv[1:2] == ["--plan"]
    if len(sys.argv) != 2 + alone:
        sys.exit(__doc__)
    query, tables = sys.argv[-1], tables_of(Path("tables.txt").read_text())
    try:
        text, places = Query(query, tables).plan().written()
    except Refused as refused:
        sys.exit(pointed(query, *refused.args).rstrip("\n"))
    if alone:
        return print(text, end="")
    with tempfile.TemporaryDirectory() as room:
        for file, *_ in tables.values():
            shutil.copy(file, room)
        Path(room, "query.plan").write_text(text)
        program = Path(__file__).resolve().parents[2] / "algebricks"
        ran = subprocess.run([program, "step", "query.plan"], cwd=room, capture_output=True, text=True)
    sys.stdout.write(ran.stdout)
    sys.stderr.write(led_back(query, places, ran.stderr))
    sys.exit(ran.returncode)


if __name__ == "__main__":
    main()
