"""Commands that define and change tables as trees that can be written and cut down."""
import dataclasses

from query_trees import Part, Query

DEFAULT = "DEFAULT"  # in the place of a value
STAR = Part(None, "*", closed=True)


def without_each(items):
    """The tuple without one of its items, in each way."""
    return (items[:at] + items[at + 1 :] for at in range(len(items)))


def with_each_cut(items, cuts):
    """The tuple with one of its items cut down, in each way."""
    return (items[:at] + (cut,) + items[at + 1 :] for at, it in enumerate(items) for cut in cuts(it))


def cuts_of(value):
    return () if value == DEFAULT else value.smaller()


@dataclasses.dataclass(frozen=True)
class Rule:
    """A rule of a column or of a table: a text with a place for an expression."""

    form: str
    parts: tuple = ()

    def __str__(self):
        return self.form.format(*self.parts)

    def smaller(self):
        for parts in with_each_cut(self.parts, Part.smaller):
            yield dataclasses.replace(self, parts=parts)


@dataclasses.dataclass(frozen=True)
class Element:
    """A column with its rules, or a rule of the table, which has no head."""

    head: str
    rules: tuple = ()

    def __str__(self):
        return " ".join(filter(None, (self.head, *map(str, self.rules))))

    def smaller(self):
        whole = without_each(self.rules) if self.head else ()
        for rules in (*whole, *with_each_cut(self.rules, Rule.smaller)):
            yield dataclasses.replace(self, rules=rules)


class Command:
    """One command of a script. What it evaluates may fail where it is risky."""

    is_risky = False
    comes_later = False  # a failure of a row may come before the rules of an earlier row are looked at, or behind them
    moves = None  # the table whose rows it puts elsewhere on the server

    def smaller(self):
        return ()

    def without(self, column, place):
        """This, where its table hasn't got this column, which was at this place."""
        return self


@dataclasses.dataclass(frozen=True)
class Define(Command):
    table: str
    elements: tuple
    is_lenient: bool = False

    def __str__(self):
        words = "CREATE TABLE IF NOT EXISTS" if self.is_lenient else "CREATE TABLE"
        return f"{words} {self.table} ({', '.join(map(str, self.elements))})"

    @property
    def columns(self):
        return [it.head.split()[0] for it in self.elements if it.head]

    def smaller(self):
        for elements in (*without_each(self.elements), *with_each_cut(self.elements, Element.smaller)):
            if any(it.head for it in elements):
                yield dataclasses.replace(self, elements=elements)

    def without(self, column, place):
        kept = (it for it in self.elements if it.head.split()[:1] != [column])
        return dataclasses.replace(self, elements=tuple(kept))


@dataclasses.dataclass(frozen=True)
class Drop(Command):
    table: str
    is_lenient: bool = False

    def __str__(self):
        return f"DROP TABLE {'IF EXISTS ' if self.is_lenient else ''}{self.table}"


@dataclasses.dataclass(frozen=True)
class Ask(Command):
    """A query. Without one it asks for all rows of a table, in the order in which they came."""

    table: str = None
    query: Query = None

    def __str__(self):
        return str(self.query) if self.query else f"SELECT * FROM {self.table}"

    @property
    def is_risky(self):
        return self.query is not None and self.query.is_risky

    def smaller(self):
        if self.query:
            yield from (Ask(query=it) for it in self.query.smaller() if it.is_told)


@dataclasses.dataclass(frozen=True)
class Change(Command):
    """What changes of rows have in common: RETURNING, whose items are pairs of an expression and a label."""

    table: str
    alias: str = ""
    items: tuple = ()

    def returning(self):
        items = (str(it) + (f" AS {label}" if label else "") for it, label in self.items)
        return ["RETURNING " + ", ".join(items)] if self.items else []

    def values(self):
        """All its expressions."""
        return [it for it, _ in self.items]

    @property
    def is_risky(self):
        return any(it.is_risky for it in self.values() if it != DEFAULT)

    def smaller(self):
        for items in (*without_each(self.items), *with_each_cut(self.items, self.cuts_of_item)):
            yield dataclasses.replace(self, items=items)

    @staticmethod
    def cuts_of_item(item):
        part, label = item
        return ((it, label) for it in part.smaller() if label or it.is_headed_alike)


@dataclasses.dataclass(frozen=True)
class Insert(Change):
    columns: tuple = ()
    rows: tuple = ()
    query: Query = None

    def __str__(self):
        words = ["INSERT INTO", self.table, *(["AS", self.alias] if self.alias else [])]
        words += [f"({', '.join(self.columns)})"] if self.columns else []
        if self.query:
            words.append(str(self.query))
        elif self.rows:
            words.append("VALUES " + ", ".join(f"({', '.join(map(str, row))})" for row in self.rows))
        else:
            words.append("DEFAULT VALUES")
        return " ".join(words + self.returning())

    def values(self):
        return [*super().values(), *(it for row in self.rows for it in row), *([self.query] if self.query else [])]

    @property
    def comes_later(self):
        return divides(self.query)

    def smaller(self):
        yield from super().smaller()
        cut = lambda **fields: dataclasses.replace(self, **fields)
        if self.query:
            items, has_order = len(self.query.items), self.query.is_ordered
            told = (it for it in self.query.smaller() if it.is_told and it.is_ordered >= has_order)
            yield from (cut(query=it) for it in told if len(it.items) == items)
        if len(self.rows) > 1:
            yield from (cut(rows=it) for it in without_each(self.rows))
        yield from (cut(rows=it) for it in with_each_cut(self.rows, lambda row: with_each_cut(row, cuts_of)))
        yield from (self.without(it, 0) for it in self.columns)

    def without(self, column, place):
        at = self.columns.index(column) if column in self.columns else None if self.columns else place
        if at is None or self.query or len(self.columns) == 1 or any(len(row) < 2 for row in self.rows):
            return self
        without = lambda items: items[:at] + items[at + 1 :]
        return dataclasses.replace(self, columns=without(self.columns), rows=tuple(map(without, self.rows)))


@dataclasses.dataclass(frozen=True)
class Update(Change):
    sets: tuple = ()  # pairs of a column and a value
    where: Part = None

    def __str__(self):
        words = ["UPDATE", self.table, *([self.alias] if self.alias else [])]
        words += ["SET", ", ".join(f"{column} = {value!s}" for column, value in self.sets)]
        return " ".join(words + condition(self.where) + self.returning())

    def values(self):
        return [*super().values(), *(it for _, it in self.sets), *([self.where] if self.where else [])]

    @property
    def moves(self):
        return self.table

    @property
    def comes_later(self):
        return divides(self.where)

    def smaller(self):
        yield from super().smaller()
        cut = lambda **fields: dataclasses.replace(self, **fields)
        yield from (cut(where=it) for it in cuts_of_condition(self.where))
        if len(self.sets) > 1:
            yield from (cut(sets=it) for it in without_each(self.sets))
        cuts = lambda pair: ((pair[0], it) for it in cuts_of(pair[1]))
        yield from (cut(sets=it) for it in with_each_cut(self.sets, cuts))


@dataclasses.dataclass(frozen=True)
class Delete(Change):
    where: Part = None

    def __str__(self):
        words = ["DELETE FROM", self.table, *([self.alias] if self.alias else [])]
        return " ".join(words + condition(self.where) + self.returning())

    def values(self):
        return [*super().values(), *([self.where] if self.where else [])]

    @property
    def comes_later(self):
        return divides(self.where)

    def smaller(self):
        yield from super().smaller()
        yield from (dataclasses.replace(self, where=it) for it in cuts_of_condition(self.where))


def condition(where):
    return [f"WHERE {where!s}"] if where else []


def cuts_of_condition(where):
    return (None, *where.smaller()) if where else ()


def divides(it):
    return it is not None and any(sign in str(it) for sign in (" / ", " % ", "mod("))


def without_a_column(script):
    """The script where one table hasn't got one of its columns, in each way, if it has others."""
    found = {(it.table, column) for it in script if isinstance(it, Define) for column in it.columns}
    for table, column in sorted(found):
        columns, cut = [], []
        for it in script:
            if it.table == table and isinstance(it, Define):
                columns = it.columns
            has_it = it.table == table and column in columns and len(columns) > 1
            cut.append(it.without(column, columns.index(column)) if has_it else it)
        yield cut
