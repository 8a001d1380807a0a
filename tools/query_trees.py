"""Queries and their parts as trees that can be written and cut down."""
import dataclasses

INTEGER, BIGINT, TEXT, BOOLEAN = "integer", "bigint", "text", "boolean"
TYPES = (INTEGER, BIGINT, TEXT, BOOLEAN)
NUMBERS = {INTEGER: 2**31 - 1, BIGINT: 2**63 - 1}  # each with its greatest
CASTS = tuple(f"::{it}" for it in TYPES)
# What has a type and is no literal, nor a cast to the type that it has.
TYPED = {INTEGER: "'1'::integer", BIGINT: "2::bigint", TEXT: "'a'::text", BOOLEAN: "1 = 1"}
LITERALS = {
    INTEGER: ("0", "1", "2", "3", "-1", "-7"),
    BIGINT: ("3000000000", "-3000000000"),
    TEXT: ("'a'", "'b'", "''", "'1'", "'ab'"),
    BOOLEAN: ("TRUE", "FALSE"),
}


@dataclasses.dataclass(frozen=True)
class Part:
    """An expression: a text with a place for each of its parts, which stand in brackets where they have to."""

    type: str
    form: str
    parts: tuple = ()
    most: int = 0  # a number is at most so far from 0
    fails: bool = False  # evaluating it may fail
    closed: bool = False  # it needs no brackets
    literal: bool = False
    known: tuple = ()  # the places where no literal may stand alone

    def __format__(self, spec):
        text = self.form.format(*self.parts)
        return text if self.closed or spec == "open" else f"({text})"

    def __str__(self):
        return format(self, "open")

    @property
    def is_risky(self):
        return self.fails or any(it.is_risky for it in self.parts)

    @property
    def is_headed_alike(self):
        """Whether the server heads it as plpg does. It heads a cast of a cast by the last type, and CASE by its ELSE."""
        is_cast = self.parts and self.form.endswith(CASTS)
        return not self.form.startswith("CASE") and (not is_cast or is_column(self.parts[0]))

    def queries(self):
        for it in self.parts:
            yield from it.queries()

    def with_part(self, at, part):
        return dataclasses.replace(self, parts=(*self.parts[:at], part, *self.parts[at + 1 :]))

    def smaller(self):
        """This, cut down by one step in each way."""
        for it in self.parts:
            if it.type == self.type:
                yield it
        if self.parts:
            yield literal(self.type, LITERALS[self.type][0])
            yield Part(self.type, TYPED[self.type])
        for at, part in enumerate(self.parts):
            for cut in part.smaller():
                if not (cut.literal and at in self.known):
                    yield self.with_part(at, cut)


@dataclasses.dataclass(frozen=True)
class Scalar(Part):
    """A query as a value."""

    @property
    def is_risky(self):
        return not self.parts[0].has_one_row or super().is_risky

    @property
    def is_headed_alike(self):
        (item, label), *_ = self.parts[0].items
        return bool(label) or item.is_headed_alike


def literal(type, text):
    number = int(text) if type in NUMBERS else 0
    return Part(type, text, most=abs(number), closed=number >= 0, literal=True)


@dataclasses.dataclass(frozen=True)
class Source:
    """An item of FROM: a table, a function, a query, or two that are joined."""

    form: str
    parts: tuple = ()

    def __format__(self, spec):
        text = self.form.format(*self.parts)
        return f"({text})" if spec == "beside" and len(self.parts) > 1 else text

    @property
    def is_risky(self):
        return any(it.is_risky for it in self.parts)

    def queries(self):
        for it in self.parts:
            yield from it.queries()

    def smaller(self):
        yield from (it for it in self.parts if isinstance(it, Source))
        for at, part in enumerate(self.parts):
            for cut in part.smaller():
                yield dataclasses.replace(self, parts=(*self.parts[:at], cut, *self.parts[at + 1 :]))


@dataclasses.dataclass(frozen=True)
class Key:
    """A key of GROUP BY or ORDER BY: an expression, or the place of an item, which may be written as its label."""

    part: Part = None
    place: int = None
    label: str = None
    suffix: str = ""

    def __str__(self):
        return (str(self.part) if self.part else self.label or str(self.place + 1)) + self.suffix

    def without_item(self, at):
        return self if self.place is None or self.place < at else dataclasses.replace(self, place=self.place - 1)


@dataclasses.dataclass(frozen=True)
class Query:
    """A query. Its items are pairs of an expression and a label, which may be None."""

    items: tuple
    sources: tuple = ()
    distinct: bool = False
    where: Part = None
    groups: tuple = ()
    having: Part = None
    order: tuple = ()
    limit: Part = None
    offset: Part = None
    is_grouped: bool = False

    type = None
    literal = False

    def __format__(self, spec):
        words = ["SELECT DISTINCT" if self.distinct else "SELECT"]
        words.append(", ".join(f"{it}" + (f" AS {label}" if label else "") for it, label in self.printed_items()))
        words += ["FROM " + ", ".join(map(format, self.sources))] if self.sources else []
        words += [f"WHERE {self.where!s}"] if self.where else []
        words += ["GROUP BY " + ", ".join(map(str, self.groups))] if self.groups else []
        words += [f"HAVING {self.having!s}"] if self.having else []
        words += ["ORDER BY " + ", ".join(map(str, self.order))] if self.order else []
        words += [f"LIMIT {self.limit!s}"] if self.limit else []
        words += [f"OFFSET {self.offset!s}"] if self.offset else []
        return " ".join(words)

    def __str__(self):
        return format(self, "")

    def printed_items(self):
        return ((str(it), label) for it, label in self.items)

    def expressions(self):
        yield from (it for it, _ in self.items)
        yield from (it.part for it in (*self.groups, *self.order) if it.part)
        yield from (it for it in (self.where, self.having, self.limit, self.offset) if it)
        yield from self.sources

    @property
    def is_risky(self):
        return any(it.is_risky for it in self.expressions())

    def queries(self):
        """This query and those inside it."""
        yield self
        for it in self.expressions():
            yield from it.queries()

    @property
    def is_ordered(self):
        """Whether ORDER BY tells the place of each row."""
        return {it.place for it in self.order} >= set(range(len(self.items)))

    @property
    def has_one_row(self):
        is_aggregate = self.is_grouped and not self.groups
        return is_aggregate or not self.sources or self.limit is not None and str(self.limit) == "1"

    @property
    def is_told(self):
        """Whether its rows follow from the tables, for this query and those inside it."""
        return all(it.is_ordered or not (it.limit or it.offset) for it in self.queries())

    def without_item(self, at):
        kept = {
            name: tuple(it.without_item(at) for it in getattr(self, name) if it.part or it.place != at)
            for name in ("groups", "order")
        }
        return dataclasses.replace(self, items=self.items[:at] + self.items[at + 1 :], **kept)

    def smaller(self):
        cut = lambda **fields: dataclasses.replace(self, **fields)
        for name in ("limit", "offset", "where", "having"):
            if part := getattr(self, name):
                yield cut(**{name: None})
                yield from (cut(**{name: it}) for it in part.smaller())
        if self.distinct:
            yield cut(distinct=False)
        for name in ("groups", "order", "sources"):
            whole = getattr(self, name)
            for at in range(len(whole)):
                yield cut(**{name: whole[:at] + whole[at + 1 :]})
        for at, source in enumerate(self.sources):
            yield from (cut(sources=(*self.sources[:at], it, *self.sources[at + 1 :])) for it in source.smaller())
        for at, (part, label) in enumerate(self.items):
            if len(self.items) > 1:
                yield self.without_item(at)
            for it in part.smaller():
                if label or it.is_headed_alike:
                    yield cut(items=(*self.items[:at], (it, label), *self.items[at + 1 :]))


def is_column(part):
    return part.closed and "." in part.form
