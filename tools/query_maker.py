"""Random queries of the grammar that plpg reads.

What the server is known to reply to otherwise isn't made (docs/DECISIONS.md): literals alone as an operand of IN and
of BETWEEN, casts to the own type, keys that are the front of a chain, constants as keys, one query in brackets of its
own behind IN, aggregates over columns of outer queries alone, a query that repeats a key, and LIMIT of rows that have
no whole order.
"""
import dataclasses
import random

from query_trees import BIGINT, BOOLEAN, INTEGER, LITERALS, NUMBERS, TEXT, TYPED, TYPES
from query_trees import Key, Part, Query, Scalar, Source, literal

ROWS = 10**6  # no query here has more rows
LONGEST = 500  # bytes of a query
ALIASES = [f"{it}{number}" for number in ("", 1, 2, 3) for it in "abxyzpqr"]
COMPARISONS = ("=", "<>", "<", ">", "<=", ">=")
SUFFIXES = ("", "", " DESC", " NULLS FIRST", " DESC NULLS LAST")
CONDITIONS = "compare compare compare and and or or not in in_query in_query between like null truth distinct exists"
CONDITIONS = (CONDITIONS + " exists row rows cast").split()
LIMITS = ("0", "1", "2", "2", "3", "4", "5", "NULL", "1 + 1")
OFFSETS = ("0", "1", "1", "2", "NULL")
WRONG = ("nope", "no.c", "nope(1)", "(SELECT 1, 2)")


@dataclasses.dataclass(frozen=True)
class Column:
    name: str
    type: str
    most: int


class Maker:
    """Makes queries over these tables, each given by its name and its columns."""

    def __init__(self, seed, tables):
        self.random, self.tables = random.Random(seed), tables
        self.levels = []  # of each query around, the columns of its FROM items by their names
        self.keys = None  # of the innermost query the keys of its groups, where it is grouped
        self.wrong = False  # one thing of the query isn't to be right

    def query(self):
        while True:
            self.levels, self.keys, self.wrong = [], None, self.chance(0.12)
            types = [self.choose(TYPES) for _ in range(self.choose((1, 1, 2, 3)))]
            made = self.some_query(types, self.choose((1, 2, 2, 3)))
            if len(str(made)) <= LONGEST:
                return made

    # Choices

    def chance(self, share):
        return self.random.random() < share

    def choose(self, *among):
        return self.random.choice(among[0] if len(among) == 1 else among)

    # Queries

    def some_query(self, types, depth, labels=None, is_scalar=False):
        outer, self.keys = (self.levels, self.keys), None
        self.levels = self.levels_seen(outer[1])
        sources, columns = self.some_from(depth) if self.chance(0.93) else ((), {})
        self.levels.append(columns)
        where = self.some_condition(columns, depth) if self.chance(0.35) else None
        items, groups, is_grouped = [], (), self.chance(0.6 if is_scalar else 0.35)
        if is_grouped:
            groups = self.some_groups(columns, 0 if is_scalar and self.chance(0.8) else self.choose(0, 1, 1, 2))
            if groups and self.chance(0.2) and may_be_key(item := self.some_item(types[0], 1)):
                items, groups = [item], (*groups, Key(item, place=0))
            self.keys = [it.part for it in groups]
        items += [self.some_item(it, depth) for it in types[len(items) :]]
        if is_grouped and not groups and not any(has_aggregate(it) for it in items):
            items[0] = self.aggregate(types[0], 1)
        having = self.expression(BOOLEAN, min(depth, 2)) if is_grouped and self.chance(0.25) else None
        labels = labels or [self.some_label(it, number) for number, it in enumerate(items)]
        groups = tuple(it if it.place is None else self.key_of_item(0, labels) for it in groups)
        made = Query(tuple(zip(items, labels)), sources, self.chance(0.15), where, groups, having)
        made = self.ordered(dataclasses.replace(made, is_grouped=is_grouped), labels, depth, is_scalar)
        self.levels, self.keys = outer
        return made

    def levels_seen(self, keys):
        """What a query inside sees: of a grouped query around it the keys alone that are columns."""
        if keys is None:
            return list(self.levels)
        *outer, level = self.levels
        kept = {str(it) for it in keys}
        return [*outer, {name: [it for it in of if f"{name}.{it.name}" in kept] for name, of in level.items()}]

    def some_item(self, type, depth):
        made = self.expression(type, depth)
        return typed(type) if made.form == "NULL" else made

    def some_label(self, item, number):
        return f"k{number}" if not item.is_headed_alike or self.chance(0.2) else None

    def key_of_item(self, place, labels, suffix=""):
        label = labels[place] if labels[place] and labels[place].startswith("k") and self.chance(0.5) else None
        return Key(place=place, label=label, suffix=suffix)

    def some_groups(self, columns, count):
        own = [column_of(name, it) for name, of in columns.items() for it in of]
        return tuple(Key(self.some_key(self.choose(own))) for _ in range(count if own else 0))

    def some_key(self, column):
        if column.type not in NUMBERS or self.chance(0.6):
            return column
        forms = ("{} % 2", column.type), ("{}::text", TEXT), ("{} IS NULL", BOOLEAN), ("{} > 1", BOOLEAN)
        form, type = self.choose(forms)
        return Part(type, form, (column,), most=1)

    def ordered(self, made, labels, depth, is_scalar):
        """The query with ORDER BY, LIMIT and OFFSET, or without."""
        if not (is_scalar and not made.has_one_row) and self.chance(0.5):
            return made
        if not is_scalar and not made.distinct and self.chance(0.3):
            keys = (self.expression(self.choose(TYPES), min(depth, 1)) for _ in range(self.choose(1, 2)))
            keys = (Key(it, suffix=self.choose(SUFFIXES)) for it in keys if may_be_key(it))
            return dataclasses.replace(made, order=tuple(keys))
        places = list(range(len(made.items)))
        self.random.shuffle(places)
        order = tuple(self.key_of_item(it, labels, self.choose(SUFFIXES)) for it in places)
        limit = literal(INTEGER, "1") if is_scalar and self.chance(0.9) else self.some_count(0.4, LIMITS)
        return dataclasses.replace(made, order=order, limit=limit, offset=self.some_count(0.2, OFFSETS))

    def some_count(self, share, counts):
        if not self.chance(share):
            return None
        return Part(BIGINT, self.choose(*counts, f"(SELECT count(*) FROM {self.choose(self.tables)[0]})"))

    # FROM

    def some_from(self, depth):
        columns, sources = {}, []
        for _ in range(self.choose(1, 1, 1, 2)):
            source, seen = self.some_joined(depth, columns)
            sources.append(source)
            columns = {**columns, **seen}
        return tuple(sources), columns

    def some_joined(self, depth, taken):
        source, seen = self.some_source(depth, taken)
        for _ in range(self.choose((0, 0, 1, 1, 2) if depth > 1 else (0, 0, 0, 1))):
            some = self.some_joined if depth > 1 and self.chance(0.15) else self.some_source
            beside, more = some(depth - 1, {**taken, **seen})
            seen = {**seen, **more}
            if self.chance(0.15):
                source = Source("{} CROSS JOIN {:beside}", (source, beside))
            else:
                self.levels.append(seen)
                form = self.choose("{} JOIN {:beside} ON {:open}", "{} LEFT JOIN {:beside} ON {:open}")
                source = Source(form, (source, beside, self.some_condition(seen, depth)))
                self.levels.pop()
        return source, seen

    def some_condition(self, seen, depth):
        """Of ON or WHERE: often one of numbers, that is true of some rows."""
        numbers = [f"{name}.{it.name}" for name, of in seen.items() for it in of if it.type in NUMBERS]
        if numbers and self.chance(0.6):
            other = self.choose(*numbers, *numbers, "0", "1", "3")
            return Part(BOOLEAN, f"{self.choose(numbers)} {self.choose(COMPARISONS)} {other}")
        return self.expression(BOOLEAN, min(depth, 2))

    def some_source(self, depth, taken):
        outer = [] if self.chance(0.1) else [it for level in self.levels for it in level]
        name = self.choose([it for it in ALIASES if it not in taken and it not in outer])
        table, columns = self.choose(self.tables)
        if depth <= 0 or self.chance(0.8):
            return Source(f"{table} {name}"), {name: columns}
        if self.chance(0.1):
            text, type = self.choose(("abs(-5)", INTEGER), ("length('ab')", INTEGER), ("upper('a')", TEXT))
            return Source(f"{text} {name}"), {name: [Column(name, type, 5)]}
        types = [self.choose(TYPES) for _ in range(self.choose(1, 2))]
        names = [f"{self.choose('c', 'd', 'n')}{number}" for number, _ in enumerate(types)]
        made = self.some_query(types, depth - 1, names)
        columns = [Column(it, part.type, part.most) for it, (part, _) in zip(names, made.items)]
        return Source("({}) " + name, (made,)), {name: columns}

    # Expressions

    def expression(self, type, depth):
        if self.wrong and self.chance(0.02):
            self.wrong = False
            if self.chance(0.5):
                return Part(type, self.choose(WRONG))
            return dataclasses.replace(self.expression(self.choose(TYPES), depth), type=type, fails=True)
        if depth <= 0 or self.chance(0.2):
            return self.leaf(type)
        if self.keys is not None and self.chance(0.35):
            return self.aggregate(type, depth)
        of_all = (self.case, self.simple_case, self.coalesce, self.nullif, self.greatest, self.scalar)
        of_type = {INTEGER: self.number, BIGINT: self.number, TEXT: self.text, BOOLEAN: self.boolean}[type]
        return self.choose((*of_all, *[of_type] * 9))(type, depth)

    def leaf(self, type):
        if self.chance(0.06):
            return Part(type, "NULL", closed=True, literal=True)
        return literal(type, self.choose(LITERALS[type])) if self.chance(0.18) else self.column(type)

    def column(self, type):
        """A column of this type, a near one more often, or what stands for it where there is none."""
        found = []
        for distance, level in enumerate(reversed(self.levels)):
            if distance == 0 and self.keys is not None:
                found += [it for it in self.keys if it.type == type] * 4
                continue
            names = [it.name for of in level.values() for it in of]
            for name, columns in level.items():
                for it in columns:
                    is_bare = distance == 0 and names.count(it.name) == 1 and self.chance(0.2)
                    part = column_of(name, it)
                    part = dataclasses.replace(part, form=it.name) if is_bare else part
                    found += [part] * (4 if distance == 0 else 1) if it.type == type else []
        if found:
            return self.choose(found)
        if self.keys is not None and self.chance(0.8):
            return self.aggregate(type, 0)
        if type == INTEGER or self.chance(0.3):
            return typed(type)
        number = self.column(INTEGER)
        if number == typed(INTEGER):
            return typed(type)
        form = {BIGINT: "{}::bigint", TEXT: "{}::text", BOOLEAN: "{} > 0"}[type]
        return Part(type, form, (number,), most=number.most)

    def known(self, type, depth):
        """No literal alone."""
        made = self.expression(type, depth)
        return self.column(type) if made.literal else made

    def aggregate(self, type, depth):
        """An aggregate over columns of the innermost query alone."""
        outer, self.keys = (self.levels, self.keys), None
        self.levels = self.levels[-1:] if self.levels and self.levels[-1] else []
        made = self.some_aggregate(type, min(depth, 2))
        self.levels, self.keys = outer
        return made

    def some_aggregate(self, type, depth):
        if type == BIGINT:
            forms = ("count(*)", None), ("count({:open})", TEXT), ("sum({:open})", INTEGER), ("max({:open})", BIGINT)
            form, of = self.choose(forms)
            parts = () if of is None else (self.plain(of, depth),)
            return Part(type, form, parts, most=ROWS * max(1, most_of(parts)), closed=True)
        forms = {
            INTEGER: ("min({:open})", "max({:open})"),
            TEXT: ("min({:open})", "max({:open})", "string_agg(CASE WHEN {:open} THEN 'x' END, ',')"),
            BOOLEAN: ("bool_and({:open})", "bool_or({:open})"),
        }
        form = self.choose(forms[type])
        part = self.plain(BOOLEAN if form.startswith("string") else type, depth)
        return Part(type, form, (part,), most=part.most, closed=True)

    def plain(self, type, depth):
        """Without a query inside."""
        while list((made := self.expression(type, depth)).queries()):
            pass
        return typed(type) if made.form == "NULL" else made

    def case(self, type, depth):
        form, parts = "CASE WHEN {:open} THEN {:open}", [self.expression(BOOLEAN, depth - 1), self.known(type, depth - 1)]
        if self.chance(0.3):
            parts += [self.expression(BOOLEAN, depth - 1), self.expression(type, depth - 1)]
            form += " WHEN {:open} THEN {:open}"
        if self.chance(0.6):
            parts.append(self.expression(type, depth - 1))
            form += " ELSE {:open}"
        return Part(type, form + " END", tuple(parts), most=most_of(parts), closed=True, known=(1,))

    def simple_case(self, type, depth):
        of = self.choose(TYPES)
        parts = [self.known(it, depth - 1) for it in (of, of, type)] + [self.expression(type, depth - 1)]
        form = "CASE {:open} WHEN {:open} THEN {:open} ELSE {:open} END"
        return Part(type, form, tuple(parts), most=most_of(parts), closed=True, known=(0, 1, 2))

    def one_of_two(self, type, depth, form):
        parts = (self.known(type, depth - 1), self.expression(type, depth - 1))
        return Part(type, form, parts, most=most_of(parts), closed=True, known=(0,))

    def coalesce(self, type, depth):
        return self.one_of_two(type, depth, "coalesce({:open}, {:open})")

    def nullif(self, type, depth):
        return self.one_of_two(type, depth, "nullif({:open}, {:open})")

    def greatest(self, type, depth):
        return self.one_of_two(type, depth, self.choose("greatest({:open}, {:open})", "least({:open}, {:open})"))

    def scalar(self, type, depth):
        made = self.some_query([type], depth - 1, is_scalar=True)
        return Scalar(type, "({})", (made,), most=made.items[0][0].most, closed=True)

    # Of one type

    def calculated(self, type, form, *parts, most, fails=False):
        return Part(type, form, parts, most=most, fails=fails or most > NUMBERS[type], known=(0,))

    def number(self, type, depth):
        one = self.known(type, depth - 1)
        kind = self.choose("add", "add", "multiply", "divide", "divide_by", "sign", "function", "cast", "text")
        if kind in ("add", "multiply"):
            other = self.expression(self.choose(INTEGER, type), depth - 1)
            if kind == "multiply":
                return self.calculated(type, "{} * {}", one, other, most=one.most * other.most)
            return self.calculated(type, self.choose("{} + {}", "{} - {}"), one, other, most=one.most + other.most)
        if kind == "divide":
            form = self.choose("{} / ", "{} % ") + self.choose("2", "3", "-2")
            return self.calculated(type, form, one, most=one.most)
        if kind == "divide_by":
            form, other = self.choose("{} / {}", "{} % {}"), self.expression(type, depth - 1)
            return self.calculated(type, form, one, other, most=one.most + 1, fails=True)
        if kind == "sign":
            return self.calculated(type, self.choose("- {}", "- {}", "+ {}"), one, most=one.most + 1)
        if kind == "function":
            form = self.choose("abs({:open})", "mod({:open}, 3)")
            return dataclasses.replace(self.calculated(type, form, one, most=one.most + 1), closed=True)
        if type == BIGINT:
            part = self.known(INTEGER, depth - 1)
            return Part(BIGINT, "{}::bigint", (part,), most=part.most, known=(0,))
        if kind == "cast":
            forms = ("({}::text)::integer", INTEGER), ("{}::integer", BOOLEAN), ("{}::integer", BIGINT)
            form, of = self.choose(forms)
            part = self.known(of, depth - 1)
            most = part.most if of in NUMBERS else 1
            return Part(INTEGER, form, (part,), most=most, fails=most > NUMBERS[INTEGER], known=(0,))
        form = self.choose("length({:open})", "strpos({:open}, {:open})")
        parts = tuple(self.expression(TEXT, depth - 1) for _ in range(form.count("{")))
        return Part(INTEGER, form, parts, most=ROWS, closed=True)

    def text(self, type, depth):
        one = self.known(TEXT, depth - 1)
        kind = self.choose("join", "join", "cast", "change", "part", "replace", "repeat")
        if kind == "join":
            other = self.expression(self.choose(TYPES), depth - 1)
            parts, known = self.choose(((one, other), 0), ((one, other), 0), ((other, one), 1))
            return Part(TEXT, "{} || {}", parts, known=(known,))
        if kind == "cast":
            return Part(TEXT, "{}::text", (self.known(self.choose(INTEGER, BIGINT, BOOLEAN), depth - 1),), known=(0,))
        if kind == "change":
            form = self.choose("upper({:open})", "lower({:open})", "btrim({:open})")
            return Part(TEXT, form, (one,), closed=True)
        if kind == "part":
            form = self.choose("substr({:open}, {:open})", "substr({:open}, {:open}, 2)")
            return Part(TEXT, form, (one, self.expression(INTEGER, depth - 1)), closed=True)
        if kind == "replace":
            parts = (one, self.expression(TEXT, depth - 1), self.expression(TEXT, depth - 1))
            return Part(TEXT, "replace({:open}, {:open}, {:open})", parts, closed=True)
        return Part(TEXT, "repeat({:open}, " + self.choose("2", "0", "-1") + ")", (one,), closed=True)

    def boolean(self, type, depth):
        kind = self.choose(CONDITIONS)
        if kind in ("and", "or", "not", "truth"):
            return self.of_conditions(kind, depth)
        of, no = self.choose(TYPES), self.choose("", "NOT ")
        one, other = self.known(of, depth - 1), self.expression(of, depth - 1)
        if kind == "compare":
            if of in NUMBERS and self.chance(0.1):
                other = Part(of, "'1'", closed=True, literal=True)
            return Part(BOOLEAN, "{} " + self.choose(COMPARISONS) + " {}", (one, other), known=(0,))
        if kind == "in":
            # (one query in its own brackets would be what IN looks through there)
            more = max(self.choose(0, 1, 2), isinstance(other, Scalar))
            parts = (one, other, *[self.expression(of, depth - 1) for _ in range(more)])
            return Part(BOOLEAN, f"{{}} {no}IN ({', '.join(['{:open}'] * (len(parts) - 1))})", parts, known=(0,))
        if kind == "in_query":
            return Part(BOOLEAN, f"{{}} {no}IN ({{}})", (one, self.some_query([of], depth - 1)), known=(0,))
        if kind == "exists":
            return Part(BOOLEAN, f"{no}EXISTS ({{}})", (self.some_query([of], depth - 1),))
        if kind == "between":
            parts = (one, other, self.expression(of, depth - 1))
            return Part(BOOLEAN, f"{{}} {no}BETWEEN {{}} AND {{}}", parts, known=(0,))
        if kind == "like":
            pattern = Part(TEXT, self.choose("'a%'", "'%b'", "'_'", "'%1%'", "''"), closed=True)
            return Part(BOOLEAN, f"{{}} {no}LIKE {{}}", (self.known(TEXT, depth - 1), pattern), known=(0,))
        if kind == "distinct":
            return Part(BOOLEAN, f"{{}} IS {no}DISTINCT FROM {{}}", (one, other), known=(0,))
        if kind == "row":
            return Part(BOOLEAN, f"ROW({{:open}}, {{:open}}) IS {no}NULL", (one, self.known(BOOLEAN, depth - 1)))
        if kind == "rows":
            self.wrong = False  # (fields that can't be compared fail here when they are)
            parts = tuple(self.known(it, depth - 1) for it in (of, TEXT, of, TEXT))
            form = f"ROW({{:open}}, {{:open}}) IS {no}DISTINCT FROM ROW({{:open}}, {{:open}})"
            return Part(BOOLEAN, form, parts, known=(0, 1, 2, 3))
        if kind == "cast":
            return Part(BOOLEAN, "{}::boolean", (self.known(INTEGER, depth - 1),), known=(0,))
        return Part(BOOLEAN, f"{{}} IS {no}NULL", (one,))

    def of_conditions(self, kind, depth):
        if kind in ("and", "or"):
            parts = tuple(self.expression(BOOLEAN, depth - 1) for _ in range(self.choose(2, 2, 3)))
            return Part(BOOLEAN, f" {kind.upper()} ".join(["{}"] * len(parts)), parts)
        tests = [f"{{}} IS {no}{it}" for no in ("", "NOT ") for it in ("TRUE", "FALSE", "UNKNOWN")]
        form = self.choose(("NOT {}", "NOT NOT {}") if kind == "not" else tests)
        return Part(BOOLEAN, form, (self.expression(BOOLEAN, depth - 1),))


def column_of(name, column):
    return Part(column.type, f"{name}.{column.name}", most=column.most, closed=True)


def typed(type):
    return Part(type, TYPED[type], most=2)


def most_of(parts):
    return max((it.most for it in parts), default=1)


def may_be_key(part):
    """Whether it is no constant, no chain of AND or OR, which the server joins to a longer one, and has no query,
    which would be another one where it stands a second time."""
    is_chain = " AND {}" in part.form or " OR {}" in part.form
    return any(it in str(part) for it in ".(") and not is_chain and not list(part.queries())


def has_aggregate(part):
    words = ("count(", "sum(", "min(", "max(", "bool_and(", "bool_or(", "string_agg(")
    return part.form.startswith(words) or any(has_aggregate(it) for it in part.parts if isinstance(it, Part))
