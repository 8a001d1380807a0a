"""Random scripts of commands that define and change tables, of the grammar that plpg reads.

What the server is known to reply to otherwise isn't made (docs/DECISIONS.md, and what stands behind exclamation marks
in tools/definitions.txt and tools/changes.txt): of two mistakes in one command the server may find the other one, so
there is at most one; names of keys, which are relations there; literals of no type in the list of a query that sorts
its rows; queries whose rows have no whole order, as the rows of an INSERT. A query alone in a WHERE of a change has
IS TRUE behind it, so that the server goes over the rows of the target, in their order, and asks it of each.
"""
import dataclasses

from change_trees import DEFAULT, STAR, Ask, Define, Delete, Drop, Element, Insert, Rule, Update
from query_maker import WRONG, Column, Maker, column_of
from query_trees import BIGINT, BOOLEAN, INTEGER, NUMBERS, TEXT, Part, literal

TABLES = ("t", "u", "v")
COLUMNS = ("a", "b", "c", "d")
TYPES = (INTEGER,) * 4 + (BIGINT,) + (TEXT,) * 2 + (BOOLEAN,)
LITERALS = {
    INTEGER: ("0", "1", "1", "2", "2", "3", "4", "5", "6", "7", "-1", "'1'", "' 2 '"),
    BIGINT: ("0", "1", "2", "3", "4", "5", "3000000000", "'1'", "-3000000000"),
    TEXT: ("'a'", "'b'", "'c'", "'d'", "''", "'ab'", "'A'", "'1'", "'é'"),
    BOOLEAN: ("TRUE", "FALSE", "'t'", "'no'"),
}
# What goes into a column of a type by assignment.
ASSIGNED = {INTEGER: (BIGINT,), BIGINT: (INTEGER,), TEXT: (INTEGER, BIGINT, BOOLEAN), BOOLEAN: ()}
NOT_ASSIGNED = {INTEGER: "upper('1')", BIGINT: "1 = 1", BOOLEAN: "1"}  # what doesn't
MOST = {INTEGER: 10**4, BIGINT: 10**13}  # of a column's values, as far as they are known
UNREAD = {INTEGER: "'x'", BIGINT: "''", BOOLEAN: "'maybe'"}
MISTAKES = "more fewer twice name type literal range table part item".split()
CHECKS = ("{} <> 3", "{} >= 0", "{} < 5", "{} IS NOT NULL", "{} < 7 OR {} > 100", "{} BETWEEN -1 AND 6", "10 / {} <> 7")
COMMANDS = ("insert",) * 9 + ("update",) * 6 + ("delete",) * 3 + ("ask",) * 3 + ("define", "drop")


class ChangeMaker(Maker):
    """Makes scripts. It knows the tables that are there as long as the commands before do what they are meant to."""

    def __init__(self, seed):
        super().__init__(seed, [])
        self.required, self.unique = {}, {}  # of each table the columns that have to be given, and those of keys

    def script(self, length):
        self.tables, self.last = [], 0
        first = [self.define(it) for it in TABLES[: self.choose(1, 1, 2)]]
        made = [*first, *(self.first_rows(it.table) for it in first)]
        while len(made) < length:
            made.append(getattr(self, self.choose(COMMANDS))() if self.tables else self.define())
        return made

    # Definitions

    def define(self, table=None):
        table = table or self.choose(TABLES)
        self.wrong = False
        columns = [self.some_column(it) for it in COLUMNS[: self.choose(1, 2, 2, 3, 3, 4)]]
        is_new = table not in dict(self.tables)
        self.tables += [(table, columns)] * is_new
        key = self.some_primary_key(columns)
        rules = {it.name: self.some_rules(table, columns, it, key) for it in columns}
        if is_new:
            self.required[table] = {it for it in rules if is_required(it in key[0], rules[it])}
            self.unique[table] = {it for it in rules if it in key[0] or Rule("UNIQUE") in rules[it]}
        elements = [Element(f"{it.name} {it.type}", rules[it.name]) for it in columns]
        for it in self.rules_of_table(table, columns, key):
            elements.insert(self.choose(range(len(elements) + 1)), Element("", (it,)))
        return Define(table, tuple(elements), self.chance(0.1))

    def some_column(self, name):
        type = self.choose(TYPES)
        return Column(name, type, MOST.get(type, 0))

    def some_primary_key(self, columns):
        """The names of its columns, and whether it is written beside the one that it has."""
        names = [it.name for it in columns]
        self.random.shuffle(names)
        names = tuple(names[: self.choose(0, 0, 1, 1, 1, 2)])
        return names, len(names) == 1 and self.chance(0.7)

    def some_rules(self, table, columns, column, key):
        (names, is_beside), rules = key, []
        if self.chance(0.15):
            rules.append(Rule("NOT NULL"))
        elif self.chance(0.05) and column.name not in names:
            rules.append(Rule("NULL"))
        if self.chance(0.35):
            rules.append(Rule("DEFAULT {}", (self.some_default(column.type),)))
        if self.chance(0.15):
            rules.append(Rule("UNIQUE"))
        if is_beside and names == (column.name,):
            rules.append(Rule("PRIMARY KEY"))
        if self.chance(0.2):
            rules.append(self.some_check(table, columns, column.name))
        self.random.shuffle(rules)
        return tuple(rules)

    def rules_of_table(self, table, columns, key):
        names, is_beside = key
        if names and not is_beside:
            yield Rule(f"PRIMARY KEY ({', '.join(names)})")
        if len(columns) > 1 and self.chance(0.2):
            names = self.random.sample([it.name for it in columns], 2)
            yield Rule(f"UNIQUE ({', '.join(names)})")
        if self.chance(0.15):
            yield self.some_check(table, columns, "z")

    def some_default(self, type):
        if self.chance(0.6):
            return self.some_literal(type)
        return self.fitting(type, lambda it: self.alone(it))

    def fitting(self, type, make):
        """Of the type or of one that goes into it by assignment."""
        made = make(self.choose(ASSIGNED[type]) if ASSIGNED[type] and self.chance(0.2) else type)
        while type in NUMBERS and made.most > NUMBERS[type]:
            made = make(type)
        return made

    def alone(self, type, depth=1):
        """An expression without a column, a query, or a failure."""
        self.levels, self.keys = [], None
        while (made := self.plain(type, depth)).is_risky:
            pass
        return made

    def some_check(self, table, columns, name):
        self.levels, self.keys = [{table: columns}], None
        numbers = [column_of(table, it) for it in columns if it.type in NUMBERS]
        if numbers and self.chance(0.85):
            form = self.choose(CHECKS)
            made = Part(BOOLEAN, form, (self.choose(numbers),) * form.count("{"))
        else:
            while (made := self.plain(BOOLEAN, self.choose(1, 2))).is_risky:
                pass
        # (a name of its own for each column's check, so that none stands twice)
        named = f"CONSTRAINT {self.choose('m', 'y')}{name} " if self.chance(0.4) else ""
        return Rule(named + "CHECK ({:open})", (made,))

    def drop(self):
        table = self.choose(TABLES)
        self.tables = [it for it in self.tables if it[0] != table]
        return Drop(table, self.chance(0.3))

    # Changes

    def target(self):
        """A table with its columns; often the first one, and seldom one that isn't there."""
        absent = [it for it in TABLES if it not in dict(self.tables)]
        if absent and (not self.tables or self.chance(0.03)):
            # (no other mistake than that: of a table that is there the columns are known)
            return self.choose(absent), [Column("a", INTEGER, MOST[INTEGER])]
        return self.tables[0] if self.chance(0.5) else self.choose(self.tables)

    def change(self, make):
        """A change with its RETURNING, and now and then with one mistake."""
        table, columns = self.target()
        alias = self.choose("x", "y") if self.chance(0.12) else ""
        label = alias or table
        self.wrong = False
        made = make(table, alias, label, columns)
        self.levels, self.keys = [{label: columns}], None
        items = self.some_items(label, columns) if self.chance(0.45) else ()
        made = dataclasses.replace(made, items=items)
        return self.with_mistake(made, columns) if self.chance(0.12) else made

    def some_items(self, label, columns):
        if self.chance(0.35):
            return ((STAR, None),)
        items = [self.some_returned(label, columns) for _ in range(self.choose(1, 1, 2, 3))]
        return tuple((it, self.some_label(it, number)) for number, it in enumerate(items))

    def some_returned(self, label, columns):
        column = self.choose(columns)
        if self.chance(0.4):
            return column_of(label, column)
        if self.chance(0.06) and column.type in NUMBERS:
            return Part(column.type, "6 / {}", (column_of(label, column),))
        return self.calm(column.type, self.choose(1, 1, 2))

    def calm(self, type, depth):
        """An expression that seldom may fail."""
        made = self.expression(type, depth)
        while made.is_risky and not self.chance(0.06):
            made = self.expression(type, depth)
        return made

    def some_literal(self, type):
        if self.chance(0.12):
            return Part(type, "NULL", closed=True, literal=True)
        text = self.choose(LITERALS[type])
        return Part(type, text, closed=not text.startswith("-"), literal=True)

    def insert(self):
        return self.change(self.some_insert)

    def first_rows(self, table):
        columns = dict(self.tables)[table]
        rows = [tuple(self.some_value(table, it) for it in columns) for _ in range(self.choose(2, 3, 4, 5))]
        return Insert(table, rows=tuple(rows))

    def some_insert(self, table, alias, label, columns):
        given, required = list(columns), self.required.get(table, ())
        if self.chance(0.35):
            self.random.shuffle(given)
            given = [it for it in given if self.chance(0.95 if it.name in required else 0.6)] or given
            names = tuple(it.name for it in given)
        else:
            names = ()
            while len(given) > 1 and given[-1].name not in required and self.chance(0.1):
                given.pop()
        made = Insert(table, alias, columns=names)
        if not names and self.chance(0.06):
            return made
        if self.chance(0.25):
            return dataclasses.replace(made, query=self.some_source_of_rows(given))
        rows = (tuple(self.some_value(table, it) for it in given) for _ in range(self.choose(1, 1, 1, 2, 2, 3, 4)))
        return dataclasses.replace(made, rows=tuple(rows))

    def some_value(self, table, column):
        self.levels, self.keys = [], None
        is_required = column.name in self.required.get(table, ())
        is_unique = column.name in self.unique.get(table, ())
        if self.chance(0.01 if is_required else 0.04 if is_unique else 0.1):
            return DEFAULT
        if column.type != BOOLEAN and self.chance(0.8 if is_unique else 0.2):
            # (so that not every other row has a key that is there)
            self.last += 1
            return literal(column.type, f"'k{self.last}'" if column.type == TEXT else str(self.last))
        if self.chance(0.7):
            made = self.some_literal(column.type)
            return self.some_literal(column.type) if made.form == "NULL" and is_required else made
        return self.fitting(column.type, lambda it: self.calm(it, self.choose(1, 1, 2)))

    def some_source_of_rows(self, columns):
        """A query whose rows have an order: that of a table, or of ORDER BY."""
        types = [self.choose(ASSIGNED[TEXT]) if it.type == TEXT and self.chance(0.2) else it.type for it in columns]
        while True:
            self.levels, self.keys = [], None
            made = self.some_query(types, 1)
            is_typed = not any(it.literal for it, _ in made.items)
            is_calm = not made.is_risky or self.chance(0.05)
            if made.is_told and is_typed and is_calm and has_order_of_table(made):
                return self.with_literal(made, columns) if self.chance(0.3) else made
            if made.is_told and is_typed and is_calm and made.is_ordered:
                return made

    def with_literal(self, query, columns):
        """A literal alone takes its column's type; on the server it does so only where rows aren't sorted."""
        at = self.choose(range(len(columns)))
        items = (*query.items[:at], (self.some_literal(columns[at].type), None), *query.items[at + 1 :])
        return dataclasses.replace(query, items=items)

    def update(self):
        return self.change(self.some_update)

    def some_update(self, table, alias, label, columns):
        changed = self.random.sample(columns, min(len(columns), self.choose(1, 1, 1, 2)))
        sets = tuple((it.name, self.some_new_value(label, columns, it)) for it in changed)
        return Update(table, alias, sets=sets, where=self.some_where(label, columns))

    def some_new_value(self, label, columns, column):
        self.levels, self.keys = [{label: columns}], None
        if self.chance(0.07):
            return DEFAULT
        if self.chance(0.3):
            return self.some_literal(column.type)
        other = column_of(label, self.choose([it for it in columns if it.type == column.type]))
        if self.chance(0.2):
            return other
        if column.type in NUMBERS and self.chance(0.6):
            form = self.choose("{} + 1", "{} + 1", "{} - 1", "{} * 2", "- {}", "6 / {}", "2 - {}")
            return Part(column.type, form, (other,))
        return self.fitting(column.type, lambda it: self.calm(it, self.choose(1, 1, 2)))

    def some_where(self, label, columns):
        self.levels, self.keys = [{label: columns}], None
        if self.chance(0.25):
            return None
        column = self.choose(columns)
        if self.chance(0.75):
            sign = self.choose("=", "=", "=", "<>", "<>", ">=", ">", "<", "<=")
            value = literal(INTEGER, str(self.choose(range(max(1, self.last)))))
            value = value if column.type in NUMBERS and self.chance(0.6) else self.some_literal(column.type)
            return Part(BOOLEAN, f"{{}} {sign} {{}}", (column_of(label, column), value))
        if self.chance(0.08) and column.type in NUMBERS:
            return Part(BOOLEAN, "6 / {} > 1", (column_of(label, column),))
        made = self.calm(BOOLEAN, 2)
        return Part(BOOLEAN, "{} IS TRUE", (made,)) if list(made.queries()) else made

    def delete(self):
        return self.change(self.some_delete)

    def some_delete(self, table, alias, label, columns):
        return Delete(table, alias, where=self.some_where(label, columns))

    def ask(self):
        if not self.tables or self.chance(0.5):
            return Ask(table=self.target()[0])
        return Ask(query=self.query())

    # Mistakes

    def with_mistake(self, made, columns):
        kind = self.choose(MISTAKES)
        cut = lambda **fields: dataclasses.replace(made, **fields)
        if kind == "table":
            return cut(table="nope", alias="")
        if kind == "item":
            wrong = self.choose(*WRONG, "count(*)", "max(1)")
            return cut(items=(*made.items[:1], (Part(INTEGER, wrong), None)))
        if isinstance(made, Insert) and made.rows:
            return cut(**self.wrong_rows(kind, made, columns))
        if isinstance(made, Update):
            return cut(**self.wrong_sets(kind, made, columns))
        if kind == "part" and isinstance(made, Delete):
            return cut(where=Part(BOOLEAN, f"{self.choose(WRONG)} = 1"))
        return made

    def wrong_rows(self, kind, made, columns):
        *before, row = made.rows
        if kind == "more" and (made.columns or len(row) == len(columns)):
            return {"rows": (*before, (*row, literal(INTEGER, "1")))}
        if kind == "fewer" and len(row) > 1:
            return {"rows": (*before, row[:-1])}
        if kind == "twice":
            return {"columns": (columns[0].name,) * len(row)} if len(row) > 1 else {}
        if kind == "name":
            return {"columns": (*made.columns[:-1], "x")} if made.columns else {}
        names = made.columns or tuple(it.name for it in columns)
        return {"rows": (*before, (self.wrong_value(kind, columns, names[0]), *row[1:]))}

    def wrong_sets(self, kind, made, columns):
        (name, value), *others = made.sets
        if kind == "twice":
            return {"sets": (*made.sets, (name, value))}
        if kind in ("name", "more", "fewer"):
            return {"sets": (("x", value), *others)}
        if kind == "part" and self.chance(0.5):
            return {"where": Part(BOOLEAN, f"{self.choose(WRONG)} = 1")}
        return {"sets": ((name, self.wrong_value(kind, columns, name)), *others)}

    def wrong_value(self, kind, columns, name):
        type = next(it.type for it in columns if it.name == name)
        if kind == "type" and type in NOT_ASSIGNED:
            return Part(type, NOT_ASSIGNED[type])
        if kind == "literal" and type in UNREAD:
            return Part(type, UNREAD[type], fails=True, closed=True, literal=True)
        if kind == "range" and type == INTEGER:
            return Part(INTEGER, self.choose("3000000000", "2147483647 + 1"), fails=True)
        return Part(type, self.choose(WRONG))


def has_order_of_table(query):
    """Whether its rows come as those of one table do."""
    is_cut = query.is_grouped or query.distinct or query.order or query.limit or query.offset
    has_table = len(query.sources) <= 1 and not any(it.parts for it in query.sources)
    return has_table and not is_cut and not (query.where and list(query.where.queries()))


def is_required(is_of_key, rules):
    """Whether a column has no null and no default."""
    forms = [it.form for it in rules]
    return (is_of_key or "NOT NULL" in forms) and "DEFAULT {}" not in forms
