"""Random scripts of bodies, calls and sessions, as trees.

What the server is known to do otherwise isn't made (docs/DECISIONS.md): a call or a division beside a constant, which
it computes first; ROW_COUNT anywhere but right behind the statement that sets it; SELECT INTO by a call over rows that
come in the order of a key, where it stops at the first; RETURNING INTO of more than two rows.
"""
import dataclasses
import random

import body_trees as tree
from body_trees import Calculation, Comparison, Number, Variable

SIGNS = ("<", "=", ">", "<>")
LABELS = ("a", "b", "c")
CONDITIONS = ("others", "others", "division_by_zero", "unique_violation", "raise_exception", "data_exception")
CONDITIONS += ("no_data_found", "too_many_rows", "assert_failure", "case_not_found", "null_value_not_allowed")
CONDITIONS += ("plpgsql_error", "integrity_constraint_violation", "AB123", "AB000", "P0001")
COUNTING = (tree.Insert, tree.Update, tree.Delete, tree.Perform, tree.SelectInto)
SIMPLE = "assign assign assign notice notice notice perform select insert insert change change".split()
SIMPLE += "error handled jump jump leave transaction".split()
NESTED = "some_if some_case loop loop loop block block block".split()
CONTROLS = ("BEGIN", "BEGIN", "SAVEPOINT", "SAVEPOINT", "ROLLBACK TO", "RELEASE", "COMMIT", "ROLLBACK")


@dataclasses.dataclass(frozen=True)
class Place:
    """Where a statement stands: the names of integers in each block around, the loops and blocks that a jump may name,
    how deep more may be nested, and in which kind of routine."""

    kind: str
    deep: int
    blocks: tuple = ()  # pairs of a label and names
    jumps: tuple = ()  # pairs of a label and whether it is a loop's
    in_handler: bool = False

    @property
    def names(self):
        return [name for _, names in self.blocks for name in names]

    def inside(self, label, names, is_loop=None):
        jumps = self.jumps if is_loop is None else ((label, is_loop), *self.jumps)
        return dataclasses.replace(self, blocks=(*self.blocks, (label, names)), jumps=jumps)


class BodyMaker:
    simple, conditions = SIMPLE, CONDITIONS
    handled = 0.25  # how likely the outermost block of a routine has each handler

    def __init__(self, seed, has_sessions=True):
        self.random, self.functions, self.procedures, self.counters = random.Random(seed), [], [], 0
        self.has_sessions = has_sessions

    def choose(self, *items):
        return self.random.choice(items)

    def chance(self, likely):
        return self.random.random() < likely

    def some(self, least, most):
        return range(self.random.randint(least, most))

    # expressions

    def variable(self, place):
        if self.chance(0.15):
            found = [(name, label) for label, names in place.blocks if label for name in names]
            found = [it for it in found if self.is_plain(place, *it)]
            if found:
                return Variable(*self.choose(*found))
        return Variable(self.choose(*place.names)) if place.names else Number(self.random.randint(0, 4))

    @staticmethod
    def is_plain(place, name, label):
        """The name behind the label means an integer: no loop and no handler has something else of that label."""
        return sum(it == label for it, _ in place.blocks) == 1

    def safe(self, place, deep=1):
        """Nothing in it is called, divided or sought."""
        if deep and self.chance(0.5):
            return Calculation(self.choose("+", "-", "*"), self.safe(place, 0), self.safe(place, 0))
        return self.variable(place) if self.chance(0.6) else Number(self.random.randint(-1, 5))

    def number(self, place, deep=2):
        kind = self.random.random()
        if not deep or kind < 0.5:
            return self.safe(place, 0)
        if kind < 0.72:
            return Calculation(self.choose("+", "-", "*"), self.number(place, deep - 1), self.number(place, deep - 1))
        if kind < 0.8:
            by = self.variable(place) if self.chance(0.6) else Number(self.random.randint(1, 3))
            return Calculation(self.choose("/", "%"), self.variable(place), by)
        if kind < 0.9:
            return self.call(place) or self.variable(place)
        return tree.Total(self.choose("count", "sum", "min", "max"), self.where(place))

    def call(self, place):
        if not self.functions:
            return None
        function = self.choose(*self.functions)
        return tree.Call(function.name, tuple(self.safe(place) for _ in function.parameters))

    def given(self, place, likely=0.3):
        """A number that may come from a call."""
        return (self.call(place) if self.chance(likely) else None) or self.safe(place)

    def where(self, place, table=None, may_call=False):
        number = self.given(place, 0.35 if may_call else 0)
        return tree.Where(table or self.choose("t", "u"), self.choose(*SIGNS), number)

    def condition(self, place, deep=2):
        kind = self.random.random()
        if not deep or kind < 0.6:
            return Comparison(self.choose(*SIGNS), self.number(place, 1), self.number(place, 1))
        if kind < 0.7:
            return tree.Junction(self.chance(0.5), self.comparison(place), self.comparison(place))
        if kind < 0.75:
            return tree.Not(self.condition(place, deep - 1))
        if kind < 0.82:
            return tree.IsNull(self.variable(place))
        if kind < 0.9:
            return Variable("found")
        return tree.Truth(self.chance(0.5)) if kind < 0.94 else tree.Exists(self.where(place))

    def comparison(self, place):
        return Comparison(self.choose(*SIGNS), self.safe(place), self.safe(place))

    # statements

    def statements(self, place, least=1, most=4):
        made = []
        for _ in self.some(least, most):
            made.append(self.statement(place))
            if isinstance(made[-1], COUNTING) and place.names and self.chance(0.3):
                made.append(tree.RowCount(self.target(place)))
        return tuple(made)

    def target(self, place):
        return Variable(self.choose(*place.names))

    def statement(self, place):
        if place.deep and self.chance(0.34):
            inner = dataclasses.replace(place, deep=place.deep - 1)
            return getattr(self, self.choose(*NESTED))(inner)
        return getattr(self, f"some_{self.choose(*self.simple)}")(place) or self.some_notice(place)

    def some_assign(self, place):
        return tree.Assign(self.target(place), self.number(place)) if place.names else None

    def some_notice(self, place):
        parts = [self.variable(place) for _ in self.some(1, 3)]
        parts += [Variable("found")] * self.chance(0.5)
        if place.in_handler:
            parts += [Variable("sqlstate")] * self.chance(0.5)
        return tree.Notice(tuple(parts))

    def some_perform(self, place):
        call = self.call(place) if self.chance(0.5) else None
        return tree.Perform(call=call) if call else tree.Perform(where=self.where(place, may_call=True))

    def some_select(self, place):
        if not place.names:
            return None
        table = self.choose("t", "u")
        targets = tuple(self.target(place) for _ in self.some(1, 3))
        where = self.where(place, table, may_call=table == "t")
        return tree.SelectInto(self.chance(0.4), where, self.choose("", " DESC"), targets)

    def some_insert(self, place):
        target = self.target(place) if place.names and self.chance(0.3) else None
        numbers = tuple(self.given(place) for _ in self.some(1, 2 if target else 3))
        return tree.Insert(self.choose("t", "u", "u"), numbers, target)

    def some_change(self, place):
        if self.chance(0.4):
            return tree.Update(self.safe(place), self.where(place, "t"))
        return tree.Delete(self.where(place, "t") if self.chance(0.5) else self.where(place, "u", may_call=True))

    def some_error(self, place):
        condition = self.choose(None, None, "division_by_zero", "AB123", "unique_violation")
        if self.chance(0.3):
            return tree.Assert(self.condition(place, 1))
        return tree.Raise(condition) if condition else tree.Raise(number=self.variable(place))

    def some_handled(self, place):
        if not place.in_handler:
            return tree.RaiseAgain() if self.chance(0.1) else tree.Null()
        return tree.RaiseAgain() if self.chance(0.4) else tree.Stacked(Variable("st"))

    def some_jump(self, place):
        jumps = list(place.jumps)
        # behind a label the innermost that has it is meant
        named = {label: is_loop for label, is_loop in reversed(jumps) if label}
        ways = [("exit", label) for label in named]
        ways += [("continue", label) for label, is_loop in named.items() if is_loop]
        ways += [("exit", None), ("continue", None)] * any(is_loop for _, is_loop in jumps)
        if not ways:
            return None
        kind, label = self.choose(*ways)
        return tree.Jump(kind, label, self.condition(place, 1) if self.chance(0.7) else None)

    def some_leave(self, place):
        if place.kind == "function":
            return tree.Return(self.number(place))
        return tree.Return() if self.chance(0.3) else None

    def some_transaction(self, place):
        if self.procedures and self.chance(0.5):
            procedure = self.choose(*self.procedures)
            return tree.CallProcedure(tree.Call(procedure.name, tuple(self.safe(place) for _ in procedure.parameters)))
        return None if place.kind == "function" else self.choose(tree.Commit(), tree.Rollback())

    # statements that hold others

    def some_if(self, place):
        branches = tuple((self.condition(place), self.statements(place)) for _ in self.some(1, 2))
        return tree.If(branches, self.statements(place) if self.chance(0.5) else None)

    def some_case(self, place):
        arms = tuple(self.arm(place) for _ in self.some(1, 2))
        return tree.Case(self.number(place, 1), arms, self.statements(place) if self.chance(0.6) else None)

    def arm(self, place):
        return tuple(self.number(place, 1) for _ in self.some(1, 2)), self.statements(place)

    def label(self):
        return self.choose(*LABELS) if self.chance(0.45) else None

    def loop(self, place):
        label = self.label()
        if self.chance(0.4):
            return self.counted_loop(place, label)
        name = self.choose("i", "j", "x")
        first = self.number(place, 1) if self.chance(0.3) else Number(self.random.randint(0, 3))
        last = self.number(place, 1) if self.chance(0.3) else Number(self.random.randint(0, 4))
        step = self.number(place, 0) if self.chance(0.2) else None
        inner = place.inside(label, (name,), is_loop=True)
        return tree.For(label, name, self.chance(0.3), first, last, step, self.statements(inner))

    def counted_loop(self, place, label):
        """LOOP or WHILE, in a block with a variable that ends it."""
        self.counters += 1
        counter = Variable(f"c{self.counters}")
        inner = place.inside(label, (), is_loop=True)
        begins = [tree.Assign(counter, Calculation("+", counter, Number(1)))]
        condition = tree.Junction(False, Comparison("<", counter, Number(3)), self.comparison(place))
        if self.chance(0.5):
            begins.append(tree.Jump("exit", None, Comparison(">", counter, Number(self.random.randint(1, 3)))))
            condition = None
        loop = tree.Loop(label, condition, (*begins, *self.statements(inner)))
        return tree.Block(None, (tree.Declared(counter.name, "integer", value=Number(0)),), (loop,))

    def block(self, place):
        label, declared, names = self.label(), [], []
        for name in self.random.sample(("x", "y", "z", "i"), self.random.randint(0, 2)):
            is_required = self.chance(0.15)
            value = self.number(place.inside(label, tuple(names)), 1) if is_required or self.chance(0.7) else None
            declared.append(tree.Declared(name, "integer", is_required, value))
            names.append(name)
        inner = place.inside(label, tuple(names), is_loop=False)
        return tree.Block(label, tuple(declared), self.statements(inner), self.handlers(inner, label, 0.65))

    def handlers(self, place, label, likely):
        place = dataclasses.replace(place.inside(label, ()), in_handler=True)
        return tuple(
            tree.Handler(tuple(self.choose(*self.conditions) for _ in self.some(1, 2)), self.statements(place))
            for _ in self.some(1, 3) if self.chance(likely)
        )

    # routines and scripts

    def routine(self, name, kind, deep):
        parameters = () if kind == "do" else tuple("pq"[: self.random.randint(0, 2)])
        place, label = Place(kind, deep, ((name, parameters),)), self.label()
        first = self.number(place, 1)
        inner = place.inside(label, ("x", "y"), is_loop=False)
        second = Number(self.random.randint(0, 3)) if self.chance(0.7) else None
        declared = (tree.Declared("x", "integer", value=first), tree.Declared("y", "integer", value=second))
        statements = self.statements(inner, 2, 5)
        if kind == "function" and self.chance(0.9):
            statements += (tree.Return(self.number(inner)),)
        handlers = self.handlers(inner, label, self.handled)
        block = tree.Block(label, (*declared, tree.Declared("st", "text")), statements, handlers)
        return tree.Routine(name, parameters, "integer" if kind == "function" else None, block)

    def script(self):
        made = []
        for at in self.some(0, 3):
            kind = self.choose("function", "function", "procedure") if self.has_sessions else "function"
            made.append(self.routine(f"{kind[0]}{at}", kind, 2))
            (self.functions if kind == "function" else self.procedures).append(made[-1])
        made.append(tree.Insert("t", tuple(Number(self.random.randint(0, 4)) for _ in range(3))))
        made.append(tree.Insert("u", tuple(map(Number, self.random.sample(range(5), 2)))))
        made += [self.command() for _ in self.some(1, 5)]
        if self.has_sessions:
            made.append(tree.Control(self.choose("COMMIT", "ROLLBACK")))
        return [*made, tree.Rows("t"), tree.Rows("u")]

    def command(self):
        if not self.has_sessions or self.chance(0.6):
            return self.routine("", "do", 4)
        if self.procedures and self.chance(0.2):
            procedure = self.choose(*self.procedures)
            return tree.CallProcedure(tree.Call(procedure.name, tuple(Number(2) for _ in procedure.parameters)))
        words = self.choose(*CONTROLS)
        return tree.Control(words, self.choose("s", "r") if words in ("SAVEPOINT", "ROLLBACK TO", "RELEASE") else None)
