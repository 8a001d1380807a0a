"""Bodies as trees that can be written, and what each does by the definitions of crates/pl_world, said once more.

The tables are t with a column v, and u with a key k, of integers. `value` and `does` work on a World (body_world.py). A
statement ends with an Outcome, and an error of an evaluation is a Failure.
"""
import dataclasses
import operator

from body_world import BIGINT, INTEGER, NEXT, Failure, Int, Outcome, code_of, number_of, quotient, text_of

COLUMNS = {"t": "v", "u": "k"}
COMPARED = {"<": operator.lt, "=": operator.eq, ">": operator.gt, "<>": operator.ne}
CALCULATED = {"+": operator.add, "-": operator.sub, "*": operator.mul, "/": quotient}
CALCULATED["%"] = lambda x, y: x - quotient(x, y) * y
LEAST_OR_MOST = {"min": min, "max": max}


def spaced(parts):
    return " ".join(map(str, parts))


def listed(parts):
    return ", ".join(map(str, parts))


def labelled(label):
    return f"<<{label}>> " if label else ""


# ---- expressions


@dataclasses.dataclass(frozen=True)
class Number:
    number: int

    def __str__(self):
        return str(self.number) if self.number >= 0 else f"({self.number})"

    def value(self, world):
        return Int(INTEGER, self.number)


@dataclasses.dataclass(frozen=True)
class Variable:
    name: str
    label: str = None

    def __str__(self):
        return f"{self.label}.{self.name}" if self.label else self.name

    def value(self, world):
        return world.frame.cell(self.name, self.label).value


@dataclasses.dataclass(frozen=True)
class Calculation:
    sign: str
    left: object
    right: object

    def __str__(self):
        return f"({self.left} {self.sign} {self.right})"

    def value(self, world):
        x, y = self.left.value(world), self.right.value(world)
        if x is None or y is None:
            return None
        if self.sign in "/%" and y.number == 0:
            raise Failure("22012")
        kind = BIGINT if BIGINT in (x.kind, y.kind) else INTEGER
        return number_of(kind, CALCULATED[self.sign](x.number, y.number))


@dataclasses.dataclass(frozen=True)
class Comparison:
    sign: str
    left: object
    right: object

    def __str__(self):
        return f"({self.left} {self.sign} {self.right})"

    def value(self, world):
        x, y = self.left.value(world), self.right.value(world)
        return None if x is None or y is None else COMPARED[self.sign](x.number, y.number)


@dataclasses.dataclass(frozen=True)
class Junction:
    """AND, or OR where true is what fixes it."""

    fixing: bool
    left: object
    right: object

    def __str__(self):
        return f"({self.left} {'OR' if self.fixing else 'AND'} {self.right})"

    def value(self, world):
        first = self.left.value(world)
        if first is self.fixing:
            return first
        second = self.right.value(world)
        return second if second is self.fixing or first is not None else None


@dataclasses.dataclass(frozen=True)
class Not:
    part: object

    def __str__(self):
        return f"(NOT {self.part})"

    def value(self, world):
        truth = self.part.value(world)
        return None if truth is None else not truth


@dataclasses.dataclass(frozen=True)
class IsNull:
    part: object

    def __str__(self):
        return f"({self.part} IS NULL)"

    def value(self, world):
        return self.part.value(world) is None


@dataclasses.dataclass(frozen=True)
class Truth:
    is_true: bool

    def __str__(self):
        return str(self.is_true).lower()

    def value(self, world):
        return self.is_true


@dataclasses.dataclass(frozen=True)
class Where:
    """The column of a table is compared with a number, which is read for each row."""

    table: str
    sign: str
    number: object

    def __str__(self):
        return f"{self.table} WHERE {self.table}.{COLUMNS[self.table]} {self.sign} {self.number}"

    def passes(self, row, world):
        number = self.number.value(world)
        return row is not None and number is not None and COMPARED[self.sign](row, number.number)

    def rows(self, world):
        """The rows that pass, of those that stand there now."""
        return [row for _, row in list(world.tables[self.table].rows) if self.passes(row, world)]


@dataclasses.dataclass(frozen=True)
class Total:
    function: str
    where: Where

    def __str__(self):
        column = "*" if self.function == "count" else f"{self.where.table}.{COLUMNS[self.where.table]}"
        return f"(SELECT {self.function}({column}) FROM {self.where})"

    def value(self, world):
        rows = self.where.rows(world)
        if self.function == "count":
            return Int(BIGINT, len(rows))
        if not rows:
            return None
        return Int(BIGINT, sum(rows)) if self.function == "sum" else Int(INTEGER, LEAST_OR_MOST[self.function](rows))


@dataclasses.dataclass(frozen=True)
class Exists:
    where: Where

    def __str__(self):
        return f"EXISTS (SELECT 1 FROM {self.where})"

    def value(self, world):
        return bool(self.where.rows(world))


@dataclasses.dataclass(frozen=True)
class Call:
    routine: str
    arguments: tuple

    def __str__(self):
        return f"{self.routine}({listed(self.arguments)})"

    def value(self, world):
        outcome = self.called(world, is_command=False)
        if outcome.kind == "fail":
            raise outcome.failure
        return outcome.value

    def called(self, world, is_command):
        values = [world.as_type(INTEGER, it.value(world)) for it in self.arguments]
        routine = world.routines[self.routine]
        return world.called(routine, dict(zip(routine.parameters, values)), is_command)


# ---- statements that hold no other


@dataclasses.dataclass(frozen=True)
class Null:
    def __str__(self):
        return "NULL;"

    def does(self, world):
        return NEXT


@dataclasses.dataclass(frozen=True)
class Assign:
    target: Variable
    number: object

    def __str__(self):
        return f"{self.target} := {self.number};"

    def does(self, world):
        cell = world.frame.cell(self.target.name, self.target.label)
        return world.put(cell, self.number.value(world))


@dataclasses.dataclass(frozen=True)
class Notice:
    parts: tuple

    def __str__(self):
        return f"RAISE NOTICE '{spaced('%' for _ in self.parts)}', {listed(self.parts)};"

    def does(self, world):
        texts = [it.value(world) for it in self.parts]
        world.printed.append("NOTICE:  " + spaced("<NULL>" if it is None else text_of(it) for it in texts))
        return NEXT


@dataclasses.dataclass(frozen=True)
class Raise:
    """RAISE of a text, or of a condition by its name or code."""

    condition: str = None
    number: object = None

    def __str__(self):
        return f"RAISE {spelled(self.condition)};" if self.condition else f"RAISE EXCEPTION '%', {self.number};"

    def does(self, world):
        if self.condition:
            return Failure(code_of(self.condition), self.condition).outcome
        value = self.number.value(world)
        return Failure("P0001", "<NULL>" if value is None else text_of(value)).outcome


def spelled(condition):
    return f"SQLSTATE '{condition}'" if condition.upper() == condition else condition


@dataclasses.dataclass(frozen=True)
class RaiseAgain:
    def __str__(self):
        return "RAISE;"

    def does(self, world):
        return world.handled_error().outcome


@dataclasses.dataclass(frozen=True)
class Assert:
    condition: object

    def __str__(self):
        return f"ASSERT {self.condition};"

    def does(self, world):
        return NEXT if world.is_true(self.condition) else Failure("P0004", "assertion failed").outcome


@dataclasses.dataclass(frozen=True)
class Perform:
    """Of a call, or of the rows of a table."""

    call: Call = None
    where: Where = None

    def __str__(self):
        return f"PERFORM {self.call or f'1 FROM {self.where}'};"

    def does(self, world):
        rows = [self.call.value(world)] if self.call else self.where.rows(world)
        return world.counted(len(rows))


@dataclasses.dataclass(frozen=True)
class SelectInto:
    is_strict: bool
    where: Where
    order: str
    targets: tuple

    def __str__(self):
        column = f"{self.where.table}.{COLUMNS[self.where.table]}"
        strict = "STRICT " if self.is_strict else ""
        into = f"INTO {strict}{listed(self.targets)}"
        return f"SELECT {column}, {column} + 1 {into} FROM {self.where} ORDER BY 1{self.order};"

    def does(self, world):
        rows = sorted(self.where.rows(world), reverse=bool(self.order))
        cells = [world.frame.cell(it.name) for it in self.targets]
        world.counted(min(1, len(rows)))
        if self.is_strict and len(rows) != 1:
            raise Failure("P0003" if rows else "P0002")
        row = [Int(INTEGER, it) for it in (rows[0], rows[0] + 1)] if rows else []
        for cell, value in zip(cells, row + [None] * len(cells)):
            world.put(cell, value)
        return NEXT


@dataclasses.dataclass(frozen=True)
class Insert:
    table: str
    numbers: tuple
    target: Variable = None

    def __str__(self):
        into = f" RETURNING {self.table}.{COLUMNS[self.table]} INTO {self.target}" if self.target else ""
        return f"INSERT INTO {self.table} VALUES {listed(f'({it})' for it in self.numbers)}{into};"

    def does(self, world):
        for it in self.numbers:
            value = world.as_type(INTEGER, it.value(world))
            world.insert(self.table, value)
        world.counted(len(self.numbers))
        if self.target and len(self.numbers) > 1:
            raise Failure("P0003")
        return world.put(world.frame.cell(self.target.name), value) if self.target else NEXT


@dataclasses.dataclass(frozen=True)
class Update:
    """A number is added to the column of t."""

    number: object
    where: Where

    def __str__(self):
        return "UPDATE t SET v = t.v + {} WHERE {};".format(self.number, str(self.where).split(" WHERE ")[1])

    def does(self, world):
        changed = 0
        for id_, row in list(world.tables["t"].rows):
            if self.where.passes(row, world):
                more = self.number.value(world)
                world.replace("t", id_, None if more is None else number_of(INTEGER, row + more.number).number)
                changed += 1
        return world.counted(changed)


@dataclasses.dataclass(frozen=True)
class Delete:
    where: Where

    def __str__(self):
        return f"DELETE FROM {self.where};"

    def does(self, world):
        gone = 0
        for entry in list(world.tables[self.where.table].rows):
            if self.where.passes(entry[1], world):
                world.remove(self.where.table, entry)
                gone += 1
        return world.counted(gone)


@dataclasses.dataclass(frozen=True)
class RowCount:
    target: Variable

    def __str__(self):
        return f"GET DIAGNOSTICS {self.target} = ROW_COUNT;"

    def does(self, world):
        return world.put(world.frame.cell(self.target.name), Int(BIGINT, world.frame.row_count))


@dataclasses.dataclass(frozen=True)
class Stacked:
    target: Variable

    def __str__(self):
        return f"GET STACKED DIAGNOSTICS {self.target} = RETURNED_SQLSTATE;"

    def does(self, world):
        return world.put(world.frame.cell(self.target.name), world.handled_error().state)


@dataclasses.dataclass(frozen=True)
class Jump:
    kind: str  # exit or continue
    label: str = None
    condition: object = None

    def __str__(self):
        when = f"WHEN {self.condition}" if self.condition else ""
        return " ".join(filter(None, (self.kind.upper(), self.label, when))) + ";"

    def does(self, world):
        return Outcome(self.kind, label=self.label) if not self.condition or world.is_true(self.condition) else NEXT


@dataclasses.dataclass(frozen=True)
class Return:
    number: object = None

    def __str__(self):
        return f"RETURN {self.number};" if self.number else "RETURN;"

    def does(self, world):
        return Outcome("return", value=self.number.value(world) if self.number else None)


@dataclasses.dataclass(frozen=True)
class CallProcedure:
    call: Call

    def __str__(self):
        return f"CALL {self.call};"

    def does(self, world):
        outcome = self.call.called(world, is_command=True)
        return outcome if outcome.kind == "fail" else NEXT


@dataclasses.dataclass(frozen=True)
class Commit:
    def __str__(self):
        return "COMMIT;"

    def does(self, world):
        world.ask_to_commit()
        world.last = world.copied()
        return NEXT


@dataclasses.dataclass(frozen=True)
class Rollback:
    def __str__(self):
        return "ROLLBACK;"

    def does(self, world):
        world.ask_to_commit()
        world.go_back(world.last)
        return NEXT


# ---- statements that hold others


@dataclasses.dataclass(frozen=True)
class If:
    branches: tuple  # pairs of a condition and statements
    otherwise: tuple = None

    def __str__(self):
        branches = " ELSIF ".join(f"{it} THEN {spaced(statements)}" for it, statements in self.branches)
        return f"IF {branches}{f' ELSE {spaced(self.otherwise)}' if self.otherwise else ''} END IF;"

    def does(self, world):
        for condition, statements in self.branches:
            if world.is_true(condition):
                return world.all(statements)
        return world.all(self.otherwise or ())


@dataclasses.dataclass(frozen=True)
class Case:
    operand: object
    arms: tuple  # pairs of values and statements
    otherwise: tuple = None

    def __str__(self):
        arms = spaced(f"WHEN {listed(values)} THEN {spaced(statements)}" for values, statements in self.arms)
        return f"CASE {self.operand} {arms}{f' ELSE {spaced(self.otherwise)}' if self.otherwise else ''} END CASE;"

    def does(self, world):
        operand = self.operand.value(world)
        for values, statements in self.arms:
            found = [it.value(world) for it in values]
            if operand and any(it and it.number == operand.number for it in found):
                return world.all(statements)
        if self.otherwise is None:
            raise Failure("20000")
        return world.all(self.otherwise)


@dataclasses.dataclass(frozen=True)
class Loop:
    """LOOP, or WHILE where there is a condition."""

    label: str
    condition: object
    statements: tuple

    def __str__(self):
        head = f"WHILE {self.condition} LOOP" if self.condition else "LOOP"
        return f"{labelled(self.label)}{head} {spaced(self.statements)} END LOOP;"

    def does(self, world):
        while not self.condition or world.is_true(self.condition):
            outcome = world.turn(self.label, self.statements)
            if outcome:
                return outcome
        return NEXT


@dataclasses.dataclass(frozen=True)
class For:
    label: str
    variable: str
    is_reverse: bool
    first: object
    last: object
    step: object
    statements: tuple

    def __str__(self):
        bounds = f"{'REVERSE ' * self.is_reverse}{self.first}..{self.last}{f' BY {self.step}' if self.step else ''}"
        return f"{labelled(self.label)}FOR {self.variable} IN {bounds} LOOP {spaced(self.statements)} END LOOP;"

    def does(self, world):
        first, last = self.bound(self.first, world), self.bound(self.last, world)
        step = self.bound(self.step, world) if self.step else 1
        if step <= 0:
            raise Failure("22023")
        numbers = range(first, last - 1, -step) if self.is_reverse else range(first, last + 1, step)
        with world.opened(self.label) as block:
            outcome = self.turns(world, block.declare(self.variable, INTEGER), numbers)
        if outcome.kind != "fail":
            world.frame.found.value = bool(numbers)
        return outcome

    def turns(self, world, cell, numbers):
        for it in numbers:
            cell.value = Int(INTEGER, it)
            outcome = world.turn(self.label, self.statements)
            if outcome:
                return outcome
        return NEXT

    @staticmethod
    def bound(part, world):
        value = world.as_type(INTEGER, part.value(world))
        if value is None:
            raise Failure("22004")
        return value.number


@dataclasses.dataclass(frozen=True)
class Declared:
    name: str
    ty: str
    is_required: bool = False
    value: object = None

    def __str__(self):
        return f"{self.name} {self.ty}{' NOT NULL' * self.is_required}{f' := {self.value}' if self.value else ''};"


@dataclasses.dataclass(frozen=True)
class Handler:
    conditions: tuple
    statements: tuple

    def __str__(self):
        return f"WHEN {' OR '.join(map(spelled, self.conditions))} THEN {spaced(self.statements)}"


@dataclasses.dataclass(frozen=True)
class Block:
    label: str
    declarations: tuple
    statements: tuple
    handlers: tuple = ()

    @property
    def text(self):
        declare = f"DECLARE {spaced(self.declarations)} " if self.declarations else ""
        handlers = f" EXCEPTION {spaced(self.handlers)}" if self.handlers else ""
        return f"{labelled(self.label)}{declare}BEGIN {spaced(self.statements)}{handlers} END"

    def __str__(self):
        return f"{self.text};"

    def does(self, world):
        with world.opened(self.label) as block:
            outcome = self.declares(world, block) or self.protected(world)
        return NEXT if self.label and outcome == Outcome("exit", label=self.label) else outcome

    def declares(self, world, block):
        try:
            for it in self.declarations:
                value = world.as_type(it.ty, it.value.value(world) if it.value else None)
                if it.is_required and value is None:
                    raise Failure("22004")
                block.declare(it.name, it.ty, it.is_required, value)
        except Failure as failure:
            return failure.outcome
        return None

    def protected(self, world):
        if not self.handlers:
            return world.all(self.statements)
        entry = world.copied()
        world.depth += 1
        outcome = world.all(self.statements)
        world.depth -= 1
        if outcome.kind != "fail":
            return outcome
        for handler in self.handlers:
            if any(outcome.failure.matches(it) for it in handler.conditions):
                return self.handled(world, entry, outcome.failure, handler)
        return outcome

    def handled(self, world, entry, failure, handler):
        world.go_back(entry)
        world.frame.handled.append(failure)
        with world.opened(self.label) as block:
            block.declare("sqlstate", "text", value=failure.state)
            block.declare("sqlerrm", "text", value=failure.message)
            outcome = world.all(handler.statements)
        world.frame.handled.pop()
        return outcome


@dataclasses.dataclass(frozen=True)
class Routine:
    name: str
    parameters: tuple
    result: str  # None for a procedure, and for a DO, which has no name
    block: Block

    @property
    def is_function(self):
        return self.result is not None

    def __str__(self):
        if not self.name:
            return f"DO $$ {self.block.text} $$;"
        kind = "FUNCTION" if self.is_function else "PROCEDURE"
        parameters = listed(f"{it} integer" for it in self.parameters)
        returns = f" RETURNS {self.result}" if self.is_function else ""
        return f"CREATE {kind} {self.name}({parameters}){returns} LANGUAGE plpgsql AS $$ {self.block.text} $$;"

    def does(self, world):
        """As a command: a DO runs, another routine is made."""
        if self.name:
            world.routines[self.name] = self
            return NEXT
        outcome = world.called(self, {}, is_command=True)
        return outcome if outcome.kind == "fail" else NEXT


# ---- commands of a session


@dataclasses.dataclass(frozen=True)
class Rows:
    table: str

    def __str__(self):
        column = COLUMNS[self.table]
        return f"SELECT {column} FROM {self.table} WHERE {column} IS NOT NULL ORDER BY 1;"

    def does(self, world):
        world.printed += sorted((str(row) for _, row in world.tables[self.table].rows if row is not None), key=int)
        return NEXT


@dataclasses.dataclass(frozen=True)
class Control:
    """Transaction control: its words, and the name of a savepoint."""

    words: str
    name: str = None

    def __str__(self):
        return f"{self.words} {self.name};" if self.name else f"{self.words};"
