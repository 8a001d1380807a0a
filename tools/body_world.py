"""The world in which bodies run, and a session's commands, by the definitions of crates/pl_world, said once more."""
import contextlib
import copy
import dataclasses

INTEGER, BIGINT = "integer", "bigint"
LIMITS = {INTEGER: 2**31, BIGINT: 2**63}
STEPS = 20000
MOST_CALLS = 64
CODES = {
    "division_by_zero": "22012",
    "unique_violation": "23505",
    "raise_exception": "P0001",
    "data_exception": "22000",
    "no_data_found": "P0002",
    "too_many_rows": "P0003",
    "assert_failure": "P0004",
    "case_not_found": "20000",
    "null_value_not_allowed": "22004",
    "plpgsql_error": "P0000",
    "integrity_constraint_violation": "23000",
}


class TooLong(Exception):
    """No step is left."""


def code_of(condition):
    return CODES.get(condition, condition)


@dataclasses.dataclass(frozen=True)
class Int:
    kind: str
    number: int


def number_of(kind, number):
    if not -LIMITS[kind] <= number < LIMITS[kind]:
        raise Failure("22003")
    return Int(kind, number)


def quotient(x, y):
    """Truncated towards zero."""
    return (abs(x) // abs(y)) * (1 if (x < 0) == (y < 0) else -1)


def text_of(value):
    """The output form."""
    if isinstance(value, bool):
        return "t" if value else "f"
    return str(value.number) if isinstance(value, Int) else value


class Failure(Exception):
    """An error, with the text of RAISE where there is one."""

    def __init__(self, state, text=None):
        super().__init__(state)
        self.state, self.text = state, text

    @property
    def message(self):
        return self.state if self.text is None else self.text

    @property
    def outcome(self):
        return Outcome("fail", failure=self)

    def matches(self, condition):
        if condition == "others":
            return self.state not in ("57014", "P0004")
        code = code_of(condition)
        return code == self.state or (code[2:] == "000" and code[:2] == self.state[:2])


@dataclasses.dataclass(frozen=True)
class Outcome:
    kind: str  # next, exit, continue, return or fail
    label: str = None
    value: object = None
    failure: Failure = None


NEXT = Outcome("next")


@dataclasses.dataclass
class Cell:
    """A variable."""

    ty: str
    is_required: bool
    value: object


class Visible:
    """The variables of a block or a call, under its label."""

    def __init__(self, label):
        self.label, self.cells = label, {}

    def declare(self, name, ty, is_required=False, value=None):
        self.cells[name] = Cell(ty, is_required, value)
        return self.cells[name]


class Frame:
    """A call that runs."""

    def __init__(self, routine, is_command, arguments):
        self.is_command, self.row_count, self.handled = is_command, 0, []
        parameters, own = Visible(routine), Visible(routine)
        for name, value in arguments.items():
            parameters.declare(name, INTEGER, value=value)
        self.found = own.declare("found", "boolean", value=False)
        self.blocks = [parameters, own]

    def cell(self, name, label=None):
        for block in reversed(self.blocks):
            if name in block.cells and label in (None, block.label):
                return block.cells[name]
        raise Failure("42703" if label in (None, *(it.label for it in self.blocks)) else "42P01")


@dataclasses.dataclass
class Table:
    rows: list  # pairs of an id and a number or None
    next_id: int = 1


class World:
    def __init__(self):
        self.tables, self.routines = {"t": Table([]), "u": Table([])}, {}
        self.last = self.copied()
        self.frames, self.printed = [], []
        self.steps, self.depth, self.in_block = STEPS, 0, False

    @property
    def frame(self):
        return self.frames[-1]

    # the database

    def copied(self):
        return copy.deepcopy(self.tables)

    def go_back(self, tables):
        self.tables = copy.deepcopy(tables)

    def insert(self, name, value):
        table = self.tables[name]
        if name == "u" and value is None:
            raise Failure("23502")
        if name == "u" and any(row == value.number for _, row in table.rows):
            raise Failure("23505")
        table.rows.append((table.next_id, value and value.number))
        table.next_id += 1

    def replace(self, name, id_, row):
        table = self.tables[name]
        table.rows = [(id_, row) if it[0] == id_ else it for it in table.rows]

    def remove(self, name, entry):
        """The row has to be there as it was."""
        if entry not in self.tables[name].rows:
            raise Failure("27000")
        self.tables[name].rows.remove(entry)

    # values

    @staticmethod
    def as_type(ty, value):
        if value is None or ty == "boolean":
            return value
        return number_of(ty, value.number) if ty in LIMITS else text_of(value)

    def put(self, cell, value):
        value = self.as_type(cell.ty, value)
        if cell.is_required and value is None:
            raise Failure("22004")
        cell.value = value
        return NEXT

    def counted(self, rows):
        self.frame.row_count, self.frame.found.value = rows, rows > 0
        return NEXT

    def is_true(self, condition):
        return condition.value(self) is True

    def handled_error(self):
        if not self.frame.handled:
            raise Failure("0Z002")
        return self.frame.handled[-1]

    # runs

    def step(self):
        if not self.steps:
            raise TooLong
        self.steps -= 1

    def all(self, statements):
        for it in statements:
            self.step()
            outcome = self.done(it)
            if outcome != NEXT:
                return outcome
        return NEXT

    def done(self, it):
        try:
            return it.does(self)
        except Failure as failure:
            return failure.outcome

    def turn(self, label, statements):
        """None where the next turn follows."""
        self.step()
        outcome = self.all(statements)
        if outcome.kind in ("exit", "continue") and outcome.label in (None, label):
            return NEXT if outcome.kind == "exit" else None
        return None if outcome == NEXT else outcome

    @contextlib.contextmanager
    def opened(self, label):
        self.frame.blocks.append(Visible(label))
        yield self.frame.blocks[-1]
        self.frame.blocks.pop()

    def called(self, routine, arguments, is_command):
        if len(self.frames) >= MOST_CALLS:
            raise Failure("54001")
        self.frames.append(Frame(routine.name, is_command, arguments))
        self.step()
        outcome = self.given(routine, self.done(routine.block))
        self.frames.pop()
        return outcome

    def given(self, routine, outcome):
        if outcome.kind == "fail" or not routine.is_function:
            return outcome
        if outcome.kind != "return":
            return Failure("2F005").outcome
        try:
            return Outcome("return", value=self.as_type(routine.result, outcome.value))
        except Failure as failure:
            return failure.outcome

    def ask_to_commit(self):
        if self.in_block or self.depth or not all(it.is_command for it in self.frames):
            raise Failure("2D000")


class Session:
    """What commands print: notices, rows, warnings and errors, without tags and headings."""

    def __init__(self):
        self.world, self.mode, self.saves = World(), "idle", []

    def reply(self, command):
        world = self.world
        world.printed, world.steps = [], STEPS
        words = getattr(command, "words", None)
        try:
            if words:
                self.control(words, command.name)
            elif self.mode == "failed":
                raise Failure("25P02")
            else:
                self.plain(command)
        except Failure as failure:
            world.printed.append(f"ERROR:  {failure.state}")
            self.mode = "idle" if self.mode == "idle" else "failed"
            if self.mode == "idle":
                world.go_back(world.last)
        return world.printed

    def plain(self, command):
        # a change at the top sets FOUND of no call
        is_call = hasattr(command, "block") or hasattr(command, "call")
        self.world.frames = [] if is_call else [Frame("", True, {})]
        outcome = self.world.done(command)
        self.world.frames = []
        if outcome.kind == "fail":
            raise outcome.failure
        if self.mode == "idle":
            self.world.last = self.world.copied()

    def control(self, words, name):
        if words == "BEGIN":
            self.begins()
        elif words in ("COMMIT", "ROLLBACK"):
            self.ends(words == "COMMIT")
        elif self.mode == "idle":
            raise Failure("25P01")
        elif self.mode == "failed" and words != "ROLLBACK TO":
            raise Failure("25P02")
        else:
            self.saved(words, name)

    def begins(self):
        if self.mode == "failed":
            raise Failure("25P02")
        self.warn_if(self.mode == "block")
        self.mode, self.world.in_block = "block", True

    def ends(self, commits):
        self.warn_if(self.mode == "idle")
        if commits and self.mode == "block":
            self.world.last = self.world.copied()
        self.world.go_back(self.world.last)
        self.mode, self.saves, self.world.in_block, self.world.depth = "idle", [], False, 0

    def saved(self, words, name):
        if words == "SAVEPOINT":
            self.saves.append((name, self.world.copied()))
        else:
            places = [at for at, it in enumerate(self.saves) if it[0] == name]
            if not places:
                raise Failure("3B001")
            self.saves = self.saves[: places[-1] + (words == "ROLLBACK TO")]
            if words == "ROLLBACK TO":
                self.world.go_back(self.saves[-1][1])
                self.mode = "block"
        self.world.depth = len(self.saves)

    def warn_if(self, is_so):
        if is_so:
            self.world.printed.append("WARNING:")
