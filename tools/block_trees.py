"""What random scripts of transaction blocks have besides the trees of body_trees.py, and how a script is cut down.

These trees can be written alone: what they do no definition says here.
"""
import dataclasses

from body_trees import Block, Case, For, If, Loop, Routine, listed, spelled
from change_trees import with_each_cut, without_each

# Where a text of an error is the same on the server: RAISE and ASSERT make all errors of these states.
RAISED = "'P0001', 'P0004', 'AB123', 'AB001'"
SHOWN = "CASE WHEN sqlstate IN ({}) THEN {} ELSE 'of the engine' END"


@dataclasses.dataclass(frozen=True)
class Words:
    """A command that has no parts here, in a body or of a session."""

    text: str

    def __str__(self):
        return f"{self.text};"


@dataclasses.dataclass(frozen=True)
class RaiseWith:
    """RAISE of a text with options."""

    number: object
    options: tuple

    def __str__(self):
        options = f" USING {listed(self.options)}" if self.options else ""
        return f"RAISE EXCEPTION 'no %', {self.number}{options};"


@dataclasses.dataclass(frozen=True)
class Message:
    """The state and the text of the error that is handled, by the variables or by what is stacked."""

    item: str = None  # of GET STACKED DIAGNOSTICS

    def __str__(self):
        if not self.item:
            return f"RAISE NOTICE '% %', sqlstate, {SHOWN.format(RAISED, 'sqlerrm')};"
        return f"GET STACKED DIAGNOSTICS st = {self.item}; RAISE NOTICE '%', {SHOWN.format(RAISED, 'st')};"


@dataclasses.dataclass(frozen=True)
class RaiseCondition:
    """RAISE of a condition with a text of its own."""

    condition: str

    def __str__(self):
        return f"RAISE {spelled(self.condition)} USING MESSAGE = 'as told';"


def cuts_of(it, is_list=True):
    """The tree without one of its parts, or with one that is cut down, in each way. Tuples in a list are of a condition,
    or of values, and of statements."""
    if isinstance(it, tuple):
        if is_list:
            yield from without_each(it)
            yield from (it[:at] + held + it[at + 1 :] for at, part in enumerate(it) for held in held_by(part))
        yield from with_each_cut(it, lambda part: cuts_of(part, not is_list))
    elif dataclasses.is_dataclass(it):
        for field in dataclasses.fields(it):
            for cut in cuts_of(getattr(it, field.name)):
                yield dataclasses.replace(it, **{field.name: cut})


def held_by(part):
    """Statements that may stand in the place of the one that holds them."""
    if isinstance(part, Block | Loop | For):
        yield part.statements
    elif isinstance(part, If):
        yield from (statements for _, statements in part.branches)
        yield part.otherwise or ()
    elif isinstance(part, Case):
        yield from (statements for _, statements in part.arms)


def is_cut_down(command):
    return isinstance(command, Routine)
