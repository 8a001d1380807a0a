"""What a PostgreSQL server's psql prints with VERBOSITY verbose, in the form that plpg prints."""
import re

MARK = "-- the next command"
VERBOSE = "\\set VERBOSITY verbose\n"
RAISED_HERE = ("exec_stmt_raise", "exec_stmt_assert")
# Errors of RAISE itself, which no statement says the text of.
OF_RAISE = (
    "RAISE without parameters cannot be used outside an exception handler",
    "RAISE statement option cannot be null",
)
UNDEFINED = {"relation": "undefined_table", "table": "undefined_table", "function": "undefined_function"}
UNDEFINED["procedure"] = "undefined_function"


def marked(commands):
    """A script of the commands for psql, from whose text `parted` finds the replies."""
    return "".join(f"\\echo {MARK}\n{it}\n" for it in commands)


def parted(printed, names):
    """The lines of each reply."""
    return [list(as_plpg_prints(it.split("\n")[:-1], names)) for it in printed.split(MARK + "\n")[1:]]


def as_plpg_prints(lines, names):
    """The lines of a reply, whose messages are each from its level to the place where the server raised it."""
    lines = iter(lines)
    for line in lines:
        first = re.fullmatch(r"(NOTICE|INFO|WARNING|ERROR):  (\w{5}): (.*)", line)
        if first:
            message = []
            for more in lines:
                if more.startswith("LOCATION:"):
                    yield from message_of(first, message, more.split()[1].rstrip(","), names)
                    break
                message.append(more)
        else:
            yield line


def message_of(first, more, place, names):
    """A message as plpg prints it: where no statement of a body says its text, that is the condition's name."""
    level, state, text = first.groups()
    is_own = place in RAISED_HERE and text not in OF_RAISE
    state_shown = f"{state}: " if level == "ERROR" else ""
    yield f"{level}:  {state_shown}{text if is_own else condition_of(state, text, names)}"
    if is_own:
        yield from (it for it in more if it.startswith(("DETAIL:", "HINT:")))


def condition_of(state, text, names):
    """The name of the condition. DROP with IF EXISTS has none at the server."""
    return UNDEFINED[text.split()[0]] if state == "00000" else names.get(state, state)
