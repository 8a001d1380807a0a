"""Whether plpg and a PostgreSQL server agree in their replies to a command."""

ROWS, ERRORS, LEFT, DISAGREE = "rows", "errors", "left to each", "disagree"
VERDICTS = (ROWS, ERRORS, LEFT, DISAGREE)
UNREAD = "22P02"  # of a literal, which the server reads before anything else, and plpg once it is evaluated
WHEN_EVALUATED = ("22003", "22011", "22012", "2201W", "2201X", UNREAD, "21000", "54000")
WHEN_WRITTEN = ("23502", "23505", "23514")


def state_of(reply):
    """The SQLSTATE, where the reply is an error."""
    return reply[8:13] if reply.startswith("ERROR:  ") else None


def of_query(query, ours, theirs):
    """Rows are compared in their order where ORDER BY tells it. A failure that came while rows were evaluated may
    come to one of the two alone."""
    states = state_of(ours), state_of(theirs)
    if states == (None, None):
        (head, *rows), (other_head, *other_rows) = ours.split("\n"), theirs.split("\n")
        if not query.is_ordered:
            rows, other_rows = sorted(rows), sorted(other_rows)
        return ROWS if (head, rows) == (other_head, other_rows) else DISAGREE
    if states[0] == states[1]:
        return ERRORS
    came_late = states[1] == UNREAD or all(it is None or it in WHEN_EVALUATED for it in states)
    return LEFT if came_late and query.is_risky else DISAGREE


def of_change(command, ours, theirs):
    """Replies are compared as they are. Where both failed while rows were evaluated or written, they may do so in
    another order; and what may fail may do so in one of the two alone."""
    states = state_of(ours), state_of(theirs)
    if ours == theirs:
        return ERRORS if states[0] else ROWS
    if None not in states and command.is_risky | command.comes_later:
        came_late = all(it in WHEN_EVALUATED + WHEN_WRITTEN for it in states)
        return LEFT if came_late or states[1] == UNREAD else DISAGREE
    has_one = (states[0] is None) != (states[1] is None)
    return LEFT if has_one and command.is_risky and (states[0] or states[1]) in WHEN_EVALUATED else DISAGREE
