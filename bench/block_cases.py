"""The bench's blocks with handlers and savepoints, by the program and by a server."""
import collections
import os
import re
import tempfile

from processes import Run, answer, check, run_whole, seconds_of, times_of
from query_cases import replies_in_time

END = re.compile(rb"^(?:\(\d+ rows?\)|(?:INSERT 0|DELETE) \d+|BEGIN|COMMIT|SAVEPOINT|ROLLBACK|RELEASE|DO|CREATE TABLE)\n", re.M)

TABLES = "CREATE TABLE n (c integer PRIMARY KEY);\nCREATE TABLE told (c integer);\n"
SHOW = ["SELECT count(*), sum(c) FROM n", "SELECT c FROM told"]


def looped(count, declared, block):
    """A DO that runs the block so often, and then writes down `x`."""
    loop = f"FOR i IN 1..{count} LOOP {block} END LOOP;"
    return [f"DO $$ DECLARE {declared} BEGIN {loop} INSERT INTO told VALUES (x); END $$"]


def unraised(count):
    """Blocks with a handler in which nothing is raised: each writes a row and finds it by its key."""
    block = "INSERT INTO n VALUES (i); SELECT c INTO k FROM n WHERE c = i; x := x + k % 2;"
    return looped(count, "k integer; x integer := 0;", f"BEGIN {block} EXCEPTION WHEN unique_violation THEN NULL; END;")


def handled(count):
    """Blocks whose handler runs each time: each writes a row, which is undone."""
    block = "INSERT INTO n VALUES (i); RAISE division_by_zero;"
    return looped(count, "x integer := 0;", f"BEGIN {block} EXCEPTION WHEN division_by_zero THEN x := x + 1; END;")


def handled_over_rows(count):
    """The same, and the handler writes a row of its own."""
    block, caught = "INSERT INTO n VALUES (-i); x := x / 0;", "INSERT INTO n VALUES (i);"
    return looped(count, "x integer := 7;", f"BEGIN {block} EXCEPTION WHEN OTHERS THEN {caught} END;")


def savepoints(count):
    """One transaction block whose savepoints all stand at its end. Each is returned to when it is the newest, which
    undoes a row, and they are released from the newest back."""
    commands = ["BEGIN"]
    for at in range(1, count + 1):
        undone, kept = f"INSERT INTO n VALUES ({-at})", f"INSERT INTO n VALUES ({at})"
        commands += [f"SAVEPOINT s{at}", undone, f"ROLLBACK TO s{at}", kept]
    return commands + [f"RELEASE s{at}" for at in range(count, 0, -1)] + ["COMMIT"]


# A name, how many there are and of what, and what makes the commands that are timed.
Case = collections.namedtuple("Case", "name count unit commands")
CASES = [
    Case("blocks, none raises", 100_000, "blocks", unraised),
    Case("blocks, each raises", 100_000, "blocks", handled),
    Case("handlers that write", 100_000, "blocks", handled_over_rows),
    Case("savepoints", 10_000, "savepoints", savepoints),
]


class BlockCases:
    """Each run is over a new store, in memory where there is such a folder, so that no sync is waited for; the server
    doesn't wait for the disk. What is timed is from the reply to `SELECT 1` to the last one. Both have to print the
    same, which tells the rows that are left, and how many handlers ran."""

    def __init__(self, bench, share):
        self.bench, self.share = bench, share

    def run(self):
        for case in CASES:
            for part in (2, 1):
                self.of_case(case, case.count // self.share // part)

    def of_case(self, case, count):
        bench, commands = self.bench, case.commands(count) + SHOW
        memory = "/dev/shm" if os.access("/dev/shm", os.W_OK) else bench.folder
        ours, theirs = [], []
        with tempfile.TemporaryDirectory(dir=memory) as folder:
            os.chmod(folder, 0o755)  # the server's user reads scripts there
            for number in range(bench.rounds):
                store = os.path.join(folder, f"store_{number}")
                ours.append(bench.attempt(self.by_plpg, store, commands))
                theirs.append(bench.attempt(self.by_server, commands) if bench.server else None)
        by_plpg, by_server = [times_of([it and it[0] for it in runs]) for runs in (ours, theirs)]
        if by_plpg and by_server and bench.attempt(agree, case, ours[0][1], theirs[0][1]) is None:
            by_plpg = None
        self.add(case, count, by_plpg, by_server)

    def by_plpg(self, store, commands):
        run_whole(self.bench.plpg(store, self.bench.write(TABLES)), 2)
        script = self.bench.write("SELECT 1;\n" + "".join(f"{it};\n" for it in commands))
        return done([self.bench.program, store, script], len(commands))

    def by_server(self, commands):
        server, before = self.bench.server, "SET client_min_messages = error;\nDROP TABLE IF EXISTS n, told;\n"
        server.run(self.bench.write(before + TABLES), 4)
        timed = "SET synchronous_commit = off;\nSELECT 1;\n" + "".join(f"{it};\n" for it in commands)
        return done(server.words(self.bench.write(timed)), len(commands))

    def add(self, case, count, by_plpg, by_server):
        bench, bound, met = self.bench, "the server's s", ""
        if by_plpg and by_server:
            factor = by_plpg.seconds / by_server.seconds
            met = f"{answer(factor <= 1)} ({factor:.2f} x)"
        rate = lambda seconds: f"{count / seconds:,.0f} {case.unit}"
        server = seconds_of(by_server) if bench.server else bench.without_server
        bench.add(case.name, f"{count:,} {case.unit}", by_plpg, rate, server, bound, met)


def done(words, count):
    """The run, and what it printed from the first reply on."""
    moments, peak, printed = replies_in_time(words, END)
    said = f"{os.path.basename(words[0])} printed {len(moments)} replies and not {count + 1}; the last line: "
    check(len(moments) == count + 1, said + printed.split(b"\n")[-2:-1][0][:300].decode("utf-8", "replace"))
    return Run(moments[-1] - moments[0], peak), printed[printed.index(b"?column?"):]


def agree(case, ours, theirs):
    check(ours == theirs, f"the program and the server reply otherwise to '{case.name}': {ours[-80:]}, {theirs[-80:]}")
    return True
