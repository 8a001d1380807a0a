"""The bench's changes of many rows, by the program and by a server."""
import collections
import os
import re
import tempfile

from processes import Run, answer, check, run_whole, seconds_of, times_of
from query_cases import replies_in_time

ROWS_OF_COMMAND = 1000  # that are loaded by one INSERT
SHARE = 0.5  # of the server's seconds, which the program may take

END = re.compile(rb"^(?:\(\d+ rows?\)|(?:INSERT 0|UPDATE|DELETE) \d+)\n", re.M)

# A name, how many rows the table has, its columns, what is made besides, and the commands that are timed.
Case = collections.namedtuple("Case", "name rows columns besides commands")
CASES = [
    Case("INSERT .. SELECT", 100_000, "c integer", "CREATE TABLE m (c integer);\n", ["INSERT INTO m SELECT c FROM n"]),
    Case("UPDATE", 100_000, "c integer", "", ["UPDATE n SET c = c + 1"]),
    Case("DELETE by key", 10_000, "c integer PRIMARY KEY", "", None),
]


def commands_of(case, rows):
    """Those of the case, or a DELETE of each row by its key, in no order of them."""
    return case.commands or [f"DELETE FROM n WHERE c = {number * 7919 % rows}" for number in range(rows)]


def write_load(path, case, rows):
    """Writes the commands that make the table. The answer is how many replies they have."""
    inserts = range(0, rows, ROWS_OF_COMMAND)
    with open(path, "w", encoding="ascii") as it:
        it.write(f"CREATE TABLE n ({case.columns});\n{case.besides}")
        for first in inserts:
            values = ", ".join(f"({at})" for at in range(first, min(first + ROWS_OF_COMMAND, rows)))
            it.write(f"INSERT INTO n VALUES {values};\n")
    return 1 + case.besides.count(";") + len(inserts)


class ChangeCases:
    """Each run changes a new store, in memory where there is such a folder, so that no sync is waited for; the server
    doesn't wait for the disk. What is timed is from the reply to `SELECT 1` to that of the last change."""

    def __init__(self, bench, share):
        self.bench, self.share = bench, share

    def run(self):
        for case in CASES:
            for part in (2, 1):
                self.of_case(case, case.rows // self.share // part)

    def of_case(self, case, rows):
        bench = self.bench
        memory = "/dev/shm" if os.access("/dev/shm", os.W_OK) else bench.folder
        with tempfile.TemporaryDirectory(dir=memory) as folder:
            os.chmod(folder, 0o755)  # the server's user reads scripts there
            load = os.path.join(folder, "load.sql")
            replies = write_load(load, case, rows)
            commands = commands_of(case, rows)
            ours, theirs = [], []
            for number in range(bench.rounds):
                store = os.path.join(folder, f"store_{number}")
                ours.append(bench.attempt(self.by_plpg, store, load, replies, commands))
                theirs.append(bench.attempt(self.by_server, load, replies, commands) if bench.server else None)
        self.add(case, rows, times_of(ours), times_of(theirs) if bench.server else None)

    def by_plpg(self, store, load, replies, commands):
        run_whole(self.bench.plpg(store, load), replies)
        script = self.bench.write("SELECT 1;\n" + "".join(f"{it};\n" for it in commands))
        return changes_of([self.bench.program, store, script], len(commands))

    def by_server(self, load, replies, commands):
        server, before = self.bench.server, "SET client_min_messages = error;\nDROP TABLE IF EXISTS n, m;\n"
        server.run(self.bench.write(before), 2)
        server.run(load, replies)
        server.run(self.bench.write("VACUUM ANALYZE n;\n"), 1)
        timed = "SET synchronous_commit = off;\nSELECT 1;\n" + "".join(f"{it};\n" for it in commands)
        return changes_of(server.words(self.bench.write(timed)), len(commands))

    def add(self, case, rows, by_plpg, by_server):
        bench, bound, met = self.bench, f"{SHARE} x the server's s", ""
        if by_plpg and by_server:
            factor = by_plpg.seconds / by_server.seconds
            met = f"{answer(factor <= SHARE)} ({factor:.2f} x)"
        rate = lambda seconds: f"{rows / seconds:,.0f} rows"
        server = seconds_of(by_server) if bench.server else bench.without_server
        bench.add(case.name, f"{rows:,} rows", by_plpg, rate, server, bound, met)


def changes_of(words, count):
    moments, peak, printed = replies_in_time(words, END)
    said = f"{os.path.basename(words[0])} printed {len(moments)} replies and not {count + 1}; the last line: "
    check(len(moments) == count + 1, said + printed.split(b"\n")[-2:-1][0][:300].decode("utf-8", "replace"))
    check(b"ERROR" not in printed, f"{os.path.basename(words[0])} refused a change")
    return Run(moments[-1] - moments[0], peak)
