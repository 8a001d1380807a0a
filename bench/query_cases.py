"""The bench's queries over large tables, by the program and by a server."""
import collections
import os
import re
import select
import shutil
import signal
import subprocess
import tempfile
import time

from processes import MEGABYTE, Run, Times, answer, check, run_whole, seconds_of, times_of

PATIENCE = 300  # seconds that the queries of one run may take
TIMES = 5  # how often a run makes its query
INSERT_ROWS = 1_000  # rows of an INSERT; a table's script is shorter than a script may be
MOST_MEMORY = 3  # times what the rows take

END = re.compile(rb"^\(\d+ rows?\)\n", re.M)

# A name, how many rows a table has, the tables, and the query.
Case = collections.namedtuple("Case", "name rows tables query")
CASES = [
    Case("filter and sum", 1_000_000, ("n",), "SELECT sum(c) FROM n WHERE c % 2 = 0"),
    Case("1,000 groups", 1_000_000, ("n",), "SELECT c % 1000, count(*), sum(c) FROM n GROUP BY c % 1000"),
    Case("DISTINCT, ORDER BY", 1_000_000, ("n",), "SELECT count(*) FROM (SELECT DISTINCT c FROM n ORDER BY c DESC) x"),
    Case("equality join", 100_000, ("n", "m"), "SELECT count(*), sum(n.c) FROM n JOIN m ON n.c = m.c"),
    Case("correlated EXISTS", 20_000, ("n", "m"), "SELECT count(*) FROM n WHERE EXISTS (SELECT 1 FROM m WHERE m.c = n.c)"),
]


def value(table, number, rows):
    """In n each value stands twice, in no order. In m each stands once, and half of those of n are there."""
    return number * 7919 % rows // 2 if table == "n" else rows // 4 + number * 104_729 % rows


def write_tables(folder, tables, rows):
    """Writes the INSERTs of these tables. The answer is the paths, each with how many replies it has."""
    files = []
    for table in tables:
        path, firsts = os.path.join(folder, f"rows_{table}.sql"), range(0, rows, INSERT_ROWS)
        with open(path, "w", encoding="ascii") as it:
            it.write(f"CREATE TABLE {table} (c integer);\n")
            for first in firsts:
                numbers = range(first, min(first + INSERT_ROWS, rows))
                values = ", ".join(f"({value(table, at, rows)})" for at in numbers)
                it.write(f"INSERT INTO {table} VALUES {values};\n")
        files.append((path, 1 + len(firsts)))
    return files


def replies_in_time(words, end=END):
    """Runs a program. The answer is the moments at which a reply was whole, the peak, and all that was printed."""
    began, moments, printed, behind = time.monotonic(), [], bytearray(), 0
    ran = subprocess.Popen(words, stdin=subprocess.DEVNULL, stdout=subprocess.PIPE, stderr=subprocess.STDOUT)
    is_late, has_more = False, True
    while has_more and not is_late:
        is_late = not select.select([ran.stdout], [], [], max(0, began + PATIENCE - time.monotonic()))[0]
        part = b"" if is_late else os.read(ran.stdout.fileno(), 1 << 20)
        has_more, now = bool(part), time.monotonic()
        printed += part
        # (what was looked through isn't looked through again: there may be thousands of replies)
        for found in end.finditer(printed, behind):
            moments.append(now)
            behind = found.end()
    if is_late:
        os.kill(ran.pid, signal.SIGKILL)
    # (calls of Popen would take the status, and wait4 tells the peak)
    _, status, used = os.wait4(ran.pid, 0)
    ran.returncode = os.waitstatus_to_exitcode(status)
    ran.stdout.close()
    name = os.path.basename(words[0])
    check(not is_late, f"{name} takes more than {PATIENCE} s")
    check(ran.returncode == 0, f"{name} ended with status {ran.returncode}")
    return moments, used.ru_maxrss * 1024, bytes(printed)


class QueryCases:
    """Each case has a store of its own. Its rows are loaded in memory where there is such a folder, by INSERTs of
    many rows each; where a folder is given, the store is kept there, and one that is there isn't loaded again. A run
    then makes the query a few times behind `SELECT 1`, whose reply is the moment at which they begin."""

    def __init__(self, bench, share, kept=None):
        self.bench, self.share, self.kept = bench, share, kept

    def run(self):
        for rows, tables in dict.fromkeys((it.rows, it.tables) for it in CASES):
            for part in (2, 1):
                cases = [it for it in CASES if (it.rows, it.tables) == (rows, tables)]
                self.of_tables(tables, rows // self.share // part, cases)

    def of_tables(self, tables, rows, cases):
        bench, many = self.bench, len(tables) * rows
        size = f"{len(tables)} x {rows:,} rows" if len(tables) > 1 else f"{rows:,} rows"
        rate = lambda seconds: f"{many / seconds:,.0f} rows"
        memory = "/dev/shm" if os.access("/dev/shm", os.W_OK) else bench.folder
        with tempfile.TemporaryDirectory(dir=memory) as folder:
            os.chmod(folder, 0o755)  # the server's user reads scripts there
            files = write_tables(folder, tables, rows)
            store = os.path.join(self.kept or folder, f"{''.join(tables)}_{rows}.store")
            by_server = bench.attempt(self.load_server, folder, tables, files) if bench.server else None
            if not os.path.exists(store):
                loaded = bench.attempt(self.load, store, files)
                bench.add("load by INSERTs", size, loaded, rate, self.shown(by_server))
            opened = bench.attempt(self.open, store)
            bench.add("open", size, opened, rate, "")
            for case in cases:
                self.of_case(case, size, rate, store, opened)

    def load(self, store, files):
        return summed([run_whole(self.bench.plpg(store, path), lines) for path, lines in files])

    def load_server(self, folder, tables, files):
        """By the same commands; a commit doesn't wait for the disk."""
        server, runs = self.bench.server, []
        drop = "".join(f"DROP TABLE IF EXISTS {it};\n" for it in tables)
        server.run(self.bench.write("SET client_min_messages = error;\n" + drop), 1 + len(tables))
        for path, lines in files:
            script = os.path.join(folder, "load.sql")
            with open(script, "wb") as to, open(path, "rb") as rows:
                to.write(b"SET synchronous_commit = off;\n")
                shutil.copyfileobj(rows, to)
            runs.append(server.run(script, 1 + lines))
        server.run(self.bench.write("".join(f"VACUUM ANALYZE {it};\n" for it in tables)), len(tables))
        return summed(runs)

    def open(self, store):
        """The empty script over the store, whose peak is what the rows take."""
        plpg = lambda: self.bench.plpg(store, self.bench.write(""))
        return times_of([run_whole(plpg(), 0) for _ in range(self.bench.rounds)])

    def shown(self, times):
        return seconds_of(times) if self.bench.server else self.bench.without_server

    def of_case(self, case, size, rate, store, opened):
        bench = self.bench
        script = bench.write("SELECT 1;\n" + f"{case.query};\n" * TIMES)
        ours, theirs = [], []
        for _ in range(bench.rounds):
            ours.append(bench.attempt(queries_of, [bench.program, store, script]))
            theirs.append(bench.attempt(queries_of, bench.server.words(script)) if bench.server else None)
        by_plpg, by_server = [times_of([it and it[0] for it in runs]) for runs in (ours, theirs)]
        bound = met = ""
        if by_plpg and by_server and bench.attempt(agree, ours[0], theirs[0]) is None:
            by_plpg = None
        if by_plpg and opened:
            most = MOST_MEMORY * opened.peak
            bound, met = f"{most / MEGABYTE:.0f} MB", answer(by_plpg.peak <= most)
        if by_plpg and by_server:
            bound += ", the server's s"
            met += f", {answer(by_plpg.seconds <= by_server.seconds)} ({by_plpg.seconds / by_server.seconds:.2f} x)"
        bench.add(case.name, size, by_plpg, rate, self.shown(by_server), bound, met)


def queries_of(words):
    """A run of so many queries, with the seconds of one, and its replies as lines in an order of their own."""
    moments, peak, printed = replies_in_time(words)
    lines = printed.split(b"\n")
    said = f"{os.path.basename(words[0])} printed {len(moments)} replies and not {TIMES + 1}; the last line: "
    check(len(moments) == TIMES + 1, said + b"".join(lines[-2:-1])[:300].decode("utf-8", "replace"))
    return Run((moments[-1] - moments[0]) / TIMES, peak), sorted(lines)


def agree(ours, theirs):
    check(ours[1] == theirs[1], f"the program and the server reply otherwise: {ours[1][:4]}, {theirs[1][:4]}")
    return True


def summed(runs):
    seconds = sum(it.seconds for it in runs)
    return Times(seconds, seconds, max(it.peak for it in runs))
