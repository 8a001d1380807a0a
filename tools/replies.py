"""What plpg and a PostgreSQL server reply to the commands of scripts, both in the form that plpg prints."""
import os
import re
import subprocess
import sys
import tempfile

TOP = os.path.dirname(os.path.dirname(os.path.realpath(__file__)))
PATIENCE = 600  # seconds that a script may take
MEMORY = "/dev/shm"  # a folder in memory, where stores are made if it is there
COUNT = re.compile(r"\(\d+ rows?\)")
TAG = re.compile(r"(INSERT 0|UPDATE|DELETE|MERGE) \d+|(CREATE|DROP|ALTER|TRUNCATE) TABLE")
END = "DISCARD TEMP"  # what the server replies behind each script
# Tables are temporary ones, so that nothing of them stays. The joins of a query are made as they are written,
# by loops, so that most rows come in the order that plpg gives them. So do the rows of a table.
OPTIONS = "-c search_path=pg_temp -c jit=off -c enable_hashjoin=off -c enable_mergejoin=off -c enable_hashagg=off"
OPTIONS += " -c enable_indexscan=off -c enable_indexonlyscan=off -c enable_bitmapscan=off -c enable_tidscan=off"
OPTIONS += " -c join_collapse_limit=1 -c from_collapse_limit=1 -c max_parallel_workers_per_gather=0"


class Unseen(str):
    """A line of a script for the server that prints nothing."""


def replies_of(printed, commands):
    """Cuts what was printed into the replies to these commands, each of one or several whole lines.

    A reply ends with an error's line, a tag, or the count of a query's rows; the rows of a change, which RETURNING
    prints, come before its tag. There may be fewer or more replies than commands."""
    found, lines = [], printed.split("\n")[:-1]
    while lines:
        command = commands[len(found)] if len(found) < len(commands) else ""
        length = length_of_reply(lines, command.lstrip("( ").upper().startswith("SELECT"))
        found.append("\n".join(lines[:length]))
        lines = lines[length:]
    return found


def length_of_reply(lines, is_query):
    """How many lines the first reply has."""
    first = next((at for at, it in enumerate(lines) if not it.startswith("NOTICE:  ")), len(lines) - 1)
    if lines[first].startswith("ERROR:  ") or TAG.fullmatch(lines[first]):
        return first + 1
    count = next((at for at, it in enumerate(lines) if at > first and COUNT.fullmatch(it)), len(lines) - 1)
    has_tag = not is_query and TAG.fullmatch("".join(lines[count + 1 : count + 2]))
    return count + (2 if has_tag else 1)


def run(words, script, **settings):
    """The status of a program over a script, and what it prints on both outputs."""
    both = {"stdout": subprocess.PIPE, "stderr": subprocess.STDOUT, "encoding": "utf-8"}
    ran = subprocess.run(words, input=script, timeout=PATIENCE, check=False, **both, **settings)
    return ran.returncode, ran.stdout


class Store:
    """A new store of plpg, in a folder of its own."""

    def __init__(self, program):
        self.program = program

    def __enter__(self):
        self.folder = tempfile.TemporaryDirectory(dir=MEMORY if os.access(MEMORY, os.W_OK) else None)
        return self

    def __exit__(self, *_):
        self.folder.cleanup()

    def prints(self, commands, *options):
        """The status of a run over these commands, and what it prints. Each run opens the store again."""
        script = os.path.join(self.folder.name, "script.sql")
        with open(script, "w", encoding="utf-8") as it:
            it.writelines(f"{command}\n" for command in commands)
        return run([self.program, os.path.join(self.folder.name, "store"), script, *options], "")

    def replies(self, commands):
        """The status of a run over these commands, and its replies."""
        status, printed = self.prints(commands)
        return status, replies_of(printed, commands)


def by_plpg(program, commands):
    """The status of the program over a new store, and its replies to the commands."""
    with Store(program) as store:
        return store.replies(commands)


def psql(script):
    """What the server prints; psql finds it by its usual settings (PGHOST, PGPORT, PGUSER)."""
    words = ["psql", "-X", "-A", "-v", "VERBOSITY=sqlstate"]
    status, printed = run(words, script, env={**os.environ, "PGOPTIONS": OPTIONS, "PGCLIENTENCODING": "UTF8"})
    if status:
        sys.exit(f"psql ended with status {status}: {printed}")
    return printed


def names_of_states():
    """The condition names of the server's SQLSTATEs, by its own list."""
    text = psql("SELECT pg_read_file(setting || '/errcodes.txt') FROM pg_config WHERE name = 'SHAREDIR';\n")
    return dict(re.findall(r"^(\w{5}) +[EWS] +\w+ +(\w+)", text, re.M))


def by_server(scripts, names):
    """The server's replies to the commands of each of the scripts, which see no tables of one another."""
    if not scripts:
        return []
    printed = psql("".join("\n".join([*script, END + ";\n"]) for script in scripts))
    *parts, rest = re.split(f"^{END}\n", printed, flags=re.M)
    if len(parts) != len(scripts) or rest:
        sys.exit(f"psql printed {len(parts)} parts for {len(scripts)} scripts, and then {rest}")
    found = []
    for script, part in zip(scripts, parts):
        commands = [it for it in script if not isinstance(it, Unseen)]
        replies = [as_plpg_prints(it, names) for it in replies_of(part, commands)]
        if len(replies) != len(commands):
            told = "\n".join(commands)
            sys.exit(f"{len(replies)} replies of the server to {len(commands)} commands:\n{told}\nThey are:\n{part}")
        found.append(replies)
    return found


def as_plpg_prints(reply, names):
    """The reply with the conditions of its error and its notices by their names."""
    # DROP TABLE IF EXISTS says nothing but that there is no such table.
    reply = re.sub(r"^NOTICE:  00000$", "NOTICE:  undefined_table", reply, flags=re.M)
    reply = re.sub(r"^NOTICE:  (\w{5})$", lambda it: f"NOTICE:  {names.get(it[1])}", reply, flags=re.M)
    return re.sub(r"^ERROR:  (\w{5})$", lambda it: f"{it[0]}: {names.get(it[1])}", reply)
