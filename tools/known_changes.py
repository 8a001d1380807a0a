"""Scripts of changes of two tables, each command with what it prints and with the operations that it commits."""

FAILS_BY_KEY = "ERROR:  23505: unique_violation"
FAILS_BY_NULL = "ERROR:  23502: not_null_violation"
COLUMNS = {
    "a": "k integer PRIMARY KEY, t text UNIQUE, CHECK (k > 0)",
    "b": "k bigint DEFAULT 7, is_even boolean NOT NULL",
}
HEADS = {"a": "k|t", "b": "k|is_even"}  # by the first letter of a table's name
WAYS = 10


def known_steps(run, count):
    """So many commands and a few, each with its reply and its operations, over the tables of this run, which the first
    two of them make."""
    script = Script(run)
    for number in range(count):
        script.add_way(number)
    return script.steps


def rows_of(frames):
    """The rows by their ids that these operations leave, of each table that is there."""
    found = {}
    for operation in (it for frame in frames for it in frame):
        kind, name, *rest = operation
        if kind == "put":
            found[name][rest[0]] = rest[1]
        elif kind == "remove":
            del found[name][rest[0]]
        else:
            verb, _, table = name.split(" ")[:3]
            if verb == "CREATE":
                found[table] = {}
            else:
                del found[table]
    return found


def shown(head, rows):
    """What a query prints that gives these rows."""
    lines = ["|".join(map(text_of, row)) for row in rows]
    return "\n".join([head, *lines, f"({len(rows)} row{'s' * (len(rows) != 1)})"])


def text_of(value):
    if value is None:
        return ""
    return "ft"[value] if isinstance(value, bool) else str(value)


def spelled(value):
    if value is None:
        return "NULL"
    return f"'{value}'" if isinstance(value, str) else str(value)


def listed(rows):
    return ", ".join(f"({', '.join(map(spelled, row))})" for row in rows)


class Script:
    """Makes the commands, and keeps the rows that they leave by their ids."""

    def __init__(self, run):
        self.a, self.b = f"a{run}", f"b{run}"
        self.rows, self.next, self.steps = {}, {}, []
        self.create(self.a)
        self.create(self.b)

    def add(self, command, reply, operations=()):
        self.steps.append((command, reply, list(operations)))

    def create(self, name):
        self.rows[name], self.next[name] = {}, 1
        command = f"CREATE TABLE {name} ({COLUMNS[name[0]]})"
        self.add(command, "CREATE TABLE", [("define", command)])

    def drop(self, name):
        self.add(f"DROP TABLE {name}", "DROP TABLE", [("define", f"DROP TABLE {name}")])

    def inserted(self, name, rows):
        operations = []
        for row in rows:
            operations.append(("put", name, self.next[name], row))
            self.rows[name][self.next[name]] = row
            self.next[name] += 1
        return operations

    def insert(self, command, name, rows, front=""):
        self.add(command, f"{front}INSERT 0 {len(rows)}", self.inserted(name, rows))

    def update(self, name, assignment, condition, change, holds):
        found = {at: change(row) for at, row in self.rows[name].items() if holds(row)}
        self.rows[name].update(found)
        operations = [("put", name, at, row) for at, row in found.items()]
        self.add(f"UPDATE {name} SET {assignment} WHERE {condition}", f"UPDATE {len(found)}", operations)

    def delete(self, name, condition, holds):
        gone = [at for at, row in self.rows[name].items() if holds(row)]
        for at in gone:
            del self.rows[name][at]
        operations = [("remove", name, at) for at in gone]
        self.add(f"DELETE FROM {name} WHERE {condition}", f"DELETE {len(gone)}", operations)

    def add_way(self, number):
        a, b, key, way = self.a, self.b, 3 * number + 1, number % WAYS
        if way == 0:
            rows = [(key, f"one {number}"), (key + 1, None), (key + 2, f"three {number}")]
            front = shown("k", [row[:1] for row in rows]) + "\n"
            self.insert(f"INSERT INTO {a} VALUES {listed(rows)} RETURNING k", a, rows, front)
        elif way == 1:
            rows = [(key, None), (key + 1, f"gone {number}"), (key, None)]
            self.add(f"INSERT INTO {a} VALUES {listed(rows)}", FAILS_BY_KEY)
        elif way == 2:
            self.update(a, "t = t || '+'", "k % 2 = 0", lambda row: (row[0], row[1] and row[1] + "+"), is_even)
        elif way == 3:
            rows = [(row[0], is_even(row)) for row in self.rows[a].values()]
            self.insert(f"INSERT INTO {b} SELECT k, k % 2 = 0 FROM {a}", b, rows)
        elif way == 4:
            # (the rows before the last one are written by then)
            last = max((row[0] for row in self.rows[b].values()), default=0)
            change = f"is_even = CASE WHEN k = {last} THEN NULL ELSE NOT is_even END"
            self.add(f"UPDATE {b} SET {change}", FAILS_BY_NULL if self.rows[b] else "UPDATE 0")
        elif way == 5:
            self.delete(b, "k % 3 = 0", lambda row: row[0] % 3 == 0)
        elif way == 6:
            near, text = key - 18, f"by key {number}"
            self.update(a, f"t = '{text}'", f"k = {near}", lambda row: (row[0], text), lambda row: row[0] == near)
        elif way == 7:
            near = key - 20
            self.delete(a, f"k = {near}", lambda row: row[0] == near)
        elif way == 8:
            rows = [(7, False), (7, True)]
            self.insert(f"INSERT INTO {b} (is_even) VALUES (false), (true)", b, rows)
        else:
            self.drop(b)
            self.create(b)


def is_even(row):
    return row[0] % 2 == 0
