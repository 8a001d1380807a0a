"""Random scripts of transaction blocks, savepoints and handlers, as trees.

What the server is known to do otherwise isn't made (docs/DECISIONS.md, and body_maker.py). Besides that these aren't: a
change of several rows of a key, whose failure is told by the order of the rows; definitions in a function, which a
query may call that reads the table; a function of a name that has other parameters. SQLERRM and the texts that are
stacked are shown where RAISE or ASSERT made the error.
"""
import body_trees as tree
from block_trees import Message, RaiseCondition, RaiseWith, Words
from body_maker import CONDITIONS, SIMPLE, BodyMaker

TABLES = {
    "t": "v integer",
    "u": "k integer PRIMARY KEY",
    "w": "k integer PRIMARY KEY, v integer NOT NULL CHECK (v < 8)",
    "x": "v integer",
    "y": "k integer UNIQUE, v text DEFAULT 'd'",
}
PARAMETERS = ((), ("p",), ("p", "q"))  # of the functions, by their numbers
SAVEPOINTS = ("a", "a", "a", "b", "b", "c")
BEGINS = ("BEGIN", "BEGIN", "BEGIN", "BEGIN WORK", "START TRANSACTION")
COMMITS = ("COMMIT", "COMMIT", "COMMIT", "END", "COMMIT WORK")
ROLLBACKS = ("ROLLBACK", "ROLLBACK", "ABORT", "ROLLBACK WORK")
BACK = ("ROLLBACK TO", "ROLLBACK TO", "ROLLBACK TO SAVEPOINT", "ROLLBACK WORK TO")
RELEASES = ("RELEASE", "RELEASE", "RELEASE SAVEPOINT")
KINDS = ("insert",) * 5 + ("update", "update", "delete", "query", "query", "wrong", "define", "define", "function")
MORE_CONDITIONS = ("undefined_table", "duplicate_table", "undefined_function", "check_violation", "AB001")
MORE_CONDITIONS += ("not_null_violation", "invalid_transaction_termination", "syntax_error_or_access_rule_violation")
STACKED = ("MESSAGE_TEXT", "MESSAGE_TEXT", "PG_EXCEPTION_DETAIL", "PG_EXCEPTION_HINT", "RETURNED_SQLSTATE")
OPTIONS = ("DETAIL = 'd'", "HINT = 'h'", "ERRCODE = 'AB001'", "ERRCODE = 'unique_violation'")
WRONG = ("SELECT 1 / 0", "SELECT nosuch FROM t", "SELEC 1", "SELECT * FROM nosuch", "SELECT nosuch(1)")
WRONG += ("INSERT INTO t VALUES (1, 2)", "INSERT INTO u VALUES (NULL)", "CREATE TABLE t (v integer)", "RAISE")


class BlockMaker(BodyMaker):
    simple = [*SIMPLE, "raised", "raised", "row", "row", "definition", "handled", "handled"]
    conditions = (*CONDITIONS, *MORE_CONDITIONS, "others", "others", "raise_exception")
    handled = 0.5

    def __init__(self, seed, length):
        super().__init__(seed, has_sessions=False)
        self.length = length

    def key(self):
        return self.random.randint(0, 7)

    # in bodies

    def some_raised(self, place):
        if self.chance(0.3):
            return RaiseCondition(self.choose("AB001", "division_by_zero", "raise_exception", "AB123"))
        options = self.random.sample(OPTIONS[:2], self.random.randint(0, 2))
        options += [self.choose(*OPTIONS[2:])] if self.chance(0.4) else []
        return RaiseWith(self.variable(place), tuple(options))

    def some_handled(self, place):
        if place.in_handler and self.chance(0.6):
            return Message(self.choose(*STACKED) if self.chance(0.4) else None)
        return super().some_handled(place)

    def some_row(self, place):
        """A change of the tables that have rules."""
        return Words(self.choose(
            f"INSERT INTO w VALUES ({self.key()}, {self.safe(place)})",
            f"INSERT INTO w VALUES ({self.key()}, {self.key()}), ({self.key()}, {self.safe(place)})",
            f"UPDATE w SET v = w.v + {self.safe(place)} WHERE w.k < {self.key()}",
            f"DELETE FROM w WHERE w.v < {self.safe(place)}",
            f"INSERT INTO y (k) VALUES ({self.key()})",
            f"UPDATE y SET v = y.v || 'e' WHERE y.k = {self.key()}",
        ))

    def some_definition(self, place):
        if place.kind == "function":
            return None
        return Words(self.definition() if self.chance(0.75) else self.text_of_function("$f$"))

    # of a session

    def definition(self):
        table = self.choose(*TABLES, "x", "x", "y")
        if self.chance(0.4):
            return f"DROP TABLE {self.choose('', '', 'IF EXISTS ')}{table}"
        return f"CREATE TABLE {self.choose('', '', 'IF NOT EXISTS ')}{table} ({TABLES[table]})"

    def text_of_function(self, quote):
        """A function of one parameter, which the bodies of others don't know."""
        if self.chance(0.2):
            return f"DROP FUNCTION {self.choose('', 'IF EXISTS ')}g"
        statements = self.choose(
            f"INSERT INTO t VALUES (p + {self.key()}); RETURN {self.key()};",
            f"INSERT INTO t VALUES (p); RETURN {self.key()} / p;",
            f"INSERT INTO u VALUES (p); RETURN p; EXCEPTION WHEN unique_violation THEN RETURN {self.key()};",
            f"RETURN {self.key()};",
        )
        replaces = self.choose("OR REPLACE ", "OR REPLACE ", "")
        head = f"CREATE {replaces}FUNCTION g(p integer) RETURNS integer LANGUAGE plpgsql AS"
        return f"{head} {quote} BEGIN {statements} END {quote}"

    def some_insert_command(self):
        if self.chance(0.2):
            return f"INSERT INTO t VALUES ({self.key()}) RETURNING v, v + 1"
        table = self.choose("t", "u", "w", "x", "y", "t")
        row = {"w": f"({self.key()}, {self.key()})", "y": f"({self.key()}, DEFAULT)"}.get(table, f"({self.key()})")
        more = "" if self.chance(0.6) else ", " + (f"({self.key()}, 1)" if table in "wy" else f"({self.key()})")
        return f"INSERT INTO {table} VALUES {row}{more}"

    def some_update_command(self):
        return self.choose(
            f"UPDATE t SET v = v + {self.key()} WHERE v < {self.key()}",
            f"UPDATE u SET k = {self.key()} WHERE k = {self.key()}",
            f"UPDATE w SET v = v + {self.key()}",
            f"UPDATE w SET k = {self.key()} WHERE k = {self.key()}",
            f"UPDATE t SET v = 6 / v WHERE v = {self.key()}",
            "UPDATE t SET v = v * 2",
        )

    def some_delete_command(self):
        table = self.choose("t", "u", "w", "x")
        column = "k" if table in "uw" else "v"
        where = f" WHERE {column} {self.choose('=', '<', '>')} {self.key()}" if self.chance(0.8) else ""
        return f"DELETE FROM {table}{where}"

    def some_query_command(self):
        calls = [tree.Call(it.name, tuple(map(tree.Number, range(len(it.parameters))))) for it in self.functions]
        table = self.choose(*TABLES)
        return self.choose(
            f"SELECT * FROM {table} ORDER BY 1, {1 + (table in 'wy')}",
            f"SELECT count(*) FROM {table}",
            f"SELECT g({self.key()})",
            f"SELECT {self.choose(*calls)}" if calls else "SELECT 1",
        )

    def some_wrong_command(self):
        return self.choose(*WRONG)

    def some_define_command(self):
        return self.definition()

    def some_function_command(self):
        return self.text_of_function("$$")

    def command(self):
        if self.chance(0.4):
            return self.routine("", "do", 4)
        if self.chance(0.06):
            return self.numbered_function(self.random.randint(0, len(PARAMETERS) - 1))
        return Words(getattr(self, f"some_{self.choose(*KINDS)}_command")())

    def numbered_function(self, number):
        """It calls those of lower numbers alone, so that no call is endless."""
        known, self.functions = self.functions, [it for it in self.functions if it.name < f"f{number}"]
        while (made := self.routine(f"f{number}", "function", 2)).parameters != PARAMETERS[number]:
            pass
        if any(it.name == made.name for it in known):
            self.functions = known
            return Words(str(made)[:-1].replace("CREATE", "CREATE OR REPLACE", 1))
        self.functions = sorted([*known, made], key=lambda it: it.name)
        return made

    def stray(self):
        """A command of transaction blocks wherever it comes."""
        words = self.choose(BEGINS, COMMITS, ROLLBACKS, ("SAVEPOINT",) * 2, BACK, RELEASES)
        name = f" {self.savepoint()}" if words in (BACK, RELEASES) or words[0] == "SAVEPOINT" else ""
        return Words(self.choose(*words) + name)

    def savepoint(self):
        return "nosuch" if self.chance(0.02) else self.choose(*SAVEPOINTS)

    def several(self, deep):
        made = []
        for _ in self.some(1, 4):
            if deep and self.chance(0.3):
                made += self.nest(deep - 1)
            else:
                made.append(self.stray() if self.chance(0.07) else self.command())
        return made

    def nest(self, deep):
        """A savepoint, what comes behind it, and how it ends, if it does."""
        name = self.choose(*SAVEPOINTS)
        back, release = self.choose(*BACK), self.choose(*RELEASES)
        made = [Words(f"SAVEPOINT {name}"), *self.several(deep)]
        if self.chance(0.6):
            made.append(Words(f"{back} {name}"))
            made += self.several(deep) if self.chance(0.4) else []
            made += [Words(f"{back} {name}")] * self.chance(0.2)
        return made + [Words(f"{release} {name}")] * self.chance(0.4)

    def transaction(self):
        ends = [Words(self.choose(*self.choose(COMMITS, COMMITS, ROLLBACKS)))] if self.chance(0.95) else []
        return [Words(self.choose(*BEGINS)), *self.several(3), *ends]

    def script(self):
        made = [Words(f"CREATE TABLE {it} ({TABLES[it]})") for it in ("t", "u", "w")]
        made += [self.numbered_function(it) for it in range(self.random.randint(0, 3))]
        made += [Words("INSERT INTO t VALUES (1), (2)"), Words("INSERT INTO u VALUES (0), (3)")]
        made.append(Words("INSERT INTO w VALUES (1, 1), (2, 5)"))
        while len(made) < self.length:
            made += self.transaction() if self.chance(0.7) else [self.stray() if self.chance(0.1) else self.command()]
        return made
