#!/usr/bin/env python3
"""Writes operations on values with the answers of a PostgreSQL server.

Usage: tools/value_table.py crates/pl_calc/src/tests, then `rt fmt` in the crate. It writes operator_table.rt
and call_table.rt there. psql finds the server by its usual settings (PGHOST, PGUSER); its encoding is UTF8
and its locale C.
"""
import itertools
import subprocess
import sys

INTS = [0, 1, -1, 2, -7, 2147483647, -2147483648]
BIGS = [0, 3, -3, 2147483648, 9223372036854775807, -9223372036854775808]
TEXTS = ["", "a", "abc", "B", "é", "aé", " x "]
ARITHMETIC = {"+": "Add", "-": "Subtract", "*": "Multiply", "/": "Divide", "%": "Remainder"}
COMPARISON = {"=": "Equal", "<>": "NotEqual", "<": "Less", ">": "Greater", "<=": "LessOrEqual", ">=": "GreaterOrEqual"}
TYPES = {"integer": "Int", "bigint": "Big", "text": "Text", "boolean": "Bool"}

# A value is a pair of its kind and its Python value; a null has the kind of its type's name.
def sql(value):
    kind, x = value
    if x is None:
        return "NULL::" + {"Int": "integer", "Big": "bigint", "Text": "text", "Bool": "boolean"}[kind]
    if kind == "Text":
        return "'" + x.replace("'", "''") + "'::text"
    if kind == "Bool":
        return "TRUE" if x else "FALSE"
    return "('%d'::%s)" % (x, "integer" if kind == "Int" else "bigint")

def quoted(x):
    return '"' + x.replace("\\", "\\\\").replace('"', '\\"').replace("\n", "\\n").replace("\t", "\\t").replace("\f", "\\x0c").replace("\v", "\\x0b") + '"'

def literal(kind, x):
    if x is None:
        return "Null"
    if kind == "Text":
        return "Text(%s)" % quoted(x)
    if kind == "Bool":
        return "Bool(%s)" % ("true" if x else "false")
    return "%s(%s)" % (kind, x)

def rust(value):
    return literal(*value)

rows = []  # (table, left side of the row, SQL)

def binary(operator, a, b, text=None):
    rows.append(("BINARY", "%s, %s, %s" % (operator, rust(a), rust(b)), text))

def add_binary(name, sign, a, b):
    binary(name, a, b, "%s %s %s" % (sql(a), sign, sql(b)))

def operations():
    for sign, name in ARITHMETIC.items():
        for x, y in [(7, 2), (-7, 2), (7, -2), (-7, -2), (2147483647, 1), (-2147483648, -1), (1, 0), (65536, 65536)]:
            add_binary(name.upper(), sign, ("Int", x), ("Int", y))
        for x, y in [(("Big", 9223372036854775807), ("Big", 1)), (("Big", -9223372036854775808), ("Big", -1)), (("Int", 2147483647), ("Big", 1)), (("Big", -9), ("Int", 4)), (("Int", None), ("Int", 0))]:
            add_binary(name.upper(), sign, x, y)
    for sign, name in COMPARISON.items():
        for x, y in [(("Int", -1), ("Int", 1)), (("Int", 2), ("Big", 2)), (("Big", 9223372036854775807), ("Int", 0)), (("Text", "abc"), ("Text", "B")), (("Text", "a"), ("Text", "aé")), (("Text", ""), ("Text", "")), (("Bool", False), ("Bool", True)), (("Text", None), ("Text", "a"))]:
            add_binary(name.upper(), sign, x, y)
    for x, y in [(("Int", None), ("Int", None)), (("Int", None), ("Int", 1)), (("Int", 1), ("Big", 1)), (("Text", "a"), ("Text", "b")), (("Bool", True), ("Bool", None))]:
        add_binary("Distinct", "IS DISTINCT FROM", x, y)
        add_binary("NotDistinct", "IS NOT DISTINCT FROM", x, y)
    for x, y in itertools.product([True, False, None], repeat=2):
        add_binary("And", "AND", ("Bool", x), ("Bool", y))
        add_binary("Or", "OR", ("Bool", x), ("Bool", y))
    for x, y in [(("Text", "a"), ("Text", "é")), (("Text", "n"), ("Int", -5)), (("Big", 9223372036854775807), ("Text", "")), (("Text", "is "), ("Bool", True)), (("Bool", False), ("Text", "!")), (("Text", "a"), ("Text", None)), (("Int", 1), ("Int", 2)), (("Bool", True), ("Bool", True))]:
        add_binary("Concatenate", "||", x, y)
    for text, pattern in [("abc", "abc"), ("abc", "a%"), ("abc", "%c"), ("abc", "_b_"), ("abc", "ab"), ("", ""), ("", "%"), ("", "_"), ("é", "_"), ("é", "__"), ("aé", "%é"), ("a%c", "a\\%c"), ("abc", "a\\%c"), ("a\\c", "a\\\\c"), ("abcbc", "a%bc"), ("abab", "%ab%ab"), ("ab", "%a%b%"), ("aab", "_%b"), ("A", "a"), ("a_c", "a\\_c"), ("éa", "\\éa"), ("xyxyxz", "%xyxz")]:
        add_binary("Like", "LIKE", ("Text", text), ("Text", pattern))
    for x, y in [(("Text", "a"), ("Int", 1)), (("Bool", True), ("Int", 1))]:
        add_binary("ADD", "+", x, y)
        add_binary("LESS", "<", x, y)
    for name, text in [("Plus", "+ %s"), ("Minus", "- %s")]:
        for value in [("Int", 5), ("Int", -2147483648), ("Big", -9223372036854775808), ("Int", None), ("Text", "1")]:
            rows.append(("UNARY", "%s, %s" % (name, rust(value)), text % sql(value)))
    for name, text in [("Not", "NOT %s"), ("Is(Test::Null)", "%s IS NULL"), ("IsNot(Test::Null)", "%s IS NOT NULL"), ("Is(Test::True)", "%s IS TRUE"), ("IsNot(Test::True)", "%s IS NOT TRUE"), ("Is(Test::False)", "%s IS FALSE"), ("IsNot(Test::False)", "%s IS NOT FALSE"), ("Is(Test::Unknown)", "%s IS UNKNOWN"), ("IsNot(Test::Unknown)", "%s IS NOT UNKNOWN")]:
        for value in [("Bool", True), ("Bool", False), ("Bool", None), ("Int", 1)]:
            rows.append(("UNARY", "%s, %s" % (name, rust(value)), text % sql(value)))
    calls = [("abs", [("Int", -5)]), ("abs", [("Int", -2147483648)]), ("abs", [("Big", -9223372036854775807)]), ("abs", [("Big", -9223372036854775808)]), ("abs", [("Int", None)]), ("mod", [("Int", -7), ("Int", 3)]), ("mod", [("Int", 7), ("Big", -3)]), ("mod", [("Int", 1), ("Int", 0)])]
    calls += [(f, [("Text", t)]) for f in ["length", "btrim"] for t in TEXTS]
    calls += [(f, [("Text", t)]) for f in ["upper", "lower"] for t in ["", "aBc9", "Z{[@`"]]
    calls += [("substr", [("Text", "aébc"), ("Int", s)]) for s in [-2147483648, 0, 1, 2, 4, 5, 2147483647]]
    calls += [("substr", [("Text", "aébc"), ("Int", s), ("Int", n)]) for s, n in [(0, 3), (1, 2), (2, 1), (2, 0), (-5, 7), (3, 2147483647), (-2147483648, 5), (4, 9), (1, -1), (9, 1)]]
    calls += [("strpos", [("Text", t), ("Text", p)]) for t, p in [("aébc", "b"), ("aébc", ""), ("aébc", "bc"), ("aébc", "x"), ("", ""), ("", "a"), ("aab", "ab"), ("éé", "é")]]
    calls += [("replace", [("Text", t), ("Text", f), ("Text", w)]) for t, f, w in [("abcabc", "bc", "X"), ("aaa", "aa", "b"), ("abc", "", "x"), ("", "a", "b"), ("aéa", "é", ""), ("abab", "ab", "abab"), ("xaxbx", "x", "yy")]]
    calls += [("repeat", [("Text", t), ("Int", n)]) for t, n in [("ab", 3), ("ab", 0), ("ab", -1), ("", 5), ("é", 2)]]
    calls += [("length", [("Int", 1)]), ("substr", [("Text", "a"), ("Big", 1)]), ("upper", [("Text", None)]), ("strpos", [("Text", None), ("Text", "")]), ("nothing", [("Int", 1)])]
    for name, args in calls:
        rows.append(("FUNCTION", "%s, &[%s]" % (quoted(name), ", ".join(map(rust, args))), "%s(%s)" % (name, ", ".join(map(sql, args)))))
    values = [("Int", 0), ("Int", 5), ("Int", -2147483648), ("Big", 2147483647), ("Big", 2147483648), ("Bool", True), ("Bool", False), ("Text", "7"), ("Int", None)]
    values += [("Text", t) for t in [" +12\n", "-0", "2147483648", "-2147483649", "-9223372036854775808", "9223372036854775808", "99999999999999999999999", "", "-", "+-1", "1 2", "1.0", "x", "\t t\f", "TRUE", "o", "on", "of", "OFF", "0", "ye", "yess", "fal", "2", "N", "\v7\v", "\vt \v"]]
    for value in values:
        for name, variant in TYPES.items():
            rows.append(("CAST", "%s, To%s" % (rust(value), variant), "CAST(%s AS %s)" % (sql(value), name)))
    for value in [("Int", 5), ("Big", 5), ("Big", 2147483648), ("Bool", True), ("Text", "1")]:
        for name, variant in TYPES.items():
            rows.append(("ASSIGN", "%s, To%s" % (rust(value), variant), ("assign", name, sql(value))))

def asked(expression):
    if isinstance(expression, tuple):
        _, name, value = expression
        return "CREATE TEMP TABLE t (c %s); INSERT INTO t SELECT %s RETURNING pg_typeof(c), c;" % (name, value)
    return "SELECT pg_typeof(r), r FROM (SELECT %s AS r) AS q;" % expression

def answers():
    script = "\\set VERBOSITY sqlstate\n\\pset tuples_only on\n\\pset format unaligned\n\\pset fieldsep '\\x01'\n\\pset recordsep '\\x02'\n\\pset null '(null)'\n"
    for _, _, expression in rows:
        script += "\\echo -n '\\x03'\nBEGIN;\n" + asked(expression) + "\nROLLBACK;\n"
    script = script.replace("BEGIN;", "BEGIN;", 1)
    ran = subprocess.run(["psql", "-X", "-q", "-d", "postgres"], input=script.encode(), stdout=subprocess.PIPE, stderr=subprocess.STDOUT)
    return ran.stdout.decode().split("\x03")[1:]

def expected(answer):
    answer = answer.removesuffix("\n") if "\x01" in answer else answer
    for line in answer.split("\n"):
        if line.startswith("ERROR:") or ": ERROR:" in line:
            return 'State(b"%s")' % line.strip()[-5:]
    kind, x = answer.split("\x01", 1)
    kind = TYPES[kind]
    if x == "(null)":
        return "Gives(Null)"
    return "Gives(%s)" % literal(kind, {"Bool": lambda: x == "t", "Text": lambda: x}.get(kind, lambda: int(x))())

OPERATORS = """use crate::Operator::{And, Concatenate, Distinct, Is, IsNot, Like, Minus, Not, NotDistinct, Or, Plus};
use crate::{Arithmetic, Comparison, Operator, Test};
"""

def written(path, heads, tables, made):
    with open(path, "w") as out:
        out.write("//! Operations and the answers of a PostgreSQL server, as tools/value_table.py wrote them.\n\n")
        out.write("use super::Expected::{self, Gives, State};\nuse super::Literal::{self, Big, Bool, Int, Null, Text};\n" + heads)
        for name, shape in tables.items():
            out.write("\npub(super) static %s: [%s; %d] = [\n    %s,\n];\n" % (name, shape, len(made[name]), ",\n    ".join(made[name])))

def main():
    operations()
    operators = {"UNARY": "(Operator, Literal, Expected)", "BINARY": "(Operator, Literal, Literal, Expected)"}
    calls = {"FUNCTION": "(&str, &[Literal], Expected)", "CAST": "(Literal, Target, Expected)", "ASSIGN": "(Literal, Target, Expected)"}
    made = {name: [] for name in [*operators, *calls]}
    for (table, left, _), answer in zip(rows, answers(), strict=True):
        made[table].append("(%s, %s)" % (left, expected(answer)))
    heads = OPERATORS
    for kind, names in [("Arithmetic", ARITHMETIC), ("Comparison", COMPARISON)]:
        variant = "Compare" if kind == "Comparison" else kind
        for name in names.values():
            heads += "\nconst %s: Operator = Operator::%s(%s::%s);" % (name.upper(), variant, kind, name)
    written(sys.argv[1] + "/operator_table.rt", heads + "\n", operators, made)
    written(sys.argv[1] + "/call_table.rt", "use super::Target::{self, ToBig, ToBool, ToInt, ToText};\n", calls, made)

main()
