#!/usr/bin/env python3
"""Times the texts of `compile`: writing that of the sorting query, and those of queries of about 1,000 tokens and of
half of that; and what the sorting query costs over many rows by `run`, by `exec` of its text, by its text in Node, and
in SQLite.

It lies outside the gate: run it by hand after `rt ci`. It runs the program `qcert`, which is built first where it is
stale, Node, and Python's sqlite3, on files in a folder for temporary files. Whole processes are timed, with their
start, reading the input, which is a text of JSON for each, and writing the answer; the least of three is told. What is
beyond reading is beyond the same process on the query `1`; alone is the execution, as the process times it itself. A
line that is past what is wanted of it ends in `TOO LONG`, and one whose answer is not that of `run` in `DIFFERS`; the
status is then 1. A machine that does other work makes the times longer.
"""
import pathlib
import resource
import subprocess
import sys
import tempfile

from building import TOP, qcert
from ground import best
from scripts import QUERY
from stages import EMPTY, MOST_GROWTH, ROWS, SHAPES, STAFF, employees, write

# The most milliseconds that `compile` may take as a whole process.
MOST_MILLISECONDS = 100
# The milliseconds beyond its start from which on it counts how many times as long as half of the query it takes.
LEAST_MILLISECONDS = 5

COMPILE = "compile --source oql --query q --schema schema".split()
RUN = "run --source oql --query q --schema schema --input input".split()
EXEC = "exec --script script --input input".split()
NODE = ["node", TOP / "host" / "execute.mjs", "script", "input"]
# The table of the rows of the input, and the first column of a query over it.
SQLITE = """import json, sqlite3, sys, time
with open("input") as file:
    text = file.read()
base = sqlite3.connect(":memory:")
base.execute("create table emp (name text, age integer, dept text)")
columns = "json_extract(value, '$.name'), json_extract(value, '$.age'), json_extract(value, '$.dept')"
base.execute("insert into emp select %s from json_each(?, '$.emp')" % columns, (text,))

def answer():
    return [row[0] for row in base.execute(sys.argv[1])]

def microseconds():
    started = time.monotonic_ns()
    answer()
    return (time.monotonic_ns() - started) // 1000

if sys.argv[2:] == ["--times"]:
    print(min(microseconds() for _ in range(3)))
else:
    print(json.dumps(answer(), ensure_ascii=False, separators=(",", ":")))
"""
SORTED = "select name from emp order by age desc, name"


def output(words, folder):
    """The bytes that a call writes, which is to end with status 0."""
    return subprocess.run([str(word) for word in words], cwd=folder, check=True, capture_output=True).stdout


def milliseconds(words, folder):
    return 1000 * best(words, folder)[0]


def compiled(program, folder, schema, query):
    """The milliseconds and the bytes of a query's text."""
    write(folder, schema, "{}", query)
    return milliseconds([program] + COMPILE, folder), len(output([program] + COMPILE, folder))


def compiling(program, folder):
    """Whether each text is written in a short time, and time and text grow with the query."""
    start, _ = compiled(program, folder, EMPTY, "1")
    print("compiling `1`, which is the start: %.1f ms" % start, flush=True)
    took, size = compiled(program, folder, STAFF, QUERY)
    good = took <= MOST_MILLISECONDS
    print("compiling the sorting query: %.1f ms, %d bytes%s" % (took, size, "" if good else " TOO LONG"), flush=True)
    for title, make, count in SHAPES:
        half, half_size = compiled(program, folder, EMPTY, make(count // 2))
        whole, size = compiled(program, folder, EMPTY, make(count))
        is_short = whole - start < LEAST_MILLISECONDS or whole - start <= MOST_GROWTH * (half - start)
        holds = whole <= MOST_MILLISECONDS and is_short and size <= MOST_GROWTH * half_size
        good = good and holds
        told = (title, count, whole, size, half, half_size, "" if holds else " TOO LONG")
        print("compiling %s, %d: %.1f ms, %d bytes; half of it %.1f ms, %d bytes%s" % told, flush=True)
    return good


def calls(program, query):
    """The calls that answer the query over the rows: titles, words, and those of a call that tells the time alone."""
    sqlite = [sys.executable, "-c", SQLITE, SORTED if query == QUERY else "select 1"]
    return [
        ("run", [program] + RUN, None),
        ("exec of its text", [program] + EXEC, None),
        ("its text in Node", NODE, NODE + ["--times"]),
        ("SQLite", sqlite, sqlite + ["--times"]),
    ]


def prepared(program, folder, query):
    """Writes the files for the query, its text among them, over the rows."""
    write(folder, STAFF, employees(ROWS), query)
    (folder / "script").write_bytes(output([program] + COMPILE, folder))


def over_rows(program, folder):
    """Whether all give the same answer."""
    prepared(program, folder, "1")
    reading = [milliseconds(words, folder) for _, words, _ in calls(program, "1")]
    prepared(program, folder, QUERY)
    wanted, good = output([program] + RUN, folder), True
    for (title, words, timed), read in zip(calls(program, QUERY), reading):
        whole, is_same = milliseconds(words, folder), output(words, folder) == wanted
        good = good and is_same
        alone = ", %.0f ms alone" % (min(int(output(timed, folder)) for _ in range(3)) / 1000) if timed else ""
        told = (ROWS, title, whole, whole - read, alone, "" if is_same else " DIFFERS")
        print("sort by two keys, %d rows, %s: %.0f ms, %.0f ms beyond reading%s%s" % told, flush=True)
    return good


def main():
    resource.setrlimit(resource.RLIMIT_STACK, (resource.RLIM_INFINITY, resource.RLIM_INFINITY))
    program = qcert()
    with tempfile.TemporaryDirectory() as name:
        folder = pathlib.Path(name)
        good = compiling(program, folder)
        good = over_rows(program, folder) and good
    sys.exit(0 if good else 1)


if __name__ == "__main__":
    main()
