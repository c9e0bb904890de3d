#!/usr/bin/env python3
"""Times `check` of queries of about 1,000 tokens and of large schemas.

It lies outside the gate: run it by hand after `rt ci`. It runs `bin/qcert`, which is built first where it is stale, on files in a
folder for temporary files. A machine that does other work makes the times longer.
"""
import os
import pathlib
import resource
import subprocess
import sys
import tempfile
import time

TOP = pathlib.Path(__file__).resolve().parent.parent


def nested_selects(depth):
    """A select in the source of a select, and so on."""
    return "select x from x in (" * depth + "bag(1)" + ")" * depth


CHECKS = [
    ("brackets, 499 deep", "(" * 499 + "1" + ")" * 499),
    ("negations, 999 deep", "-" * 999 + "1"),
    ("a sum of 500", " + ".join(["1"] * 500)),
    ("141 nested selects", nested_selects(141)),
    ("a struct of 249 fields", "struct(" + ", ".join("f%d: %d" % (i, i) for i in range(249)) + ")"),
    ("a bag of 498", "bag(" + ", ".join(str(i) for i in range(498)) + ")"),
    ("a select of 165 sources", "select 1 from " + ", ".join("x%d in bag()" % i for i in range(165))),
    ("71 definitions that double their type", "".join("define b%d as struct(x: %s, y: %s); " % (i, e, e) for i, e in enumerate(["1"] + ["b%d" % j for j in range(70)])) + "1"),
    ("124 definitions", "".join("define d%d as %s; " % (i, "1" if i == 0 else "d%d + 1" % (i - 1)) for i in range(124)) + "d123"),
]


def classes(count):
    return '{"version":1,"classes":[%s],"globals":{}}' % ",".join('{"name":"C%05d","parent":null,"type":{"record":{"a":"int"}}}' % i for i in range(count))


def chain(count):
    """Each class but the first is a child of the one before it."""
    parent = lambda i: '"C%05d"' % (i - 1) if i else "null"
    return '{"version":1,"classes":[%s],"globals":{}}' % ",".join('{"name":"C%05d","parent":%s,"type":{"record":{"a":"int"}}}' % (i, parent(i)) for i in range(count))


def globals_of(count):
    return '{"version":1,"classes":[],"globals":{%s}}' % ",".join('"g%05d":"int"' % i for i in range(count))


SCHEMAS = [("%d classes" % n, "1", classes(n)) for n in (1000, 2000, 4000)]
SCHEMAS += [("a chain of %d classes" % n, "1", chain(n)) for n in (1000, 2000, 4000)]
SCHEMAS.append(("400 uses of the last of 4,000 globals", " + ".join(["g03999"] * 400), globals_of(4000)))


def measure(words, folder):
    """Seconds and most bytes of memory of a call, which is to end with status 0."""
    started = time.monotonic()
    process = subprocess.Popen([str(TOP / "bin" / "qcert")] + words, cwd=folder, stdout=subprocess.DEVNULL)
    _, status, usage = os.wait4(process.pid, 0)
    if status != 0:
        sys.exit("bench: status %d of %s" % (status, " ".join(words)))
    return time.monotonic() - started, usage.ru_maxrss * 1024


def main():
    resource.setrlimit(resource.RLIMIT_STACK, (resource.RLIM_INFINITY, resource.RLIM_INFINITY))
    with tempfile.TemporaryDirectory() as name:
        folder = pathlib.Path(name)
        (folder / "q").write_text("1")
        measure("check --source oql --query q".split(), folder)
        for title, query in CHECKS:
            (folder / "q").write_text(query)
            seconds, most = measure("check --source oql --query q".split(), folder)
            print("check, %s: %.3f s, %.0f MiB" % (title, seconds, most / 2**20))
        for title, query, schema in SCHEMAS:
            (folder / "q").write_text(query)
            (folder / "s").write_text(schema)
            seconds, most = measure("check --source oql --query q --schema s".split(), folder)
            print("check, %s: %.3f s, %.0f MiB" % (title, seconds, most / 2**20))


if __name__ == "__main__":
    main()
