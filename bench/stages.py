#!/usr/bin/env python3
"""Times queries at the stages of the pipeline: evaluating one beside the stage before over many rows, and translating queries of about
1,000 tokens.

It lies outside the gate: run it by hand after `rt ci`. It runs a program of its own, which it makes in a folder for temporary files
over copies of this checkout's crates; where `rt ci` has proved these, that takes some minutes. The program times itself, so that reading counts
for nothing; the least of three runs is told. A line that is past what is wanted of it ends in `TOO LONG`, and the status is then 1.
A machine that does other work makes the times longer.
"""
import subprocess
import sys

from building import made
from pieces import INPUT, MAIN, ON_QUERY, SCHEMA, TELL, TYPED, front, on_query, passed, words

# The most times as long as the stage before that a stage may take.
MOST_TIMES = 1.3
# The stages, each evaluated beside the one before it.
STAGES = ["query", "nraenv", "nnrc", "nnrs", "imp"]
# The most milliseconds that a translation may take.
MOST_MILLISECONDS = 10
# The most times as long as half of its text that a translation may take, where it takes a tenth of a millisecond.
MOST_GROWTH = 3

PROGRAM = (
    front("""//! Translates the query `q` in the schema `schema`; where a word says so, also evaluates it at each stage over the input
//! `input`. It prints a line of microseconds for each.
""", ["std::alloc::Global"])
    + MAIN + SCHEMA + INPUT + on_query("run")
    + "fn run" + ON_QUERY + words("rt") + TYPED
    + """    let evaluates = words >= 2;
    if evaluates {
        evaluate(rt, "query", &typed, world);
    }
    let start = Instant::now(rt);
""" + passed("OqlToNra", "typed")
    + """    tell(rt, "translated", start);
    if evaluates {
        evaluate(rt, "nraenv", &tree, world);
""" + passed("NraToNnrc", depth=2)
    + """        evaluate(rt, "nnrc", &tree, world);
""" + passed("NnrcToNnrs", depth=2)
    + """        evaluate(rt, "nnrs", &tree, world);
""" + passed("NnrsToImp", depth=2)
    + """        evaluate(rt, "imp", &tree, world);
    }
}

fn evaluate<L: Lang>(rt: &HostRuntime, stage: &str, tree: &L, world: &World) {
    let start = Instant::now(rt);
    if tree.eval(rt.alloc(), world).is_ok() {
        tell(rt, stage, start);
    }
}

"""
    + TELL
)

EMPTY = '{"version":1,"classes":[],"globals":{}}'
STAFF = '{"version":1,"classes":[],"globals":{"emp":{"bag":{"record":{"age":"int","dept":"text","name":"text"}}}}}'
ROWS = 100000
OVER_ROWS = [
    ("sort by two keys", "select x.name from x in emp order by x.age desc, x.name"),
    ("filter and sort", "select x.name from x in emp where x.age > 30 order by x.age desc, x.name"),
    ("filter alone", "select x.name from x in emp where x.age > 30"),
]


def nested_selects(depth):
    """A select in the source of a select, and so on."""
    return "select x from x in (" * depth + "bag(1)" + ")" * depth


def doubled(count):
    """Definitions, each of which doubles the type of the one before it."""
    parts = ["1"] + ["b%d" % i for i in range(count - 1)]
    return "".join("define b%d as struct(x: %s, y: %s); " % (i, part, part) for i, part in enumerate(parts)) + "1"


def chained(count):
    """Definitions, each of which names the one before it."""
    parts = ["1"] + ["d%d + 1" % i for i in range(count - 1)]
    return "".join("define d%d as %s; " % (i, part) for i, part in enumerate(parts)) + "d%d" % (count - 1)


def listed(text, count):
    return ", ".join(text % ((i,) * text.count("%d")) for i in range(count))


# A shape, the text of a query of it by a number, and the number at which it has about 1,000 tokens.
SHAPES = [
    ("brackets", lambda n: "(" * n + "1" + ")" * n, 499),
    ("negations", lambda n: "-" * n + "1", 999),
    ("a sum", lambda n: " + ".join(["1"] * n), 500),
    ("nested selects", nested_selects, 141),
    ("a struct", lambda n: "struct(" + listed("f%d: %d", n) + ")", 249),
    ("a bag", lambda n: "bag(" + listed("%d", n) + ")", 498),
    ("a select of sources", lambda n: "select 1 from " + listed("x%d in bag()", n), 165),
    ("a select by keys", lambda n: "select x from x in bag(1) order by " + listed("x + %d", n), 247),
    ("definitions that double their type", doubled, 71),
    ("definitions in a chain", chained, 124),
    ("quantifiers in one another", lambda n: "".join("exists x%d in bag() : " % i for i in range(n)) + "true", 142),
    ("matches in one another", lambda n: "match(left(1), left x: x, right y: " * n + "0" + ")" * n, 62),
]


def write(folder, schema, text, query):
    for name, content in (("schema", schema), ("input", text), ("q", query)):
        (folder / name).write_text(content)


def least(call, folder, wanted):
    """The least microseconds of three runs, by what they are for."""
    best = {}
    for _ in range(3):
        out = subprocess.run(call, cwd=folder, check=True, capture_output=True, text=True).stdout
        told = {line.split()[0]: int(line.split()[1]) for line in out.splitlines()}
        if set(told) != set(wanted):
            sys.exit("bench: the program told only of %s" % sorted(told))
        best = {what: min(best.get(what, micros), micros) for what, micros in told.items()}
    return best


def employees(count):
    rows = ('{"name":"Employee %d","age":%d,"dept":"d%d"}' % (i * 7919 % count, i % 90, i % 7) for i in range(count))
    return '{"emp":[' + ",".join(rows) + "]}"


def over_rows(program, folder):
    """Whether each stage takes little longer than the one before it over the same rows."""
    text = employees(ROWS)
    good = True
    for title, query in OVER_ROWS:
        write(folder, STAFF, text, query)
        micros = least([program, "all"], folder, STAGES + ["translated"])
        print("%s, %d rows: the query %.3f s" % (title, ROWS, micros["query"] / 1e6), flush=True)
        for before, stage in zip(STAGES, STAGES[1:]):
            times = micros[stage] / max(micros[before], 1)
            holds = times <= MOST_TIMES
            good = good and holds
            print("  %s %.3f s, %.2f times %s%s" % (stage, micros[stage] / 1e6, times, before, "" if holds else " TOO LONG"), flush=True)
    return good


def translations(program, folder):
    """Whether each translation is short, and grows with the text."""
    good = True
    for title, make, count in SHAPES:
        write(folder, EMPTY, "{}", make(count // 2))
        half = least([program], folder, ["translated"])["translated"]
        write(folder, EMPTY, "{}", make(count))
        whole = least([program], folder, ["translated"])["translated"]
        holds = whole <= 1000 * MOST_MILLISECONDS and (whole < 100 or whole <= MOST_GROWTH * max(half, 1))
        good = good and holds
        print("translating %s, %d: %.2f ms, half of it %.2f ms%s" % (title, count, whole / 1000, half / 1000, "" if holds else " TOO LONG"), flush=True)
    return good


def main():
    with made("bench_stages", PROGRAM, ["qc_io", "qc_to_nra", "qc_lower", "qc_to_nnrs", "qc_to_imp"]) as (program, folder):
        good = over_rows(program, folder)
        good = translations(program, folder) and good
    sys.exit(0 if good else 1)


if __name__ == "__main__":
    main()
