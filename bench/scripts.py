#!/usr/bin/env python3
"""Times scripts: reading texts of half a mebibyte and of one, and executing the sorting query's text beside the imperative program of
the same query, over many rows.

It lies outside the gate: run it by hand after `rt ci`. It runs a program of its own, which it makes in a folder for temporary files
over copies of this checkout's crates; where `rt ci` has proved these, that takes some minutes. The program times itself; the least of
three runs is told. A line that is past what is wanted of it ends in `TOO LONG`, and the status is then 1. A machine that does other
work makes the times longer.
"""
import sys

from building import made
from pieces import INPUT, MAIN, ON_QUERY, SCHEMA, TELL, TYPED, fetched, front, on_query, passed, value_of, words
from stages import ROWS, STAFF, employees, least, write

# The most seconds that reading a mebibyte may take, and the most times as long as half of the text.
MOST_SECONDS, MOST_GROWTH = 0.5, 3
# The most times as long as the imperative program that its text may take.
MOST_TIMES = 1.5

PROGRAM = (
    front("""//! Reads the script `script`; where a word says so, also executes it over the input `input` in the schema `schema`,
//! beside the imperative program of the query `q`. It prints a line of microseconds for each.
""", ["qc_data::enc", "qc_js::Js", "qc_js_run::exec", "qc_js_text::read_js"])
    + MAIN + fetched("script", "1 << 24")
    + "    let start = Instant::now(&rt);\n" + value_of("js", "read_js(alloc, &bytes)")
    + """    tell(&rt, "read", start);
""" + words("&rt")
    + """    if words < 2 {
        return;
    }
""" + SCHEMA + INPUT
    + "    execute(&rt, &js, &world);\n" + on_query("evaluate")
    + "fn execute(rt: &HostRuntime, js: &Js, world: &World) {\n" + value_of("input", "enc(rt.alloc(), world.whole())")
    + """    let start = Instant::now(rt);
    if exec(rt.alloc(), js, &input).is_ok() {
        tell(rt, "script", start);
    }
}

fn evaluate""" + ON_QUERY + TYPED
    + passed("OqlToNra", "typed") + passed("NraToNnrc") + passed("NnrcToNnrs") + passed("NnrsToImp")
    + """    let start = Instant::now(rt);
    if tree.eval(rt.alloc(), world).is_ok() {
        tell(rt, "imp", start);
    }
}

"""
    + TELL
)

QUERY = "select x.name from x in emp order by x.age desc, x.name"
SCRIPT = """function query(w, rt) {
  const v0 = []; {
    for (const v1 of rt.dot("emp", w)) {
      v0.push(rt.cat(rt.cat(rt.rec("row", v1), rt.rec("first", rt.dot("age", v1))), rt.rec("second", rt.dot("name", v1))));
    }
  }
  const v2 = []; {
    for (const v3 of rt.order(["first", "second"], [false, true], v0)) { v2.push(rt.dot("name", rt.dot("row", v3))); }
  }
  return v2;
}
"""


def statements(size):
    """A program of statements of about this many bytes."""
    lines, length, i = [], 0, 0
    while length < size:
        line = 'const v%d = rt.cat(rt.rec("name", "row %d"), rt.rec("age", rt.add(%dn, rt.dot("n", w))));\n' % (i, i, i)
        lines.append(line)
        length += len(line)
        i += 1
    return "function query(w, rt) {\n" + "".join(lines) + "return null;\n}\n"


def nested(size):
    """A program of one wide tree of arrays and calls of about this many bytes."""
    part = '[rt.cat(rt.rec("a", [1n, 2n, true]), w), "text", [[[null]]]]'
    return "function query(w, rt) { return [" + ", ".join([part] * (size // (len(part) + 2))) + "]; }"


def blanks(size):
    """A program behind blanks and comments of about this many bytes."""
    return "// a comment of a line\n \t" * (size // 25) + "function query(w, rt) { return w; }"


SHAPES = [("statements", statements), ("an array", nested), ("blanks", blanks)]


def readings(program, folder):
    """Whether each text is read in a short time, and that grows with the text."""
    good = True
    for title, make in SHAPES:
        (folder / "script").write_text(make(1 << 19))
        half = least([program], folder, ["read"])["read"]
        (folder / "script").write_text(make(1 << 20))
        whole = least([program], folder, ["read"])["read"]
        holds = whole <= 1e6 * MOST_SECONDS and whole <= MOST_GROWTH * max(half, 1)
        good = good and holds
        print("reading 1 MiB of %s: %.3f s, half of it %.3f s%s" % (title, whole / 1e6, half / 1e6, "" if holds else " TOO LONG"), flush=True)
    return good


def sorting(program, folder):
    """Whether the text takes little longer than the imperative program."""
    write(folder, STAFF, employees(ROWS), QUERY)
    (folder / "script").write_text(SCRIPT)
    micros = least([program, "all"], folder, ["read", "script", "imp"])
    times = micros["script"] / max(micros["imp"], 1)
    holds = times <= MOST_TIMES
    print("sort by two keys, %d rows: the program %.3f s, its text %.3f s, %.2f times%s"
          % (ROWS, micros["imp"] / 1e6, micros["script"] / 1e6, times, "" if holds else " TOO LONG"))
    return holds


def main():
    with made("bench_scripts", PROGRAM, ["qc_io", "qc_js_text", "qc_js_run", "qc_to_nra", "qc_lower", "qc_to_nnrs", "qc_to_imp"]) as (program, folder):
        good = readings(program, folder)
        good = sorting(program, folder) and good
    sys.exit(0 if good else 1)


if __name__ == "__main__":
    main()
