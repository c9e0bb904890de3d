#!/usr/bin/env python3
"""Prints a table of what reading, operators and queries over many rows cost, at n rows and at 2n, beside SQLite, jq and Python's json.

It lies outside the gate: run it by hand after `rt ci`. It runs `bin/qcert`, and a program of its own, which it makes in a folder
for temporary files over copies of this checkout's crates; where `rt ci` has proved these, that takes a minute. The seconds of a row are those
beyond reading the input, for the others too; a mark stands where another program has no call that does the same work. The most
memory of the whole process stands beside the bytes of the input; what reading holds is what a second reading adds. A machine that does other work makes the times longer.
"""
import json
import subprocess
import sys
import time

from building import TOP, made

BELOW = ["qc_containers", "qc_data", "qc_keys", "qc_io", "qc_types", "qc_ops", "qc_schema"]
PROGRAM = """//! Reads the input `input` in the schema `schema` as many times as it has words, and keeps what it reads; where a word is `group`, groups its rows.
#![tactic(auto)]

use qc_containers::Name;
use qc_data::Datum;
use qc_io::{FileShelf, Shelf};
use qc_ops::{Names, Unary, apply1};
use qc_schema::{read_input, read_schema};
use qc_types::World;
use std::alloc::Global;
use std::env;

// The rows `rs` by their member `b`.
fn grouped(alloc: Global, world: &World) -> bool {
    let (Ok(all), Ok(key)) = (Name::of(alloc, "all"), Name::of(alloc, "b")) else {
        return false;
    };
    let mut names = Names::new(alloc);
    if names.add(key).is_err() {
        return false;
    }
    match world.get("rs") {
        Some(rows) => apply1(alloc, world.classes(), &Unary::Group(all, names), rows).is_ok(),
        None => false,
    }
}

fn main(rt: HostRuntime) {
    let alloc = rt.alloc();
    let mut shelf = FileShelf::new(&rt);
    let mut schema = Vec::new(alloc);
    let mut input = Vec::new(alloc);
    let _ = shelf.fetch("schema", 1 << 20, &mut schema);
    let _ = shelf.fetch("input", 1 << 24, &mut input);
    let (Ok(schema), Ok(words)) = (read_schema(alloc, &schema), env::args(&rt)) else {
        return;
    };
    let mut worlds = Vec::new(alloc);
    let mut done = 0u32;
    for word in words.skip(1) {
        if let Ok(world) = read_input(alloc, &schema, &input) {
            if word.as_str() != "group" || grouped(alloc, &world) {
                done = done.saturating_add(1);
            }
            let _ = worlds.push(world);
        }
    }
    let _ = println!(rt; "{done}");
}
"""

MEMBERS = '{"version":1,"classes":[],"globals":{"rs":{"bag":{"record":{"a":"int","b":"int"}}},"xs":{"bag":"int"}}}'
EMPLOYEES = '{"version":1,"classes":[],"globals":{"emp":{"bag":{"record":{"age":"int","dept":"text","name":"text"}}}}}'
PAIRS = '{"version":1,"classes":[],"globals":{"a":{"bag":{"record":{"k":"int","v":"int"}}},"b":{"bag":{"record":{"k":"int","w":"int"}}}}}'


def members(count):
    """Integers without order, and records of them."""
    mixed = [i * 7919 % count for i in range(count)]
    return '{"rs":[%s],"xs":[%s]}' % (",".join('{"a":%d,"b":%d}' % (n, n % 1000) for n in mixed), ",".join(map(str, mixed)))


def employees(count):
    rows = ('{"name":"Employee %d","age":%d,"dept":"d%d"}' % (i * 7919 % count, i % 90, i % 7) for i in range(count))
    return '{"emp":[' + ",".join(rows) + "]}"


def pairs(count):
    rows = lambda name: ",".join('{"k":%d,"%s":%d}' % ((i * 31) % count, name, i) for i in range(count))
    return '{"a":[%s],"b":[%s]}' % (rows("v"), rows("w"))


def sorted_names(data):
    rows = [row for row in data["emp"] if row["age"] > 30]
    return [row["name"] for row in sorted(rows, key=lambda row: (-row["age"], row["name"]))]


def joined(data):
    return [{"v": x["v"], "w": y["w"]} for x in data["a"] for y in data["b"] if x["k"] == y["k"]]


EACH = "from json_each(readfile('input'), '$.%s')"
# A title; the query; the schema; the input of n rows; n; then the same work in SQLite, in jq and in Python, where they have it.
QUERIES = [
    ("distinct, integers", "count(distinct(xs))", MEMBERS, members, 100000,
     "select count(distinct value) " + EACH % "xs", ".xs | unique | length", lambda data: len(set(data["xs"]))),
    ("distinct, records", "count(distinct(rs))", MEMBERS, members, 100000,
     "select count(distinct value) " + EACH % "rs", ".rs | unique | length", lambda data: len({tuple(row.items()) for row in data["rs"]})),
    ("except, integers", "count(xs except xs)", MEMBERS, members, 100000, None, None, None),
    ("filter and sort", "select x.name from x in emp where x.age > 30 order by x.age desc, x.name", EMPLOYEES, employees, 100000,
     "select json_extract(value, '$.name') " + EACH % "emp" + " where json_extract(value, '$.age') > 30 order by json_extract(value, '$.age') desc, json_extract(value, '$.name')",
     "[.emp[] | select(.age > 30)] | sort_by(-.age, .name) | map(.name)", sorted_names),
    ("join, n by n", "select struct(v: x.v, w: y.w) from x in a, y in b where x.k = y.k", PAIRS, pairs, 1000,
     "select json_object('v', x.v, 'w', y.w) from (select json_extract(value, '$.k') k, json_extract(value, '$.v') v " + EACH % "a" + ") x, (select json_extract(value, '$.k') k, json_extract(value, '$.w') w "
     + EACH % "b" + ") y where x.k = y.k", "[.a[] as $x | .b[] | select(.k == $x.k) | {v: $x.v, w: .w}]", joined),
    ("join by a select in a select", "select struct(v: x.v, ws: (select y.w from y in b where y.k = x.k)) from x in a", PAIRS, pairs, 1000,
     None, "[.a[] as $x | {v: $x.v, ws: [.b[] | select(.k == $x.k) | .w]}]", lambda data: [{"v": x["v"], "ws": [y["w"] for y in data["b"] if y["k"] == x["k"]]} for x in data["a"]]),
]
READ = {"sqlite": "select json_valid(readfile('input'))", "jq": "length"}


LAUNCH = """import resource, subprocess, sys, time
started = time.monotonic()
status = subprocess.call(sys.argv[1:], stdout=subprocess.DEVNULL)
print(status, time.monotonic() - started, resource.getrusage(resource.RUSAGE_CHILDREN).ru_maxrss * 1024)
"""


def measure(words, folder):
    """Seconds and most bytes of memory of a call, which is to end with status 0. A small process makes the call, since the
    system counts what a caller holds as the called one's."""
    words = [str(word) for word in words]
    told = subprocess.run([sys.executable, "-c", LAUNCH] + words, cwd=folder, check=True, capture_output=True, text=True).stdout.split()
    if told[0] != "0":
        sys.exit("bench: status %s of %s" % (told[0], " ".join(words)))
    return float(told[1]), int(told[2])


def best(words, folder):
    """The least seconds of three calls, and the memory of the last."""
    calls = [measure(words, folder) for _ in range(3)]
    return min(seconds for seconds, _ in calls), calls[-1][1]


def python_seconds(work, text):
    """Seconds of the work on the input that Python's json has read."""
    data = json.loads(text)
    started = time.monotonic()
    work(data)
    return time.monotonic() - started


def ours(query, folder):
    """Seconds beyond reading, and most bytes, of a query over the input."""
    words = [TOP / "bin" / "qcert"] + "run --source oql --query q --schema schema --input input".split()
    (folder / "q").write_text("1")
    reading, _ = best(words, folder)
    (folder / "q").write_text(query)
    seconds, most = best(words, folder)
    return seconds - reading, most


def beyond(words, reading, folder):
    return best(words, folder)[0] - best(reading, folder)[0]


def others(sqlite, jq, work, text, folder):
    """Seconds beyond reading of the same work elsewhere, as cells of a row."""
    cells = []
    in_sqlite = lambda text: ["sqlite3", ":memory:", text]
    in_jq = lambda text: ["jq", "-c", text, "input"]
    cells.append("%.2f" % beyond(in_sqlite(sqlite), in_sqlite(READ["sqlite"]), folder) if sqlite else "-")
    cells.append("%.2f" % beyond(in_jq(jq), in_jq(READ["jq"]), folder) if jq else "-")
    cells.append("%.2f" % python_seconds(work, text) if work else "-")
    return cells


def row(cells):
    print("| " + " | ".join(cells) + " |", flush=True)


def reading_rows(program, folder):
    """Reading inputs of 1 to 16 MiB: seconds, and memory at the peak and what is held then, as multiples of the file."""
    row(["reading", "seconds", "peak, times the file", "held, times the file", "jq, seconds", "Python, seconds"])
    row(["---"] * 6)
    (folder / "schema").write_text(EMPLOYEES)
    for mebibytes in (1, 4, 16):
        text = employees((mebibytes << 20) // 48)
        (folder / "input").write_text(text)
        seconds, once = best([program, "read"], folder)
        _, twice = best([program, "read", "read"], folder)
        started = time.monotonic()
        json.loads(text)
        python = time.monotonic() - started
        jq = best(["jq", "-c", READ["jq"], "input"], folder)[0]
        cells = [seconds, once / len(text), (twice - once) / len(text), jq, python]
        row(["%.1f MiB" % (len(text) / 2**20), "%.2f" % cells[0], "%.1f" % cells[1], "%.1f" % cells[2], "%.2f" % cells[3], "%.2f" % cells[4]])


def query_rows(folder):
    row(["over n rows", "n", "seconds", "at 2n", "MiB", "MiB of input", "SQLite", "jq", "Python"])
    row(["---"] * 9)
    for title, query, schema, make, count, sqlite, jq, work in QUERIES:
        (folder / "schema").write_text(schema)
        (folder / "input").write_text(make(2 * count))
        twice, _ = ours(query, folder)
        text = make(count)
        (folder / "input").write_text(text)
        once, most = ours(query, folder)
        row([title, str(count), "%.2f" % once, "%.2f" % twice, "%.0f" % (most / 2**20), "%.1f" % (len(text) / 2**20)] + others(sqlite, jq, work, text, folder))


def group_row(program, folder):
    """Groups of rows by a member: no query of OQL reaches the operator, so the program calls it."""
    (folder / "schema").write_text(MEMBERS)
    seconds = []
    for count in (200000, 100000):
        text = members(count)
        (folder / "input").write_text(text)
        reading, _ = best([program, "read"], folder)
        whole, most = best([program, "group"], folder)
        seconds.append(whole - reading)
    jq = ".rs | group_by(.b) | length"
    sqlite = "select count(*) from (select json_group_array(value) " + EACH % "rs" + " group by json_extract(value, '$.b'))"
    cells = others(sqlite, jq, grouped, text, folder)
    row(["group, records", "100000", "%.2f" % seconds[1], "%.2f" % seconds[0], "%.0f" % (most / 2**20), "%.1f" % (len(text) / 2**20)] + cells)


def grouped(data):
    groups = {}
    for each in data["rs"]:
        groups.setdefault(each["b"], []).append(each)
    return groups


def main():
    with made("bench_ground", PROGRAM, BELOW) as (program, folder):
        reading_rows(program, folder)
        print()
        query_rows(folder)
        group_row(program, folder)


if __name__ == "__main__":
    main()
