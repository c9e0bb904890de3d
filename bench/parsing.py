#!/usr/bin/env python3
"""Times the parsing of queries of about 1,000 tokens, from tokens to the tree: the first parse of a process, and a
later one. It also tells the memory that a parse takes, and what of it the tree is.

It lies outside the gate: run it by hand after `rt ci`. It makes a program of its own in a folder for temporary files,
over copies of this checkout's crates; what of them `rt ci` has not proved here is proved first. The program takes the
time itself, so that neither its start nor its build counts, and the least of some rounds is told. With the path of
another checkout that one's parser is measured. A machine that does other work makes the times longer.

Memory is what a process with one parse has mapped at most beside one that only scans; the heap grows by single pages
for it. The tree's is what each further tree adds that is kept.
"""
import os
import pathlib
import subprocess
import sys

from building import TOP, made
from queries import CHECKS

CRATES = ["qc_io", "qc_lex", "qc_oql_text"]
TIMES, ROUNDS, TREES = 500, 20, 100
MAIN = """//! Parses the query in the file `query` so often as its one word says, and prints its tokens, how many trees
//! there were, and the nanoseconds. With a word `kept` behind it the trees are kept, and the system's account of the
//! process follows.
#![tactic(auto)]

use qc_io::{FileShelf, Shelf};
use qc_lex::{Table, Words, scan};
use qc_oql_text::parse;
use std::env;
use std::io;
use std::str;
use std::time::Instant;

fn time(rt: &HostRuntime, words: &Words, times: u32) -> io::Result<()> {
    let mut parsed = 0u32;
    let start = Instant::now(rt)?;
    for _ in 0..times {
        if parse(rt.alloc(), words).is_ok() {
            parsed = parsed.saturating_add(1);
        }
    }
    let took = start.elapsed(rt)?.as_nanos();
    println!(rt; "{} {parsed} {took}", words.len())
}

fn keep(rt: &HostRuntime, words: &Words, times: u32) -> io::Result<()> {
    let mut trees = Vec::new(rt.alloc());
    for _ in 0..times {
        if let Ok(tree) = parse(rt.alloc(), words) {
            let _ = trees.push(tree);
        }
    }
    println!(rt; "{} {} 0", words.len(), trees.len())?;
    let mut shelf = FileShelf::new(rt);
    let mut account = Vec::new(rt.alloc());
    let _ = shelf.fetch("/proc/self/status", 1 << 16, &mut account);
    match str::from_utf8(&account) {
        Ok(account) => println!(rt; "{account}"),
        Err(_) => Ok(()),
    }
}

fn main(rt: HostRuntime) -> io::Result<()> {
    let mut times = 0u32;
    let mut is_kept = false;
    for word in env::args(&rt)? {
        match word.as_str().parse::<u32>() {
            Ok(number) => times = number,
            Err(_) => is_kept = word.as_str() == "kept",
        }
    }
    let mut shelf = FileShelf::new(&rt);
    let mut query = Vec::new(rt.alloc());
    let _ = shelf.fetch("query", 1 << 16, &mut query);
    if (times == 0 && !is_kept) || query.len() > 1 << 16 {
        return Ok(());
    }
    match scan(rt.alloc(), &query, Table::Oql) {
        Ok(words) if is_kept => keep(&rt, &words, times),
        Ok(words) => time(&rt, &words, times),
        Err(_) => Ok(()),
    }
}
"""


def printed(program, folder, words, times):
    """What a run on the file `query` prints, as words. Each of its parses gives a tree."""
    heap = {**os.environ, "MALLOC_TOP_PAD_": "0"}
    words = [str(program), str(times)] + words
    told = subprocess.run(words, cwd=folder, check=True, capture_output=True, text=True, env=heap).stdout.split()
    if len(told) < 3 or told[1] != str(times):
        sys.exit("bench: no query")
    return told


def took(program, folder, times):
    """Microseconds of each of so many parses."""
    return int(printed(program, folder, [], times)[2]) / 1000 / times


def mapped(program, folder, times):
    """The most bytes that a process had mapped which made and kept so many trees."""
    told = printed(program, folder, ["kept"], times)
    return int(told[told.index("VmPeak:") + 1]) * 1024


def memory(program, folder):
    """The most bytes a token that a parse takes, the tree among them, and those of the tree."""
    tokens = int(printed(program, folder, [], 1)[0])
    scanned, first, last = (mapped(program, folder, times) for times in (0, 1, 1 + TREES))
    return (first - scanned) / tokens, (last - first) / TREES / tokens


def main():
    top = pathlib.Path(sys.argv[1]) if sys.argv[1:] else TOP
    with made("bench_parsing", MAIN, CRATES, top) as (program, folder):
        for title, query in [("one token", "1")] + CHECKS:
            (folder / "query").write_text(query)
            first = min(took(program, folder, 1) for _ in range(ROUNDS))
            later = min(took(program, folder, TIMES) for _ in range(ROUNDS))
            print("%s: %.0f µs the first time, %.0f µs later" % (title, first, later), end="")
            bytes_told = "; %.0f bytes a token at most, %.0f of them the tree's"
            print(bytes_told % memory(program, folder) if query != "1" else "", flush=True)


if __name__ == "__main__":
    main()
