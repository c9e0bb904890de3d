"""Makes the programs of benches, over copies of a checkout's crates."""
import contextlib
import pathlib
import resource
import shutil
import subprocess
import tempfile

TOP = pathlib.Path(__file__).resolve().parent.parent


def below(lines, names):
    """The named crates and those that they stand on, in the order of the lines of a crates.txt."""
    needs = {line.split(":")[0]: line.split(":")[1].split() for line in lines}
    found, queue = set(), list(names)
    while queue:
        name = queue.pop()
        if name in needs and name not in found:
            found.add(name)
            queue.extend(needs[name])
    return [name for name in needs if name in found]


def build(folder, name, source, crates, top):
    """The program, made in the folder. What `rt ci` has proved here is kept."""
    lines = [line for line in (top / "crates.txt").read_text().splitlines() if ":" in line]
    needed = below(lines, crates)
    lines = [line for line in lines if line.split(":")[0] in needed] + [name + ": " + " ".join(needed)]
    (folder / "crates.txt").write_text("\n".join(lines) + "\n")
    shutil.copy(top / "HANDLES", folder)
    for needs in needed:
        ignored = shutil.ignore_patterns("out", "must-fail")
        shutil.copytree(top / "crates" / needs, folder / "crates" / needs, ignore=ignored)
    crate = folder / "crates" / name
    (crate / "src").mkdir(parents=True)
    (crate / "src" / "main.rt").write_text(source)
    subprocess.run(["rt", "fmt"], cwd=crate, check=True, stdout=subprocess.DEVNULL)
    subprocess.run(["rt", "ci"], cwd=folder, check=True, stdout=subprocess.DEVNULL)
    return crate / "out" / name


@contextlib.contextmanager
def made(name, source, crates, top=TOP):
    """The program of this source over the crates and those below them, and the folder for temporary files that it
    stands in. The stack of what is called has no limit."""
    resource.setrlimit(resource.RLIMIT_STACK, (resource.RLIM_INFINITY, resource.RLIM_INFINITY))
    with tempfile.TemporaryDirectory() as temporary:
        folder = pathlib.Path(temporary)
        yield build(folder, name, source, crates, top.resolve()), folder


def qcert():
    """The program `qcert`, which is made first where it is stale; `bin/qcert` looks at all sources in each call."""
    words = ["check", "--source", "oql", "--query", TOP / "examples" / "sum.oql"]
    subprocess.run([TOP / "bin" / "qcert"] + words, check=True, stdout=subprocess.DEVNULL)
    return TOP / "crates" / "qcert_main" / "out" / "qcert_main"
