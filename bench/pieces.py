"""Pieces of the programs of benches, which are in Rattle."""

USED = [
    "qc_io::{FileShelf, Shelf}",
    "qc_lang::{Lang, Pass}",
    "qc_lex::Table",
    "qc_lower::NraToNnrc",
    "qc_oql::read",
    "qc_schema::{read_input, read_schema}",
    "qc_source::tokens_of",
    "qc_to_imp::NnrsToImp",
    "qc_to_nnrs::NnrcToNnrs",
    "qc_to_nra::OqlToNra",
    "qc_types::{Schema, World}",
    "std::env",
    "std::time::Instant",
]


def front(title, more=()):
    """The front of a program: its title, and what it uses, which is what the pieces use and more."""
    lines = "".join("use %s;\n" % used for used in sorted(USED + list(more)))
    return title + "#![tactic(auto)]\nghost use Rattle.std.specs.Prelude.{◌≤◌, length};\n\n" + lines + "\n"


def value_of(pattern, value, depth=1):
    """A statement that ends its function where the value does not have the pattern."""
    blanks = "    " * depth
    return "%slet Ok(%s) = %s else {\n%s    return;\n%s};\n" % (blanks, pattern, value, blanks, blanks)


def passed(stage, tree="tree", depth=1):
    """The tree of the next stage."""
    return value_of("tree", "%s.pass(rt.alloc(), schema, %s)" % (stage, tree), depth)


def fetched(name, most):
    """The bytes of a file."""
    return '    let _ = shelf.fetch("%s", %s, &mut bytes);\n' % (name, most)


def on_query(call):
    """The call on the bytes of the query, which are no more than a query has, and the end of `main`."""
    checked = "    if bytes.len() <= 65_536 {\n        %s(&rt, &schema, &world, &bytes);\n    }\n}\n\n"
    return fetched("q", "65_536") + checked % call


MAIN = """fn main(rt: HostRuntime) {
    let alloc = rt.alloc();
    let mut shelf = FileShelf::new(&rt);
    let mut bytes = Vec::new(alloc);
"""
SCHEMA = fetched("schema", "1 << 20") + value_of("schema", "read_schema(alloc, &bytes)")
INPUT = fetched("input", "1 << 24") + value_of("world", "read_input(alloc, &schema, &bytes)")
ON_QUERY = """(rt: &HostRuntime, schema: &Schema, world: &World, bytes: &[u8])
    requires { length bytes.now ≤ 65536 }
{
"""
TOKENS = value_of("tokens", "tokens_of(rt.alloc(), Table::Oql, bytes)")
TYPED = TOKENS + value_of("typed", "read(rt.alloc(), schema, &tokens)")
TELL = """// A line of the microseconds since the start.
fn tell(rt: &HostRuntime, what: &str, start: std::io::Result<Instant>) {
    let Ok(start) = start else {
        return;
    };
    let Ok(passed) = start.elapsed(rt) else {
        return;
    };
    let micros = passed.as_micros();
    let _ = println!(rt; "{what} {micros}");
}
"""


def words(runtime):
    """How many words the program has."""
    cases = "        Ok(words) => words.count(),\n        Err(_) => 0,\n    };\n"
    return "    let words = match env::args(%s) {\n" % runtime + cases
