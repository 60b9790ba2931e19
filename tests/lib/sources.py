"""The sources of the crates, as far as pages speak of them: items with their documentation, and functions with their clauses."""

import functools
import re
from typing import NamedTuple

from lib.crates import crates
from lib.places import TOP

FOLDER = TOP / "crates"
ITEM = re.compile(r"^ *pub (?:(?:const|unsafe|ghost) (?=fn))?(?P<kind>struct|enum|trait|fn|const|type) (?P<name>\w+)")
FUNCTION = re.compile(r"^(?P<indent> *)(?:pub(?:\(\w+\))? )?(?:(?:const|unsafe) )?fn (?P<name>\w+)")
BLOCK = re.compile(r"^(?:pub(?:\(\w+\))? )?(?P<kind>impl|trait)\b(?:<.*?>)? ?(?P<head>.*)")
CLAUSE = re.compile(r"^(?P<indent> +)(?P<kind>requires|ensures|ghost) +(?P<name>\w*)")
USE = re.compile(r"^ *(?P<public>pub )?(?:pub\(\w+\) )?use (?P<path>[\w:]+?)(?:::\{(?P<names>[^;]*)\})?;", re.M)
TYPE = re.compile(r"^pub (?P<kind>struct|enum|trait) (?P<name>\w+)(?:.*[;}]$|.*(?:\n(?!\}).*)*)", re.M)
IMPL = re.compile(r"^impl\b.* for .*\{$", re.M)
TESTS = re.compile(r"^#\[cfg\(test\)\]\nmod (\w+);", re.M)


class Clause(NamedTuple):
    """A clause of a function: `requires` or `ensures`, its name (empty, if it has none), its text and its line, from 1."""

    kind: str
    name: str
    text: str
    line: int


class Function(NamedTuple):
    """A function: the type or trait that it is of, if it is of one, its name, file and line, its head as one line, its clauses."""

    owner: str
    name: str
    path: object
    line: int
    head: str
    clauses: tuple


class Item(NamedTuple):
    """A public item, or a method of a public trait: its kind, name, file and line, and its documentation."""

    kind: str
    name: str
    path: object
    line: int
    docs: str


def lines_of(path):
    return path.read_text().split("\n")


def root_of(crate):
    """The root file of a crate."""
    folder = FOLDER / crate / "src"
    return folder / "lib.rt" if (folder / "lib.rt").exists() else folder / "main.rt"


def root_page(crate):
    """What the root file says of the crate."""
    return "\n".join(line[3:].removeprefix(" ") for line in lines_of(root_of(crate)) if line.startswith("//!"))


def files_of(crate):
    """The files of a crate that are no tests of its own."""
    tests = set(TESTS.findall(root_of(crate).read_text()))
    for path in sorted((FOLDER / crate / "src").rglob("*.rt")):
        first = path.relative_to(FOLDER / crate / "src").parts[0].removesuffix(".rt")
        if first not in tests:
            yield path


def docs_above(lines, at):
    """The documentation above a line."""
    words = []
    while at > 0 and re.match(r"\s*(///|#\[)", lines[at - 1]):
        at -= 1
        if "///" in lines[at]:
            words.insert(0, lines[at].split("///", 1)[1].removeprefix(" "))
    return "\n".join(words)


def items_of(crate):
    """Each public item of a crate, and each method of its public traits."""
    for path in files_of(crate):
        lines, within_trait = lines_of(path), False
        for at, line in enumerate(lines):
            within_trait = line.startswith("pub trait ") or within_trait and line != "}"
            found = ITEM.match(line)
            method = FUNCTION.match(line) if within_trait else None
            if found:
                yield Item(found["kind"], found["name"], path, at + 1, docs_above(lines, at))
            elif method and len(method["indent"]) == 4:
                yield Item("method", method["name"], path, at + 1, docs_above(lines, at))


def owner_of(line):
    """The type that a block is of, or the name of a trait; none, if no block begins at the line."""
    found = BLOCK.match(line)
    if not found or not line.endswith("{"):
        return None
    head = found["head"].split(" for ")[-1]
    return re.match(r"(?:[\w]+::)*(\w*)", head)[1]


def clauses_of(lines, at, indent):
    """The clauses behind the head of the function that begins at a line, and where its body begins."""
    found, end = [], at
    while end < len(lines):
        line = lines[end]
        clause = CLAUSE.match(line)
        if clause and len(clause["indent"]) == indent + 4 and clause["kind"] != "ghost":
            found.append([clause["kind"], clause["name"], [line.strip()], end + 1])
        elif end > at and line.startswith((" " * indent + "{", " " * indent + "}")):
            break
        elif found:
            found[-1][2].append(line.strip())
        if line.endswith(";") or not found and line.endswith(("{", "}")):
            break
        end += 1
    return tuple(Clause(kind, name, " ".join(text), line) for kind, name, text, line in found)


def head_at(lines, at, clauses):
    """The head of the function that begins at a line, as one line."""
    end = clauses[0].line - 1 if clauses else at + 1
    while not clauses and not lines[end - 1].endswith(("{", ";", "}")):
        end += 1
    text = " ".join(line.strip() for line in lines[at:end])
    return re.sub(r"\s*[{;].*$", "", text).replace("( ", "(").replace(", )", ")")


@functools.cache
def functions_of(crate):
    """All functions of a crate, those of its tests among them."""
    found = []
    for path in sorted((FOLDER / crate / "src").rglob("*.rt")):
        lines, owner = lines_of(path), ""
        for at, line in enumerate(lines):
            owner = "" if line == "}" else owner_of(line) or owner
            function = FUNCTION.match(line)
            if function:
                clauses = clauses_of(lines, at, len(function["indent"]))
                head = head_at(lines, at, clauses)
                found.append(Function(owner, function["name"], path, at + 1, head, clauses))
    return found


def functions_named(path):
    """The functions that a path names: `crate::function` or `crate::Type::function`."""
    crate, *owner, name = path.split("::")
    if crate not in crates() or len(owner) > 1:
        return []
    return [it for it in functions_of(crate) if it.name == name and it.owner == "".join(owner)]


def tests_named(path):
    """The tests that a path names: `crate::function`."""
    return [it for it in functions_named(path) if "#[test]" in "".join(lines_of(it.path)[max(0, it.line - 4) : it.line - 1])]


def facts_of(crate, owner, name):
    """The lines at which a type of a crate has a fact of this name: a `ghost` of its struct, or of what is implemented for it."""
    for path in files_of(crate):
        within = ""
        for at, line in enumerate(lines_of(path), 1):
            struct = re.match(r"(?:pub )?struct (\w+)", line)
            within = "" if line == "}" else struct[1] if struct else owner_of(line) or within
            if within == owner and re.match(rf"    (?:pub )?ghost {name}\b", line):
                yield path, at


def definition_at(path, name):
    """The line at which a file of definitions has a name; none, if it has not exactly one."""
    shape = re.compile(rf"\s*(?:abbrev|pub record|pub data|record|data)\b(?: pub)? {name}\b")
    found = [at for at, line in enumerate(lines_of(path), 1) if shape.match(line)]
    return found[0] if len(found) == 1 else None


def definition_text(path, name):
    """A definition as its file has it, with the comment above it, as far as the next blank line; none, if it is not there."""
    at = definition_at(path, name)
    if at is None:
        return None
    lines = lines_of(path)
    first = at - 1
    while first > 0 and lines[first - 1].lstrip().startswith("--"):
        first -= 1
    last = at
    while last < len(lines) and lines[last].strip():
        last += 1
    indent = len(lines[at - 1]) - len(lines[at - 1].lstrip())
    return "\n".join(line[indent:] for line in lines[first:last])


@functools.cache
def names():
    """What stands in the sources under a name of several parts: functions of types, traits and crates, and variants of enums."""
    found = set()
    for crate in crates():
        found |= {f"{it.owner}::{it.name}" if it.owner else f"{crate}::{it.name}" for it in functions_of(crate)}
        found |= {f"{crate}::{it.owner}::{it.name}" for it in functions_of(crate) if it.owner}
        for path in files_of(crate):
            for name, block in re.findall(r"^(?:pub )?enum (\w+)[^\n]*\{\n(.*?)^\}", path.read_text(), re.M | re.S):
                found |= {f"{name}::{variant}" for variant in re.findall(r"^    ([A-Z]\w*)", block, re.M)}
    return found


def words_in(crate):
    """The words of a crate's sources, definitions and proofs, and the names of their files."""
    paths = [path for path in (FOLDER / crate).glob("*/**/*") if path.suffix in (".rt", ".antt") and "out" not in path.parts]
    return {word for path in paths for word in [path.stem, path.name, *re.findall(r"[\w'-]+", path.read_text())]}


def uses_of(path):
    """The `use` declarations of a file: whether each is public, and a path that it names, as a list of names."""
    for found in USE.finditer(path.read_text()):
        inner = re.findall(r"[\w:]+", found["names"]) if found["names"] else [""]
        for name in inner:
            yield bool(found["public"]), f"{found['path']}::{name}".strip(":").split("::")


def re_exports_of(crate):
    """What a root file makes public of other crates: the name of each item, or of a whole crate, and the crate it comes from."""
    folder = root_of(crate).parent
    for public, (first, *rest) in uses_of(root_of(crate)):
        if public and first in crates() and not (folder / f"{first}.rt").exists():
            yield (rest or [first])[-1], first


@functools.cache
def names_in_api(crate):
    """The words of the signatures, clauses, fields, variants, traits and implemented traits that a crate makes public."""
    root = root_of(crate)
    modules = set(re.findall(r"^pub mod (\w+);", root.read_text(), re.M))
    given = {path[-1] for public, path in uses_of(root) if public}
    texts = []
    for function in functions_of(crate):
        public = function.path.stem in modules or (function.owner or function.name) in given
        if public and function.head.startswith("pub "):
            texts += [function.head, *(clause.text for clause in function.clauses)]
    for path in files_of(crate):
        texts += [head for head in IMPL.findall(path.read_text()) if owner_of(head) in given]
        for found in TYPE.finditer(path.read_text()):
            if path.stem in modules or found["name"] in given:
                head, *lines = re.sub(r"//.*", "", found[0]).split("\n")
                texts += [head, *(line for line in lines if found["kind"] != "struct" or line.startswith("    pub "))]
    return set(re.findall(r"\w+", "\n".join(texts)))
