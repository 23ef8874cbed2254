"""The contracts of the crates, and the definitions that they reach.

A definition is an item of a file of `crates/*/specs`, or a constant, a type or a trait of `crates/*/src`. A definition may name one of
the proofs of a crate below it, which then is one too. A contract is the head of a function of `crates/*/src` with its clauses.
"""
import functools
import hashlib
import re
from collections.abc import Iterator, Sequence
from pathlib import Path
from typing import NamedTuple, Optional, Union

ROOT = Path(__file__).resolve().parents[1]
CRATES = ROOT / "crates"
HASH_DIGITS = 12  # of the 64 of SHA-256
HOLE = "◌"  # stands for an operand in the name of an operator

USE = re.compile(r"(?:ghost |pub )*use Rattle\.([\w.]+?)(?:\.\{(.*)\})?(?: as (\w+))?;?$")
DEFINITION = re.compile(r"(?:(?:abbrev|unfoldable|opaque)(?: pub)? |pub (record|data) |pub (?!mod)|(?=[^\s:({]+ : ))([^\s:({]+)")
BARE = re.compile(r"[^\s:({]+ : ")
BEGINNING = re.compile(r"(?:use|pub|abbrev|unfoldable|opaque|module|infix\w*) ")
WORD = re.compile(r"[A-Za-z_][\w']*(?:\.[A-Za-z_][\w']*)*")

OWNER = re.compile(r"(?:impl|pub trait|trait)\b(?:<.*?>)? (?:.* for )?(\w+)")
FUNCTION = re.compile(r"(?:pub(?:\(\w+\))? )?fn (\w+)")
TYPE = re.compile(r"(?:pub(?:\(\w+\))? )?(struct|enum|trait) (\w+)")
CONSTANT = re.compile(r"(?:pub(?:\(\w+\))? )?const (\w+)")
CLAUSE = re.compile(r"(?:ensures|requires)\b")

Import = tuple[str, Optional[str]]  # a module and a name in it, or None if the whole module is meant


class Line(NamedTuple):
    """A line that is neither blank nor a comment."""

    number: int
    text: str

    @property
    def depth(self) -> int:
        """The columns of white space before the text."""
        return len(self.text) - len(self.text.lstrip())

    @property
    def code(self) -> str:
        return self.text.strip()


class External(NamedTuple):
    """A definition of the kit."""

    module: str
    name: str

    def __str__(self) -> str:
        return f"{self.module}.{self.name}"


class Item(NamedTuple):
    """A definition or a contract. The text has no comments. That of a definition begins with the heads of the modules around it."""

    name: str
    path: Path
    line: int
    text: str

    def __str__(self) -> str:
        return f"{self.path.relative_to(ROOT)}: {self.name}"


Reference = Union[Item, External]


class Scope(NamedTuple):
    """What a file defines and imports."""

    path: Path
    items: dict[str, Item]
    imports: dict[str, Import]

    def resolve(self, word: str) -> Optional[Reference]:
        """Returns what a word of the file refers to, or None if it is a variable or a word of the language."""
        head, _, rest = word.partition(".")
        if head in self.items:
            return self.items[head]
        if head in self.imports:
            module, name = self.imports[head]
            return find(module, name or rest.partition(".")[0])
        return type_of(self.path, head) if self.path.suffix == ".rt" else None


@functools.cache
def references_of(item: Item) -> list[Reference]:
    """Returns what the names in the text of an item refer to, each once, in the order of the text."""
    scope, found = scope_of(item.path), dict[str, Reference]()
    operators = [name for name in (*scope.items, *scope.imports) if HOLE in name]
    words = WORD.findall(item.text) + [name for name in operators if all(part in item.text for part in name.split(HOLE))]
    for word in words:
        if reference := scope.resolve(word):
            found.setdefault(str(reference), reference)
    found.pop(str(item), None)
    return list(found.values())


@functools.cache
def hash_of(item: Item) -> str:
    """Returns a hash of the text of an item, and of what its names refer to."""
    text = "\n".join((item.text, *sorted(map(str, references_of(item)))))
    return hashlib.sha256(text.encode()).hexdigest()[:HASH_DIGITS]


@functools.cache
def whole_hash_of(item: Item) -> str:
    """Returns a hash of an item and of all that it reaches."""
    hashes = [hash_of(each) for each in (item, *reached_from(item)) if isinstance(each, Item)]
    return hashlib.sha256("\n".join(sorted(hashes)).encode()).hexdigest()[:HASH_DIGITS]


def find(module: str, name: str) -> Reference:
    """Returns the item that a module has under a name, by its own text or by an import."""
    crate, _, rest = module.partition(".")
    if not (CRATES / crate).is_dir():
        return External(module, name)
    rest = rest.partition(".")[2]
    if rest.startswith("declared."):
        return declared(crate, rest.split(".")[1:], name)
    if path := file_of(module):
        scope = scope_of(path)
        if name in scope.items:
            return scope.items[name]
        if name in scope.imports:
            other, of_other = scope.imports[name]
            return find(other, of_other or name)
    else:  # a name of another module that a module imports
        parent, _, last = module.rpartition(".")
        if (path := file_of(parent)) and last in scope_of(path).imports:
            return find(scope_of(path).imports[last][0], name)
    raise LookupError(f"{module}: no {name}")


def declared(crate: str, parts: Sequence[str], name: str) -> Item:
    """Returns the constant or the type of the sources by which the kit declares a name for contracts."""
    if "TheConstants" in parts:
        parts, item = parts[:-1], name
    else:
        parts = [part for part in parts if part != "TheVariants"]
        parts, item = parts[:-1], parts[-1]
    return scope_of((CRATES / crate / "src").joinpath(*(parts or ("lib",))).with_suffix(".rt")).items[item]


def file_of(module: str) -> Optional[Path]:
    """Returns the file of a module of definitions, which may be one that the crate passes on. It is in specs/, or in proofs/."""
    crate, folder, *parts = module.split(".")
    path = (CRATES / crate / folder).joinpath(*parts).with_suffix(".antt")
    if path.is_file():
        return path
    library, rest = CRATES / crate / folder / "Lib.antt", ".".join(parts)
    passed_on = scope_of(library).imports.get(rest) if library.is_file() else None
    return file_of(passed_on[0]) if passed_on else None


@functools.cache
def scope_of(path: Path) -> Scope:
    return definitions_of(path) if path.suffix == ".antt" else sources_of(path)


def code_lines(path: Path, comment: str) -> list[Line]:
    """Returns the lines of a file without its comments."""
    lines = (re.sub(rf"(?:^|\s){comment}.*", "", line).rstrip() for line in path.read_text().splitlines())
    return [Line(number, line) for number, line in enumerate(lines, 1) if line.strip()]


def imports_of(line: str) -> Iterator[tuple[str, Import]]:
    """Yields the names that a line imports."""
    if not (found := USE.match(line)):
        return
    module, names, alias = found.groups()
    if names is None:
        yield alias or module.rpartition(".")[2], (module, None)
        return
    for each in filter(None, (part.strip() for part in names.split(","))):
        name, _, other = each.partition(" as ")
        yield other or name, (module, name)


def definitions_of(path: Path) -> Scope:
    """Reads a file of definitions."""
    scope, lines, heads = Scope(path, {}, {}), code_lines(path, "--"), list[Line]()
    at = 0
    while at < len(lines):
        first, end = lines[at], at + 1
        heads = [head for head in heads if head.depth < first.depth]
        if first.code.startswith("module "):
            while not lines[end - 1].code.endswith("where"):
                end += 1
            heads.append(first._replace(text="\n".join(line.text for line in lines[at:end])))
        elif found := list(imports_of(first.code)):
            scope.imports.update(found)
        elif definition := DEFINITION.match(first.code):
            is_block = definition[1] is not None
            while end < len(lines) and not ends_definition(first, lines[end], is_block):
                end += 1
            item = Item(definition[2], path, first.number, "\n".join(line.text for line in (*heads, *lines[at:end])))
            scope.items.update({name: item for name in (item.name, *constructors_of(definition[1], lines[at + 1 : end]))})
        at = end
    return scope


def ends_definition(first: Line, line: Line, is_block: bool) -> bool:
    """Returns whether a line is behind the definition with this first line. A record or a data type has a block of lines."""
    if is_block:
        return line.depth <= first.depth
    return BEGINNING.match(line.code) is not None or (line.depth <= first.depth and BARE.match(line.code) is not None)


def constructors_of(kind: Optional[str], lines: Sequence[Line]) -> list[str]:
    """Returns the names of the constructors of a data type."""
    return [line.code.split(" : ")[0] for line in lines if " : " in line.code] if kind == "data" else []


def sources_of(path: Path) -> Scope:
    """Reads a file of sources: its constants, its types with what contracts see of them, and the contracts of its functions."""
    scope, lines, owner = Scope(path, {}, {}), code_lines(path, "//"), None
    at = 0
    while at < len(lines):
        first, end = lines[at], at + 1
        if first.depth == 0:
            owner = of[1] if (of := OWNER.match(first.code)) else None
        if found := TYPE.match(first.code):
            while end < len(lines) and not first.code.endswith(";") and lines[end - 1].text != "}":
                end += 1
            add(scope, found[2], first, lines[at:end])
            end = at + 1 if found[1] == "trait" else end  # the contracts of its methods are items too
        elif found := CONSTANT.match(first.code):
            while not lines[end - 1].code.endswith(";"):
                end += 1
            add(scope, found[1], first, lines[at:end])
        elif found := FUNCTION.match(first.code):
            end = end_of_contract(lines, at)
            add(scope, f"{owner}::{found[1]}" if owner else found[1], first, lines[at:end])
        elif first.code.startswith("ghost ") and " = {" in first.code and owner is not None:
            while not lines[end - 1].code.endswith("};"):
                end += 1
            add(scope, owner, first, lines[at:end])
        else:
            scope.imports.update(imports_of(first.code))
        at = end
    return scope


def add(scope: Scope, name: str, first: Line, lines: Sequence[Line]) -> None:
    """Adds an item, or more text of it: what contracts see of a type stands behind its declaration."""
    text = "\n".join(line.text for line in lines)
    known = scope.items.get(name)
    scope.items[name] = known._replace(text=f"{known.text}\n{text}") if known else Item(name, scope.path, first.number, text)


def end_of_contract(lines: Sequence[Line], at: int) -> int:
    """Returns the number of the line in which the body of a function begins, or of the one behind a function without a body."""
    depth, end = lines[at].depth, at + 1
    while end < len(lines) and not (lines[end].depth == depth and lines[end].code in ("{", "{}")):
        has_clauses = any(CLAUSE.match(line.code) for line in lines[at:end])
        if lines[end - 1].code.endswith((";", "{") if not has_clauses else (" };",)):
            break
        end += 1
    return end


def type_of(path: Path, name: str) -> Optional[Item]:
    """Returns the type of this name that a file of sources means: that of its own crate, or else the only one."""
    found = types().get(name, [])
    own = [item for item in found if crate_of(item.path) == crate_of(path)]
    return (own or found)[0] if len(own or found) == 1 else None


@functools.cache
def types() -> dict[str, list[Item]]:
    """Returns the public types and traits of all crates by their names."""
    found: dict[str, list[Item]] = {}
    for path in sorted(CRATES.glob("*/src/**/*.rt")):
        for line in path.read_text().splitlines():
            if line.startswith("pub ") and (named := TYPE.match(line)):
                found.setdefault(named[2], []).append(scope_of(path).items[named[2]])
    return found


def crate_of(path: Path) -> str:
    return path.relative_to(CRATES).parts[0]


def reached_from(item: Item) -> list[Reference]:
    """Returns what an item reaches: what its text names, each followed by what that reaches, and each once."""
    found, waiting = dict[str, Reference](), [iter(references_of(item))]
    while waiting:
        reference = next(waiting[-1], None)
        if reference is None:
            waiting.pop()
        elif str(reference) not in found:
            found[str(reference)] = reference
            if isinstance(reference, Item):
                waiting.append(iter(references_of(reference)))
    found.pop(str(item), None)
    return list(found.values())
