"""The definitions of the crates, and which others each of them names.

An item is a definition of a file of `specs/`, with the comment above it; or a Rust type, trait or constant of `src/`, as
definitions see it (`declared`), with its model. `closure` follows names from some items down, through `use`, `ghost use`, and the
`pub use` by which a crate brings what is another's. What the toolchain defines isn't followed."""
import dataclasses
import functools
import pathlib
import re

import house

WORD = re.compile(r"[^\W\d]\w*(?:\.[^\W\d]\w*)*")
USE = re.compile(r"^\s*(?:pub |ghost )?use Rattle\.([\w.]+?)(?:\.\{(.*?)\})?(?: as (\w+))?;?\s*$")
RUST_USE = re.compile(r"(?ms)^use ((?:\w+::)+)(?:\{(.*?)\}|(\w+));")
RUST_TYPE = re.compile(r"(?:pub(?:\(\w+\))? )?(?:struct|enum|trait|type|const) (\w+)|impl\b.* Model for (\w+)")
BEGINS = re.compile(r"(?:(?:abbrev|unfoldable|pub|record|data) )+([^\s:(]+)|([^\s:(]+) : ")
VARIANT = re.compile(r"^\s+(\w+) : ")


@dataclasses.dataclass(frozen=True)
class Item:
    """Lines of a file, from and to, that define these names; `within` has the lines of the modules that they stand in."""

    file: pathlib.Path
    first: int
    last: int
    names: frozenset
    within: str = ""

    def text(self):
        """Its lines."""
        return "\n".join(house.lines_of(self.file)[self.first - 1 : self.last])


@dataclasses.dataclass(frozen=True)
class Source:
    """A file: its items; what it brings, by its name here a path, and the name there or none; from which crate it takes a type."""

    crate: str
    items: tuple
    brings: dict
    takes: dict


def bare(text):
    """A text without its comments."""
    return re.sub(r"(?m)(^|\s)(--|//).*$", " ", text)


def brought(lines):
    """What `use` and `ghost use` bring."""
    found = {}
    for match in filter(None, map(USE.match, lines)):
        path, some, alias = tuple(match[1].split(".")), match[2], match[3]
        if some is None:
            found[alias or path[-1]] = (path, None)
        for one in (some or "").split(","):
            name, _, here = one.strip().partition(" as ")
            found[here or name] = (path, name)
    return found


# ---- files of definitions


def kinds(lines):
    """Of each line what it is, and the lines of the modules that it stands in."""
    headers = []
    for line in lines:
        while line.strip() and headers and not line.startswith("  " * len(headers)):
            headers.pop()
        text = line[2 * len(headers) :]
        within = "\n".join(headers)
        if text.startswith("module "):
            headers.append(text)
            yield "module", within
        elif not text.strip():
            yield "blank", within
        elif text.startswith(("use ", "pub use ", "pub mod ")):
            yield "import", within
        elif text.startswith("--"):
            yield "comment", within
        else:
            yield ("definition" if BEGINS.match(text) else "more"), within


def names_of(lines):
    """The names that these lines of a definition define."""
    head = BEGINS.match(lines[0].strip())
    inner = [found[1] for found in map(VARIANT.match, lines[1:]) if found] if re.search(r"\bdata\b", lines[0]) else []
    return frozenset([head[1] or head[2], *inner])


def definitions(file):
    """The items of a file of definitions."""
    lines = house.lines_of(file)
    found = list(kinds(lines))
    starts = [at for at, (kind, _) in enumerate(found) if kind == "definition"]
    for at, end in zip(starts, [*starts[1:], len(lines)]):
        last = max(it for it in range(at, end) if found[it][0] in ("definition", "more"))
        first = at
        while first > 0 and found[first - 1][0] == "comment" and not lines[first - 1].strip().startswith("-- ----"):
            first -= 1
        yield Item(file, first + 1, last + 1, names_of(lines[at : last + 1]), found[at][1])


# ---- Rust files


def end_of(lines, at):
    """The last line of what begins at this line of Rust."""
    closes = (lambda line: line.startswith("}")) if lines[at].endswith("{") else (lambda line: line.endswith((";", "}")))
    return next((it for it in range(at, len(lines)) if closes(lines[it])), at)


def types(file):
    """The types, traits and constants of a Rust file, and the models of types."""
    lines = house.lines_of(file)
    for at, line in enumerate(lines):
        found = RUST_TYPE.match(line)
        if found:
            first = at
            while first > 0 and lines[first - 1].startswith(("///", "#[")):
                first -= 1
            yield Item(file, first + 1, end_of(lines, at) + 1, frozenset([found[1] or found[2]]))


def taken(lines, crate):
    """By the name of each type that the file takes from a crate, that crate."""
    found = {}
    for path, some, one in RUST_USE.findall("\n".join(lines)):
        first = path.split("::")[0]
        for name in (some or one).split(","):
            found[name.strip().rpartition(" as ")[2]] = crate if first in ("super", "crate", "self") else first
    return found


@functools.cache
def source(file):
    """A file as it was read."""
    lines = house.lines_of(file)
    crate = file.relative_to(house.CRATES).parts[0]
    is_rust = file.suffix == ".rt"
    items = tuple(types(file) if is_rust else definitions(file))
    return Source(crate, items, brought(lines), taken(lines, crate) if is_rust else {})


# ---- from names to items


@functools.cache
def types_named(crate, name):
    """The types of this name in a crate of the repository."""
    files = sorted((house.CRATES / crate / "src").rglob("*.rt"))
    return tuple(item for file in files for item in source(file).items if name in item.names)


def module(path):
    """The file of a module, as (crate, specs, NAME ..)."""
    crate, kind, *names = path
    return (house.CRATES / crate / kind).joinpath(*names).with_suffix(".antt")


def listed(path):
    """Where the module is that the list of its crate, or of its folder, only brings; or none."""
    lists = module(path[:-1] if len(path) > 3 else (*path[:2], "Lib"))
    return source(lists).brings.get(path[-1], (None, None))[0] if lists.exists() else None


def items_at(path, name):
    """The items of a name at a path of `use`: in a module; or a type or constant of Rust, also by the name of a variant."""
    if not (house.CRATES / path[0]).exists():
        return ()
    if "declared" in path:
        return types_named(path[0], next((it for it in path[2:] if it[:1].isupper() and it != "TheConstants"), name))
    if module(path).exists():
        return items_in(module(path), name)
    brought_from = listed(path) if len(path) > 2 else None
    return items_at(brought_from, name) if brought_from else ()


def items_in(file, name):
    """The items of a name in a file, also where the file only brings it."""
    read = source(file)
    own = tuple(item for item in read.items if name in item.names)
    if own or name not in read.brings:
        return own
    path, there = read.brings[name]
    return items_at(path, there or name)


def cited(item):
    """The items that an item names."""
    read = source(item.file)
    text = bare(item.within + "\n" + item.text())
    operators = [name for name in read.brings if "◌" in name and all(part in text for part in name.split("◌"))]
    for word in [*dict.fromkeys(WORD.findall(text)), *operators]:
        first, _, rest = word.partition(".")
        path, name = read.brings.get(first, (None, None))
        yield from items_in(item.file, first)
        if path and name is None and rest:
            yield from items_at(path, rest.partition(".")[0])
        if first in read.takes and first not in read.brings:
            yield from types_named(read.takes[first], first) if (house.CRATES / read.takes[first]).exists() else ()


def closure(roots):
    """These items and all that they stand on, in the order in which one comes to them."""
    found = dict.fromkeys(roots)
    waiting = list(found)
    while waiting:
        fresh = [item for item in dict.fromkeys(cited(waiting.pop(0))) if item not in found]
        found.update(dict.fromkeys(fresh))
        waiting.extend(fresh)
    return list(found)


# ---- where to begin


def clause(crate, function, name):
    """A clause of a public function's contract, as an item of its own."""
    for file in sorted((house.CRATES / crate / "src").rglob("*.rt")):
        text = file.read_text(encoding="utf-8")
        begins = re.search(rf"(?m)^pub fn {function}\b", text)
        if begins:
            at = text.index(f"ensures {name} {{", begins.start())
            ends = re.compile(r"\}\n\s*(ensures|requires|//|\{)").search(text, at)
            head = text[begins.start() : re.compile(r"\n\s*(requires|ensures) ").search(text, begins.start()).start()]
            first, last = text.count("\n", 0, at) + 1, text.count("\n", 0, ends.start()) + 1
            return Item(file, first, last, frozenset([name]), head)
    raise LookupError(f"no public function {function} in {crate}")


def root(words):
    """The items that `CRATE::FUNCTION::CLAUSE` or `CRATE.MODULE.NAME` means."""
    if "::" in words:
        return [clause(*words.split("::"))]
    crate, *names, name = words.split(".")
    return list(items_at((crate, "specs", *names), name))
