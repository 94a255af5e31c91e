"""The definitions of all crates: what stands in crates/*/specs/*.antt, and the Rust types that these name."""
import re
from dataclasses import dataclass, field
from pathlib import Path

TOP = Path(__file__).resolve().parent.parent
COMMENT = "--"
# The head of a definition, as `abbrev pub name : ..`, `pub record Name (..) : ..`.
HEAD = re.compile(
    r"^(?P<before>pub )?(?:abbrev|unfoldable|record|data|class)\b(?P<after> pub)?\s+(?P<name>[\w«»◌]+)(?=[\s:]|$)")
USE = re.compile(r"^use Rattle\.(?P<path>[\w.]+?)(?:\.\{(?P<names>.*)\})?(?: as (?P<alias>\w+))?$")
WORD = re.compile(r"(?<![\w.])[A-Za-z_]\w*")
# The variables of a definition: those of its equations, of binders and of functions, and the fields of records.
EQUATION = re.compile(r"^([A-Za-z_]\w*)([^=:]*)=", re.M)
BINDER = re.compile(r"[({]([\w ]+?) :")
FUNCTION = re.compile(r"λ ([\w ]+)\.")
FIELD = re.compile(r"(?:^\s+(?:pub )?|[{;]\s*)([a-z_]\w*) (?::|=) ", re.M)
# The head of a Rust type of this name.
TYPE = r"^pub (?:struct|enum|trait|union) {name}\b"


@dataclass
class Definition:
    """A definition: its comment, and its lines, without those of the comment."""

    module: "Module"
    name: str
    public: bool
    comment: str
    lines: list = field(default_factory=list)

    def text(self):
        """Its lines without comments and empty ones."""
        lines = (line.split(COMMENT)[0].rstrip() for line in self.lines)
        return [line for line in lines if line]

    def words(self):
        """The names in its lines that are neither fields of others nor its own variables."""
        text = "\n".join(self.text())
        bound = {word for _, pattern in EQUATION.findall(text) for word in WORD.findall(pattern)}
        for pattern in (BINDER, FUNCTION, FIELD):
            bound |= {word for group in pattern.findall(text) for word in group.split()}
        return {word for word in WORD.findall(text) if word not in bound or word[:1].isupper()}


@dataclass
class Module:
    """A file of definitions: what its head says, the names that it brings in, and its definitions."""

    crate: str
    name: str
    comment: str = ""
    # A name, and the path that it stands for, as (crate, parts of the path).
    brought: dict = field(default_factory=dict)
    definitions: list = field(default_factory=list)

    def named(self, name):
        return next((it for it in self.definitions if it.name == name), None)


def bring(module, line):
    """Notes the names of a line `use`."""
    found = USE.match(line)
    if not found:
        return
    crate, *parts = found["path"].split(".")
    if found["names"] is None:
        module.brought[found["alias"] or parts[-1]] = (crate, parts)
        return
    for name in found["names"].split(","):
        name, _, alias = name.strip().partition(" as ")
        module.brought[alias or name] = (crate, [*parts, name])


def read_module(path):
    """Reads a file of definitions. A comment is of what stands right below it."""
    module = Module(path.parts[-3], path.stem)
    comment, current, begun = [], None, False
    for line in [*path.read_text().split("\n"), ""]:
        if line.startswith(COMMENT):
            comment.append(line[len(COMMENT):].strip())
        elif line.startswith("use ") or line.startswith("pub use "):
            if not begun:
                module.comment, begun = " ".join(comment), True
            comment = []
            bring(module, line.removeprefix("pub ").rstrip())
        elif not line.strip():
            if not begun and comment:
                module.comment, begun = " ".join(comment), True
            comment, current = [], None
        elif (head := HEAD.match(line)) and (current is None or not line.startswith(current.name + " ")):
            current = Definition(
                module, head["name"], bool(head["before"] or head["after"]), " ".join(comment), [line])
            module.definitions.append(current)
            comment, begun = [], True
        elif current is not None:
            current.lines.append(line)
            comment = []
    return module


def crates():
    """The names of the crates, in the order of crates.txt."""
    lines = (line.split("#")[0] for line in (TOP / "crates.txt").read_text().split("\n"))
    return [line.split(":")[0].split()[0] for line in lines if ":" in line]


def modules(crate):
    """The modules of a crate, in the order in which its Lib.antt names them."""
    folder = TOP / "crates" / crate / "specs"
    if not (folder / "Lib.antt").exists():
        return []
    names = re.findall(r"^(?:pub )?mod (\w+)", (folder / "Lib.antt").read_text(), re.M)
    return [read_module(folder / f"{name}.antt") for name in names if (folder / f"{name}.antt").exists()]


def rust_type(crate, parts):
    """The lines of the Rust type that a path under `declared` names, and their file; None where there is none."""
    parts = [part for part in parts if part not in ("specs", "declared")]
    name = next((part for part in parts if part[:1].isupper() and part != "TheVariants"), None)
    if name is None:
        return None
    folder = TOP / "crates" / crate / "src"
    first = folder.joinpath(*parts[:parts.index(name)]).with_suffix(".rt")
    for path in sorted(folder.rglob("*.rt"), key=lambda path: path != first):
        lines = path.read_text().split("\n")
        for at, line in enumerate(lines):
            if re.match(TYPE.format(name=name), line):
                end = at
                while not (lines[end].startswith("}") or lines[end].rstrip().endswith((";", "{}"))):
                    end += 1
                return name, path, lines[at:end + 1]
    return None
