"""What public contracts and audited definitions cite, for tools/definitions.

A public contract is that of an exported function, of a method of an exported type, or of a method of an exported
trait; so are the law of a function that computes nothing, and what an exported type says of itself in ghost members:
its Value, its conversions and comparisons. How a type keeps its value is its own (PRIVATE).
"""

import re
from collections.abc import Iterator
from pathlib import Path

# Ghost members that are about a type's fields, or are for the prover alone.
PRIVATE = {"invariant", "inverse", "inverse_ok", "view", "coded", "also_owns", "noted"}

IMPORT = re.compile(r"use Rattle\.(rv_\w+)\.specs\.([\w.]+?)(?:\.\{([^}]*)\})?(?: as (\w+))?;?$", re.M)
FUNCTION = r'(?:const |unsafe |extern "\w+" )*fn (\w+)'
BLOCK = re.compile(r"^(?:pub )?(?:unsafe )?(impl|trait)\b([^{]*)\{", re.M)
CLAUSE = re.compile(r"\s*(?:(requires|ensures|decreases)\b\s*\w*\s*\{|([;{])|[^\s;{]+)")
DEFINED = re.compile(r"^(?:abbrev |unfoldable )*pub (?:record |data )?(?:◌)?([\w>=≡-]+)", re.M)

# A name as a file says it, with the crate, the module and the name that it stands for there. The name is None
# where a module has a prefix.
Scope = dict[str, tuple[str, str, str | None]]
Definition = tuple[str, str, str]


def imports(text: str) -> Scope:
    """Returns the names of definitions that a text imports."""
    found: Scope = {}
    for crate, module, names, prefix in IMPORT.findall(text):
        for name in filter(None, (it.strip() for it in names.split(","))):
            theirs, _, ours = name.partition(" as ")
            found[(ours or theirs).strip("◌")] = (crate, module, theirs.strip("◌"))
        if prefix:
            found[prefix] = (crate, module, None)
    return found


def closing(text: str, at: int) -> int:
    """Returns the place behind the brace that closes the one at a place."""
    depth = 0
    for match in re.compile(r'"(?:\\.|[^"\\])*"|\'(?:\\.|[^\'\\])\'|[{}]').finditer(text, at):
        depth += {"{": 1, "}": -1}.get(match[0], 0)
        if depth == 0:
            return match.end()
    raise ValueError("a brace isn't closed")


def exported(root: Path, crate: str) -> set[str]:
    """Returns the names that a crate exports."""
    text = (root / "crates" / crate / "src/lib.rt").read_text()
    names = set(re.findall(r"^pub (?:struct|enum|trait|const|type) (\w+)", text, re.M))
    names |= set(re.findall(rf"^pub {FUNCTION}", text, re.M))
    for path, several in re.findall(r"^pub use ([\w:]+?)(?:::\{([^}]*)\})?;", text, re.M):
        names |= {it.strip() for it in several.split(",")} if several else {path.split("::")[-1]}
    return names


def clauses(text: str, at: int) -> Iterator[str]:
    """Yields the clauses of a function whose name ends at a place."""
    at = text.index("(", at)
    while match := CLAUSE.match(text, at):
        if match[2]:
            return
        at = closing(text, match.end() - 1) if match[1] else match.end()
        if match[1] in ("requires", "ensures"):
            yield text[match.end() : at - 1]


def type_of(head: str) -> str:
    """Returns the name of the type or the trait of a block's head."""
    while re.search(r"<[^<>]*>", head):
        head = re.sub(r"<[^<>]*>", "", head)
    return re.split(r"[\s:]", head.split(" for ")[-1].strip(" &\n"))[0]


def contracts(root: Path, crate: str) -> Iterator[tuple[str, str, Scope]]:
    """Yields each public clause of a crate: whose it is, its text, and the names that it may cite."""
    public = exported(root, crate)
    for file in sorted((root / "crates" / crate / "src").rglob("*.rt")):
        text = re.sub(r"//[^\n]*", "", file.read_text())
        blocks = [(it, closing(text, it.end() - 1)) for it in BLOCK.finditer(text)]
        outside = text
        for block, end in reversed(blocks):
            outside = outside[: block.start()] + outside[end:]
        scope = imports(outside)
        for match in re.finditer(rf"^pub {FUNCTION}", outside, re.M):
            if match[1] in public:
                for clause in clauses(outside, match.end()):
                    yield match[1], clause, scope
        for block, end in blocks:
            if type_of(block[2]) in public:
                inner = text[block.end() : end - 1]
                yield from members(block, inner, {**scope, **imports(inner)})


def members(block: re.Match[str], inner: str, scope: Scope) -> Iterator[tuple[str, str, Scope]]:
    """Yields the public clauses of a block of a public type or trait."""
    owner = type_of(block[2])
    only = "" if block[1] == "trait" or " for " in block[2] else "pub "
    for match in re.finditer(rf"^    {only}(?:pub )?{FUNCTION}", inner, re.M):
        for clause in clauses(inner, match.end()):
            yield f"{owner}::{match[1]}", clause, scope
    for match in re.finditer(r"^    ghost (\w+)\s*[:=]\s*\{", inner, re.M):
        if match[1] not in PRIVATE:
            yield f"{owner}, {match[1]}", inner[match.end() : closing(inner, match.end() - 1) - 1], scope


class Specs:
    """The files of definitions, by crate and module."""

    def __init__(self, root: Path) -> None:
        self.root = root
        self.scopes: dict[tuple[str, str], tuple[set[str], Scope]] = {}

    def definition(self, crate: str, module: str, name: str) -> Definition:
        """Returns where a name is defined that a module has, or imports for others."""
        if (crate, module) not in self.scopes:
            file = self.root / "crates" / crate / "specs" / (module.replace(".", "/") + ".antt")
            text = file.read_text() if file.exists() else ""
            others = "\n".join(it for it in text.splitlines() if re.match(r"(?:unfoldable )?pub use ", it))
            self.scopes[crate, module] = set(DEFINED.findall(text)), imports(others)
        defined, passed_on = self.scopes[crate, module]
        if name not in defined and (of := passed_on.get(name)) and of[2]:
            return self.definition(of[0], of[1], of[2])
        return crate, module, name

    def cited(self, text: str, scope: Scope) -> set[Definition]:
        """Returns the definitions that a clause or a definition cites."""
        found = set()
        for before, word, field in re.findall(r"(\.?)([\w>=≡-]+)(?:\.(\w+))?", text):
            of = scope.get(word)
            if before or of is None or of[1].startswith("declared"):
                continue
            name = of[2] or field
            if name:
                found.add(self.definition(of[0], of[1], name))
        return found


def by_public_contracts(root: Path) -> dict[Definition, str]:
    """Returns the definitions that public contracts of the libraries cite, each with one of those who do."""
    specs, found = Specs(root), {}
    for folder in sorted((root / "crates").iterdir()):
        if folder.name.startswith("rv_") and (folder / "src/lib.rt").exists():
            for owner, clause, scope in contracts(root, folder.name):
                for definition in specs.cited(clause, scope):
                    found.setdefault(definition, f"{folder.name} {owner}")
    return found


def by_definitions(root: Path, files: list[tuple[str, str, str]]) -> dict[Definition, str]:
    """Returns the definitions that these files cite, each given by crate, module and text, with one of those."""
    specs, found = Specs(root), {}
    for crate, module, text in files:
        body = "\n".join(it for it in text.splitlines() if not re.match(r"(?:\w+ )*use |\s*--", it))
        for definition in specs.cited(body, imports(text)):
            found.setdefault(definition, f"{crate} {module}")
    return found
