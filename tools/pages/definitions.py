"""Which definitions the public clauses of the crates reach: what tools/pages/trust_lines compares with docs/TRUST.md.

A **clause** is a signature, a `requires`, an `ensures`, a ghost member that a trait of another crate asks for, or what a contract sees
of a type (`ghost Value`). The view of a type's private fields (`view`) and their invariant (`invariant`) are no clauses: the clauses of
the type's calls say what a caller may know of the value. The closure follows names. The imports of a clause's file lead from each of its
names to a definition of `specs/`, a type or a trait, and so on from the names of that one.
"""

import re
from collections.abc import Collection, Iterable, Iterator
from pathlib import Path
from typing import NamedTuple

from gate.building import match_in

# Strings, characters and comments, which contain no names.
RUST_NOISE = re.compile(r'//[^\n]*|b?"(?:\\.|[^"\\])*"|b?\'(?:\\.|[^\'\\])\'', re.S)
SPEC_NOISE = re.compile(r'"(?:\\.|[^"\\])*"|--[^\n]*')
# A name with its members, as `event.Read` or `ele_model::Reply`; not one after a dot, which is a field.
CHAIN = re.compile(r"(?<![\w.'])[A-Za-z_][\w']*(?:-[A-Za-z_][\w']*)*(?:(?:\.|::)[A-Za-z_][\w']*)*")
BINDERS = re.compile(r"[({|,]\s*((?:(?:mut )?[a-z_][\w']* )*(?:mut )?[a-z_][\w']*)\s*:(?!:)|λ ([^.→]*?)\.")
SMALL = re.compile(r"[a-z_][\w']*")
# A field that gets a value, or is declared.
FIELDS = re.compile(r"(?<=[{;])\s*[a-z_]\w*\s*=(?![=>])|^\s*pub [a-z_]\w* :|(?<=[,{\n])\s*(?:pub )?[a-z_]\w*: ", re.M)
IMPORT = re.compile(r"\b(pub(?:\([^)]*\))? )?(ghost )?use ([^;{]*?)(?:(?:\.|::)?\{([^}]*)\}|;|$)", re.S)
# Ghost members that say how private fields are kept, or prove something.
INSIDE = re.compile(r"view|invariant|inverse|laws|use\b")
# The parts of a name, or of a path.
Chain = tuple[str, ...]


class Import(NamedTuple):
    """Where an imported name leads, and whether it is exported again."""

    path: Chain
    is_shared: bool


# What `use` lines import, by name.
Imports = dict[str, Import]


class Node(NamedTuple):
    """A definition of `specs`, a type (`types`) or a trait (`contracts`)."""

    kind: str
    crate: str
    file: str
    name: str

    def place(self) -> str:
        """Returns how docs/TRUST.md names its file."""
        return f"{self.crate}/{'specs' if self.kind == 'specs' else 'src'}/{self.file}"


def chains_in(text: str, bound: Collection[str] = ()) -> set[Chain]:
    """Returns the names of a text as lists of their parts, but for those that it binds itself."""
    found: set[Chain] = {tuple(re.split(r"\.|::", it)) for it in CHAIN.findall(FIELDS.sub(" ", text))}
    return {it for it in found if it[0] not in bound}


def operators_in(text: str, names: Iterable[str]) -> set[Chain]:
    """Returns which of these names are operators whose every sign or word is in the text."""
    signs = set(re.split(r"[\s(){}\[\],;]+", text))
    return {(it,) for it in names if "◌" in it and signs.issuperset(filter(None, it.split("◌")))}


def bound_in(text: str) -> set[str]:
    """Returns the names that parameters, quantifiers and functions without a name bind, and the fields of a record."""
    bound: set[str] = {name for pair in BINDERS.findall(text) for name in SMALL.findall(" ".join(pair))}
    return bound | set(re.findall(r"^\s*pub ([a-z_]\w*) :", text, re.M)) | set(re.findall(r"\blet ([a-z_]\w*) =", text))


def imports_in(text: str) -> Imports:
    """Returns what the `use` lines import. A name of a whole module has a path too."""
    found: Imports = {}
    for shared, _, path, names in IMPORT.findall(text):
        parts = re.split(r"\.|::", path.partition(" as ")[0].strip(" .:"))
        alias = path.partition(" as ")[2].strip() or parts[-1]
        if not names:
            found[alias] = Import(tuple(parts), shared == "pub ")
        for name in (it.strip() for it in names.split(",") if it.strip()):
            own, _, other = name.partition(" as ")
            if own == "self":
                found[parts[-1]] = Import(tuple(parts), shared == "pub ")
                continue
            found[other.strip() or own.strip()] = Import((*parts, *own.strip().split("::")), shared == "pub ")
    return found


class Module:
    """A file of definitions: its first comment, its imports, and the names that each of its definitions uses."""

    def __init__(self, text: str) -> None:
        self.head = " ".join(it.removeprefix("--").strip() for it in match_in(r"\A(--[^\n]*\n)*", text)[0].splitlines())
        self.uses: dict[str, set[Chain]] = {}
        # The definition that has a name: its own, or the type of a constructor.
        self.owner: dict[str, str] = {}
        self.imports: Imports = {}
        last = ""
        for chunk in chunks_of(SPEC_NOISE.sub(" ", text)):
            if re.match(r"(pub )?(use|mod) ", chunk):
                self.imports.update(imports_in(chunk) if " use " in f" {chunk}" else {})
                continue
            first, named = chunk.split()[0], re.match(r"(?:(?:abbrev|unfoldable|pub|record|data) )+([^\s:]+)", chunk)
            if named:
                last = named[1]
                self.declare(last, chunk)
            elif first in self.uses or last and re.search(r" =\s", chunk):
                self.equation(first if first in self.uses else last, chunk)

    def declare(self, name: str, chunk: str) -> None:
        """Takes up a definition by its type, and the constructors of one that has some."""
        self.owner[name] = name
        if chunk.startswith("pub data"):
            self.owner.update(dict.fromkeys(re.findall(r"^\s+(\w+) :", chunk, re.M), name))
            chunk = re.sub(r"^(\s+)\w+ :", r"\1", chunk, flags=re.M)
        self.uses.setdefault(name, set()).update(chains_in(chunk, bound_in(chunk)))
        self.uses[name] |= operators_in(chunk, [*self.imports, *self.owner])

    def equation(self, name: str, chunk: str) -> None:
        """Takes up what an equation uses: small letters on its left are what it binds."""
        left, *right = re.split(r" =\s", chunk, maxsplit=1)
        bound = bound_in(chunk) | set(re.findall(r"(?<![\w.'])[a-z_][\w']*(?![\w'.])", left))
        self.uses[name] |= chains_in(" ".join((left, *right)), bound) | operators_in(chunk, [*self.imports, *self.owner])


def chunks_of(text: str) -> list[str]:
    """Returns the pieces of a file that begin at the margin, those of a nameless module as if they did."""
    shift = 0
    found: list[str] = []
    for line in text.splitlines():
        if line.startswith("module "):
            shift = 2
        elif line[:1].strip():
            shift = 0
        line = line[shift:] if not line.startswith("module ") else line
        if line[:1].strip() and line[0] not in "})" or not found:
            found.append(line)
        else:
            found[-1] += "\n" + line
    return [it for it in found if it.strip()]


def pieces_of(text: str, margin: int = 0) -> list[str]:
    """Returns the items of Rust source that begin at a margin, without comments and attributes."""
    found: list[str] = []
    edge = " " * margin
    for line in text.splitlines():
        begins = line.startswith(edge) and line[margin:margin + 1].strip()
        if begins and not re.match(r"[{})\]>]|where\b", line[margin:]) or not found:
            found.append(line)
        else:
            found[-1] += "\n" + line
    return [it.strip() for it in found if it.strip() and not it.strip().startswith("#")]


def header_of(text: str) -> str:
    """Returns a function's signature and clauses, without its body."""
    depth, last = 0, 0
    for found in re.finditer(r"[{}]", text):
        is_clause = re.search(r"\b(ensures|requires|ghost)\b[^{};]*$", text[last:found.start()])
        if found[0] == "}":
            depth, last = depth - 1, found.end()
        elif depth == 0 and not is_clause:
            return text[:found.start()]
        else:
            depth += 1
    return text


def inside_of(text: str) -> str:
    """Returns the text between an item's outer braces, at the margin."""
    lines = text.partition("{\n")[2].splitlines()[:-1]
    return "\n".join(it.removeprefix("    ") for it in lines)


class Item(NamedTuple):
    """What a Rust file declares: its kind (`fn`, `struct`, ..), how far it is seen, its clauses with the imports among them, and the
    type that it belongs to, if it is a method or a ghost member."""

    kind: str
    seen: str
    name: str
    clauses: str
    imports: Imports
    of: str = ""


# Texts are empty by then.
ITEM = re.compile(r'(pub(?:\([^)]*\))? )?(?:const )?(?:unsafe )?(?:extern "" )?(fn|struct|enum|trait|type|mod|const|static) (\w+)')


class Source:
    """A Rust file: its imports, its modules, and its items."""

    def __init__(self, text: str) -> None:
        self.imports: Imports = {}
        # The paths of what it exports again, and how far its modules are seen, by name.
        self.given_out: dict[str, Chain] = {}
        self.modules: dict[str, str] = {}
        self.items: list[Item] = []
        # The imports of clauses are last, and win if a name is there twice.
        for piece in sorted(pieces_of(RUST_NOISE.sub('""', text)), key=lambda it: it.startswith("ghost")):
            if IMPORT.match(piece):
                self.imports.update(imports_in(piece))
                self.given_out.update({name: it.path for name, it in imports_in(piece).items() if it.is_shared})
            elif piece.startswith("impl"):
                self.take_impl(piece)
            elif found := ITEM.match(piece):
                self.take(found, piece)
        self.named = {it.name: it for it in self.items if not it.of}

    def take(self, found: re.Match[str], piece: str) -> None:
        seen, kind, name = (found[1] or "").strip(), found[2], found[3]
        if kind == "mod":
            self.modules[name] = seen
        elif kind == "trait":
            imports, clauses = members_of(inside_of(piece))
            head = piece.partition("{\n")[0]
            self.items.append(Item(kind, seen, name, "\n".join([head, *(it.clauses for it in clauses)]), imports))
        else:
            text = header_of(piece) if kind == "fn" else piece
            is_export = 'extern ""' in piece.partition("fn ")[0]
            self.items.append(Item("export" if is_export else kind, seen, name, text, {}))

    def take_impl(self, piece: str) -> None:
        """Takes up the methods of an `impl`, each `pub` of its own, and of a trait's the clauses and ghost members."""
        head = re.sub(r"^impl(<.*?>(?= ))?", "", piece.partition("{")[0])
        trait, _, owner = head.rpartition(" for ")
        of = re.match(r"[\w:&' ]*?(\w+)\s*(<|$|where)", owner.strip())
        imports, clauses = members_of(inside_of(piece))
        for seen, name, text in clauses:
            kind = "ghost" if text.startswith("ghost") else "fn"
            if of and not (kind == "ghost" and INSIDE.match(name)):
                self.items.append(Item(kind, "pub" if trait else seen, name, f"{trait} {text}", imports, of[1]))


class Member(NamedTuple):
    """A member of a trait or an `impl`: how far it is seen, its name and its clauses."""

    seen: str
    name: str
    clauses: str


def members_of(text: str) -> tuple[Imports, list[Member]]:
    """Returns the imports inside of a trait or an `impl`, and its members."""
    imports: Imports = {}
    found = []
    for piece in pieces_of(text):
        named = re.match(r"ghost (\w+)", piece) or ITEM.match(piece)
        if IMPORT.match(piece):
            imports.update(imports_in(piece))
        elif named and piece.startswith("ghost"):
            found.append(Member("pub", named[1], piece))
        elif named:
            found.append(Member((named[1] or "").strip(), named[3], header_of(piece)))
    return imports, found


# What a name that isn't imported leads to.
NOWHERE = Import((), False)


class Repository:
    """All definitions and sources below a folder of crates, and what names lead to."""

    def __init__(self, folder: Path) -> None:
        self.folder = folder
        # By crate and file.
        self.modules: dict[tuple[str, str], Module] = {}
        self.sources: dict[tuple[str, str], Source] = {}
        for path in sorted(folder.glob("*/specs/*.antt")):
            if path.stem != "Lib":
                self.modules[path.parts[-3], path.stem] = Module(path.read_text(encoding="utf-8"))
        for path in sorted(folder.glob("*/src/**/*.rt")):
            crate, _, *file = path.relative_to(folder).with_suffix("").parts
            self.sources[crate, "/".join(file)] = Source(path.read_text(encoding="utf-8"))
        self.crates = {crate for crate, _ in self.sources}

    def named(self, crate: str, file: str, name: str) -> Node:
        """Returns the item of a source file."""
        item = self.sources[crate, file].named[name]
        kind = {"trait": "contracts", "fn": "fn", "export": "fn"}.get(item.kind, "types")
        return Node(kind, crate, file, name)

    def of_specs(self, path: Chain) -> Node | None:
        """Returns what a path of `specs` leads to: a definition, or a type that contracts see by its declaration."""
        crate, _, first, *rest = (it for it in path if it != "TheConstants")
        if first not in ("declared", "contracts"):
            module = self.modules.get((crate, first))
            if not module or not rest:
                return None
            if rest[0] in module.owner:
                return Node("specs", crate, first, module.owner[rest[0]])
            found = module.imports.get(rest[0])
            return self.of_path(crate, "", found.path) if found and found.is_shared else None
        for count in range(len(rest)):
            file = "/".join(rest[:count]) or "lib"
            if (crate, file) in self.sources and rest[count] in self.sources[crate, file].named:
                return self.named(crate, file, rest[count])
        return None

    def of_path(self, crate: str, file: str, path: Chain) -> Node | None:
        """Returns the item of a path in a file of the crate, or None if that is outside of the crates."""
        if not path:
            return None
        if path[0] == "Rattle":
            return self.of_specs(path[1:]) if len(path) > 3 and path[1] in self.crates and path[2] == "specs" else None
        if path[0] == "crate" or path[0] in self.crates:
            crate, file, path = crate if path[0] == "crate" else path[0], "lib", path[1:]
        source = self.sources.get((crate, file))
        if not source or not path:
            return None
        if path[0] in source.named:
            return self.named(crate, file, path[0])
        if path[0] in source.modules:
            return self.of_path(crate, path[0] if file == "lib" else f"{file}/{path[0]}", path[1:])
        leads = source.given_out.get(path[0]) or source.imports.get(path[0], NOWHERE).path
        return self.of_path(crate, file, (*leads, *path[1:])) if leads and leads != path else None

    def reached_by(self, crate: str, file: str, text: str, imports: Imports) -> set[Node]:
        """Returns what the names of a clause lead to."""
        source = self.sources[crate, file]
        found = set()
        for chain in chains_in(text, bound_in(text)) | operators_in(text, {**source.imports, **imports}):
            leads = imports.get(chain[0]) or source.imports.get(chain[0])
            found.add(self.of_path(crate, file, (*leads.path, *chain[1:]) if leads else chain))
        return {it for it in found if it and it.kind in ("specs", "types", "contracts")}

    def uses_of(self, node: Node) -> set[Node]:
        """Returns what a definition, a type or a trait uses."""
        if node.kind == "specs":
            module = self.modules[node.crate, node.file]
            found: set[Node | None] = set()
            for head, *rest in module.uses[node.name]:
                if head in module.owner:
                    found.add(Node("specs", node.crate, node.file, module.owner[head]))
                elif head in module.imports:
                    found.add(self.of_path(node.crate, "", (*module.imports[head].path, *rest)))
            return {it for it in found if it and it.kind in ("specs", "types", "contracts")}
        items = self.shown_of(node)
        return {used for it in items for used in self.reached_by(node.crate, node.file, it.clauses, it.imports)}

    def shown_of(self, node: Node) -> list[Item]:
        """Returns the item that says what a contract sees of a type or a trait: its `ghost Value`, or else its declaration."""
        items = [it for it in self.sources[node.crate, node.file].items if node.name == (it.of or it.name)]
        return [it for it in items if it.name == "Value"] or [it for it in items if not it.of]

    def kind_to_read(self, node: Node) -> str | None:
        """Returns which part of a definition's file to read: of a type its declaration, or what a contract sees in its place, which the
        file's contracts have too; of a type without fields nothing."""
        if node.kind != "types":
            return node.kind
        shown = self.shown_of(node)
        is_empty = any(it.kind == "struct" and it.clauses.endswith(";") and "(" not in it.clauses for it in shown)
        return None if is_empty else "either" if shown[0].name == "Value" else "types"

    def surface(self, crate: str, file: str = "lib") -> set[Node]:
        """Returns the items that a crate exports."""
        source = self.sources.get((crate, file)) or Source("")
        found: set[Node | None] = {self.named(crate, file, it.name) for it in source.named.values() if it.seen == "pub"}
        found |= {self.of_path(crate, file, path) for path in source.given_out.values()}
        for name, seen in source.modules.items():
            if seen == "pub":
                found |= self.surface(crate, name if file == "lib" else f"{file}/{name}")
        return {it for it in found if it and it.crate == crate}

    def clauses_of(self, crates: Collection[str]) -> Iterator[tuple[str, str, Item]]:
        """Yields the public items of these crates, each with its crate and file: functions, types and traits, and what belongs to the
        types."""
        out = {(it.crate, it.file, it.name) for crate in crates for it in self.surface(crate)}
        types = {(crate, name) for crate, _, name in out}
        for (crate, file), source in self.sources.items():
            for item in source.items if crate in crates else ():
                is_own = item.seen == "pub" and ((crate, item.of) in types if item.of else (crate, file, item.name) in out)
                if item.kind == "export" or is_own:
                    yield crate, file, item

    def closure(self, clauses: Iterable[tuple[str, str, Item]]) -> set[Node]:
        """Returns all that these clauses reach."""
        found: set[Node] = set()
        ahead: set[Node] = set()
        for crate, file, item in clauses:
            is_type = item.kind in ("trait", "struct", "enum", "type")
            ahead |= {self.named(crate, file, item.name)} if is_type else self.reached_by(crate, file, item.clauses, item.imports)
        while ahead:
            found |= ahead
            ahead = {used for it in ahead for used in self.uses_of(it)} - found
        return found

    def words_of(self, place: str) -> list[str]:
        """Returns the definitions of a file of specs, in their order."""
        crate, _, module = place.split("/")
        return list(self.modules[crate, module].uses) if (crate, module) in self.modules else []
