"""Which names the tree has, and which spans of code name something that it hasn't: a path, a crate, a function, a type, an option.

The form of a span decides. A span is checked if it is one of these, and left alone if it is not, as a sample or a line of a script:

- a path whose first part is a folder of the tree, or whose last part ends as a source does;
- a crate, `ele_x`;
- a name, or several that `::` or a dot joins, with or without arguments in brackets; a type must have the member after its `::`;
- an option, alone or of a program of this tree, and the word after `elephant`.
"""

import re
import subprocess
from collections.abc import Collection, Iterable, Iterator, Sequence
from itertools import pairwise
from pathlib import Path, PurePosixPath

ENDINGS = ("rt", "antt", "py", "rs", "c", "h", "txt", "toml", "md", "svg", "script", "sh", "so", "a")
# A file without an ending is a program.
SOURCE = re.compile(r"\.(rt|antt|py|rs|c|h|txt|toml|script|sh)$|(^|/)[^.]+$")
CRATE_PARTS = ("src", "specs", "proofs", "must-fail", "data")
# The folders that a path may leave away.
ANYWHERE = ("crates/", "crates/*/", "tools/", "tools/*/", "clients/*/", "bench/*/")
WORD = re.compile(r"[A-Za-z_][\w']*(?:-[A-Za-z_][\w']*)*")
OPTION = re.compile(r"(?<![\w-])--[a-z][\w-]*")
PATH = re.compile(r"(?:\.\.?/)*[\w*.+-]+(?:/[\w*.+-]+)*/?")
NAME = re.compile(r"&?(?:mut )?([A-Za-z_]\w*(?:(?:::|\.)[A-Za-z_]\w*)*)(?:<.*>)?(?:!|\(.*\))?")
# A name in a comment is none that the tree has.
COMMENT = {".rt": re.compile(r"//[^\n]*"), ".rs": re.compile(r"//[^\n]*"), ".antt": re.compile(r"--[^\n]*")}
# A type, a trait or an `impl` of Rust with what its braces hold, and what they declare: a member, a field or a variant.
BLOCK = re.compile(r"^(?:pub(?:\([^)]*\))? )?(struct|enum|trait|impl)\b([^{;]*)\{(.*?)^\}", re.M | re.S)
MEMBERS = re.compile(r"\b(?:fn|const|ghost|type) (\w+)"), re.compile(r"^    (?:pub(?:\([^)]*\))? )?(\w+)(?=[,:({ ]|$)", re.M)
ALIAS = re.compile(r"^pub type (\w+)(?:<[^=]*>)? = (?:\w+::)*(\w+)", re.M)
# Programs of this tree; another one's options are its own.
OWN = re.compile(r"(\./)?(elephant(-mount|-store)?|check)|(tools|bench|tests|examples|\./tools|\./bench)/[\w/.]+")
# Names of the tree that it doesn't store: its build products, and the machine's paths.
ELSEWHERE = re.compile(r"out/|\.git\b|/|~|\.elephant|\.undo")
# Names of the language, its kit and of other programs, which no source of the tree declares.
FOREIGN = re.compile(
    r"(std|core|alloc|Rattle)(::|\.|$)|"
    r"(BufReader|BufWriter|Cursor|jiff_fmt|mremap|parse|--keep-[a-z-]+|--no-lock|gc\.\w+|prune_defer|CONTRACTS\.md)$"
)
# A name that begins with a word in capitals is a pattern.
PATTERN = re.compile(r"[A-Z]+_[a-z]")


def files_of(root: Path) -> list[str]:
    """Returns the paths of the files that git keeps in a folder, or would."""
    words = ["git", "ls-files", "-co", "--exclude-standard"]
    ran = subprocess.run(words, cwd=root, capture_output=True, encoding="utf-8", check=True)
    return sorted(it for it in ran.stdout.splitlines() if (Path(root) / it).is_file())


def members_in(text: str) -> Iterator[tuple[str, bool, set[str]]]:
    """Yields each type that a source of Rust declares or implements, whether it declares it, and the names of its members."""
    for kind, head, body in BLOCK.findall(text):
        whole = re.sub(r"^<.*?>(?= )", "", head).rpartition(" for ")[2] if kind == "impl" else head
        named = re.match(r"[&\w:\' ]*?(\w+)\s*(<|$|where|:)", whole.strip())
        if named:
            yield named[1], kind != "impl", {it for form in MEMBERS for it in form.findall(body)}


class Tree:
    """The files of a folder, and the words of its sources. Those of `left_out` aren't read."""

    def __init__(self, root: str | Path, files: Collection[str], left_out: Iterable[str] = ()) -> None:
        self.root, self.files = Path(root), set(files)
        self.folders = {str(it) for name in files for it in Path(name).parents}
        self.bases = {Path(it).name for it in files} | {Path(it).name for it in self.folders}
        self.crates = {it.split("/")[1] for it in files if it.startswith("crates/") and it.count("/") > 1}
        self.tops = {it.split("/")[0] for it in self.folders if it != "."} | self.crates | set(CRATE_PARTS)
        self.words = set(self.crates)
        self.options: set[str] = set()
        self.quoted: set[str] = set()
        self.of_crates = {it: {it} for it in self.crates}
        # The members of each type of Rust, the types that are declared, and other names of types.
        self.members: dict[str, set[str]] = {}
        self.declared: set[str] = set()
        self.aliases: dict[str, str] = {}
        for name in sorted(self.files.difference(left_out)):
            if SOURCE.search(name):
                self.take(name, self.read(name))

    def read(self, name: str) -> str:
        return (self.root / name).read_text(encoding="utf-8", errors="replace")

    def take(self, name: str, text: str) -> None:
        """Adds the words of a source."""
        ending = Path(name.removesuffix(".txt")).suffix
        text = COMMENT[ending].sub("", text) if ending in COMMENT else text
        if ending in (".rt", ".rs"):
            self.aliases.update(ALIAS.findall(text))
            for of, is_declared, members in members_in(text):
                self.members.setdefault(of, set()).update(members)
                self.declared.update([of] if is_declared else [])
        words = WORD.findall(text)
        self.words.update(words)
        if name.startswith("crates/"):
            self.of_crates.setdefault(name.split("/")[1], set()).update(words)
        self.options.update(OPTION.findall(text))
        self.quoted.update(re.findall(r'"([a-z][a-z_.-]*)"', text))

    def has_path(self, path: str, folder: str, crates: Collection[str] = ()) -> bool:
        """Whether a path exists: in one of these crates if it begins as a path in a crate does, else from the top, from the page's folder,
        or in any crate. The ending of a source may be missing. A star matches any name. A name without a folder may be anywhere, and
        may be a file that the tree only builds."""
        path = path.rstrip("/").removeprefix("./")
        if "/" not in path and {path, f"{path}.txt"} & (self.bases | self.quoted):
            return True
        is_in_crate = crates and path.split("/")[0] in CRATE_PARTS
        starts = [f"crates/{it}/" for it in crates] if is_in_crate else ["", f"{folder}/", *ANYWHERE]
        return any(self.matches(f"{start}{path}{end}") for start in starts for end in ("", ".rt", ".antt", ".txt"))

    def matches(self, pattern: str) -> bool:
        """Whether a file or a folder has that path."""
        pattern = str(PurePosixPath(pattern))
        if "*" not in pattern:
            return pattern in self.files or pattern in self.folders
        return next(self.root.glob(pattern), None) is not None

    def is_path(self, word: str) -> bool:
        """Whether a word has the form of a path of this tree."""
        if not PATH.fullmatch(word) or ELSEWHERE.match(word) or not re.search(r"[a-z]", word):
            return False
        first, *rest = word.removeprefix("./").rstrip("/").split("/")
        has_ending = word.rpartition(".")[2] in ENDINGS and re.search(r"\w\.\w+$", word)
        return bool(has_ending or (rest or word.endswith("/")) and first in self.tops)

    def lacks(self, code: str, folder: str = "", own: Collection[str] = (), crates: Collection[str] = ()) -> Iterator[str]:
        """Yields what a span of code of a page in that folder names and the tree hasn't. `own` are the words of the page's samples, and
        `crates` those that a path in a crate may mean, if not any."""
        first, *others = code.split() or [""]
        is_command = bool(OWN.fullmatch(first)) or first.startswith("--")
        paths = [it for it in (first, *others) if self.is_path(it) and (it == code or "/" in it)]
        if FOREIGN.match(code) or PATTERN.match(code):
            return
        if is_command or paths:
            yield from (it for it in paths if not self.has_path(it, folder, crates))
            yield from self.words_lacked(code, first, others) if is_command else ()
        elif found := NAME.fullmatch(code):
            yield from self.names_lacked(found[1], own)

    def words_lacked(self, code: str, first: str, others: Sequence[str]) -> Iterator[str]:
        """Yields the options of a command that no source has, and the word after `elephant`."""
        known = self.options | {f"--{it}" for it in self.quoted}
        yield from (it for it in OPTION.findall(code) if it not in known)
        if first.removeprefix("./") == "elephant" and others and re.fullmatch(r"[a-z]+", others[0]) and others[0] not in self.quoted:
            yield f"{first} {others[0]}"

    def names_lacked(self, name: str, own: Collection[str]) -> Iterator[str]:
        """Yields a crate that isn't there, a name with a part that no source has, or a type's member that the type hasn't."""
        parts = re.split(r"::|\.", name)
        is_crate = re.fullmatch(r"ele_[a-z_]+", parts[0])
        is_known = all(self.is_word(it, own) for it in parts) and all(self.has_member(*it) for it in pairwise(name.split("::")))
        if is_crate and parts[0] not in self.crates or not is_known:
            yield name

    def lacks_of(self, crate: str, code: str) -> Iterator[str]:
        """Yields the name that a span of code is, if the sources of the crate lack a part of it."""
        found = NAME.fullmatch(code)
        if found and not self.of_crates[crate].issuperset(re.split(r"::|\.", found[1])):
            yield f"{found[1]} of {crate}"

    def has_member(self, name: str, member: str) -> bool:
        """Whether a type has a member, if the name is a type's."""
        name = self.aliases.get(name, name)
        return name not in self.declared or member in self.members[name]

    def is_word(self, part: str, own: Collection[str]) -> bool:
        """Whether the sources have a part of a name. A part in capitals is a placeholder, and one that ends with `_` is the beginning of
        other names."""
        if part in self.words or part in own or part.isupper() and "_" not in part:
            return True
        return part.endswith("_") and any(it.startswith(part) for it in self.words)
