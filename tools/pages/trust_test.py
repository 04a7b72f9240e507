"""Tries tools/pages/trust_lines on small made-up crates and pages; the expected values were worked out from the texts by hand."""

import tempfile
from collections.abc import Callable, Collection, Sequence
from pathlib import Path

from pages.definitions import Module, Repository, Source, header_of, imports_in
from pages.trust_page import Page, contracts_in, counted, files_in, types_in
from pages.trust_words import FIRST_LINE, Words, words_of

FILES = {
    # `measure` uses imports under another name, a word that is exported again, a type and one of its variants. It binds `depth` itself,
    # names `lost` only in a comment and in a text, and `spare` is a field there.
    "low/specs/Shape.antt": """-- What a shape is,
-- over two lines.
use Rattle.low.specs.declared.kind.Kind.{Kind}
use Rattle.low.specs.declared.kind.Kind.TheVariants as kind
use Rattle.low.specs.Area.{area, wide as broad, depth, spare, Seen, given}
use Rattle.low.specs.Lost.{lost}

-- lost
abbrev pub measure : Kind → ℕ
measure kind.Small = broad (codes "lost")
measure (kind.Large depth) =
    let spare = 1 in
    record { spare = given depth; rest = λ lost. lost }

abbrev pub forget : ℕ → ℕ
forget n = lost n
""",
    "low/specs/Area.antt": """-- Areas.
use Rattle.std.specs.Prelude.{ℕ, List, ◌+◌}
pub use Rattle.low.specs.Deep.{given}
use Rattle.low.specs.Deep.{kept}

unfoldable pub wide : List ℕ → ℕ
wide ns = area ns + 1

abbrev pub area : List ℕ → ℕ
area ns = 0

abbrev pub depth : ℕ
depth = kept

abbrev pub spare : ℕ
spare = 0

pub record Seen (n : ℕ) : Type 0 where
  pub depth : ℕ
  pub same : depth ≡ n
""",
    "low/specs/Deep.antt": "-- Deep.\nmodule _ {X : Type 0} where\n  abbrev pub given : X → ℕ\n  given x = inner x\n\n"
    "  abbrev pub inner : X → ℕ\n  inner x = 0\n\nabbrev pub kept : ℕ\nkept = 1\n",
    "low/specs/Lost.antt": "-- Lost. No public clause cites this module.\nabbrev pub lost : ℕ → ℕ\nlost n = n\n",
    "low/specs/Choice.antt": "-- A choice.\nuse Rattle.low.specs.Deep.{kept}\n\npub data Choice : Type 0 where\n"
    "  one : ℕ → Choice\n  Other : kept ≡ 1 → Choice\n",
    "low/specs/Inside.antt": "-- Inside. No public clause cites this module.\nabbrev pub shown : ℕ\nshown = 0\n",
    "low/specs/Value.antt": "-- A value.\nabbrev pub Seen : Type 0\nSeen = ℕ\n",
    "low/specs/Exported.antt": "-- What is exported.\nabbrev pub exported : ℕ\nexported = 0\n",
    "low/specs/Written.antt": "-- How it is written.\nabbrev pub text_of : ℕ → List ℕ\ntext_of n = []\n",
    "low/src/lib.rt": "mod kind;\nmod inner;\nmod c;\npub use inner::measured;\npub(crate) use inner::hidden;\n"
    "pub use kind::{Kept, Kind, Steps};\n",
    # A private function, one that the crate keeps, and a body use `forget`, and so `lost`.
    "low/src/inner.rt": """ghost use Rattle.std.specs.Prelude.{◌≡◌, length};
ghost use Rattle.low.specs.Shape.{measure, forget};
use crate::kind::Kind;

fn private(n: u64) -> u64
    ensures { result ≡ forget n }
{
    n
}

pub fn hidden(n: u64) -> u64
    ensures { result ≡ forget n }
{
    private(n)
}

/// Measures with { braces }.
#[inline(never)]
pub fn measured(
    kind: &Kind,
) -> u64
    requires { 0 ≡ 0 }
    ensures value { result
        ≡ measure kind.now }
{
    let forget = "}";
    hidden(0)
}
""",
    "low/src/kind.rt": """/// A kind.
#[derive(Debug)]
pub enum Kind {
    Small,
    Large(u64),
}

/// Kept by an invariant.
pub struct Kept {
    kind: Kind,
}

impl Model for Kept {
    ghost use Rattle.low.specs.Value.{Seen};
    ghost use Rattle.low.specs.Inside.{shown};

    ghost Value = { Seen };

    ghost view = { λ kept. shown };

    ghost invariant = { λ kept. shown ≡ 0 };
}

impl fmt::Display for Kept {
    ghost use Rattle.low.specs.Written.{text_of};

    ghost output = { λ kept. Some (text_of kept) };
}

pub trait Steps: Drop {
    ghost use Rattle.low.specs.Choice.{Choice};

    ghost world: { Self → ℕ };

    /// Takes a step.
    fn step(&mut self) -> u64
        ensures { Choice };
}
""",
    "low/src/c.rt": """ghost use Rattle.low.specs.Exported.{exported};

#[unsafe(no_mangle)]
pub unsafe extern "C" fn low_call(at: *mut u8) -> i32
    ensures { result ≡ exported }
{
    0
}
""",
    # A crate above, which cites a word of the crate below by another crate's name for it.
    "top/specs/Uses.antt": "-- Uses.\nuse Rattle.low.specs.Area.{given, depth}\n"
    "use Rattle.std.specs.Int.{w64 as wide}\nuse Rattle.std.specs.Prelude.{ℕ}\n\nabbrev pub uses : ℕ\nuses = depth\n",
    "top/src/lib.rt": "ghost use Rattle.top.specs.Uses.{uses};\nuse low::Kind;\n\n"
    "pub fn used(kind: Kind) -> u64\n    ensures { result ≡ uses }\n{\n    0\n}\n",
}
READ = """## The core
| Read | Lines | Minutes | Check |
|---|---|---|---|
| `low/specs/Shape`, `Area`, `Deep`, `Choice`, `Value`, `Exported`, `Written` | 1 | 2 | all |
| `low/src/kind` (types), `inner`, `c`, `kind` (contracts) | 1 | 3 | all |
| all | 1 | 1 | |
""".splitlines()
REST = ["## The rest", "| `top/specs/Uses`, `top/src/lib` (contracts) | 0 | 1 | all |"]
WORDS = [
    FIRST_LINE, "|---|---|---|", "| `ℕ`, `List` | `std/Prelude` | numbers, lists |", "| `◌+◌`, `◌≡◌` | `std/Prelude` | sum; equal |", "",
    FIRST_LINE, "|---|---|---|", "| `w64` | `std/Int` | a width |",
]
LEFT_OUT = ["- The clauses of `top`: above."]
OF_LOW = {
    "low/specs/Shape": {"measure"}, "low/specs/Area": {"wide", "area"}, "low/specs/Deep": {"given", "inner", "kept"},
    "low/specs/Choice": {"Choice"}, "low/specs/Value": {"Seen"}, "low/specs/Written": {"text_of"}, "low/specs/Exported": {"exported"},
    "low/src/kind": {"Kind", "Kept", "Steps"},
}


def reached(repository: Repository, crates: Collection[str]) -> dict[str, set[str]]:
    """Returns what these crates' clauses reach, by file."""
    found: dict[str, set[str]] = {}
    for node in repository.closure(repository.clauses_of(crates)):
        found.setdefault(node.place(), set()).add(node.name)
    return found


def without(lines: Sequence[str], word: str) -> list[str]:
    return [line.replace(word, "") for line in lines]


def holes(repository: Repository, lines: Sequence[str]) -> list[str]:
    return sorted(Page(lines, repository).holes())


def with_head(repository: Repository, module: str, head: str) -> list[str]:
    """Returns the holes of a whole page when a file of definitions has another first line."""
    was = repository.modules["low", module].head
    repository.modules["low", module].head = head
    found = holes(repository, READ + REST)
    repository.modules["low", module].head = was
    return found


def words(repository: Repository, old: str = "", new: str = "") -> list[str]:
    """Returns the holes of the tables of words when a text in them is another."""
    return list(Words([*READ, *REST, "", *(line.replace(old, new) for line in WORDS)], repository).holes())


NONE, OTHER = "No public clause cites this module", "No public clause that a reader of the core needs cites this module"
# What each case shows, how it looks, and what it has to find.
CASES: list[tuple[str, Callable[[Repository], object], object]] = [
    ("names lead through clauses, imports and definitions", lambda it: reached(it, {"low"}), OF_LOW),
    ("another crate's clauses lead further", lambda it: reached(it, {"top"})["low/specs/Area"], {"depth"}),
    ("what is exported again is found where it is defined", lambda it: "low/specs/Deep" in reached(it, {"top"}), True),
    ("a whole page has no hole", lambda it: holes(it, READ + REST), []),
    ("a page without a module", lambda it: holes(it, without(READ, ", `Choice`") + REST),
     ["the page leaves out low/specs/Choice, of which public clauses use Choice"]),
    ("a page without types", lambda it: holes(it, [line.replace("kind` (types), `", "") for line in READ] + REST),
     ["the page leaves out low/src/kind (types), of which public clauses use Kind"]),
    ("a page without contracts", lambda it: holes(it, without(READ, ", `c`") + REST),
     ["the page leaves out low/src/c (contracts), of which public clauses use low_call"]),
    ("a module that no clause reaches", lambda it: holes(it, READ + REST + ["| `low/specs/Lost` | 0 | 0 | |"]),
     ["the page lists low/specs/Lost, which no public clause reaches"]),
    ("and one of which the page says why", lambda it: holes(it, READ + REST + ["| `low/specs/Lost` | for builders |"]), []),
    ("a file that isn't there", lambda it: holes(it, READ + REST + ["| `low/specs/Gone` | 0 | 0 | |"]),
     ["the page lists low/specs/Gone, which isn't there"]),
    ("a crate that is left out", lambda it: holes(it, READ + LEFT_OUT), []),
    ("and one that isn't", lambda it: len(holes(it, READ)), 2),
    ("a first line that is false", lambda it: with_head(it, "Deep", f"Deep. {NONE}."), [f'low/specs/Deep says "{NONE}", and one does']),
    ("a first line that is missing", lambda it: with_head(it, "Lost", "Lost."), [f'low/specs/Lost doesn\'t say "{NONE}", and none does']),
    ("a first line that says too little", lambda it: with_head(it, "Lost", f"{OTHER}."),
     [f'low/specs/Lost doesn\'t say "{NONE}", and none does']),
    ("a first line that says too much", lambda it: with_head(it, "Deep", f"{OTHER}."), [f'low/specs/Deep says "{OTHER}", and one does']),
    ("figures", lambda it: [line.split("|")[2:4] for line in Page(READ, it).put_right()[0] if line.startswith("| all")], [[" 57 ", " 5 "]]),
    ("the time of the core", lambda it: Page(["**The core takes 9 minutes**", *READ], it).put_right()[0][0],
     "**The core takes 5 minutes**"),
    ("unused words", lambda it: Page([*READ, "The contracts of the last row use none of these words: ."], it).put_right()[0][-1],
     "The contracts of the last row use none of these words: `forget`, `depth`, `spare`, `Seen`."),
    ("sizes", lambda it: Page(READ, it).sizes()[1:], [51, 0]),
    ("words of libraries", lambda it: words_of(it, READ + REST),
     ({name: {"std/Prelude"} for name in ("ℕ", "List", "◌+◌", "◌≡◌")}, {"w64": {"std/Int"}})),
    ("whole tables of words have no hole", words, []),
    ("a word that is left out", lambda it: words(it, "`◌+◌`, ", ""), ["the page leaves out the word ◌+◌ of std/Prelude"]),
    ("a word in vain", lambda it: words(it, "`ℕ`, ", "`ℕ`, `length`, "), ["the page explains length, which none of these files uses"]),
    ("a word in the other table", lambda it: words(it, "`w64`", "`w64`, `ℕ`"), ["the page explains ℕ, which none of these files uses"]),
    ("a word twice", lambda it: words(it, "`◌+◌`, ", "`◌+◌`, `ℕ`, "), ["the page explains ℕ twice"]),
    ("a word without a meaning", lambda it: words(it, "| a width |", "| |"), ["the page doesn't say what w64 means"]),
    ("a table that is missing", lambda it: list(Words(WORDS[:4], it).holes()),
     ["the page has 1 tables of words of libraries, and should have 2"]),
    ("places and words put right",
     lambda it: Words([*READ, *REST, "", *WORDS[:2], "| `ℕ`, `gone` | `std/List` | n |"], it).put_right()[-4:],
     ["| `ℕ` | `std/Prelude` | n |", *(f"| `{word}` | `std/Prelude` | |" for word in ("List", "◌+◌", "◌≡◌"))]),
    ("a first comment", lambda it: it.modules["low", "Shape"].head, "What a shape is, over two lines."),
    ("a constructor is its type's", lambda it: Module("pub data A : Type 0 where\n  b : A\n").owner, {"A": "A", "b": "A"}),
    ("lines of a contract", lambda it: contracts_in(FILES["low/src/kind.rt"].splitlines())[-3:],
     ["    ghost world: { Self → ℕ };", "    fn step(&mut self) -> u64", "        ensures { Choice };"]),
    ("lines of types", lambda it: counted(types_in(FILES["low/src/kind.rt"].splitlines())), 7),
    ("a header without its body", lambda it: header_of("fn f()\n    ensures a { {} }\n{ { } }"), "fn f()\n    ensures a { {} }\n"),
    ("operators", lambda it: ("◌++◌",) in Module("abbrev pub ◌++◌ : ℕ\nn ++ m = n\nabbrev pub a : ℕ\na = 1 ++ 2\n").uses["a"],
     True),
    ("imports", lambda it: imports_in("pub use a::b::{C, D as E};"), {"C": (("a", "b", "C"), True), "E": (("a", "b", "D"), True)}),
    ("methods", lambda it: [(i.of, i.seen, i.name) for i in Source("impl<T: A> B<T> {\n    pub fn c() {}\n    fn d() {}\n}\n").items],
     [("B", "pub", "c"), ("B", "", "d")]),
    ("files of a row", lambda it: files_in("`a/src/b`, `c` (types), `d/specs/E`, `F`, `a/src/g`"),
     [("types", "a/src/b"), ("types", "a/src/c"), ("specs", "d/specs/E"), ("specs", "d/specs/F"), ("any", "a/src/g")]),
]


def run() -> int:
    """Tries each case, prints those that are wrong, and returns how many they are."""
    wrong = 0
    with tempfile.TemporaryDirectory() as folder:
        for name, text in FILES.items():
            (Path(folder) / name).parent.mkdir(parents=True, exist_ok=True)
            (Path(folder) / name).write_text(text, encoding="utf-8")
        repository = Repository(Path(folder))
        for name, found, expected in CASES:
            if found(repository) != expected:
                wrong += 1
                print(f"{name}: {found(repository)} in place of {expected}")
    return wrong
