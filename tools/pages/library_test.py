"""Tries tools/pages/library_page on made-up crates: which calls it lists, how it shows them, and what it takes from their comments."""

import tempfile
from collections.abc import Callable
from pathlib import Path

from pages.library_items import Crate, Item, fault_names, items_of
from pages.library_tables import BEGIN, END, made_part, table_of, with_part

FILES = {
    # `hidden`, `Shut` and what traits and laws have are no calls of the crate.
    "low/src/lib.rt": "//! Low.\nmod kind;\nmod laws;\npub use kind::{Kind, Kinds, grown};\n\n/// A top.\npub fn top() {\n}\n",
    "low/src/kind.rt": """/// A kind of `a.b`. And more.
#[derive(Clone)]
pub struct Kind {
    pub size: u64,
}

/// Kinds in order.
pub type Kinds = ListOf<Kind>;

/// Shut.
pub struct Shut;

impl Shut {
    /// Is shut.
    pub fn shut(&self) {}
}

impl fmt::Display for Kind {
    /// Writes.
    pub fn fmt(&self) {}
}

impl<T: Drop> Kind<T> {
    /// The smallest.
    pub const LEAST: Kind = Kind {
        size: 0,
    };

    /// Makes one of
    /// `a|b`. Whatever `a` is.
    ///
    /// `BadKind` if it is none.
    #[inline(never)]
    pub fn new(
        alloc: Global,
        size: u64,
    ) -> Result<Kind<T>, Fault>
        requires { size < 3 }
        ensures { IsOk result }
    {
        Ok(Kind { size })
    }

    /// The next one. The caller keeps it small. None past the last. It takes no memory.
    pub fn next(&mut self, by: &u64) -> Option<Kind> {
        None
    }

    // Only here.
    fn own(&self) {}

    /// For a proof.
    pub fn lemma_small(&self) {}
}

/// How it fails.
pub enum Fault {
    BadKind,
    Other { size: u64 },
}

/// Grows. Refused: `Full`. Cost: log n for each. It takes no memory.
pub fn grown() -> Result<(), Fault>
    ensures { IsOk result }
{
    Ok(())
}

pub fn hidden() {}
""",
    "low/src/laws.rt": "/// A law.\npub fn law() {}\n",
    "top/src/lib.rt": "pub use low::Kind;\npub use ele_low::Other;\n",
}
TABLE = [
    "| Call | What it does | Errors | Cost |",
    "|---|---|---|---|",
    "| `Kind::LEAST: Kind` | The smallest | | |",
    "| `Kind::new(alloc: Global, size: u64) -> Result<Kind<T>, Fault>` | Makes one of `a\\|b` | `BadKind` if it is none | |",
    "| `next(&mut self, by: &u64) -> Option<Kind>` | The next one. The caller keeps it small | None past the last | no memory |",
]
FREE = ["| `grown() -> Result<(), Fault>` | Grows | `Full` | log n for each. no memory |"]


def of_comment(comment: str, signature: str = "f() -> Result<(), Fault>") -> Item:
    return Item("fn", "f", "", signature, comment)


# What each case shows, how it looks, and what it has to find.
CASES: list[tuple[str, Callable[[Crate], object], object]] = [
    ("calls that a crate gives out", lambda low: [it.name for it in low.calls], ["top", "LEAST", "new", "next", "grown"]),
    ("types that it gives out", lambda low: [it.signature for it in low.given.values() if it.kind == "type"], ["Kinds = ListOf<Kind>"]),
    ("names of faults", lambda low: fault_names([low]), {"Fault", "BadKind", "Other"}),
    ("a table of a type", lambda low: table_of([it for it in low.calls if it.owner], fault_names([low])), TABLE),
    ("a call without a type", lambda low: table_of(low.calls[-1:], fault_names([low]))[2:], FREE),
    ("no empty column", lambda low: table_of(low.calls[:1], set())[0], "| Call | What it does |"),
    ("dots that end no sentence", lambda _: of_comment("Is `a. b`, e.g. a word. More.").does(), ["Is `a. b`, e.g. a word"]),
    ("a fault that isn't the call's", lambda _: of_comment("It. `Some` is none.").faults({"BadKind"}), []),
    ("a fault of a call that can't fail", lambda _: of_comment("It. `BadKind` is none.", "f()").faults({"BadKind"}), []),
    ("a cost in words", lambda _: of_comment("It looks. Takes a time of log n.").costs(), (["Takes a time of log n"], [])),
    ("no cost", lambda _: of_comment("At that time it is timed.").costs(), ([], [])),
    ("a call after a type's calls", lambda _: [it.owner for it in items_of("impl A {\n    pub fn b() {}\n}\n\npub fn c() {}\n")],
     ["A", ""]),
    ("a new part", lambda low: with_part("By hand.\n", made_part([low])).startswith(f"By hand.\n\n{BEGIN}"), True),
    ("an old part", lambda _: with_part(f"a\n{BEGIN}\nold\n{END}\nb\n", "new"), "a\nnew\nb\n"),
]


def run() -> int:
    """Tries each case, prints those that are wrong, and returns how many they are."""
    wrong = 0
    with tempfile.TemporaryDirectory() as folder:
        for name, text in FILES.items():
            (Path(folder) / name).parent.mkdir(parents=True, exist_ok=True)
            (Path(folder) / name).write_text(text, encoding="utf-8")
        low = Crate(Path(folder) / "low")
        for name, found, expected in CASES:
            if found(low) != expected:
                wrong += 1
                print(f"{name}: {found(low)} in place of {expected}")
    return wrong
