"""The version and the licence, as tools/pages/surface prints them in each part: those of the files VERSION and LICENSE at the top."""

import functools
import re
from collections.abc import Iterator
from typing import NamedTuple

from pages.surface_header import HEADER
from pages.surface_regions import Tree

VERSION, LICENSE, CHANGES = "VERSION", "LICENSE", "CHANGELOG.md"
PROJECT, CRATE = "clients/python/pyproject.toml", "clients/rust/Cargo.toml"
PACKAGE, PROGRAM = "clients/python/src/elephant/_version.py", "crates/ele_invocation/src/invocation.rt"
TESTED = "tests/run_calls/src/words.rt.txt"
SOURCES = [VERSION, LICENSE]


class Place(NamedTuple):
    """A line that has a word of these files: its file, and what is before and after the word, as forms."""

    path: str
    before: str
    after: str
    word: str = r"[\d.]+"

    def printed(self, text: str, word: str) -> str:
        """Returns the text of the file with this word."""
        def with_word(found: re.Match[str]) -> str:
            return f"{found[1]}{word}"

        made, count = re.subn(rf"(?m)({self.before})({self.word})(?={self.after})", with_word, text)
        if count != 1:
            raise LookupError(f"{self.path} has {count} lines as {self.before}..{self.after}, and one is printed")
        return made


# The places of the version.
VERSIONS = [
    Place(HEADER, r'^#define ELEPHANT_LIBRARY_VERSION "', r'"$'),
    Place(PROJECT, r'^version = "', r'"$'), Place(CRATE, r'^version = "', r'"$'),
    Place(PACKAGE, r'^__version__ = "', r'"$'), Place(PROGRAM, r'^const VERSION: &str = "', r'";$'), Place(TESTED, r'"elephant ', r'\\n"'),
]
# The place of the version as one number, in which each part after the first has three digits.
NUMBER = Place(HEADER, r"^#define ELEPHANT_LIBRARY_VERSION_NUMBER ", r"$", r"\d+")
# The places of the licence. A crate names either the licence or its file.
LICENCES = [Place(HEADER, r"^/\* SPDX-License-Identifier: ", r" \*/$", r"\S+")]
OF_CRATE = Place(CRATE, r"^license", r"$", r'(?:-file)? = ".*"')
# Copies of LICENSE, for packages that have to have one.
COPIES = ["clients/python/LICENSE", "clients/rust/LICENSE"]
OF_VERSION = sorted({it.path for it in [*VERSIONS, *LICENCES]})
PRINTED = [*OF_VERSION, *COPIES]


def version_in(tree: Tree) -> str:
    """Returns the version that VERSION has."""
    found = re.fullmatch(r"(\d+\.\d+\.\d+)\n", tree[VERSION])
    if found is None:
        raise LookupError(f"{VERSION} isn't one line with three numbers")
    return found[1]


def licence_in(tree: Tree) -> str:
    """Returns the identifier of the licence in the first line of LICENSE, or NONE."""
    found = re.match(r"SPDX-License-Identifier: (\S+)\n", tree[LICENSE])
    if found is None:
        raise LookupError(f"the first line of {LICENSE} has no SPDX-License-Identifier")
    return found[1]


def made(tree: Tree) -> dict[str, str]:
    """Returns each file with the version and the licence that are printed in it."""
    version, licence = version_in(tree), licence_in(tree)
    of_crate = '-file = "LICENSE"' if licence == "NONE" else f' = "{licence}"'
    number = str(functools.reduce(lambda before, part: 1000 * before + int(part), version.split("."), 0))
    texts = {path: tree[path] for path in PRINTED}
    pairs = [*((it, version) for it in VERSIONS), (NUMBER, number), *((it, licence) for it in LICENCES), (OF_CRATE, of_crate)]
    for place, word in pairs:
        texts[place.path] = place.printed(texts[place.path], word)
    return {**texts, **dict.fromkeys(COPIES, tree[LICENSE])}


def complaints(tree: Tree) -> Iterator[str]:
    """Yields what else says another version, or another licence."""
    version, licence = version_in(tree), licence_in(tree)
    newest = re.findall(r"(?m)^## \[(\d[\d.]*)\]", tree[CHANGES])[:1]
    if newest != [version]:
        yield f"{CHANGES}: its newest version is {newest or 'none'}, and {VERSION} says {version}"
    says_none = "No licence is given yet" in tree["README.md"]
    if says_none != (licence == "NONE"):
        yield f"README.md {'says' if says_none else 'does not say'} that no licence is given yet, and {LICENSE} says {licence}"
