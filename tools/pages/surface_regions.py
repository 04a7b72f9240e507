"""The regions that tools/pages/surface prints: the lines of a file between two comments. The first one names the region and its sources."""

import re
from collections.abc import Iterable, Mapping
from pathlib import PurePosixPath

from gate.building import ROOT

# The text of each file, by its path from the top of the repository.
Tree = Mapping[str, str]
COMMENTS = {".h": ("/* ", " */"), ".rs": ("// ", ""), ".py": ("# ", ""), ".md": ("<!-- ", " -->")}
HEAD = "Printed by tools/pages/surface --write"
WIDTH = 140


def place_of(folder: str, words: str) -> str:
    """Returns the file below a folder that has these words, wherever it was moved to."""
    paths = (it for it in sorted((ROOT / folder).rglob("*")) if it.suffix in COMMENTS)
    found = [str(it.relative_to(ROOT)) for it in paths if words in it.read_text(encoding="utf-8")]
    if len(found) != 1:
        raise LookupError(f"below {folder} {', '.join(found) or 'no file'} has {words!r}, and one file should")
    return found[0]


def with_region(path: str, text: str, name: str, sources: str, body: str) -> str:
    """Returns the text of a file with this body in the region of that name. The markers stay where they are, as far in as they are."""
    before, after = COMMENTS[PurePosixPath(path).suffix]
    begin, end = re.escape(f"{before}{HEAD}: {name}, from "), re.escape(f"{before}End of {name}.{after}\n")
    found = re.search(rf"^( *){begin}[^\n]*\n(?:.*\n)*?( *){end}", text, re.M)
    if found is None:
        raise LookupError(f"{path} has no region of {name}")
    space = "\n" if path.endswith(".md") else ""
    region = f"{found[1]}{before}{HEAD}: {name}, from {sources}.{after}\n{space}{body}{space}{found[2]}{before}End of {name}.{after}\n"
    return text[:found.start()] + region + text[found.end():]


def region_in(path: str, text: str, name: str) -> str:
    """Returns what the region of that name has now."""
    before, after = COMMENTS[PurePosixPath(path).suffix]
    end = re.escape(f"{before}End of {name}.{after}\n")
    found = re.search(rf"^ *{re.escape(f'{before}{HEAD}: {name}, from ')}[^\n]*\n((?:.*\n)*?) *{end}", text, re.M)
    if found is None:
        raise LookupError(f"{path} has no region of {name}")
    return found[1]


def wrapped(items: Iterable[str], indent: int = 4) -> str:
    """Returns lines of these items, each with a comma after it, as many on a line as it has columns for."""
    lines: list[str] = []
    for item in items:
        if lines and len(lines[-1]) + len(item) + 2 <= WIDTH:
            lines[-1] += f" {item},"
        else:
            lines.append(" " * indent + f"{item},")
    return "".join(f"{it}\n" for it in lines)


def joined(words: Iterable[str]) -> str:
    """Returns words as a sentence lists them: `a, b and c`."""
    *most, last = list(words) or [""]
    return f"{', '.join(most)} and {last}" if most else last
