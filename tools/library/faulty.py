"""A copy of the static library whose calls fail when a test asks for it.

Each call that returns a code is one of C, which calls the real one under another name. Each thread counts its calls. The one that
`elephant_fail` chooses returns a code, without being run or after it.
"""

import re
import subprocess
from pathlib import Path

from gate import libraries

HEAD = """\
#include <elephant.h>

static _Thread_local uint64_t made, chosen = UINT64_MAX;
static _Thread_local int32_t wanted, is_run;

void elephant_fail(uint64_t at, int32_t code, int32_t after);
void elephant_fail(uint64_t at, int32_t code, int32_t after) {
    made = 0;
    chosen = at;
    wanted = code;
    is_run = after;
}

uint64_t elephant_made(void);
uint64_t elephant_made(void) {
    return made;
}
"""
CALL = """
int32_t real_{name}({parameters});
int32_t {name}({parameters}) {{
    if (made++ != chosen) return real_{name}({words});
    if (is_run) real_{name}({words});
    return wanted;
}}
"""


def build(header: str, library: Path, folder: Path) -> None:
    """Makes libelephant.a in the folder from that of another folder. `header` is the text of elephant.h without comments."""
    calls = re.findall(r"\bint32_t (elephant_\w+)\(([^)]*)\);", header)
    parts = [HEAD]
    for name, parameters in calls:
        words = ", ".join(re.findall(r"(\w+)(?:,|$)", parameters))
        parts.append(CALL.format(name=name, parameters=parameters, words=words))
    source, made, archive = folder / "faulty.c", folder / "faulty.o", folder / libraries.STATIC.name
    source.write_text("".join(parts), encoding="ascii")
    strict = ["-std=c11", "-O1", "-fPIC", "-Wall", "-Wextra", "-Werror", f"-I{libraries.HEADER.parent}"]
    subprocess.run(["cc", *strict, "-c", source, "-o", made], check=True)
    renamed = [word for name, _ in calls for word in ("--redefine-sym", f"{name}=real_{name}")]
    libraries.run_kit("llvm-objcopy", *renamed, library / libraries.STATIC.name, archive)
    libraries.run_kit("llvm-ar", "qsD", archive, made)
