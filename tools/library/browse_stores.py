"""The stores that `tools/library/browse` shows: a user's documents, hostile names, and many files and versions."""

import struct
import zlib
from datetime import datetime, timezone
from pathlib import Path

from elephant import BadName, KeepAll, KeepSafe, Store

# Saturday 28 November 2026, nine o'clock in UTC.
BEGIN = int(datetime(2026, 11, 28, 9, tzinfo=timezone.utc).timestamp())
HOUR, DAY = 3600, 86_400
OFFER = """Dear Ms Weber,

please find our offer for the roof enclosed.
We begin in March, if the weather allows it.
"""
PARAGRAPH = "It is valid until the end of May, and includes\nthe scaffold and the removal of the old tiles.\n"
BILLS = ("january", "february", "march")


def picture(side: int = 64) -> bytes:
    """Returns a PNG of blue and orange squares."""
    rows = b"".join(
        b"\0" + b"".join(b"\xe8\x7a\x1f" if (x // 16 + y // 16) % 2 else b"\x1f\x6f\xeb" for x in range(side)) for y in range(side)
    )
    parts = (b"IHDR", struct.pack(">IIBBBBB", side, side, 8, 2, 0, 0, 0)), (b"IDAT", zlib.compress(rows, 9)), (b"IEND", b"")
    pieces = [struct.pack(">I", len(data)) + kind + data + struct.pack(">I", zlib.crc32(kind + data)) for kind, data in parts]
    return b"\x89PNG\r\n\x1a\n" + b"".join(pieces)


def documents(journal: Path) -> dict[str, int]:
    """Makes a user's documents, in which something goes wrong. Returns moments by their names."""
    with Store(journal, clock="manual", fsync="sync") as store:
        store.clock(BEGIN - 40 * DAY)
        store.set_default("/", KeepSafe(days=30, floor=3))
        store.save("/notes", b"buy milk\n")
        store.clock(BEGIN - 3 * DAY)
        store.save("/letters/offer", OFFER.encode(), parents=True)
        for name in BILLS:
            store.save(f"/bills/2026/{name}", f"{name}: 120.00\n".encode(), parents=True)
        store.save("/logo.png", picture())
        store.clock(BEGIN - 2 * DAY)
        store.save("/letters/offer", (OFFER + PARAGRAPH).encode())
        store.clock(BEGIN - 2 * DAY + 600)
        store.save("/notes", b"buy milk\nand bread\n")
        store.clock(BEGIN - HOUR)
        # The paragraph is lost by an edit, and a program writes over the bills and deletes one.
        store.save("/letters/offer", OFFER.replace("March", "April").encode())
        store.clock(BEGIN)
        for name in BILLS[:2]:
            store.save(f"/bills/2026/{name}", b"\x00\x01encrypted")
        store.unlink(f"/bills/2026/{BILLS[2]}")
        store.save("/bills/2026/READ_ME", b"pay\n")
        store.clock(BEGIN + 600)
        return {"whole": BEGIN - 2 * DAY, "before": BEGIN - HOUR, "wrong": BEGIN}


HOSTILE = [
    "<script>window.hacked=1<x>", "<img src=x onerror=window.hacked=1>", "\"><svg onload=window.hacked=1>",
    "' onmouseover='window.hacked=1", "javascript:window.hacked=1", "<iframe srcdoc=x>", "<style>*{display:none}",
    "<base href=evil.example>", "<meta http-equiv=refresh>", "<form action=evil.example>", "--><script>window.hacked=1",
    "]]><script>window.hacked=1", "<!--", "<plaintext>", "<textarea>", "<title>", "{{7*7}}", "{%raw%}", "${window.hacked=1}",
    "`window.hacked=1`", "&lt;script&gt;", "&#x3c;script&#x3e;", "%3Cscript%3E", "\\x3cscript\\x3e", "\u202egnp.exe", "\u2066x\u2069",
    "\u200b", "\ufeff", "\u2028x", "a\nb", "a\r\nSet-Cookie: x=1", "a\tb", "\x07bell", "\x1b[2J", "\x7f", " leading", "trailing ",
    "..hidden", "?path=x&at=0", "#fragment", "a;b|c&d", "$(id)", "-rf", "*", "~", "CON", "\udcff\udcfe", "\U0001f4a3", "e\u0301", "Ω",
]
BODIES = [
    b"<script>window.hacked=1</script>", b"<html><body onload='window.hacked=1'><img src=x onerror='window.hacked=1'>", b"\x00\xff<script>",
    b"<svg xmlns='http://www.w3.org/2000/svg' onload='window.hacked=1'><script>window.hacked=1</script></svg>",
    b"GIF89a/*<script>*/=1;window.hacked=1", b"\x89PNG\r\n\x1a\n<script>window.hacked=1</script>", b"%PDF-1.4\n<script>", b"{{7*7}}\n",
    "\u202e<script>window.hacked=1</script>\u2066\n".encode(), b"\x1b]0;owned\x07\n" + b"A" * 3000,
]


def hostile(journal: Path) -> list[tuple[str, str]]:
    """Makes files with hostile names and contents. Returns each name with the path that addresses have."""
    found = []
    with Store(journal, clock="manual", fsync="sync") as store:
        store.clock(BEGIN)
        for at, name in enumerate(HOSTILE):
            try:
                store.save(f"/{name}", BODIES[at % len(BODIES)])
                store.save(f"/{name}", BODIES[(at + 1) % len(BODIES)])
            except BadName:
                continue
            spelled = next(it.spelled for it in store.list() if it.name == name)
            found.append((name, "/" + spelled.decode("ascii")))
        store.clock(BEGIN + 60)
    return found


def large(journal: Path, files: int, versions: int) -> None:
    """Makes one folder of many files, and one file of many versions."""
    with Store(journal, clock="manual", fsync="sync") as store:
        store.clock(BEGIN)
        store.set_default("/", KeepAll())
        store.mkdir("/many")
        for number in range(files - 1):
            store.save(f"/many/file {number:06}", b"%d\n" % number)
        for number in range(versions - 2):
            store.tick(60)
            store.save("/one", b"version %d\n" % (number + 2))
        store.clock(BEGIN + versions * 60 + HOUR)
