"""The command `elephant-browse`."""

from __future__ import annotations

import argparse
import importlib
import os
import signal
import sys
import threading
import webbrowser
from collections.abc import Callable
from typing import TYPE_CHECKING, Any, Optional

from .. import ElephantError
from ..keeping import about

if TYPE_CHECKING:
    from waitress import Server

    from .door import Door
    from .sources import Source

_DESCRIPTION = "Shows the past of a journal or of a mounted folder on a page of this machine, and brings it back."
_MISSING = "elephant-browse: {}: on Debian, 'apt-get install python3-flask python3-waitress' installs it, for /usr/bin/python3"
# One page asks for few things at once.
THREADS, CONNECTIONS, MOST_HEAD, MOST_BODY = 4, 100, 64 << 10, 64 << 10


def _parser() -> argparse.ArgumentParser:
    words = argparse.ArgumentParser(prog="elephant-browse", description=_DESCRIPTION)
    words.add_argument("journal", metavar="JOURNAL", nargs="?", help="the journal of a store; nobody else may write it meanwhile")
    words.add_argument("--at", metavar="FOLDER", help="a folder that elephant-mount has mounted, in place of a journal")
    words.add_argument("--port", type=int, default=0, metavar="PORT", help="the port; otherwise one that is free")
    words.add_argument("--no-open", action="store_true", help="print the address, and open no browser")
    words.add_argument("--read-only", action="store_true", help="only look: nothing is changed, and another program may write the journal")
    words.add_argument("--history", action="store_true", help="also show what was forgotten, and by which rule; it takes more memory")
    words.add_argument("--manual", action="store_true", help="leave the store's time where the journal has it")
    words.add_argument("--version", action="store_true", help="print the version, and of which proof the library is")
    return words


def main(argv: Optional[list[str]] = None) -> int:
    """Runs the command, and returns its status."""
    parser = _parser()
    asked = parser.parse_args(sys.argv[1:] if argv is None else argv)
    if asked.version:
        print(f"elephant-browse {about()}", end="")
        return 0
    if (asked.journal is None) == (asked.at is None):
        parser.error("give a JOURNAL, or --at FOLDER")
    for name in ("flask", "waitress"):
        try:
            importlib.import_module(name)
        except ImportError as lack:
            print(_MISSING.format(lack), file=sys.stderr)
            return 1
    return _run(asked)


def _source(asked: argparse.Namespace) -> Source:
    from .sources import JournalSource, MountSource

    if asked.at is not None:
        return MountSource(asked.at, read_only=asked.read_only, history=asked.history)
    if not os.path.exists(asked.journal):
        raise FileNotFoundError(f"there is no journal {asked.journal}")
    return JournalSource(asked.journal, read_only=asked.read_only, history=asked.history, is_manual=asked.manual)


def _run(asked: argparse.Namespace) -> int:
    from .sources import ChangeRefused

    try:
        source = _source(asked)
    except (ElephantError, OSError, ChangeRefused) as fault:
        print(f"elephant-browse: {fault}", file=sys.stderr)
        return 1
    try:
        return _serve(asked, source)
    except OSError as fault:
        print(f"elephant-browse: port {asked.port}: {fault.strerror or fault}", file=sys.stderr)
        return 1
    finally:
        source.close()


def serving(source: Source, port: int, announce: Callable[[str], None]) -> tuple[Server, Door]:
    """Returns a server of a page that listens at a port of this machine alone, and its door. `announce` gets each next entrance."""
    from waitress import create_server

    from .door import Door
    from .server import Page, application

    # The door needs the port, and the server an application.
    app: list[Any] = []
    server = create_server(
        lambda environment, start: app[0](environment, start), host="127.0.0.1", port=port, threads=THREADS,
        connection_limit=CONNECTIONS, max_request_header_size=MOST_HEAD, max_request_body_size=MOST_BODY, ident=None,
        clear_untrusted_proxy_headers=True,
    )
    door = Door(int(server.effective_port))
    app.append(application(Page(source, door, announce=announce)))
    return server, door


def _serve(asked: argparse.Namespace, source: Source) -> int:
    """Answers until the program is ended."""
    server, door = serving(source, asked.port, lambda address: print(f"for another browser: {address}", flush=True))
    for number in (signal.SIGTERM, signal.SIGHUP):
        signal.signal(number, _interrupt)
    try:
        print(door.entrance, flush=True)
        if not asked.no_open and _has_screen():
            threading.Thread(target=webbrowser.open, args=(door.entrance,), daemon=True).start()
        server.run()
    except KeyboardInterrupt:
        pass
    finally:
        server.close()
    return 0


def _has_screen() -> bool:
    """Whether a browser can show something: one in a terminal would take the terminal."""
    return any(os.environ.get(it) for it in ("DISPLAY", "WAYLAND_DISPLAY", "BROWSER"))


def _interrupt(*_: object) -> None:
    raise KeyboardInterrupt


if __name__ == "__main__":
    sys.exit(main())
