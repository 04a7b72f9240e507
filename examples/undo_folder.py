#!/usr/bin/env python3
"""Keeps a version of each save of the documents in a folder, and gives back what one held.

    undo_folder.py FOLDER watch                  keep each save from now on
    undo_folder.py FOLDER keep                   keep what changed since the last time
    undo_folder.py FOLDER list [FILE]            the documents, or the versions of one
    undo_folder.py FOLDER restore FILE MOMENT    write back what it held: 2026-11-28T10:30:00, seconds, or #VERSION
    undo_folder.py FOLDER mark NAME              keep what all documents hold now, for good
    undo_folder.py FOLDER forget [much]          remove what may go: of the last day none, then more and more; much: at once

The store is the journal FOLDER/.undo. Documents of more than 1 MiB and hidden files are left out. `watch` opens the store only to keep
what changed, so that the other commands work beside it. It needs Python 3.10.
"""

import sys
import time
from contextlib import suppress
from datetime import datetime
from pathlib import Path

sys.path.insert(0, str(Path(__file__).resolve().parent.parent / "clients" / "python" / "src"))
from elephant import AlreadyMember, ElephantError, Exists, GroupExists, Landmarks, MassRemoval, NoEntry, NotRestorable, Store


def open_store(folder: Path) -> Store:
    """Opens the folder's store, and gives a new one its policy."""
    store = Store(journal=folder / ".undo", wait=10)
    if not store.list("/"):
        store.set_default("/", Landmarks.standard())
    return store


def documents(folder: Path) -> dict[str, object]:
    """Returns the documents by name, each with what changes when it is saved."""
    found = {it.relative_to(folder): it.stat() for it in folder.rglob("[!.]*") if it.is_file() and not it.is_symlink()}
    seen = {name: (it.st_mtime_ns, it.st_size, it.st_ino) for name, it in found.items()}
    return {name.as_posix(): it for name, it in seen.items() if not any(part.startswith(".") for part in name.parts)}


def kept(store: Store, directory: str = "") -> list[str]:
    """Returns the paths of the documents that the store has now."""
    paths = [(f"{directory}/{it.name}", it.is_directory) for it in store.list(directory or "/")]
    return [path for it, is_directory in paths for path in (kept(store, it) if is_directory else [it])]


def held(store: Store, path: str) -> bytes | None:
    """Returns what the store has at a path, and restores its name if it is deleted. None if there never was one."""
    for parent in list(Path(path).parents)[-2::-1]:
        with suppress(Exists):
            store.mkdir(parent)
    try:
        return store.read(path)
    except NoEntry:
        try:
            store.undelete(path)
        except (NoEntry, NotRestorable):
            return None
        return store.read(path)


def keep_changes(folder: Path, found: dict[str, object], seen: dict[str, object]) -> None:
    with open_store(folder) as store:
        for path in sorted(set(kept(store)) - {f"/{name}" for name in found}):
            store.unlink(path)
            print(f"ended {path[1:]}", flush=True)
        for name in sorted(it for it in found if found[it] != seen.get(it)):
            try:
                content = (folder / name).read_bytes()
                if content != held(store, f"/{name}"):
                    print(f"kept {name} as version {store.save(f'/{name}', content)}", flush=True)
            except (ElephantError, OSError) as fault:
                print(f"left out {name}: {fault}", file=sys.stderr, flush=True)


def watch(folder: Path, every: int) -> None:
    seen: dict[str, object] = {}
    while True:
        with suppress(FileNotFoundError):  # one may go while they are looked at
            found = documents(folder)
            if found != seen:
                keep_changes(folder, found, seen)
                seen = found
        time.sleep(every)


def show(folder: Path, file: str | None = None) -> None:
    with open_store(folder) as store:
        for path in sorted(kept(store)) if file is None else []:
            print(f"{path[1:]}: {len(store.versions(path))} versions")
        for number, _, closed, _, length in store.versions(f"/{file}") if file is not None else []:
            fate = store.why(f"/{file}", version=number)
            print(f"#{number}  {closed.datetime.astimezone():%Y-%m-%dT%H:%M:%S}  {length} bytes, {fate}")


def restore(folder: Path, file: str, moment: str) -> None:
    with open_store(folder) as store:
        if moment.startswith("#"):
            content = store.read(f"/{file}", version=int(moment[1:]))
        else:
            content = store.read(f"/{file}", at=int(moment) if moment.isdigit() else datetime.fromisoformat(moment).astimezone())
    beside = folder / ".undo.restored"
    (folder / file).parent.mkdir(parents=True, exist_ok=True)
    beside.write_bytes(content)
    print(f"restored {beside.replace(folder / file)}: {len(content)} bytes")


def mark(folder: Path, name: str) -> None:
    with open_store(folder) as store:
        with suppress(GroupExists):
            store.group_make(name)
        for path in kept(store):
            with suppress(AlreadyMember):
                store.group_add(name, path)
        moment = store.now
        while store.now == moment:  # a mark is of a moment that has passed
            time.sleep(0.05)
        store.mark(name, moment)
        print(f"marked {name} at {moment.datetime.astimezone():%Y-%m-%dT%H:%M:%S}")


def forget(folder: Path, much: bool = False) -> None:
    with open_store(folder) as store:
        print(f"removed {store.pass_(confirm=much).removed} versions; {store.waiting.versions} more wait")


def main(words: list[str]) -> None:
    try:
        match words:
            case [folder, "watch"]:
                watch(Path(folder), 2)
            case [folder, "keep"]:
                keep_changes(Path(folder), documents(Path(folder)), {})
            case [folder, "list", *file] if len(file) < 2:
                show(Path(folder), *file)
            case [folder, "restore", file, moment]:
                restore(Path(folder), file, moment)
            case [folder, "mark", name]:
                mark(Path(folder), name)
            case [folder, "forget", *much] if much in ([], ["much"]):
                forget(Path(folder), bool(much))
            case _:
                sys.exit(__doc__)
    except ElephantError as fault:
        more = ", as 'forget much' does" if isinstance(fault, MassRemoval) else ""
        sys.exit(f"undo_folder: {fault}{more}")


if __name__ == "__main__":
    main(sys.argv[1:])
