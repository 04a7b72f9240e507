"""How long a read takes from Python, in microseconds: of 100 bytes as calls.c does it, also in four threads, and of 1 MiB."""

import threading
import time
from collections.abc import Callable, Sequence

import elephant

FILES, SHORT_READS, READS, ROUNDS, THREADS = 100, 20_000, 200, 5, 4
SHORT, LONG = bytes(range(100)), bytes(range(256)) * 4096
PATHS = [f"/d/f{at:02}" for at in range(FILES)]


def filled() -> elephant.Store:
    store = elephant.Store()
    store.mkdir("/d")
    for path in PATHS:
        store.save(path, SHORT)
    store.save("/long", LONG)
    return store


def read_all(store: elephant.Store, paths: Sequence[str], count: int) -> None:
    for _ in range(count // len(paths)):
        for path in paths:
            store.read(path)


def in_threads(stores: Sequence[elephant.Store]) -> None:
    threads = [threading.Thread(target=read_all, args=(it, PATHS, SHORT_READS // THREADS)) for it in stores]
    for it in threads:
        it.start()
    for it in threads:
        it.join()


def micros(work: Callable[[], None], count: int) -> float:
    began = time.perf_counter()
    work()
    return (time.perf_counter() - began) / count * 1e6


def main() -> None:
    store, others = filled(), [filled() for _ in range(THREADS)]
    if store.read(PATHS[1]) != SHORT or store.read("/long") != LONG:
        raise SystemExit("reads.py: another content")
    works: dict[str, tuple[Callable[[], None], int]] = {
        "python_short_read": (lambda: read_all(store, PATHS, SHORT_READS), SHORT_READS),
        "python_short_read_in_threads": (lambda: in_threads(others), SHORT_READS),
        "python_read": (lambda: read_all(store, ["/long"], READS), READS),
    }
    for name, (work, count) in works.items():
        print(f"{name} {min(micros(work, count) for _ in range(ROUNDS)):.4f}")


main()
