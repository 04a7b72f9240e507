"""How long a small save takes from Python, in microseconds."""

import time
from typing import Any

import elephant

SAVES = 30_000


def saves(**how: Any) -> float:
    with elephant.Store(**how) as store:
        store.create("/f")
        began = time.perf_counter()
        for _ in range(SAVES):
            store.save("/f", b"hello")
        return (time.perf_counter() - began) / SAVES * 1e6


def sessions() -> float:
    with elephant.Store() as store:
        store.create("/f")
        began = time.perf_counter()
        for _ in range(SAVES):
            with store.open("/f", "wb") as file:
                file.write(b"hello")
        return (time.perf_counter() - began) / SAVES * 1e6


print(f"python_save {saves():.4f}")
print(f"python_session {sessions():.4f}")
