"""What a store leaves in the process when it is closed. Each test runs in a process of its own, whose memory nothing else uses."""

import subprocess
import sys
import unittest
from pathlib import Path

HEAD = """
from unittest import mock
from elephant import KeepOne, Store, _memory
TRIMS = []
def filled(count):
    store = Store(clock="manual")
    for at in range(count):
        store.save(f"/{at % 100}", b"%05d" % at * 2000)
    return store
before = _memory.resident()
"""


def run(program: str) -> list[int]:
    """Returns the numbers that a program prints."""
    ran = subprocess.run([sys.executable, "-c", HEAD + program], capture_output=True, text=True, check=False)
    if ran.returncode:
        raise AssertionError(ran.stderr)
    return list(map(int, ran.stdout.split()))


@unittest.skipUnless(Path("/proc/self/statm").is_file(), "the system doesn't say how much memory a process takes")
class Memory(unittest.TestCase):
    def test_a_closed_store_of_300_mb_leaves_little(self) -> None:
        full, left = run("""
store = filled(30_000)
full = _memory.resident()
store.close()
print(full - before, _memory.resident() - before)
""")
        self.assertGreater(full, 300_000_000)
        self.assertLess(left, 40_000_000)

    def test_what_a_pass_removed_goes_too(self) -> None:
        removed, left = run("""
store = filled(30_000)
store.set_default("/", KeepOne())
for at in range(100):
    store.set_policy(f"/{at}", KeepOne())
removed = store.pass_().removed
store.close()
print(removed, _memory.resident() - before)
""")
        # All but the last of each file; each file also has an empty version 1.
        self.assertEqual(removed, 30_000)
        self.assertLess(left, 40_000_000)

    def test_a_small_store_leaves_the_rest_of_the_process_alone(self) -> None:
        program = """
with mock.patch.object(_memory, "_trim", TRIMS.append):
    filled({}).close()
print(len(TRIMS))
"""
        self.assertEqual((run(program.format(100)), run(program.format(10_000))), ([0], [1]))


if __name__ == "__main__":
    unittest.main()
