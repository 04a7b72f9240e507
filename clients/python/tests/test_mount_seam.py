"""What the mount takes of the package: no private name, and no more calls of the library than it needs."""

from __future__ import annotations

import ast
import functools
import unittest
from collections import Counter
from collections.abc import Iterator
from contextlib import contextmanager
from pathlib import Path
from typing import Any
from unittest import mock

import elephant
from anew import changes_since
from elephant import NoMemory
from elephant.keeping import Core
from elephant.mount import drafts
from elephant.mount.past import PastNode
from elephant.mount.undo import Undo
from clocks import clock_at as at
from test_mount import Case, Mounted

PACKAGE = Path(elephant.__file__).parent


Classes = dict[str, ast.ClassDef]


def is_private(name: str) -> bool:
    return name.startswith("_") and not name.endswith("__") and name != "_fields"  # which every named tuple has


@functools.lru_cache(maxsize=None)
def private_names_of(tree: ast.AST) -> set[str]:
    """Returns the private names that a source gives to functions, classes, variables and attributes."""
    found = set()
    for it in ast.walk(tree):
        if isinstance(it, (ast.FunctionDef, ast.AsyncFunctionDef, ast.ClassDef)):
            found.add(it.name)
        elif isinstance(it, ast.Attribute) and isinstance(it.ctx, ast.Store):
            found.add(it.attr)
        elif isinstance(it, ast.Name) and isinstance(it.ctx, ast.Store):
            found.add(it.id)
        elif isinstance(it, ast.AnnAssign) and isinstance(it.target, ast.Attribute):
            found.add(it.target.attr)
    return set(filter(is_private, found))


def classes_of(trees: list[ast.Module]) -> Classes:
    return {it.name: it for tree in trees for it in tree.body if isinstance(it, ast.ClassDef)}


def bases_of(name: str, classes: Classes) -> set[str]:
    """Returns the names of all classes that a class inherits from."""
    found = {ast.unparse(it) for it in classes[name].bases} if name in classes else set()
    return found.union(*(bases_of(it, classes) for it in found))


def imports_in(tree: ast.Module) -> Iterator[tuple[int, str]]:
    """Yields the private modules and names of the package that a source of the mount imports."""
    for it in ast.walk(tree):
        words: list[str] = []
        if isinstance(it, ast.ImportFrom) and (it.level == 2 or (it.module or "").split(".")[0] == "elephant"):
            words = [*(it.module or "").split("."), *(alias.name for alias in it.names)]
        elif isinstance(it, ast.Import):
            words = [word for alias in it.names if alias.name.startswith("elephant.") for word in alias.name.split(".")]
        yield from ((it.lineno, word) for word in words if is_private(word))


def is_self(node: ast.expr) -> bool:
    """Whether an expression is the object itself."""
    is_super = isinstance(node, ast.Call) and isinstance(node.func, ast.Name) and node.func.id == "super"
    return is_super or (isinstance(node, ast.Name) and node.id in ("self", "cls"))


def uses_in(tree: ast.Module, theirs: Classes, ours: Classes) -> Iterator[tuple[int, str]]:
    """Yields the private attributes of the package's objects that a source of the mount uses, and the methods that it overrides."""
    all_theirs = set().union(*map(private_names_of, theirs.values()))
    all_ours = set().union(*map(private_names_of, ours.values()))
    for top in tree.body:
        inherited: set[str] = set()
        if isinstance(top, ast.ClassDef):
            above = bases_of(top.name, {**theirs, **ours}) & theirs.keys()
            inherited = set().union(*(private_names_of(theirs[it]) for it in above))
            yield from ((it.lineno, it.name) for it in top.body if isinstance(it, ast.FunctionDef) and it.name in inherited)
        for it in ast.walk(top):
            if isinstance(it, ast.Attribute) and is_private(it.attr):
                if it.attr in inherited if is_self(it.value) else it.attr in all_theirs or it.attr not in all_ours:
                    yield it.lineno, it.attr


def private_uses(package: Path) -> list[str]:
    """Returns each private name of the package that the mount uses, with its place."""
    mount = {it.name: ast.parse(it.read_text(encoding="utf-8")) for it in sorted((package / "mount").glob("*.py"))}
    theirs, ours = classes_of([ast.parse(it.read_text(encoding="utf-8")) for it in package.glob("*.py")]), classes_of(list(mount.values()))
    return [
        f"{file}:{line} {name}" for file, tree in mount.items()
        for line, name in sorted({*imports_in(tree), *uses_in(tree, theirs, ours)})
    ]


class Seam(unittest.TestCase):
    def test_the_mount_uses_no_private_name_of_the_package(self) -> None:
        self.assertEqual(private_uses(PACKAGE), [])

    def test_a_private_name_is_found(self) -> None:
        """The test before would find each way to use one."""
        text = "from .._core import Core\nfrom .. import _x\nfrom ..keeping import Core\nimport elephant._core\nfrom .own import _y"
        self.assertEqual(list(imports_in(ast.parse(text))), [(1, "_core"), (2, "_x"), (4, "_core")])
        text = "class Turns:\n def _keep(self): self._lock = 1\nclass Store(Turns): pass\nclass Journal:\n _size = 1"
        theirs = classes_of([ast.parse(text)])
        text = "class A(Store):\n def _keep(self):\n  super()._keep()\n  self.journal._size\n  self._own = self._lock\nclass B(A):\n" \
               " def f(self): self._lock\nclass C:\n def _f(self): self._lock = self._keep = self.a._own"
        tree = ast.parse(text)
        found = sorted(uses_in(tree, theirs, classes_of([tree])))
        self.assertEqual(found, [(2, "_keep"), (3, "_keep"), (4, "_size"), (5, "_lock"), (7, "_lock")])


class Counting:
    """A library that counts its calls."""

    def __init__(self, library: Any) -> None:
        self._library = library
        self.calls: Counter[str] = Counter()

    def __getattr__(self, name: str) -> Any:
        call = getattr(self._library, name)

        def counted(*words: object) -> object:
            self.calls[name] += 1
            return call(*words)

        return counted

    def of(self, *parts: str) -> int:
        """Returns how many calls were made whose names begin so."""
        return sum(count for name, count in self.calls.items() if name.startswith(tuple(f"elephant_{part}" for part in parts)))

    def reads(self) -> int:
        """Returns how many contents were read. The rest of a long one takes a second call."""
        return self.of("read_short", "read_handle_short")


class Counted(Case):
    @contextmanager
    def counted(self, it: Mounted) -> Iterator[Counting]:
        with it.store.changing() as (core, _):
            counting = Counting(core.library)
        with mock.patch.object(core, "library", counting):
            yield counting


class Rows(Counted):
    """How often the store is asked for a row of the past."""

    def past_file(self, it: Mounted, *names: bytes) -> PastNode:
        """Looks a path up as the kernel does."""
        node = it.past.root
        for name in names:
            node.lookups += 1
            node = it.past.lookup(node, name)
            it.past.show(node)
        return node

    def test_a_file_of_the_past_is_asked_for_once(self) -> None:
        it = self.mount()
        with at(2_000_000_000):
            folder = it.naming.mkdir(it.top, b"d", 0o755, 1, 2)
            it.save(b"f", b"one", folder)
        with at(2_000_000_100):
            it.save(b"f", b"two", folder)
            above = self.past_file(it, b"at", b"2000000050", b"d")
            with self.counted(it) as counting:
                node = it.past.lookup(above, b"f")
                self.assertEqual(it.past.show(node).size, 3)
                source = it.past.source(node)
                self.assertEqual((it.past.content(node), source.file, source.version), (b"one", 1, 2))
            self.assertEqual((counting.of("stat"), counting.of("read")), (1, 1))

    def test_so_is_each_folder_and_each_version(self) -> None:
        it = self.mount()
        with at(2_000_000_000):
            it.naming.mkdir(it.top, b"d", 0o755, 1, 2)
            it.save(b"f", b"one")
        with at(2_000_000_100):
            it.naming.unlink(it.top, b"f")
            it.save(b"g", b"two")
            for names in ((b"at", b"2000000050", b"d"), (b"versions", b"g", b"2"), (b"restorable", b"f")):
                above = self.past_file(it, *names[:-1])
                with self.counted(it) as counting:
                    node = it.past.lookup(above, names[-1])
                    it.past.show(node)
                    if not names[-1] == b"d":
                        self.assertEqual(it.past.content(node), b"two" if names[-1] == b"2" else b"one")
                self.assertEqual(counting.of("stat"), 1, names)

    def test_after_a_change_it_is_asked_for_again(self) -> None:
        it = self.mount()
        with at(2_000_000_000):
            it.store.line("default / one")
            it.save(b"f", b"one")
        with at(2_000_000_100):
            it.save(b"f", b"two")
            node = self.past_file(it, b"at", b"2000000050", b"f")
            version = self.past_file(it, b"versions", b"f", b"3")
            self.assertTrue(it.store.clean() and it.store.clean())
            for show in (it.past.show, it.past.source, it.past.content):
                with self.assertRaises(elephant.Forgotten):
                    show(node)
            it.rename(b"f", b"g")
            it.save(b"f", b"three")
            it.save(b"f", b"four")
            with self.assertRaises(OSError):  # the name is another file's
                it.past.content(version)
            self.assertEqual(it.past.content(self.past_file(it, b"versions", b"f", b"3")), b"four")

    def test_what_was_taken_back_is_asked_for_again(self) -> None:
        it = self.mount()
        with at(2_000_000_000):
            it.save(b"f", b"one")
            node = self.past_file(it, b"at", b"2000000000", b"f")
            with self.assertRaises(NoMemory), it.store.together():
                it.store.run((b"rename", b"/f", b"/g"))
                it.store.run((b"create", b"/f"))
                with self.assertRaises(OSError):  # the name is another file's
                    it.past.content(node)
                raise NoMemory("")
            self.assertEqual(it.past.content(node), b"one")


class Reads(Counted):
    """How often a write reads what the file held."""

    def write(self, it: Mounted, name: bytes, offset: int, data: bytes, is_cut: bool = False) -> Counting:
        node = it.open(it.file(name))
        with self.counted(it) as counting:
            if is_cut:
                it.contents.truncate(node, 0)
            it.contents.write(node, offset, data)
            it.contents.save(node)
            it.contents.closed(node, True)
        return counting

    def changes(self, it: Mounted, size: int) -> list[bytes]:
        """Returns the words of the lines since, without contents, clocks and notes."""
        lines = [line for change in changes_since(self.journal, it.store.journal_size, size) for line in change]
        return [b" ".join(line.split()[:3]) for line in lines if not line.startswith(b"note")]

    def test_a_write_reads_the_old_version_once(self) -> None:
        it = self.mount()
        it.save(b"f", bytes(12_288))
        it.contents.forget_read()
        size = it.store.journal_size
        self.assertEqual(self.write(it, b"f", 8192, b"x").reads(), 1)
        self.assertEqual(self.changes(it, size), [b"open write /f", b"write 2 8192", b"close 2"])
        self.assertEqual(it.read(b"f"), bytes(8192) + b"x" + bytes(4095))
        before = it.versions(b"f")
        self.assertEqual(self.mount().versions(b"f"), before)

    def test_so_does_one_that_cuts_the_file_off(self) -> None:
        it = self.mount()
        it.save(b"f", b"one")
        it.contents.forget_read()
        self.assertEqual(self.write(it, b"f", 0, b"o", is_cut=True).of("read"), 1)
        self.assertEqual((it.read(b"f"), self.mount().versions(b"f")), (b"o", [b"", b"one", b"o"]))

    def test_what_was_read_just_before_is_not_read_again(self) -> None:
        it = self.mount()
        it.save(b"f", b"one")
        for is_cut, data in ((False, b"two"), (True, b"three")):
            it.read(b"f")
            self.assertEqual(self.write(it, b"f", 0, data, is_cut).of("read"), 0)
        self.assertEqual(self.mount().versions(b"f"), [b"", b"one", b"two", b"three"])

    def test_a_new_file_is_not_read_for_its_save(self) -> None:
        it = self.mount()
        with self.counted(it) as counting:
            it.naming.symlink(it.top, b"link", b"to", 0, 0)
        self.assertEqual(counting.of("read"), 0)

    def test_each_part_of_a_long_draft_is_compared_with_the_part_before(self) -> None:
        it = self.mount()
        it.save(b"f", bytes(12_288))
        it.contents.forget_read()
        size, node = it.store.journal_size, it.open(it.file(b"f"))
        with self.counted(it) as counting:
            for offset in (0, 4096, 4096, 8192):
                it.contents.write(node, offset, b"x")
                it.contents.save(node)
            it.contents.truncate(node, 5000)
            it.contents.save(node)
            it.contents.closed(node, True)
        self.assertEqual(counting.reads(), 1)
        self.assertEqual(self.changes(it, size), [
            b"open write /f", b"write 2 0", b"write 2 4096", b"write 2 0", b"write 2 8192", b"write 2 0", b"truncate 2 5000", b"close 2",
        ])
        wanted = [b"", bytes(12_288), (b"x" + bytes(4095)) * 2]
        wanted[2] = wanted[2][:5000]
        self.assertEqual(it.versions(b"f"), wanted)
        self.assertEqual(self.mount().versions(b"f"), wanted)

    def test_all_names_of_a_file_share_what_is_known(self) -> None:
        it = self.mount()
        it.naming.link(it.save(b"f", b"one" * 3000), it.top, b"g")
        it.contents.forget_read()
        self.assertEqual(self.write(it, b"f", 0, b"t").reads(), 1)
        self.write(it, b"g", 5000, b"u")
        wanted = bytearray(b"one" * 3000)
        wanted[0:1], wanted[5000:5001] = b"t", b"u"
        self.assertEqual((it.read(b"f"), it.read(b"g")), (bytes(wanted),) * 2)
        self.assertEqual(self.mount().versions(b"g")[-1], bytes(wanted))

    def test_after_an_undo_the_version_of_now_is_read(self) -> None:
        it = self.mount()
        for data in (b"one" * 3000, b"two" * 3000):
            it.save(b"f", data)
        it.read(b"f")
        self.assertRegex(Undo(it.store, it.tree, it.contents).run(b"/f", None, False), "^ok version 4")
        for _ in it.tree.refresh():
            pass
        self.write(it, b"f", 0, b"T")
        self.assertEqual(self.mount().versions(b"f")[-1], b"Tne" + b"one" * 2999)


class Parts(Counted):
    """Drafts of which the store has a part that no version has."""

    def failing(self, good: int) -> Any:
        """Makes memory run out after so many parts of a content."""
        left, do = iter(range(good)), Core.do

        def some(core: Core, call: Any, subject: object, *words: object) -> None:
            if call.__name__ == "elephant_write" and next(left, None) is None:
                raise NoMemory("a part")
            do(core, call, subject, *words)

        return mock.patch.object(Core, "do", some)

    def test_a_save_that_fails_twice_loses_no_part(self) -> None:
        it = self.mount()
        it.save(b"f", bytes(12_288))
        node = it.open(it.file(b"f"))
        it.contents.write(node, 0, b"x")
        it.contents.write(node, 8192, b"y")
        for good in (1, 0, 0):
            with self.failing(good), self.assertRaises(NoMemory):
                it.contents.save(node)
        it.contents.closed(node, True)
        wanted = [b"", bytes(12_288), b"x" + bytes(8191) + b"y" + bytes(4095)]
        self.assertEqual((it.versions(b"f"), it.store.stopped), (wanted, ""))
        self.assertEqual(self.mount().versions(b"f"), wanted)

    def test_a_part_of_a_failed_save_is_compared_with(self) -> None:
        """The next content may be the old one again where the part differs."""
        it = self.mount()
        it.save(b"f", bytes(12_288))
        node = it.open(it.file(b"f"))
        it.contents.write(node, 0, b"x")
        it.contents.write(node, 8192, b"y")
        with self.failing(1), self.assertRaises(NoMemory):
            it.contents.save(node)
        it.contents.write(node, 0, b"\0")
        it.contents.closed(node, True)
        wanted = [b"", bytes(12_288), bytes(8192) + b"y" + bytes(4095)]
        self.assertEqual(it.versions(b"f"), wanted)
        self.assertEqual(self.mount().versions(b"f"), wanted)

    def test_a_draft_that_there_is_already_is_read(self) -> None:
        """Another handle of the file has written it: the draft isn't what the version has."""
        it = self.mount()
        it.save(b"f", b"one")
        base = drafts.Base(1, 2, b"one")
        for first, second in ((b"one and more", b"one"), (b"two", b"one"), (b"", b"one!")):
            handles = [it.store.drafts.write(b"/f", None, content, (), base) for content in (first, second)]
            self.assertEqual([bool(it.store.drafts.close(handle)) for handle in handles], [False, True])
            self.assertEqual(it.store.read("/f"), second)
            base = drafts.Base(1, base.version + 1, second)
        before = it.store.read("/f"), len(it.versions(b"f"))
        it = self.mount()
        self.assertEqual((it.read(b"f"), len(it.versions(b"f"))), before)

    def test_a_base_that_is_no_longer_the_version_is_not_compared_with(self) -> None:
        it = self.mount()
        it.save(b"f", b"one" * 3000)
        it.save(b"g", b"two" * 3000)
        for base in (drafts.Base(2, 2, b"two" * 3000), drafts.Base(1, 1, b""), drafts.Base(1, 3, b"two" * 3000)):
            it.store.drafts.close(it.store.drafts.write(b"/f", None, b"two" * 3000, (), base))
            self.assertEqual(it.store.read("/f"), b"two" * 3000)
            it.store.revert("/f", 2)
            it.store.line("default / all")
        self.assertEqual(self.mount().read(b"f"), b"one" * 3000)


if __name__ == "__main__":
    unittest.main()
