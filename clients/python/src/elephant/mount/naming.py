"""The changes of names in a mount: making, linking, removing, renaming and exchanging, and the changes of attributes."""

from __future__ import annotations

import errno
import stat
import time
from collections.abc import Sequence
from typing import Optional, Union

from .. import ElephantError
from ..keeping import MOST_NAMES
from . import records
from .going_on import GoingOn, key_of
from .names import TooLong, shown
from .records import Attributes, directory_key, file_key
from .store import Remarks
from .tree import Directory, File, Node

NO_REPLACE, EXCHANGE = 1, 2
# The limit of the names and values of a file's extended attributes, in bytes, about as on ext4.
MOST_EXTENDED = 4000


class TooMuch(OSError):
    """The extended attributes of a file would exceed their limit."""

    def __init__(self, reason: str) -> None:
        super().__init__(errno.ENOSPC, reason)


class Naming(GoingOn):
    """Changes names, in the store and in the tree."""

    # Making.

    def _new(self, parent: Directory, mode: int, owner: int, group: int) -> Attributes:
        """Returns the attributes of a new node in a directory."""
        now = records.now_ns()
        if parent.attributes.mode & stat.S_ISGID:
            group = parent.attributes.group
            if stat.S_ISDIR(mode):
                mode |= stat.S_ISGID
        return Attributes(mode, owner, group, now, now, now)

    @staticmethod
    def _require_free(parent: Directory, name: bytes) -> None:
        if name in parent.children:
            raise FileExistsError(errno.EEXIST, shown(name))

    def mkdir(self, parent: Directory, name: bytes, mode: int, owner: int, group: int) -> Directory:
        """Makes a directory."""
        self._require_free(parent, name)
        path = parent.path_of_new(name)
        made = self._new(parent, stat.S_IFDIR | stat.S_IMODE(mode), owner, group)
        number = self.store.run((b"mkdir", path), remarks=lambda it: [records.made(directory_key(it), key_of(parent), made)])
        self.store.records.by_key[directory_key(number)] = made
        node = self.tree.new_directory(number)
        self.tree.add(parent, name, node)
        self._touch(made.ctime, parent)
        return node

    def create(self, parent: Directory, name: bytes, mode: int, owner: int, group: int) -> File:
        """Makes a file, a fifo or a socket. If the file of that name was renamed just now, the new content continues its past."""
        self._require_free(parent, name)
        path = parent.path_of_new(name)
        made = self._new(parent, mode, owner, group)
        past = self._past_of(parent, name) if stat.S_ISREG(mode) else None
        if past is not None:
            with self._one_change():
                before = self._bring_back(path, past)
                if before:
                    return self._go_on(parent, name, made, before)
        number = self.store.run((b"create", path), remarks=lambda it: [records.made(file_key(it), key_of(parent), made)])
        return self._added(parent, name, number, made)

    def _added(self, parent: Directory, name: bytes, number: int, made: Attributes) -> File:
        self.store.records.by_key[file_key(number)] = made
        node = self.tree.new_file(number)
        node.born = time.monotonic()
        self.tree.add(parent, name, node)
        self._touch(made.ctime, parent)
        return node

    def symlink(self, parent: Directory, name: bytes, target: bytes, owner: int, group: int) -> File:
        """Makes a symbolic link: a file of the store whose content is the target path."""
        self._require_free(parent, name)
        path = parent.path_of_new(name)
        self.contents.require_limits(files=1, names=1, versions=2, handles=1)
        made = self._new(parent, stat.S_IFLNK | 0o777, owner, group)
        with self.store.together():
            number = self.store.run((b"create", path), remarks=lambda it: [records.made(file_key(it), key_of(parent), made)])
            version = self.store.drafts.save(path, target)
        node = self._added(parent, name, number, made)
        node.size, node.version = len(target), version
        return node

    def link(self, node: Node, parent: Directory, name: bytes) -> File:
        """Gives a file another name."""
        if not isinstance(node, File):
            raise PermissionError(errno.EPERM, "a directory has one name")
        if not node.names:
            raise FileNotFoundError(errno.ENOENT, "the file has no name any more")
        self._require_free(parent, name)
        path, now = parent.path_of_new(name), records.now_ns()
        if node.is_regular and len(node.names) == 1 and self._is_new(node):
            past = self._past_of(parent, name)
            if past is not None and past is not node and self._link_over(node, parent, name, past, now):
                return node
        self.store.run((b"link", node.path, path), remarks=lambda _: [records.names_changed(now, key_of(parent), key_of(node))])
        self.tree.add(parent, name, node)
        self._touch(now, parent, node)
        return node

    # Removing.

    @staticmethod
    def child(parent: Directory, name: bytes) -> Union[File, Directory]:
        node = parent.children.get(name)
        if node is None:
            raise FileNotFoundError(errno.ENOENT, shown(name))
        return node

    def unlink(self, parent: Directory, name: bytes) -> File:
        """Removes a name of a file."""
        node = self.child(parent, name)
        if isinstance(node, Directory):
            raise IsADirectoryError(errno.EISDIR, shown(name))
        has_past = node.is_regular and (node.draft is None or node.version > 1 or node.is_saved) and self._set_down(node)
        if len(node.names) == 1:
            self.contents.hold(node)
        now = records.now_ns()
        path = parent.path_of(name)
        self.store.run((b"unlink", path), remarks=lambda _: [records.names_changed(now, key_of(parent), key_of(node))])
        self._gone(parent, name, now)
        if has_past and len(node.names) < 2:
            self._leave(parent, name, node if node.names else node.number)
        return node

    def _gone(self, parent: Directory, name: bytes, now: int) -> None:
        node = self.tree.remove(parent, name)
        self._touch(now, parent, node)
        if isinstance(node, File) and not node.names and node.draft is not None and not node.opens:
            self.contents.settle(node)

    def rmdir(self, parent: Directory, name: bytes) -> Directory:
        """Removes the name of an empty directory."""
        node = self.child(parent, name)
        if isinstance(node, File):
            raise NotADirectoryError(errno.ENOTDIR, shown(name))
        if node.children:
            raise OSError(errno.ENOTEMPTY, shown(name))
        now = records.now_ns()
        self.store.run((b"rmdir", parent.path_of(name)), remarks=lambda _: [records.names_changed(now, key_of(parent))])
        self._gone(parent, name, now)
        return node

    # Renaming.

    def rename(self, parent: Directory, name: bytes, new_parent: Directory, new_name: bytes, flags: int) -> None:
        """Moves a node to another name. It replaces what has that name, or continues a file there with the moved content."""
        node, found = self.child(parent, name), new_parent.children.get(new_name)
        if flags == EXCHANGE:
            return self._exchange(parent, name, new_parent, new_name)
        if flags & ~NO_REPLACE:
            raise OSError(errno.EINVAL, "there is no such way to rename")
        if found is not None and flags & NO_REPLACE:
            raise FileExistsError(errno.EEXIST, shown(new_name))
        if found is node:
            return
        path, new_path = parent.path_of(name), new_parent.path_of_new(new_name)
        self._require_place(node, new_parent, found, new_name)
        now = records.now_ns()
        if found is None:
            if not self._move_over_past(parent, name, new_parent, new_name, now):
                self._move(parent, name, new_parent, new_name, now)
        elif isinstance(found, File) and isinstance(node, File) and self._can_merge(node, found):
            self._merge(parent, name, new_parent, new_name, now)
        else:
            self._replace(parent, name, new_parent, new_name, now, path, new_path)

    def _require_place(
        self, node: Union[File, Directory], new_parent: Directory, found: Optional[Union[File, Directory]], new_name: bytes
    ) -> None:
        self._require_below(node, new_parent, new_name)
        if found is None:
            return
        if isinstance(found, Directory):
            if not isinstance(node, Directory):
                raise IsADirectoryError(errno.EISDIR, shown(new_name))
            if found.children:
                raise OSError(errno.ENOTEMPTY, shown(new_name))
        elif isinstance(node, Directory):
            raise NotADirectoryError(errno.ENOTDIR, shown(new_name))

    def _require_below(self, node: Union[File, Directory], new_parent: Directory, new_name: bytes) -> None:
        if not isinstance(node, Directory):
            return
        above: Optional[Directory] = new_parent
        while above is not None:
            if above is node:
                raise OSError(errno.EINVAL, "a directory can't be in itself")
            above = above.parent
        if new_parent.depth + self.tree.height(node) > MOST_NAMES:
            raise TooLong(f"a path below {shown(new_name)} would have more than {MOST_NAMES} names")

    def _move(self, parent: Directory, name: bytes, new_parent: Directory, new_name: bytes, now: int) -> None:
        node = parent.children[name]
        self.store.run(
            (b"rename", parent.path_of(name), new_parent.path_of(new_name)), remarks=lambda _: self._moved(now, node, parent, new_parent),
        )
        self.tree.move(parent, name, new_parent, new_name)
        self._touch(now, parent, new_parent)
        self._touch_moved(now, node)
        if isinstance(node, File):
            self._leave(parent, name, node)

    @staticmethod
    def _moved(now: int, node: Node, *others: Node) -> list[bytes]:
        """Returns the remarks of a moved node. A directory's content stays as it is, and so does the time of its content."""
        if not isinstance(node, Directory):
            return [records.names_changed(now, *map(key_of, (*others, node)))]
        it = node.attributes.copy()
        it.ctime = now
        return [*([records.names_changed(now, *map(key_of, others))] if others else []), records.whole(key_of(node), it)]

    @staticmethod
    def _touch_moved(now: int, node: Node) -> None:
        node.attributes.ctime, node.entry = now, None

    def _replace(
        self, parent: Directory, name: bytes, new_parent: Directory, new_name: bytes, now: int, path: bytes, new_path: bytes
    ) -> None:
        """Removes what has the new name, and gives the name to the other node: two commands that are one change."""
        node, found = parent.children[name], new_parent.children[new_name]
        self.contents.require_limits(names=1)
        if isinstance(found, File) and len(found.names) == 1:
            self.contents.hold(found)
        ends = b"rmdir" if isinstance(found, Directory) else b"unlink"
        self._run_all((ends, new_path), (b"rename", path, new_path), remarks=lambda _: self._moved(now, node, parent, new_parent, found))
        self._gone(new_parent, new_name, now)
        self.tree.move(parent, name, new_parent, new_name)
        self._touch(now, parent, new_parent)
        self._touch_moved(now, node)
        if isinstance(node, File):
            self._leave(parent, name, node)

    def _run_all(self, *commands: Sequence[bytes], remarks: Remarks) -> None:
        """Runs commands. If one is refused, it brings the tree up to date with the commands before it."""
        try:
            self.store.run(*commands, remarks=remarks)
        except ElephantError:
            for _ in self.tree.refresh():
                pass
            raise

    # Exchanging.

    def _exchange(self, parent: Directory, name: bytes, new_parent: Directory, new_name: bytes) -> None:
        """Exchanges the nodes of two names. Each name's past continues, if both are the only names of files."""
        node, found = self.child(parent, name), self.child(new_parent, new_name)
        if found is node:
            return
        self._require_below(node, new_parent, new_name)
        self._require_below(found, parent, name)
        now = records.now_ns()
        if isinstance(node, File) and isinstance(found, File) and self._can_exchange(node, found):
            with self.store.together():
                self.store.keep(records.names_changed(now, key_of(parent), key_of(new_parent)))
                self._exchange_contents(parent.path_of(name), node, new_parent.path_of(new_name), found, now)
        else:
            self._exchange_names(parent, name, new_parent, new_name, now)
        self.tree.exchange(parent, name, new_parent, new_name)
        self._touch(now, parent, new_parent)
        for it in (node, found):
            self._touch_moved(now, it)

    def _exchange_contents(self, path: bytes, node: File, new_path: bytes, found: File, now: int) -> None:
        """Makes the content of each of two files the next version of the other, and exchanges the files of their nodes."""
        contents = self.contents.whole(node), self.contents.whole(found)
        self.contents.forget_read()
        node.attributes.ctime = found.attributes.ctime = now
        number, new_number = node.number, found.number
        new_version = self.store.drafts.save(new_path, contents[0], records.everything(file_key(new_number), node.attributes))
        version = self.store.drafts.save(path, contents[1], records.everything(file_key(number), found.attributes))
        node.version, found.version = new_version or found.version, version or node.version
        node.born, found.born = found.born, node.born
        self.tree.give_number(node, new_number)
        self.tree.give_number(found, number)

    def _exchange_names(self, parent: Directory, name: bytes, new_parent: Directory, new_name: bytes, now: int) -> None:
        """Renames twice by a third name, which no program sees, since the three renames are one change."""
        self.contents.require_limits(names=3)
        node, found = parent.children[name], new_parent.children[new_name]
        third = next(it for it in (b".exchange%d" % number for number in range(len(parent.children) + 1)) if it not in parent.children)
        path, new_path, aside = parent.path_of(name), new_parent.path_of(new_name), parent.path_of_new(third)
        self._run_all(
            (b"rename", path, aside), (b"rename", new_path, path), (b"rename", aside, new_path),
            remarks=lambda _: [*self._moved(now, node, parent, new_parent), *self._moved(now, found)],
        )

    # Attributes.

    def set_extended(self, node: Node, name: bytes, value: Optional[bytes]) -> None:
        """Sets an extended attribute, or removes it if there is no value."""
        it, now = node.attributes, records.now_ns()
        others = {other: kept for other, kept in (it.extended or {}).items() if other != name}
        taken = sum(map(len, others)) + sum(map(len, others.values())) + len(name) + len(value or b"")
        if value is not None and taken > MOST_EXTENDED:
            raise TooMuch(f"{taken} bytes of extended attributes for a file that has at most {MOST_EXTENDED}")
        if not isinstance(node, File) or node.names:
            self.store.keep(records.extended(key_of(node), now, name, value))
        it.extended = others if value is None else {**others, name: value}
        it.ctime, node.entry = now, None

    def set_attributes(self, node: Node, changes: dict[str, int]) -> None:
        """Changes a mode, an owner or times."""
        it = node.attributes
        for name, value in changes.items():
            setattr(it, name, stat.S_IFMT(it.mode) | stat.S_IMODE(value) if name == "mode" else value)
        it.ctime, node.entry = records.now_ns(), None
        if isinstance(node, File) and not node.names:
            return
        self.store.keep(records.whole(key_of(node), it))
