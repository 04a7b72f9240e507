"""How a name keeps its past when a program saves a file.

Some programs write over the file, which makes a version anyway. Some write a new file and rename it over the old one: the new file's
content becomes the next version of the old file. Some rename or delete the old file first, and then make a new one of its name, or rename
or link a complete one to it: the old file gets its name back for the new content. If it was renamed, or has other names, these get another
file, with a copy.
"""

from __future__ import annotations

import time
from collections.abc import Iterator
from contextlib import contextmanager
from typing import Optional, Union

from .. import ElephantError, Refused
from ..keeping import NoSpace
from . import records
from .contents import Contents
from .records import Attributes, directory_key, file_key
from .store import MountStore
from .tree import Directory, File, Node, Tree

# How long after the end of a name a new file of that name continues the past of the old one, in seconds.
GOES_ON = 2.0
MOST_LEFT = 64
# A file that was made and written once has the empty version 1 and one more.
FRESH = 2


def key_of(node: Node) -> int:
    return directory_key(node.number) if isinstance(node, Directory) else file_key(node.number)


class GoingOn:
    """Makes a new content the next version of the file whose name it gets."""

    def __init__(self, store: MountStore, tree: Tree, contents: Contents) -> None:
        self.store, self.tree, self.contents = store, tree, contents

    def _touch(self, now: int, *nodes: Node) -> None:
        for node in nodes:
            node.attributes.ctime = now
            if isinstance(node, Directory):
                node.attributes.mtime = now
            node.entry = None

    @staticmethod
    def _is_new(node: File) -> bool:
        """Whether a file was made and written once, so that it has no past of its own."""
        return node.version <= FRESH

    def _set_down(self, node: File) -> bool:
        """Makes a version of what programs have written into a file and not closed. Returns whether the store has no draft of it."""
        if node.draft is not None and node.names:
            try:
                self.contents.settle(node)
            except (ElephantError, NoSpace, OSError):
                return False
        return node.draft is None

    @contextmanager
    def _one_change(self) -> Iterator[None]:
        """Makes one change of the journal. If the store refuses a part of it, the tree follows what the store has done."""
        try:
            with self.store.together():
                yield
        except ElephantError:
            for _ in self.tree.refresh():
                pass
            raise

    # Names that ended just now.

    def _leave(self, parent: Directory, name: bytes, file: Union[File, int]) -> None:
        """Notes that a name of a regular file ended, so that a new file may continue its past.

        A file that was made and renamed at once had its name only while it was written: its past isn't the name's.
        """
        if isinstance(file, File) and (not file.is_regular or time.monotonic() - file.born < GOES_ON):
            return
        parent.left[name] = file, time.monotonic()
        if len(parent.left) > MOST_LEFT:
            del parent.left[next(iter(parent.left))]

    def _past_of(self, parent: Directory, name: bytes) -> Optional[Union[File, int]]:
        """Returns the file, or the number of the file, whose past a new file of a name that ended just now continues."""
        file, moment = parent.left.pop(name, (0, 0.0))
        if not file or time.monotonic() - moment > GOES_ON:
            return None
        if isinstance(file, File) and (len(file.names) != 1 or not self._set_down(file)):
            return None
        if file in self.tree.files:  # an undo has restored it, by another of its names
            return None
        drafts = len(self.contents.drafts)
        lacks = self.store.quota.lacking(files=1, names=3, versions=4 + drafts, handles=3 + drafts)
        return None if lacks else file

    def _bring_back(self, path: bytes, past: Union[File, int]) -> int:
        """Gives a path the file again that had it. Returns the file's number, or 0 if that can't be."""
        if isinstance(past, File):
            return self._leave_copy(past, path)
        return past if self._revive(path, past) else 0

    def _revive(self, path: bytes, number: int) -> bool:
        """Restores a name. Returns whether it is again that of the file with this number."""
        try:
            self.store.run((b"undelete", path))
        except Refused:
            return False
        row = self.store.stat_row(path)
        if not row.is_directory and row.id == number:
            return True
        self.store.run((b"rmdir" if row.is_directory else b"unlink", path))
        return False

    def _leave_copy(self, old: File, path: bytes) -> int:
        """Renames a file back to a path, and makes another file with its content for its node. Returns the number of the first."""
        away, number = old.path, old.number
        self._copy_for(old, (b"rename", away, path), away)
        return number

    def _copy_for(self, old: File, ends: tuple[bytes, ...], away: bytes) -> None:
        """Ends the name of a node's file by a command, and gives the node another file with the same content under that name."""
        content, kept = self.contents.whole(old), old.attributes
        self.contents.forget_read()
        # The folder of the node is as it was before.
        copy = self.store.run(ends, (b"create", away), remarks=lambda it: records.everything(file_key(it), kept))
        self.tree.give_number(old, copy)
        old.version = 1
        if content:
            old.version = self.store.drafts.save(away, content, (records.whole(file_key(copy), kept),))

    # New contents.

    def _go_on(self, parent: Directory, name: bytes, made: Attributes, number: int) -> File:
        """Makes a new node of a file that has a past. It is empty, and its first content is the file's next version."""
        self.store.records.by_key[file_key(number)] = made
        self.store.keep(records.made(file_key(number), key_of(parent), made))
        row = self.store.stat_row(parent.path_of(name))
        node = self.tree.new_file(number, row.length, row.version)
        self.tree.add(parent, name, node)
        self.contents.begin(node, is_cut=True)
        node.is_unsaved = True
        self._touch(made.ctime, parent)
        return node

    def _can_merge(self, node: File, found: File) -> bool:
        """Whether the content of a file can become the next version of another, whose name it gets."""
        if not (node.is_regular and found.is_regular) or (len(node.names) > 1 and not self._is_new(node)):
            return False
        drafts = len(self.contents.drafts)
        names = len(node.names) + len(found.names)
        if self.store.quota.lacking(files=1, names=names, versions=4 + drafts, handles=4 + drafts):
            return False
        return self._set_down(found)

    def _can_exchange(self, node: File, found: File) -> bool:
        """Whether each of two files can get the content of the other as its next version."""
        alone = all(it.is_regular and len(it.names) == 1 for it in (node, found))
        drafts = len(self.contents.drafts)
        if not alone or self.store.quota.lacking(versions=4 + drafts, handles=4 + drafts):
            return False
        return self._set_down(node) and self._set_down(found)

    def _merge(self, parent: Directory, name: bytes, new_parent: Directory, new_name: bytes, now: int) -> None:
        """Makes a file's content the next version of the file of the new name. The node of the first gets that file."""
        found = new_parent.children[new_name]
        assert isinstance(found, File)
        number, born = found.number, found.born
        with self._one_change():
            self._split(found, new_parent, new_name)
            if len(found.names) == 1:
                self.contents.hold(found)
            node = self._put(parent, name, new_parent, new_name, number, now)
            node.born = born
            if found.names:
                self.store.keep(records.names_changed(now, key_of(found)))
            self._touch(now, found)

    def _split(self, found: File, parent: Directory, name: bytes) -> None:
        """Gives the other names of a file another one with a copy, so that the file has one name."""
        first, *others = [folder.path_of(word) for folder, word in found.names if (folder, word) != (parent, name)] or [b""]
        if not first:
            return
        if others:
            self.store.run(*((b"unlink", it) for it in others))
        self._copy_for(found, (b"unlink", first), first)
        if others:
            self.store.run(*((b"link", first, it) for it in others))

    def _move_over_past(self, parent: Directory, name: bytes, new_parent: Directory, new_name: bytes, now: int) -> bool:
        """Moves a regular file to a free name that ended just now, and continues the past of that name. Returns whether it could."""
        node = parent.children[name]
        if not isinstance(node, File) or not node.is_regular or (len(node.names) > 1 and not self._is_new(node)):
            return False
        past = self._past_of(new_parent, new_name)
        if past is None or past is node or past == node.number:
            return False
        with self._one_change():
            number = self._bring_back(new_parent.path_of(new_name), past)
            if number:
                self._put(parent, name, new_parent, new_name, number, now).born = 0.0
        return bool(number)

    def _put(self, parent: Directory, name: bytes, new_parent: Directory, new_name: bytes, number: int, now: int) -> File:
        """Makes a file's content the next version of the file that has the new name in the store, and gives the node that file."""
        node = parent.children[name]
        assert isinstance(node, File)
        path, new_path, is_written = parent.path_of(name), new_parent.path_of(new_name), node.writers > 0
        content = self.contents.whole(node)
        self._let_draft_go(node)
        node.attributes.ctime = now
        remarks = (
            records.names_changed(now, key_of(parent), key_of(new_parent), key_of(node)),
            *records.everything(file_key(number), node.attributes),
        )
        source, is_new = node.number, self._is_new(node)
        others = [folder.path_of(word) for folder, word in node.names if (folder, word) != (parent, name)]
        handle, version = self.store.drafts.replace(new_path, path, content, is_new, remarks, keeps_open=is_written)
        if others:
            self.store.run(*(step for it in others for step in ((b"unlink", it), (b"link", new_path, it))))
        if new_name in new_parent.children:
            self.tree.remove(new_parent, new_name)
        self.tree.move(parent, name, new_parent, new_name)
        self.tree.give_number(node, number)
        node.version = version or self.store.stat_row(new_path).version
        node.size = len(content)
        if handle:
            self.contents.go_on_writing(node, handle, content)
        self._touch(now, parent, new_parent, node)
        if not is_new:
            self._leave(parent, name, source)
        return node

    def _let_draft_go(self, node: File) -> None:
        """Drops the draft of a file whose content becomes that of another one. What the store has of it becomes a version."""
        self.contents.forget_read()
        if node.handle is not None:
            self.contents.settle(node)
        self.contents.drop_draft(node)

    def _link_over(self, node: File, parent: Directory, name: bytes, past: Union[File, int], now: int) -> bool:
        """Gives a new file another name, which ended just now, and continues the past of that name. Returns whether it could."""
        if not self._set_down(node):
            return False
        path, own = parent.path_of(name), node.path
        with self._one_change():
            number = self._bring_back(path, past)
            if not number:
                return False
            content = self.contents.whole(node)
            self.contents.forget_read()
            node.attributes.ctime = now
            _, version = self.store.drafts.replace(path, own, content, True, (
                records.names_changed(now, key_of(parent)), *records.everything(file_key(number), node.attributes),
            ))
            self.store.run((b"link", path, own))
            self.tree.add(parent, name, node)
            self.tree.give_number(node, number)
            node.version, node.born = version or self.store.stat_row(path).version, 0.0
            self._touch(now, parent, node)
        return True
