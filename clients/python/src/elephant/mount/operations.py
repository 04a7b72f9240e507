"""The requests of the kernel to the mount, over pyfuse3. Each is answered under one lock, without waiting."""

from __future__ import annotations

import errno
import os
import stat
from collections.abc import Sequence
from typing import Any, NamedTuple, Optional, Union

import pyfuse3

from .. import ElephantError
from ..keeping import Numbers
from .answering import Answering, answered, changing
from .contents import Contents
from .log import Log
from .names import NAME, shown
from .naming import Naming
from .past import Past, PastNode, is_lasting
from .readers import Readers
from .store import MountStore
from .tree import ROOT, Directory, File, Node, Tree

# How long the kernel may cache an answer, in seconds: it makes every change itself, or is notified of it.
LASTING = 86_400.0
FIRST_PAST_HANDLE = 1 << 60
NAME_MAX = 64
USER = b"user."
MOST_SAID = 5
_CHANGES = os.O_ACCMODE | os.O_TRUNC


class Listing(NamedTuple):
    """An open directory: its names when it was read from its beginning."""

    node: Union[Directory, PastNode]
    names: list[bytes]


class Operations(Answering):
    """The requests of the kernel."""

    supports_dot_lookup = False
    # With one the kernel would report a write beyond 1 MiB only at the close.
    enable_writeback_cache = False

    def __init__(self, store: MountStore, tree: Tree, contents: Contents, naming: Naming, past: Past, log: Log) -> None:
        super().__init__(store, log)
        self.tree, self.contents, self.naming, self.past = tree, contents, naming, past
        self.by_ino = tree.by_ino
        self.readers = Readers(store, tree, past)
        self._listings: dict[int, Listing] = {}
        self.untold: list[tuple[Node, Optional[bytes]]] = []
        """Changes of the tree without a request of the kernel. Another thread has to report them, as the kernel may send requests
        meanwhile."""
        self._next_handle = FIRST_PAST_HANDLE
        self._say_odd_names()

    def _say_odd_names(self) -> None:
        """Logs which names have another spelling than the mount's: programs that look for them by their own won't find them."""
        odd = [folder.path + b"/" + it for folder in (self.tree.root, *self.tree.directories()) for it in folder.odd.values()]
        if odd:
            more = f", and {len(odd) - MOST_SAID} more" if len(odd) > MOST_SAID else ""
            self.log.say(f"names that a folder can't show are shown as they are spelled: {' '.join(map(shown, odd[:MOST_SAID]))}{more}")

    def follow_store(self) -> None:
        self.untold += self.tree.refresh()

    def renumber(self, numbers: Numbers) -> None:
        """Gives the nodes the fresh numbers of the store, which has no handle open."""
        self.contents.forget_read()
        self.tree.renumber(numbers)
        self.past.renumber()

    # Nodes.

    def _node(self, ino: int) -> Union[Node, PastNode]:
        node = self.by_ino.get(ino) or self.past.by_ino.get(ino)
        if node is None:
            raise OSError(errno.ESTALE, "")
        return node

    def _directory(self, ino: int) -> Directory:
        node = self._node(ino)
        if isinstance(node, Directory):
            return node
        raise OSError(errno.EROFS if isinstance(node, PastNode) else errno.ENOTDIR, "")

    def _entry(self, node: Node) -> Any:
        """Returns the kernel's entry of a node."""
        if node.entry is not None:
            return node.entry
        it, entry = node.attributes, pyfuse3.EntryAttributes()
        if isinstance(node, Directory):
            size, links = 4096, 0 if node.ended else 2 + node.subdirectories
        else:
            assert isinstance(node, File)
            size, links = node.size if node.draft is None else len(node.draft), len(node.names)
        entry.st_ino, entry.st_mode, entry.st_nlink, entry.st_size = node.ino, it.mode, links, size
        entry.st_uid, entry.st_gid, entry.st_blksize, entry.st_blocks = it.owner, it.group, 4096, (size + 511) // 512
        entry.st_atime_ns, entry.st_mtime_ns, entry.st_ctime_ns = it.atime, it.mtime, it.ctime
        entry.entry_timeout = entry.attr_timeout = LASTING
        node.entry = entry
        return entry

    def _past_entry(self, node: PastNode) -> Any:
        entry = pyfuse3.EntryAttributes()
        it = self.past.show(node)
        entry.st_ino, entry.st_mode, entry.st_nlink, entry.st_size = node.ino, it.mode, 1, it.size
        entry.st_uid, entry.st_gid, entry.st_blocks = it.owner, it.group, (it.size + 511) // 512
        entry.st_atime_ns = entry.st_mtime_ns = entry.st_ctime_ns = it.moment * 10**9
        entry.entry_timeout = entry.attr_timeout = LASTING if stat.S_ISDIR(it.mode) and self.past.is_over(node) else 0
        return entry

    def _known(self, node: Node) -> Any:
        """Returns the kernel's entry of a node that it will know from now on."""
        node.lookups += 1
        return self._entry(node)

    # The four most frequent requests are answered here, and their unusual cases below: one more call costs a reader a fifth.

    # Without memory they fail as the others do: an exception of another kind would end the mount.

    async def lookup(self, ino: int, name: bytes, context: Any) -> Any:
        try:
            with self.lock:
                parent = self.by_ino.get(ino)
                node = parent.children.get(name) if type(parent) is Directory else None
                if node is not None:
                    entry = node.entry or self._entry(node)
                    node.lookups += 1
                    return entry
        except MemoryError:
            raise pyfuse3.FUSEError(errno.ENOMEM) from None
        return await self._lookup(ino, name)

    async def getattr(self, ino: int, context: Any) -> Any:
        try:
            with self.lock:
                node = self.by_ino.get(ino)
                if node is not None:
                    return node.entry or self._entry(node)
        except MemoryError:
            raise pyfuse3.FUSEError(errno.ENOMEM) from None
        return await self._getattr(ino)

    async def open(self, ino: int, flags: int, context: Any) -> Any:
        try:
            with self.lock:
                node = self.by_ino.get(ino)
                if not flags & _CHANGES and type(node) is File and node.names:
                    info = node.info or self._reading_info(node)
                    node.opens += 1
                    return info
        except MemoryError:
            raise pyfuse3.FUSEError(errno.ENOMEM) from None
        return await self._open(ino, flags, context)

    async def flush(self, handle: int) -> None:
        if handle & 1:
            await self._flush(handle)

    async def release(self, handle: int) -> None:
        if not handle & 1:
            with self.lock:
                node = self.by_ino.get(handle >> 1)
                if type(node) is File and node.names:
                    node.opens -= 1
                    return
        await self._release(handle)

    def _reading_info(self, node: File) -> Any:
        node.info = pyfuse3.FileInfo(fh=node.ino * 2, keep_cache=True)
        return node.info

    @answered
    def _lookup(self, ino: int, name: bytes) -> Any:
        parent = self._node(ino)
        if isinstance(parent, PastNode):
            return self._lookup_past(parent, name)
        if not isinstance(parent, Directory):
            raise NotADirectoryError(errno.ENOTDIR, "")
        node = parent.children.get(name)
        if node is not None:
            return self._known(node)
        if parent is self.tree.root and name == NAME:
            self.past.root.lookups += 1
            return self._past_entry(self.past.root)
        if name in (b".", b".."):
            return self._known(parent if name == b"." else parent.parent or parent)
        parent.path_of(name)  # a name that is too long is refused here
        absent = pyfuse3.EntryAttributes()
        absent.st_ino, absent.entry_timeout = 0, LASTING
        return absent

    def _lookup_past(self, parent: PastNode, name: bytes) -> Any:
        node = self.past.lookup(parent, name)
        entry = self._past_entry(node)
        if parent.key == ("at",) and not is_lasting(name):
            entry.entry_timeout = 0  # "2 hours ago" is soon another moment
        node.lookups += 1
        return entry

    @answered
    def forget(self, inos: Sequence[tuple[int, int]]) -> None:
        for ino, count in inos:
            node = self.by_ino.get(ino)
            if node is not None:
                node.lookups = max(node.lookups - count, 0)
                self.tree.let_go(node)
            elif ino in self.past.by_ino:
                past = self.past.by_ino[ino]
                past.lookups = max(past.lookups - count, 0)
                self.past.forget(past)

    @answered
    def _getattr(self, ino: int) -> Any:
        node = self._node(ino)
        return self._past_entry(node) if isinstance(node, PastNode) else self._entry(node)

    @changing
    def setattr(self, ino: int, attributes: Any, fields: Any, handle: Optional[int], context: Any) -> Any:
        node = self._node(ino)
        if isinstance(node, PastNode):
            raise OSError(errno.EROFS, "")
        if fields.update_size:
            if not isinstance(node, File):
                raise OSError(errno.EISDIR, "")
            if handle is None:
                self.contents.settle_saved(node, attributes.st_size == 0)
            self.contents.truncate(node, attributes.st_size)
        asked = (
            ("mode", fields.update_mode, attributes.st_mode), ("owner", fields.update_uid, attributes.st_uid),
            ("group", fields.update_gid, attributes.st_gid), ("atime", fields.update_atime, attributes.st_atime_ns),
            ("mtime", fields.update_mtime, attributes.st_mtime_ns),
        )
        changes = {name: value for name, is_asked, value in asked if is_asked}
        if changes:
            self.naming.set_attributes(node, changes)
        return self._entry(node)

    # Names.

    def _parent(self, ino: int, name: bytes) -> Directory:
        parent = self._directory(ino)
        if name == NAME and parent is self.tree.root:
            raise FileExistsError(errno.EEXIST, "the name is the mount's own")
        return parent

    @changing
    def mkdir(self, ino: int, name: bytes, mode: int, context: Any) -> Any:
        return self._known(self.naming.mkdir(self._parent(ino, name), name, mode, context.uid, context.gid))

    @changing
    def mknod(self, ino: int, name: bytes, mode: int, device: int, context: Any) -> Any:
        if stat.S_IFMT(mode) not in (stat.S_IFREG, stat.S_IFIFO, stat.S_IFSOCK):
            raise OSError(errno.EPERM, "")
        return self._known(self.naming.create(self._parent(ino, name), name, mode, context.uid, context.gid))

    @changing
    def symlink(self, ino: int, name: bytes, target: bytes, context: Any) -> Any:
        return self._known(self.naming.symlink(self._parent(ino, name), name, target, context.uid, context.gid))

    @changing
    def link(self, ino: int, parent: int, name: bytes, context: Any) -> Any:
        node = self._node(ino)
        if isinstance(node, PastNode):
            raise OSError(errno.EXDEV, "")
        return self._known(self.naming.link(node, self._parent(parent, name), name))

    @changing
    def unlink(self, ino: int, name: bytes, context: Any) -> None:
        self.naming.unlink(self._directory(ino), name)

    @changing
    def rmdir(self, ino: int, name: bytes, context: Any) -> None:
        if name == NAME and ino == ROOT:
            raise OSError(errno.EBUSY, "")
        self.naming.rmdir(self._directory(ino), name)

    @changing
    def rename(self, ino: int, name: bytes, new_ino: int, new_name: bytes, flags: int, context: Any) -> None:
        if (ino, name) == (ROOT, NAME):
            raise OSError(errno.EBUSY, "")
        self.naming.rename(self._directory(ino), name, self._parent(new_ino, new_name), new_name, flags)

    # Extended attributes: only those of users, `user.NAME`.

    async def getxattr(self, ino: int, name: bytes, context: Any) -> bytes:
        # The kernel asks for `security.capability` before each write.
        with self.lock:
            node = self.by_ino.get(ino)
            if node is None or not node.attributes.extended or name not in node.attributes.extended:
                raise pyfuse3.FUSEError(errno.ENODATA if name.startswith((USER, b"security.")) else errno.EOPNOTSUPP)
            return node.attributes.extended[name]

    async def listxattr(self, ino: int, context: Any) -> Sequence[bytes]:
        with self.lock:
            node = self.by_ino.get(ino)
            return list(node.attributes.extended or ()) if node is not None else []

    @changing
    def setxattr(self, ino: int, name: bytes, value: bytes, context: Any) -> None:
        self.naming.set_extended(self._of_user(ino, name), name, value)

    @changing
    def removexattr(self, ino: int, name: bytes, context: Any) -> None:
        node = self._of_user(ino, name)
        if name not in (node.attributes.extended or ()):
            raise OSError(errno.ENODATA, "")
        self.naming.set_extended(node, name, None)

    def _of_user(self, ino: int, name: bytes) -> Node:
        """Returns a node whose extended attribute may be changed."""
        node = self._node(ino)
        if isinstance(node, PastNode):
            raise OSError(errno.EROFS, "")
        if not name.startswith(USER):
            raise OSError(errno.EOPNOTSUPP, "")
        return node

    @answered
    def readlink(self, ino: int, context: Any) -> bytes:
        node = self._node(ino)
        if isinstance(node, PastNode):
            return self.past.content(node)
        if not isinstance(node, File):
            raise OSError(errno.EINVAL, "")
        return self.contents.whole(node)

    # Files. The handle of one is twice its inode number, and one more if it writes.

    @staticmethod
    def _info(handle: int, keep_cache: bool) -> Any:
        return pyfuse3.FileInfo(fh=handle, keep_cache=keep_cache)

    def _file(self, handle: int) -> File:
        node = self.by_ino[handle >> 1]
        assert isinstance(node, File)
        return node

    def _opened(self, node: File, flags: int, is_cut: bool = False) -> int:
        writes = flags & os.O_ACCMODE != os.O_RDONLY
        self.contents.opened(node, writes, is_cut)
        handle = node.ino * 2 + writes
        if writes:
            self.store.who.opened(handle)
        return handle

    @answered
    def _open(self, ino: int, flags: int, context: Any) -> Any:
        node = self.by_ino.get(ino)
        if not isinstance(node, File):
            return self._open_past(ino, flags)
        if not node.names and node.draft is None:
            raise OSError(errno.ESTALE, "")
        if flags & _CHANGES:
            self.require_writable()
            self.store.who.asks(context)
        return self._info(self._opened(node, flags, bool(flags & os.O_TRUNC)), True)

    def _open_past(self, ino: int, flags: int) -> Any:
        node = self._node(ino)
        if not isinstance(node, PastNode):
            raise OSError(errno.EISDIR, "")
        if flags & os.O_ACCMODE != os.O_RDONLY or flags & os.O_TRUNC:
            raise OSError(errno.EROFS, "")
        self._next_handle += 1
        stays = self.readers.open(self._next_handle, node)
        # The kernel caches no page of a text that changes.
        return pyfuse3.FileInfo(fh=self._next_handle, keep_cache=True, direct_io=not stays)

    @changing
    def create(self, ino: int, name: bytes, mode: int, flags: int, context: Any) -> Any:
        parent = self._parent(ino, name)
        self.contents.require_limits(versions=2, handles=1)
        node = self.naming.create(parent, name, stat.S_IFREG | stat.S_IMODE(mode), context.uid, context.gid)
        handle = self._opened(node, flags)
        return self._info(handle, True), self._known(node)

    @answered
    def read(self, handle: int, offset: int, size: int) -> bytes:
        if handle >= FIRST_PAST_HANDLE:
            return self.readers.opened[handle].content[offset:offset + size]
        return self.contents.read(self._file(handle), offset, size)

    @changing
    def write(self, handle: int, offset: int, data: bytes) -> int:
        self.store.who.goes_on(handle)
        return self.contents.write(self._file(handle), offset, data)

    @answered
    def _flush(self, handle: int) -> None:
        if handle < FIRST_PAST_HANDLE:
            self.store.who.goes_on(handle)
            self.contents.save(self._file(handle))

    @answered
    def _release(self, handle: int) -> None:
        if handle < FIRST_PAST_HANDLE:
            self.store.who.goes_on(handle)
            node = self._file(handle)
            self.contents.closed(node, bool(handle & 1))
            if not node.writers:
                self.store.who.forget(handle)
            return
        self.readers.release(handle)

    @answered
    def fsync(self, handle: int, only_data: bool) -> None:
        if handle < FIRST_PAST_HANDLE:
            self.store.who.goes_on(handle)
            self.contents.save(self._file(handle))
            self.store.sync_journal()

    # Directories.

    @answered
    def opendir(self, ino: int, context: Any) -> int:
        node = self._node(ino)
        if not isinstance(node, (Directory, PastNode)):
            raise OSError(errno.ENOTDIR, "")
        self._next_handle += 1
        self._listings[self._next_handle] = Listing(node, [])
        return self._next_handle

    @answered
    def readdir(self, handle: int, start: int, token: Any) -> None:
        node, names = self._listings[handle]
        if start == 0:
            names[:] = [b".", b"..", *node.children] if isinstance(node, Directory) else self.past.names(node)
        for index in range(start, len(names)):
            name, found = names[index], self._named(node, names[index])
            if found is None:
                continue
            if not pyfuse3.readdir_reply(token, name, self._listed(found), index + 1):
                if isinstance(found, PastNode):
                    self.past.forget(found)
                return
            if name not in (b".", b".."):
                found.lookups += 1

    def _named(self, node: Union[Directory, PastNode], name: bytes) -> Optional[Union[Node, PastNode]]:
        """Returns the node of a name in a listing now, if there is one."""
        if isinstance(node, Directory):
            return node if name == b"." else (node.parent or node) if name == b".." else node.children.get(name)
        try:
            return self.past.find(node, name)
        except (ElephantError, OSError):
            return None

    def _listed(self, node: Union[Node, PastNode]) -> Any:
        if not isinstance(node, PastNode):
            return self._entry(node)
        try:
            return self._past_entry(node)
        except (ElephantError, OSError):  # it was forgotten: a request for it says so
            entry = pyfuse3.EntryAttributes()
            entry.st_ino, entry.st_mode, entry.entry_timeout, entry.attr_timeout = node.ino, stat.S_IFREG | 0o444, 0, 0
            return entry

    @answered
    def releasedir(self, handle: int) -> None:
        del self._listings[handle]

    @answered
    def fsyncdir(self, handle: int, only_data: bool) -> None:
        self.store.sync_journal()

    @answered
    def statfs(self, context: Any) -> Any:
        disk, it, quota = self.store.disk(), pyfuse3.StatvfsData(), self.store.quota
        it.f_bsize = it.f_frsize = 4096
        it.f_blocks = disk.f_blocks * disk.f_frsize // 4096
        # While the journal is made anew, the disk has a content twice.
        it.f_bfree = it.f_bavail = 0 if self.store.stopped else disk.f_bavail * disk.f_frsize // 8192
        it.f_files = quota.limits.files
        it.f_ffree = it.f_favail = min(quota.left("files"), quota.left("names"), quota.left("versions") // 2)
        it.f_namemax = NAME_MAX
        return it
