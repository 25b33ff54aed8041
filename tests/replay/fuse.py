"""A file system in memory, by pyfuse3 (Debian's python3-pyfuse3), whose writes wait in the kernel's page cache. It
tells what reaches it: each name, write, length and sync, in order. It has the folders of a room, which can't be listed,
and there are no links. And sessions on it."""
import ast
import contextlib
import errno
import multiprocessing
import os
import stat
import subprocess
import time
import types

import pyfuse3
import trio

from replay.losses import cut, sized
from replay.room import PLACES, Room
from replay.session import Watched


class Files(pyfuse3.Operations):
    """Answers the kernel's requests, and writes what changed to a file, a line each. A file that was removed has no
    path."""

    enable_writeback_cache = True

    def __init__(self, told):
        super().__init__()
        self.told, self.nodes = told, {}
        for inode, path in enumerate(["", "images", "texts"], pyfuse3.ROOT_INODE):
            self.nodes[inode] = types.SimpleNamespace(path=path, mode=stat.S_IFDIR | 0o755, data=b"")

    def tell(self, *what):
        print(what, file=self.told, flush=True)

    def entry(self, inode):
        entry = pyfuse3.EntryAttributes()
        entry.st_ino, entry.st_mode, entry.st_size = inode, self.nodes[inode].mode, len(self.nodes[inode].data)
        return entry

    def path(self, folder, name):
        return os.path.join(self.nodes[folder].path, os.fsdecode(name))

    def named(self, folder, name):
        """The node that has a name in a folder."""
        for inode, node in self.nodes.items():
            if node.path == self.path(folder, name):
                return inode
        raise pyfuse3.FUSEError(errno.ENOENT)

    async def getattr(self, inode, ctx):
        return self.entry(inode)

    async def lookup(self, parent_inode, name, ctx):
        return self.entry(self.named(parent_inode, name))

    async def unlink(self, parent_inode, name, ctx):
        self.nodes[self.named(parent_inode, name)].path = None
        self.tell("name", self.path(parent_inode, name), False)

    async def create(self, parent_inode, name, mode, flags, ctx):
        inode, path = len(self.nodes) + pyfuse3.ROOT_INODE, self.path(parent_inode, name)
        self.nodes[inode] = types.SimpleNamespace(path=path, mode=stat.S_IFREG | mode, data=b"")
        self.tell("name", path, True)
        return pyfuse3.FileInfo(fh=inode), self.entry(inode)

    async def open(self, inode, flags, ctx):
        return pyfuse3.FileInfo(fh=inode)

    async def opendir(self, inode, ctx):
        return inode

    async def read(self, fh, off, size):
        return self.nodes[fh].data[off:off + size]

    async def write(self, fh, off, buf):
        self.nodes[fh].data = cut(self.nodes[fh].data, off, buf)
        self.tell("write", self.nodes[fh].path, off, buf)
        return len(buf)

    async def setattr(self, inode, attr, fields, fh, ctx):
        node = self.nodes[inode]
        node.mode = stat.S_IFMT(node.mode) | stat.S_IMODE(attr.st_mode) if fields.update_mode else node.mode
        if fields.update_size:
            node.data = sized(node.data, attr.st_size)
            self.tell("length", node.path, attr.st_size)
        return self.entry(inode)

    async def fsync(self, fh, datasync):
        self.tell("sync", self.nodes[fh].path)

    fsyncdir = fsync


def serve(told, path):
    pyfuse3.init(Files(told), str(path), {"fsname=bx", "default_permissions", "allow_other"})
    trio.run(pyfuse3.main)


@contextlib.contextmanager
def mounted(folder):
    """The file system, mounted on the folder `mounted` of another one up to the end of a `with`, by a process of its
    own. What it gives answers what reached it since the last time."""
    path = folder / "mounted"
    path.mkdir()
    with open(folder / "told", "w", encoding="ascii") as to, open(folder / "told", encoding="ascii") as told:
        server = multiprocessing.Process(target=serve, args=(to, path))
        server.start()
        while server.is_alive() and not os.path.ismount(path):
            time.sleep(0.01)
        if not server.is_alive():
            raise OSError(errno.EPERM, "none can be mounted")
        try:
            yield lambda: [ast.literal_eval(line) for line in told]
        finally:
            subprocess.run(["umount", "-l", path], check=True)
            server.join()


class CachedSession(Watched):
    """The commands run on the file system, and the power is lost after each request that reaches it: what it holds is
    left, but for names that may be lost, as their folder wasn't synced."""

    def __init__(self, judge, path, news, image):
        super().__init__(judge, Room(judge.bx, path), image)
        self.news = news
        self.room.put((image,))
        os.sync()
        news()
        for file in self.disk.files.values():
            file.is_text = False  # its pages are written over, too

    def play(self, words, steps):
        """Plays what reached the file system, and looks at what each request leaves of the three files."""
        for what, path, *more in self.news():
            letter = PLACES.get(path)
            if letter and (what == "sync" or letter in self.disk.files):
                self.disk.play(what, letter, *more)
            if letter in self.disk.files and what != "sync":
                self.disk.files[letter].sync()
                self.look(words, steps)

    def run(self, command, unsynced):
        steps = command.steps(self.state)
        self.answered(command, self.room.run(command.words, command.input, unsynced=unsynced))
        self.play(command.words, steps)
        self.state = steps[-1]
        if not unsynced:
            self.look(command.words, steps[-1:], True)
            if self.room.get() != self.disk.now():
                raise ValueError(f"{command.words}: something stayed in the page cache")
