"""Configurations, and mounts of the example."""
import contextlib
import ctypes
import errno
import os
import tempfile
import threading
import time
from pathlib import Path
from subprocess import DEVNULL, PIPE, STDOUT, Popen

from tally import run

LIBC = ctypes.CDLL(None, use_errno=True)
SHIFTED, OWN_NAMES, SECONDS_TO_END = ["map:0:100000:65536"], ":map::user.virtiofs.:", 60


class Configuration:
    """What a mount is given. The specifications are for users and for groups."""

    def __init__(self, name, users=(), groups=(), rules=None, *words, before=()):
        self.name, self.specs, self.rules, self.words = name, (users, groups), rules or ":ok:all:::", words
        self.before = before  # (words of a command that starts the daemon)

    def options(self):
        words = [f"translate_{letter}id={spec}" for letter, specs in zip("ug", self.specs) for spec in specs]
        words += [f"xattrmap={self.rules}"] * (self.rules != ":ok:all:::") + [*self.words]
        return [part for it in words for part in ("-o", it.replace("\\", "\\\\").replace(",", "\\,"))]


class File(str):
    """A path on one side of a mount. Its functions are those of os, as `outcome` tells of them."""

    __getattr__ = lambda self, function: lambda *words, **named: outcome(getattr(os, function), self, *words, **named)
    __truediv__ = lambda self, name: File(f"{self}/{name}")
    owners = lambda self: os.lstat(self)[4:6]
    mode = lambda self: oct(os.lstat(self).st_mode)
    attributes = lambda self: {it: os.getxattr(self, it) for it in os.listxattr(self)}


class Mounted(contextlib.AbstractContextManager):
    """A folder of the host, and where a daemon shows it to a guest. After that, how the daemon has ended."""

    def __init__(self, room, configuration, host=None):
        self.room, self.configuration, self.is_killed, it = room, configuration, False, configuration
        self.guest = File(tempfile.mkdtemp(dir=f"{room}/files"))
        self.host = host or File(tempfile.mkdtemp(dir=f"{room}/files"))
        os.chmod(self.host, 0o755)
        words = [*it.before, f"{room}/mapped_fs", "-f", *it.options(), self.host, self.guest]
        self.daemon = Popen(words, stdin=DEVNULL, stdout=PIPE, stderr=STDOUT, errors="replace")
        while not os.path.ismount(self.guest):
            if self.daemon.poll() is not None:
                raise OSError(errno.EIO, f"nothing is mounted: {self.daemon.stdout.read()}")
            time.sleep(0.01)

    def kill(self):
        self.is_killed = True
        self.daemon.kill()

    def __exit__(self, error, *_):
        run(["umount", "--lazy", self.guest])
        late = threading.Timer(0 if error else SECONDS_TO_END, self.kill)
        late.start()
        self.ended = self.daemon.communicate()[0], self.daemon.returncode
        late.cancel()

    def file(self, name, mode=0o644, owners=(0, 0), make=lambda it: it.write_bytes(b"text")):
        """Makes a file on the host. Returns it there and in the guest."""
        make(Path(self.host, name))
        os.chown(self.host / name, *owners)
        os.chmod(self.host / name, mode)
        return self.host / name, self.guest / name

    folder = lambda self, name, mode=0o777, owners=(0, 0): self.file(name, mode, owners, Path.mkdir)


def outcome(call, *arguments, by=(0, 0), **named):
    """What a call answers, or the name of its error, with this thread, and no other one, as that user and group."""
    LIBC.setfsgid(ctypes.c_uint(by[1]))
    LIBC.setfsuid(ctypes.c_uint(by[0]))
    try:
        return call(*arguments, **named)
    except OSError as error:
        return errno.errorcode.get(error.errno, str(error.errno))
    finally:
        LIBC.setfsuid(0)
        LIBC.setfsgid(0)


def read_into(room, function, *arguments):
    """What getxattr or listxattr writes to a buffer of so many bytes; with 0, the length that it tells."""
    buffer = ctypes.create_string_buffer(room) if room else None
    length = getattr(LIBC, function)(*arguments, buffer, ctypes.c_size_t(room))
    if length < 0:
        raise OSError(ctypes.get_errno(), function)
    return buffer.raw[:length] if room else length
