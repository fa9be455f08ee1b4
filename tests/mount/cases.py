"""Single cases on mounts. Each yields what it looks at, what came of it, and what has to come of it."""
import ctypes
import os
import shutil
import stat
import struct
from pathlib import Path

from mounts import LIBC, OWN_NAMES, SHIFTED, Configuration, outcome, read_into
from tally import left_out, run, waited

PREPEND, NAME_MAX, FILES_HELD, STALE, HANDLE_MOST = "user.virtiofs.", 255, 300, 300, 128
ACCESS, DEFAULT, CAPABILITY = "system.posix_acl_access", "system.posix_acl_default", "security.capability"
USER, GROUP, NO_ID = 2, 8, 0xFFFFFFFF
# The host's id for the guest's 0; an id that the guest may not use; an id of the host that the guest sees as 5.
ROOT, FORBIDDEN, SEEN_ONLY = 100000, 70000, 500
SPECS = [f"map:0:{ROOT}:65536", f"forbid-guest:{FORBIDDEN}:10", f"host:{SEEN_ONLY}:5:1"]


def access_list(*entries):
    """A list of the kernel's form: the owner, these for users and groups, the group, the mask, and the others."""
    of = lambda tag: sorted(it for it in entries if it[0] == tag)
    parts = [(1, 6, NO_ID), *of(USER), (4, 4, NO_ID), *of(GROUP), (16, 7, NO_ID), (32, 4, NO_ID)]
    return struct.pack("<I", 2) + b"".join(struct.pack("<HHI", *it) for it in parts)


def full_list(mounted, prepend=""):
    """256 names of 255 bytes are a list of 64 KiB on the host. Files on a disk may take fewer."""
    host, guest = mounted.file("full")
    for number in range(256):
        host.setxattr(f"{prepend}trusted.{number}".ljust(NAME_MAX, "n"), b"")
    wanted = [it[len(prepend):] for it in os.listxattr(host)]
    found = guest.listxattr(), read_into(0, "listxattr", guest.encode())
    yield "a full list and its length", found, (wanted, sum(len(it) + 1 for it in wanted))
    yield "its names", len(wanted) == 256 or not os.path.ismount(os.path.dirname(mounted.host)), True
    yield "all of it removed", ({guest.removexattr(it) for it in wanted}, host.attributes()), ({None}, {})


def plain(mounted):
    (host, guest), longest, value = mounted.file("lengths"), "user.".ljust(NAME_MAX, "n"), os.urandom(2000)
    yield "a name of 255 bytes", (guest.setxattr(longest, b"v"), host.attributes()), (None, {longest: b"v"})
    yield "none, and one set", (guest.getxattr("user.v"), guest.setxattr("user.v", value)), ("ENODATA", None)
    names = "".join(f"{it}\0" for it in os.listxattr(host)).encode()
    for whole, *words in ((value, "getxattr", guest.encode(), b"user.v"), (names, "listxattr", guest.encode())):
        found = [outcome(read_into, room, *words) for room in (0, len(whole), len(whole) - 1)]
        yield f"{words[0]} with no buffer, one that fits and one too short", found, [len(whole), whole, "ERANGE"]
    # (without posix_acl lists are hidden, also where rules make the name of one of another name)
    (host, guest), value = mounted.file("hidden"), access_list((USER, 6, 1000))
    os.setxattr(host, ACCESS, value)
    found = guest.listxattr(), guest.getxattr(ACCESS) in ("ENOTSUP", "ENODATA"), guest.getxattr("posix_acl_access")
    yield "an access control list among the names, and got", found, ([], True, "ENOTSUP")
    found = *(guest.setxattr(it, value) for it in (ACCESS, "posix_acl_access")), guest.removexattr(ACCESS)
    yield "set, removed, and on the host", (*found, os.getxattr(host, ACCESS)), ("ENOTSUP", "ENOTSUP", "ENOTSUP", value)
    host, guest = map(Path, mounted.folder("contents"))
    data, names = os.urandom(3_000_000), [f"{number:0200}" for number in range(2000)]
    (guest / "data").write_bytes(data)
    yield "what is written is on the host", (host / "data").read_bytes() == data == (guest / "data").read_bytes(), True
    os.truncate(guest / "data", 10)
    with open(guest / "data", "ab") as it:
        it.write(b"end")
    yield "cut short and appended to", (host / "data").read_bytes(), data[:10] + b"end"
    os.utime(guest / "data", ns=(10**9 + 1, 2 * 10**9 + 2))
    os.link(guest / "data", guest / "other")
    os.rename(guest / "other", guest / "third")
    os.unlink(guest / "data")
    told = os.stat(host / "third")
    yield "times under a second name", (told.st_atime_ns, told.st_mtime_ns), (10**9 + 1, 2 * 10**9 + 2)
    os.symlink("../out", guest / "link")
    for it in names:
        (host / it).touch()
    found = os.readlink(guest / "link"), sorted(os.listdir(guest))
    yield "a link in a folder of 2002 names", found, ("../out", [*names, "link", "third"])
    yield "all of it removed", (shutil.rmtree(guest), host.exists()), (None, False)


def long_names(mounted):
    """Where PREPEND makes a name of the guest longer on the host. What lists as an empty name lists as none."""
    host, guest = mounted.file("long")
    fits, over, longest = ("user.".ljust(NAME_MAX + more, "n") for more in (-len(PREPEND), 1 - len(PREPEND), 0))
    found = guest.setxattr(fits, b"v"), host.attributes(), guest.listxattr()
    yield "a name that its prepend makes 255 bytes", found, (None, {PREPEND + fits: b"v"}, [fits])
    found = guest.setxattr(over, b"v"), guest.setxattr(longest, b"v"), guest.getxattr(over), guest.removexattr(over)
    yield "names that are too long to set, to get and to remove", found, ("ENAMETOOLONG",) * 4
    found = guest.removexattr(fits), host.attributes(), guest.listxattr(), read_into(0, "listxattr", guest.encode())
    yield "a name removed, and what is left", found, (None, {}, [], 0)
    for name, wanted in ((PREPEND, []), ("user.other", []), (f"{PREPEND}user.a", ["user.a"])):
        os.setxattr(host, name, b"")
        yield f"the list with {name} on the host", guest.listxattr(), wanted
    # (a kernel leaves names in system. to the file system, and tests no right of the caller)
    found = [guest.setxattr(it, b"v", by=(5, 5)) for it in ("system.other", "user.other")]
    yield "a name in system. and one in user., set by anybody", found, ["ENOTSUP", "EACCES"]


def shifted(mounted):
    guest = mounted.file("mine", 0o600, (100005, 100005))[1]
    yield "a file of the guest's user, read by it", outcome(Path(guest).read_bytes, by=(5, 5)), b"text"
    found = guest.open(os.O_RDONLY, by=(6, 6)), guest.chown(6, 6, by=(6, 6)), guest.setxattr("user.a", b"", by=(6, 6))
    yield "read, given away and named by another", found, ("EACCES", "EPERM", "EACCES")
    for mode, text in (("ab", b"x"), ("wb", b"")):
        host, guest = mounted.file(f"bits_{mode}", 0o6777, (100005, 100005))
        outcome(lambda: open(guest, mode).write(text), by=(6, 6))
        yield f"a file that is opened with {mode} and written to loses its bits", host.mode(), oct(stat.S_IFREG | 0o777)
    host, guest = mounted.folder("of_another", 0o700, (100005, 100005))
    found = (guest / "p").mkfifo(), (host / "p").owners(), (guest / "d").mknod(stat.S_IFCHR | 0o600, os.makedev(1, 3))
    yield "a pipe and a device of root's in a folder of another", found, (None, (100000, 100000), "EPERM")
    (host, guest), before = mounted.folder("with_group", 0o2777, (100005, 100009)), os.umask(0o077)
    made = (guest / "p").mkfifo(by=(6, 7)), (guest / "d").mkdir(by=(6, 7))
    os.umask(before)
    found = [(it.owners(), it.mode()) for it in (host / "p", host / "d")]
    wanted = [((100006, 100009), oct(it)) for it in (stat.S_IFIFO | 0o600, stat.S_IFDIR | 0o2700)]
    yield "the group of a folder, its bit, and the umask", (made, found), ((None, None), wanted)
    # (the daemon holds one descriptor for each file that the kernel knows, and none for one that is gone)
    held = lambda: len(os.listdir(f"/proc/{mounted.daemon.pid}/fd"))
    before, files = held(), [Path(guest, str(it)) for it in range(FILES_HELD)]
    for it in (*files, *files):
        it.touch()
    looked_up = held() - before
    shutil.rmtree(guest)
    found = looked_up < 2 * FILES_HELD, waited(lambda: held() <= before + FILES_HELD // 2)
    yield f"{looked_up}, then {held()}", found, (True, True)


def lists(mounted):
    """Ids of lists and capabilities cross, and a value is refused whole."""
    host, guest = mounted.file("lists", 0o640, (ROOT + 5, ROOT + 5))
    of_guest, of_host = (access_list((USER, 4, it + 6), (USER, 6, it + 1000), (GROUP, 4, it + 50)) for it in (0, ROOT))
    found = guest.setxattr(ACCESS, of_guest), os.getxattr(host, ACCESS), guest.getxattr(ACCESS), guest.listxattr()
    yield "set by the guest, on the host, got, and in a list of names", found, (None, of_host, of_guest, [ACCESS])
    found = [(guest.truncate(9, by=(it, it)), guest.setxattr(ACCESS, of_guest, by=(it, it))) for it in (1000, 6, 7)]
    yield "cut, and a list set, by three users", found, [(None, "EPERM"), ("EACCES", "EPERM"), ("EACCES", "EPERM")]
    found = [guest.setxattr(ACCESS, access_list((USER, 4, 6), (USER, 6, it))) for it in (FORBIDDEN, ROOT + 6)]
    found = *found, os.getxattr(host, ACCESS)
    yield "a list with an id that is forbidden, and one with two that become one", found, ("EPERM", "EPERM", of_host)
    os.setxattr(host, ACCESS, access_list((USER, 6, 6), (USER, 4, ROOT + 6)))
    found = guest.getxattr(ACCESS), guest.removexattr(ACCESS), host.getxattr(ACCESS)
    yield "a list of the host in which two would become one, got, removed, and gone", found, ("EPERM", None, "ENODATA")
    # (who is not in a file's group and sets a list takes the bit for set-group-id away, as by a chmod)
    for user, wanted in ((5, 0), (0, stat.S_ISGID)):
        host, guest = mounted.file(f"group_of_{user}", 0o2755, (ROOT + 5, ROOT + 9))
        found = guest.setxattr(ACCESS, of_guest, by=(user, user)), os.stat(host).st_mode & stat.S_ISGID
        yield f"a list of {user}, and the bit", found, (None, wanted)
    # (rules make the name of a list of two others. For these the kernel does not ask whose the file is)
    (host, guest), other = mounted.file("renamed", 0o640, (ROOT + 5, ROOT + 5)), ACCESS.removeprefix("system.")
    found = os.setxattr(host, ACCESS, of_host), os.setxattr(host, f"user.o.{ACCESS}", b"v"), guest.listxattr()
    yield "a list, and another name of the host, in a list of names", found, (None, None, [ACCESS])
    found = guest.setxattr(other, access_list(), by=(1000, 1000)), guest.getxattr(other), guest.removexattr(other)
    yield "set, got and removed by another name", (*found, host.getxattr(ACCESS)), (*("ENOTSUP",) * 3, of_host)
    guest = mounted.file("seen_only", 0o644, (SEEN_ONLY, SEEN_ONLY))[1]
    yield "a list set by who owns the file in the guest alone", guest.setxattr(ACCESS, of_guest, by=(5, 5)), None
    # (what is made in a folder with a default list gets it, and the caller's umask counts for nothing there)
    (host, guest), before = mounted.folder("default", 0o777, (ROOT + 5, ROOT + 5)), os.umask(0o077)
    made = guest.setxattr(DEFAULT, of_guest), outcome(Path(guest, "f").touch, by=(6, 6)), (guest / "d").mkdir(by=(6, 6))
    os.umask(before)
    found = *made, os.getxattr(host, DEFAULT), os.getxattr(host / "d", DEFAULT)
    yield "a default list, and what is made under it", found, (None, None, None, of_host, of_host)
    yield "its owner and mode", ((host / "f").owners()[0], (host / "f").mode()), (ROOT + 6, oct(stat.S_IFREG | 0o664))
    yield "the user in its list", struct.pack("<HHI", USER, 6, 1000) in os.getxattr(guest / "f", ACCESS), True
    # (the id of root in a capability crosses: here in one to bind low ports, in revision 3, or 2 if there is no id)
    value = lambda *root: struct.pack(f"<5I{len(root)}I", 2 + len(root) << 24 | 1, 1 << 10, 0, 0, 0, *root)
    host, guest = mounted.file("capable")
    for of_guest, of_host in ((value(), value(ROOT)), (value(7), value(ROOT + 7))):
        found = guest.setxattr(CAPABILITY, of_guest), os.getxattr(host, CAPABILITY), guest.getxattr(CAPABILITY)
        yield "a capability set by the guest, on the host, and got", found, (None, of_host, of_guest)
    found = guest.setxattr(CAPABILITY, value(FORBIDDEN)), os.getxattr(host, CAPABILITY)
    yield "one with an id that is forbidden, and the host's", found, ("EPERM", of_host)
    yield "one removed", (guest.removexattr(CAPABILITY), host.getxattr(CAPABILITY)), (None, "ENODATA")
    if not shutil.which("setfacl") or not shutil.which("getfacl"):
        return left_out("setfacl and getfacl on a mount", "they are not installed (Debian's acl)")
    host, guest = mounted.file("tools", 0o640, (ROOT + 5, ROOT + 5))
    changed, listed = run(["setfacl", "-m", "u:1000:rw", guest]), [run(["getfacl", "-cnp", it])[1] for it in (guest, host)]
    found = changed, *(it.split()[1] for it in listed)
    yield "what docs/TRYING.md shows of setfacl and getfacl", found, ((0, ""), "user:1000:rw-", "user:101000:rw-")


def stale(mounted):
    """Handles of files that are gone open none of the files that came after them."""
    handles, (mount_id, folder) = [], (ctypes.c_int(), os.open(mounted.guest, os.O_RDONLY))
    for number in range(STALE):
        (path := Path(mounted.guest, f"gone{number}")).touch()
        handle = struct.pack("Ii", HANDLE_MOST, 0) + bytes(HANDLE_MOST)
        told = LIBC.name_to_handle_at(folder, os.fsencode(path), handle, ctypes.byref(mount_id), 0)
        handles += [handle] * (not told)
        path.unlink()
        Path(mounted.guest, f"new{number}").touch()
    yield "files with handles", len(handles), STALE
    opened = [LIBC.open_by_handle_at(folder, it, os.O_RDONLY) for it in handles]
    yield "handles that open another file", len([os.close(it) for it in opened if it >= 0]), 0
    os.close(folder)


CASES = ((Configuration("plain", (), (), ":prefix:all:posix_acl_:system.: :ok:all:::"), plain, full_list, stale),
         (Configuration("own names", (), (), OWN_NAMES), long_names),
         (Configuration("prepended", (), (), ":map::trusted.of.:"), lambda mounted: full_list(mounted, "trusted.of.")),
         (Configuration("lists", SPECS, SPECS, ":prefix:client:posix_acl_:system.: :prefix:server::user.o.: :ok:all:::",
                        "posix_acl"), lists),
         (Configuration("shifted", SHIFTED, SHIFTED), shifted))
# Users, groups and rules that are refused, and what is said of them.
REFUSED = ((["map:0:1000:10", "guest:5:2000:1"], [], None,
            "specification 2: Guest-to-host mapping 'map [5, 6) to [2000, 2001)' intersects previously added entry"),
           ([], ["maps:0:1000:10"], None, "translate_gid: specification 1: Invalid ID map prefix maps"),
           ([], ["map:0:1000"], None, "specification 1: Invalid ID map length (expected 3 elements, got 2 elements)"),
           ([], [], ":ok:all::: :ok:nobody:::", "rule 2: invalid scope 'nobody', expected one of: all, client, server"),
           ([], [], ":ok:all::", "xattrmap: rule 1: the rule is incomplete"),
           ([], [], OWN_NAMES, "posix_acl", f"posix_acl: the rules of xattrmap rename or hide {ACCESS}"),
           ([], [], f":bad:server::{DEFAULT}: :ok:all:::", "posix_acl", f"xattrmap rename or hide {DEFAULT}"))
