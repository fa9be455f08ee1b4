"""What programs do with files: in the guest it comes to the same as in a plain folder, with few requests."""
import ctypes
import fcntl
import mmap
import os
import re
from pathlib import Path

from cases import ACCESS, USER, access_list
from mounts import LIBC, Configuration, Mounted, outcome
from tally import left_out, run, waited

KEEP_SIZE, PUNCH_HOLE, LIMIT, MEBIBYTE = 1, 2, 256, 1 << 20
# Starts a daemon that may open few files, and may not raise its limit.
BOUND = ("prlimit", f"--nofile={LIMIT}:{LIMIT}", "setpriv", "--bounding-set=-sys_resource", "--inh-caps=-sys_resource")


def appended(guest, host):
    """Bytes are stored by mmap, written to a place once O_APPEND is off, and appended once it is on again."""
    fd = os.open(guest / "file", os.O_RDWR | os.O_CREAT | os.O_APPEND)
    os.write(fd, b"0123456789")
    with mmap.mmap(fd, 10) as it:
        it[:3] = b"ABC"
        it.flush()
    found = Path(host, "file").read_bytes()
    fcntl.fcntl(fd, fcntl.F_SETFL, 0)
    os.pwrite(fd, b"x", 0)
    fcntl.fcntl(fd, fcntl.F_SETFL, os.O_APPEND)
    with open(host / "file", "ab") as it:
        it.write(b"H")
    os.write(fd, b"G")
    return found, Path(host, "file").read_bytes(), os.close(fd)


def with_list(guest, host):
    """What an access control list makes of the mode, and a chmod of the list."""
    Path(guest, "file").touch(0o600)
    os.setxattr(guest / "file", ACCESS, access_list((USER, 6, 1000)))
    found = (guest / "file").mode(), (host / "file").truncate(9, by=(1000, 1000))
    os.chmod(guest / "file", 0o644)
    return *found, (guest / "file").getxattr(ACCESS), (host / "file").truncate(9, by=(1000, 1000))


def unread(guest, host):
    """Whether a file and a folder that are read keep their times, with O_NOATIME and without."""
    found = (host / "folder").mkdir(), Path(host, "file").write_bytes(b"text")
    for flags, name in ((flags, name) for flags in (os.O_NOATIME, 0) for name in ("file", "folder")):
        os.utime(host / name, (10**9, 2 * 10**9))
        fd = os.open(guest / name, flags)
        os.listdir(fd) if name == "folder" else os.read(fd, 9)
        found = *found, os.stat(host / name).st_atime == 10**9, os.close(fd)
    return found


def with_holes(guest, host):
    """What is data and what is a hole; and room that is taken, given back, and made part of the file."""
    fd = os.open(guest / "file", os.O_RDWR | os.O_CREAT)
    os.ftruncate(fd, MEBIBYTE)
    os.pwrite(fd, b"data", MEBIBYTE // 2)
    sought = (0, os.SEEK_DATA), (MEBIBYTE // 2, os.SEEK_HOLE), (2 * MEBIBYTE, os.SEEK_DATA)
    found = [outcome(os.lseek, fd, *it) for it in sought]
    for mode in (KEEP_SIZE, KEEP_SIZE | PUNCH_HOLE, 0):
        status = LIBC.fallocate(fd, mode, ctypes.c_long(0), ctypes.c_long(2 * MEBIBYTE))
        found += status, os.stat(host / "file").st_size, os.stat(host / "file").st_blocks
    return found, os.close(fd)


def unnamed(guest, host):
    """A file without a name that gets one, and its time of birth."""
    fd = os.open(guest, os.O_TMPFILE | os.O_RDWR, 0o640)
    found = os.write(fd, b"text"), os.link(f"/proc/self/fd/{fd}", guest / "file", src_dir_fd=0), os.close(fd)
    born = [run(["stat", "-c", "%W", it / "file"])[1].strip() for it in (host, guest)]
    return found, (host / "file").mode(), Path(host, "file").read_bytes(), born[0] == born[1], born[0] in ("", "-", "0")


def same(mounted):
    version = re.search(r"libfuse 3\.(\d+)", run([f"{mounted.room}/mapped_fs", "-V"])[1])
    is_new = version and int(version[1]) >= 18 or left_out("files unnamed, and born", "they need libfuse 3.18")
    for done in (appended, with_list, unread, with_holes, *(unnamed,) * bool(is_new)):
        (host, guest), (plain, _) = mounted.folder(done.__name__), mounted.folder(f"{done.__name__} plainly")
        found, wanted = outcome(done, guest, host), outcome(done, plain, plain)
        yield done.__name__, found, wanted if isinstance(wanted, tuple) else "what it is in a plain folder"


def on_devices(mounted):
    """Each of two file systems that are mounted inside has a first file, of one number. cp takes them for two."""
    for name in ("a", "b"):
        host = mounted.folder(name)[0]
        run(["mount", "-t", "tmpfs", "tests", host])
        Path(host, "file").write_text(name)
        os.link(host / "file", host / "second")
    host, guest = ({os.stat(it / name / "file").st_ino for name in ("a", "b")} for it in (mounted.host, mounted.guest))
    run(["cp", "-a", mounted.guest / "a", mounted.guest / "b", mounted.folder("copy")[0]])
    found = [outcome(Path(mounted.host, "copy", it, "file").read_text) for it in ("a", "b")]
    yield "the numbers, and copies", (len(host), len(guest), found), (1, 2, ["a", "b"])


def limited(mounted):
    """The daemon may make no file so long, and at first open fewer files than the guest opens."""
    guest = mounted.file("long")[1]
    fd = os.open(guest, os.O_RDWR)
    found = outcome(os.pwrite, fd, b"x", 2 * MEBIBYTE), outcome(os.close, fd), guest.truncate(2)
    yield "written to past its limit, closed, and cut short", found, ("EFBIG", None, None)
    if run([*mounted.configuration.before, "prlimit", f"--nofile={2 * LIMIT}:{2 * LIMIT}", "true"])[0]:
        return left_out("a limit of open files that is raised", "nobody may raise one here")
    files = [outcome(os.open, guest, os.O_RDONLY) for _ in range(LIMIT)]
    yield "files that cannot be opened", [os.close(it) if isinstance(it, int) else it for it in files], [None] * LIMIT


def over_the_dead(room):
    """What a file system of the host tells, where it is gone."""
    with Mounted(room, Configuration("below")) as below, Mounted(room, Configuration("above"), below.guest) as above:
        file, folder = os.open(above.guest / "file", os.O_RDWR | os.O_CREAT), os.open(above.guest, os.O_RDONLY)
        below.kill()
        below.daemon.wait()
        found = [outcome(os.fsync, folder), outcome(os.close, file), os.close(folder)]
    yield "fsync of a folder, and close of a file", found, ["ENOTCONN", "ENOTCONN", None]


def requests(mounted):
    """What the daemon has read and written, each request and each answer among it."""
    return sum(map(int, re.findall(r"^sysc[rw]: (\d+)", Path(f"/proc/{mounted.daemon.pid}/io").read_text(), re.M)))


def listed(mounted):
    """Under timeout and readdirplus."""
    host, guest = mounted.folder("many")
    for it in range(300):
        Path(host, str(it)).touch()
    before, sizes, after = requests(mounted), [it.stat().st_size for it in os.scandir(guest)], requests(mounted)
    for _ in range(1000):
        os.stat(guest / "0")
    once, again = after - before, requests(mounted) - after
    yield f"300 files, and one again, in {once} and {again}", (sizes, once < 200, again < 20), ([0] * 300, True, True)


def remembered(mounted):
    """More files, each for a minute, than the daemon may open: beyond half of them it opens them by their handles."""
    (folder, mount), names, used = map(mounted.folder, ("folder", "mount")), [str(it) for it in range(4 * LIMIT)], set()
    on_ext4 = f"cd {mounted.room}; truncate -s 32M disk; mkfs.ext4 -q disk; mount -o loop disk {mount[0]}"
    run(["sh", "-c", f"{on_ext4} && rmdir {mount[0]}/lost+found || mount -t tmpfs tests {mount[0]}"])
    for path in (Path(host, it) for host, _ in (folder, mount) for it in names):
        path.write_text(path.name)
    status, said = run(["find", mounted.guest, "-type", "f", "-size", "+0"])
    yield "files found", (status, said.count("\n")), (0, 2 * len(names))
    # (on ext4 the next file gets the number of the one that is gone)
    (host, guest), fd = mounted.file("mount/gone"), os.open(mounted.guest / "mount/gone", os.O_PATH)
    found = os.unlink(host), Path(host).write_text("gone"), outcome(os.open, f"/proc/self/fd/{fd}", os.O_RDONLY)
    found = *found, outcome(Path(guest).read_text), os.close(fd), (mounted.folder("new")[1] / "d").mkdir(by=(6, 6))
    yield "a file that is gone, the next one, and one made by another", found, (None, 4, "ESTALE", "gone", None, None)
    for guest, it in ((mount[1], "gone"), *((guest, it) for _, guest in (folder, mount) for it in names)):
        with open(guest / it, "r+b", 0) as file:
            done = file.read() == it.encode(), os.rename(guest / it, guest / "new"), os.unlink(guest / "new")
            used.add((*done, file.write(b"more"), os.fchmod(file.fileno(), 0o600)))
    yield "files read, renamed, removed while they are open, and written to", used, {(True, None, None, 4, None)}
    held = ["ls", "-l", f"/proc/{mounted.daemon.pid}/fd"]
    yield "what is held of the mount is its folder", waited(lambda: run(held)[1].count(f"{mount[0]}\n") < 2), True


def without_handles(mounted):
    """A file that is looked at stays open. An error tells that no more can be opened, until some are removed."""
    host, guest = mounted.folder("ramfs")
    run(["mount", "-t", "ramfs", "tests", host])
    made = lambda: [(guest / str(it)).mkdir() for it in range(LIMIT)]
    errors, removed = made(), [(guest / str(it)).rmdir() for it in range(LIMIT)]
    yield "made, removed, made", ({*errors}, removed[0], waited(lambda: None in made())), ({None, "EMFILE"}, None, True)


def copied(mounted):
    """By copy_file_range, which need not read and write in the guest."""
    (host, guest), (copy, other), left = mounted.file("from"), mounted.file("to"), 16 * MEBIBYTE
    Path(host).write_bytes(os.urandom(left))
    source, target, before = os.open(guest, os.O_RDONLY), os.open(other, os.O_RDWR), requests(mounted)
    while left:
        left -= os.copy_file_range(source, target, left)
    needed, _ = requests(mounted) - before, (os.close(source), os.close(target))
    yield f"16 MiB in {needed}", (needed < 100, Path(host).read_bytes() == Path(copy).read_bytes()), (True, True)


def reserved(mounted):
    """What ext4 keeps for root is left by others, and taken by root."""
    (host, guest), image = mounted.folder("reserve"), f"{mounted.room}/image"
    if run(["sh", "-ec", f"truncate -s 32M {image}; mkfs.ext4 -q -m 50 {image}; mount -o loop {image} {host}"])[0]:
        return left_out("what ext4 keeps for root", "it cannot be mounted here")
    os.chmod(host, 0o777)
    for user in (1000, 0):
        found = outcome(Path(guest, str(user)).write_bytes, bytes(32 * MEBIBYTE), by=(user, user))
        is_left = os.statvfs(host).f_bfree * os.statvfs(host).f_frsize > 8 * MEBIBYTE
        yield f"user {user} fills it", (found, is_left), ("ENOSPC", user != 0)


FILE_CASES = ((Configuration("as in a folder", (), (), None, "posix_acl"),
               same, on_devices, copied, reserved),
              (Configuration("limited", before=("prlimit", "--fsize=1000000", f"--nofile={LIMIT}:{LIMIT}")), limited),
              (Configuration("quick", (), (), None, "timeout=60", "readdirplus"), listed),
              (Configuration("bound", (), (), None, "timeout=60", before=BOUND), remembered, without_handles))
