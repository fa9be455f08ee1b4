"""What eight threads do at once on mounts: each operation with its answer, and what the host shows then."""
import os
import stat
import time
from concurrent import futures
from functools import partial
from itertools import chain, product
from pathlib import Path

from mounts import OWN_NAMES, SHIFTED, Configuration, Mounted, outcome

WORKERS, ROUNDS, ROUNDS_OF_KILLS, SECONDS_LATER = 8, 10, 60, 0.003
LAST, SAME, VALUE, ERRORS = 4294967294, object(), b"\0\xff" * 20, ("EPERM", "ENOTSUP")
MANY_IDS = [f"map:{10 * it}:{5000 + 10 * (it * 37 % 101)}:10" for it in range(101)]
MANY_RULES = " ".join(f":prefix:all:user.k{it}.:user.p{it}.:" for it in range(60))
# Of a configuration: who makes a file or gets it, its owners on the host (none where it fails), and those that the guest
# sees; a name that the guest sets, and the one on the host, or the error; names on the host, and what the guest lists.
ROWS = (
    (Configuration("as it is"),
     [((5, 65536), (5, 65536), (5, 65536)), ((LAST, 0), (LAST, 0), (LAST, 0))],
     {"user.a": "user.a", "trusted.a": "trusted.a", "system.other": "ENOTSUP"},
     [("security.x user.x", ["security.x", "user.x"])]),
    (Configuration("labels", SHIFTED, ["map:0:200000:65536"], ":map:security.:trusted.virtiofs.:", "posix_acl"),
     [((5, 6), (100005, 200006), (5, 6)), ((65535, 65536), (165535, 65536), (65535, 65536)),
      ((100005, 0), (100005, 200000), (5, 0))],
     {"user.a": "user.a", "security.label": "trusted.virtiofs.security.label", "trusted.virtiofs.x": "EPERM"},
     [("trusted.virtiofs.security.x security.x user.x", ["security.x", "user.x"])]),
    (Configuration("squashed", ["squash-guest:0:1001:4294967295", "host:1001:1000:1"],
                   ["squash-guest:0:1002:4294967295", "host:1002:1000:1"], OWN_NAMES),
     [((5, LAST), (1001, 1002), (1000, 1000))],
     {"user.a": "user.virtiofs.user.a", "system.other": "ENOTSUP"},
     [("user.virtiofs. user.virtiofs.trusted.x user.x", ["trusted.x"])]),
    (Configuration("forbidden", ["map:0:1000:10", "forbid-guest:10:4294967284"], ["forbid-guest:5:1", "map:6:1000:100"],
                   "/prefix/all/security./user.virtiofs./ /bad/server//security./ /bad/client/user.virtiofs.// "
                   "/unsupported/all/trusted./trusted./ /ok/all///"),
     [((5, 6), (1005, 1000), (5, 6)), ((10, 6), None, "EPERM"), ((LAST, 5), None, "EPERM"),
      ((LAST, 4), (LAST, 4), (LAST, 4))],
     {"user.a": "user.a", "security.a": "user.virtiofs.security.a", "user.virtiofs.a": "EPERM", "trusted.a": "ENOTSUP"},
     [("user.virtiofs.security.x security.x trusted.x user.x", ["security.x", "user.x"])]),
    # (5 and 9 become 4294967295, which no file can have)
    (Configuration("undecided", ["guest,4,4294967294,2"], ["squash-guest\\9\\4294967295\\2"],
                   ",prefix,all,user.,user.p., \\bad\\client\\trusted.\\\\ :ok:server::user.o.:"),
     [((4, 0), (LAST, 0), (LAST, 0)), ((5, 0), None, "EINVAL"), ((0, 9), None, "EINVAL")],
     {"user.a": "user.p.user.a", "trusted.a": "EPERM", "security.a": "EPERM"},
     [("user.p.user.x user.o.x", ["user.o.x", "user.x"]), ("user.o.x trusted.x", "EPERM")]),
    (Configuration("many", MANY_IDS, MANY_IDS, f"{MANY_RULES} {OWN_NAMES}"),
     [((999, 1000), (5279, 5640), (999, 1000)), ((1010, 0), (1010, 5000), (1010, 0))],
     {"user.k7.x": "user.p7.user.k7.x", "user.a": "user.virtiofs.user.a"},
     [("user.p33.user.k33.note user.virtiofs.user.x user.x", ["user.k33.note", "user.x"])]),
)
# How something of a kind is made, and the mode that it has then.
MAKERS = ((lambda path: Path(path).touch(0o664, exist_ok=False), stat.S_IFREG | 0o644),
          (lambda path: os.mkdir(path, 0o775), stat.S_IFDIR | 0o755),
          (lambda path: os.symlink("/anywhere", path), stat.S_IFLNK | 0o777),
          (lambda path: os.mkfifo(path, 0o664), stat.S_IFIFO | 0o644))


def of_owners(host, guest, rows):
    """Something is made by a user of the guest; the host takes it, root of the guest gives it back, and removes it."""
    shown = lambda: (host.owners(), host.mode()) if os.path.lexists(host) else None
    for (given, there, seen), (maker, mode) in product(rows, MAKERS):
        after = (there, oct(mode)) if there else SAME
        yield f"make by {given}", lambda: outcome(maker, guest, by=given) or guest.owners(), shown, seen, after
        if not os.path.lexists(host):
            maker(host)
        os.chown(host, 0, 0, follow_symlinks=False)
        give = lambda: os.chown(guest, *given, follow_symlinks=False) or guest.owners()
        yield f"give to {given}", give, shown, seen, after
        yield f"remove what {given} has", guest.rmdir if stat.S_ISDIR(mode) else guest.unlink, shown, None, None


def of_names(host, guest, names, lists):
    """An attribute is set, got and removed, and those that the host has set are listed."""
    for name, there in names.items():
        for what, function, words, answer, after in (
            ("set", os.setxattr, (VALUE,), None, {there: VALUE}),
            ("make", os.setxattr, (b"", os.XATTR_CREATE), "EEXIST", SAME),
            ("get", os.getxattr, (), VALUE, SAME),
            ("remove", os.removexattr, (), None, {}),
            ("replace", os.setxattr, (b"", os.XATTR_REPLACE), "ENODATA", SAME),
            ("miss", os.getxattr, (), "ENODATA", SAME),
        ):
            answer, after = (there, SAME) if there in ERRORS else (answer, after)
            yield f"{what} {name}", partial(function, guest, name, *words), host.attributes, answer, after
    for of_host, of_guest in lists:
        for it in of_host.split():
            os.setxattr(host, it, b"")
        yield f"list {of_host}", lambda: sorted(os.listxattr(guest)), host.attributes, of_guest, SAME
        for it in of_host.split():
            os.removexattr(host, it)


def done(mounted, what, call, looked_at, answer, after):
    """Does an operation. If the daemon is killed in the middle of it, the host shows the old or the new."""
    before, answered, found = looked_at(), outcome(call), looked_at()
    after = before if after is SAME else after
    if mounted.is_killed and isinstance(answered, str):
        return what, found in (before, after), True
    return what, (answered, found), (answer, after)


def worked(mounted, owners, names, lists, number):
    """What a thread does with files of its own, until the daemon is killed."""
    (host, guest), file = mounted.folder(str(number)), mounted.file(f"{number}/file")
    for _ in range(ROUNDS):
        for it in chain(of_owners(host / "made", guest / "made", owners), of_names(*file, names, lists)):
            yield done(mounted, *it)
            if mounted.is_killed:
                return


def by_threads(pool, mounted, rows):
    return pool.map(lambda number: [*worked(mounted, *rows, number)], range(WORKERS))


def operated(rows, mounted):
    """The operations of all threads."""
    with futures.ThreadPoolExecutor(WORKERS) as pool:
        return [it for of_thread in by_threads(pool, mounted, rows) for it in of_thread]


def killed(room):
    """The daemon is killed in mid-work, each time a little later."""
    it, *rows = ROWS[1]
    for number in range(ROUNDS_OF_KILLS):
        with Mounted(room, it) as mounted, futures.ThreadPoolExecutor(WORKERS) as pool:
            made = by_threads(pool, mounted, rows)
            time.sleep(number * SECONDS_LATER)
            mounted.kill()
        wrong = [it for of_thread in made for it in of_thread if it[1] != it[2]]
        yield f"killed in round {number}", wrong, []


OPERATION_CASES = [(it, partial(operated, rows)) for it, *rows in ROWS]
