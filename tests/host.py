#!/usr/bin/env python3
"""Audits daemons that run, and those of users to whom files give ids; compares what it says of these with newuidmap and newgidmap.

usage: host.py PROGRAM..

The daemons are stand-ins: a program named virtiofsd that only waits, started in user namespaces of its own. It needs
root, a C compiler (CC may name it) and user namespaces; the last part root, user namespaces and both tools (Debian's package
uidmap). Where one is missing, a line that begins with LEFT OUT says so. The last line is 'N passed, N failed'.
"""
import contextlib
import grp
import os
import pwd
import re
import shutil
import subprocess
import sys
import tempfile
from pathlib import Path

sys.dont_write_bytecode = True
from compiling import compiler
from tally import Tally, left_out, run, waited

# With FORKS in its environment it has a child, as virtiofsd has, which ends with it.
STAND_IN = """
#include <signal.h>
#include <stdlib.h>
#include <sys/prctl.h>
#include <unistd.h>
int main(void) {
    if (getenv("FORKS") && !fork()) prctl(PR_SET_PDEATHSIG, SIGKILL);
    for (;;) pause();
}
"""
HOST = "0 0 4294967295"
MAPPED, MAPPED_GROUPS = "--uid-map=:0:100000:65536:", "--gid-map=:0:100000:65536:"
TOOLS = {"uid": "newuidmap", "gid": "newgidmap"}
# Runs a tool as a user, whose files of subordinate ids are this one, on a process of that user in a namespace of its own.
ASKED = """
mount --make-rprivate / && for it in subuid subgid; do mount --bind "$1" /etc/$it || exit 9; done
exec setpriv --reuid="$2" --regid="$3" --clear-groups sh -c '
    unshare --user sleep 60 & here=$(readlink /proc/self/ns/user)
    while [ "$(readlink /proc/$!/ns/user)" = "$here" ]; do sleep 0.01; done
    "$0" $! "$@"; status=$?; kill $!; exit $status' "$4" $5
"""
# Puts a program into another user and group, where it keeps the capabilities that change these.
CAPABLE = "setpriv --reuid=65534 --regid=65534 --clear-groups --inh-caps=+setuid,+setgid --ambient-caps=+setuid,+setgid --".split()
FORBIDDEN = [f"--translate-{it}=forbid-guest:65536:4294901759" for it in ("uid", "gid")]


@contextlib.contextmanager
def daemon(program, options, ranges=None, user=0, name=None, forks=False, by=(), cwd=None):
    """The process id of a stand-in with these options, run by that user and group, maybe under another name, in another folder
    or by another program. With ranges it is in a namespace that has them, for users and for groups. Where it forks, it is that
    of the child."""
    words = [*by, name or program, *options]
    if ranges:
        words = ["unshare", "--user", "--", *words]
    started = subprocess.Popen(words, executable=program if name else None, env={**os.environ, **({"FORKS": "1"} if forks else {})}, cwd=cwd,
                               user=user, group=user, extra_groups=[], stdin=subprocess.DEVNULL, stdout=subprocess.DEVNULL)
    try:
        there = Path(f"/proc/{started.pid}")
        waited(lambda: (there / "cmdline").read_bytes().startswith((name or program).encode()))
        for name, lines in zip(("uid_map", "gid_map"), ranges or ()):
            (there / name).write_text(lines, encoding="ascii")
        children = there / "task" / str(started.pid) / "children"
        yield waited(lambda: children.read_text().strip()) if forks else str(started.pid)
    finally:
        started.kill()
        started.wait()


def processes(room, stand_in):
    """What is audited, the words, the status, and a part of what is written to standard output or error."""
    ranges = [MAPPED, MAPPED_GROUPS, *FORBIDDEN]
    kernels = ("0 100000 65536\n",) * 2
    nobody, nogroup = pwd.getpwuid(65534).pw_name, grp.getgrgid(65534).gr_name
    with daemon(stand_in, ["--xattr"], user=65534) as pid:
        yield "a daemon of another user than root, in the host's namespace", ["--pid", pid], 5, "the daemon acts as user 65534 alone"
        yield "the names of its user and its group", ["--pid", pid], 5, f"  on this host: user 65534 ({nobody}); group 65534 ({nogroup})\n"
        yield "the same as JSON", ["--json", "--pid", pid], 5, '"runs_as":{"group":65534,"user":65534}'
    with daemon(stand_in, ["--xattr"], by=CAPABLE) as pid:
        yield "one that may change its user and its group", ["--pid", pid], 5, f"process {pid} of user 65534\n  users: all are the host's own\n  groups: all are"
    with daemon(stand_in, ["--xattr"], by=[it.replace("setuid,+", "") for it in CAPABLE]) as pid:
        yield "one that may change its group", ["--pid", pid], 5, "the daemon acts as user 65534 alone\n  groups: all are the host's own\n"
    with daemon(stand_in, ["--xattr"], by=[it.replace(",+setgid", "") for it in CAPABLE]) as pid:
        yield "one that may change its user", ["--pid", pid], 5, "users: all are the host's own\n  groups: all keep their number; the daemon acts as group 65534 alone"
    named = len({it.gr_gid for it in grp.getgrall() if 0 < it.gr_gid < 65536})
    led = [f"--translate-uid={it}" for it in ("map:5:65534:1", "forbid-guest:0:5", "forbid-guest:6:4294967289")]
    with daemon(stand_in, [*led, FORBIDDEN[1]]) as pid:
        told = "more than 8 groups with names\n" if named > 8 else "groups "
        yield "the name of a user to whom an id leads", ["--pid", pid], 5, f"  on this host: user 65534 ({nobody}); {told}"
    with daemon(stand_in, ranges, kernels) as pid:
        yield "a namespace as its options say", ["--pid", pid], 0, "its 0 to 65535 are 100000 to 165535 on the host"
        yield "an id of it, explained", ["--explain", "user=5", "--pid", pid], 0, f"guest 1, process {pid}\n  user 5 of the guest\n"
        with daemon(stand_in, [it.replace("100000", "200000") for it in ranges], ("0 200000 65536\n",) * 2) as other:
            yield "two daemons apart", ["--pid", pid, "--pid", other], 0, "nothing found"
            yield "the number of each", ["--json", "--pid", pid, "--pid", other], 0, f'"process":{other}'
            yield "a command line beside them", ["--pid", pid, "--pid", other, "--", "virtiofsd", *ranges], 5, "guests 1 and 2"
            yield "what is found of that alone", ["--pid", pid, "--", "virtiofsd", "--translate-uid=map:0:7:7"], 5, "users 7 to 13 do not round-trip"
    split = "0 100000 1000\n1000 101000 64536\n"
    with daemon(stand_in, ranges, (split, split)) as pid:
        yield "a range that is in two", ["--pid", pid], 0, "nothing found"
    with daemon(stand_in, ["--uid-map=:1000:101000:64536:", "--uid-map=:0:100000:1000:", *ranges[1:]], kernels) as pid:
        yield "two ranges that are in one", ["--pid", pid], 0, "nothing found"
    with daemon(stand_in, ranges, ("0 100000 1000\n1000 101001 64536\n", kernels[1])) as pid:
        yield "two ranges with an id between", ["--pid", pid], 5, "the kernel shows other ranges than --uid-map gives"
    whole, halves = [f"--{it}-map=:0:0:4294967295:" for it in ("uid", "gid")], "0 0 2147483648\n2147483648 2147483648 2147483647\n"
    with daemon(stand_in, whole, (halves, halves)) as pid:
        yield "all ids, in two ranges", ["--json", "--pid", pid], 5, '"findings":[{"accepted":false,"groups":{'
    with daemon(stand_in, whole, (halves[:-2] + "6\n", halves)) as pid:
        yield "all ids but the last", ["--pid", pid], 5, "the kernel shows other ranges than --uid-map gives"
    with daemon(stand_in, ranges, ("0 100000 1000\n", "0 100000 65536\n")) as pid:
        yield "a namespace of other ranges", ["--pid", pid], 5, "the kernel shows other ranges than"
    with daemon(stand_in, ranges, ("0 100000 65536\n", "0 100000 1000\n")) as pid:
        yield "a namespace of other groups", ["--pid", pid], 5, "the kernel shows other ranges than --gid-map gives"
    with daemon(stand_in, [*ranges, "--nosuch"], kernels) as pid:
        yield "a word that virtiofsd does not know", ["--pid", pid], 0, "unknown option '--nosuch': virtiofsd 1.13.2 refuses it and does not start"
    with daemon(stand_in, []) as pid:
        yield "root without a namespace", ["--pid", pid], 5, "root of the host"
    with daemon(stand_in, [], ("1234 1234 1\n",) * 2, user=1234) as pid:
        yield "a user's own namespace", ["--pid", pid], 5, "the daemon acts as user 1234 alone"
    with daemon(stand_in, [*ranges, *["--xattrmap=:bad:all:a:b:" + ":ok:all:::" * 9000] * 2], kernels) as pid:
        yield "a command line of 180 KB", ["--pid", pid], 5, "names: 9001 rules"
    with daemon(stand_in, ["--translate-uid", b"\xff"]) as pid:
        yield "a word that is not UTF-8", ["--pid", pid], 2, f"a word of process {pid} is not UTF-8"
    yield "one that is gone", ["--pid", pid], 2, f"there is no process {pid}"
    yield "this process", ["--pid", str(os.getpid())], 2, f"process {os.getpid()} is no virtiofsd"
    yield "a thread of the kernel, or the first process", ["--pid", "2"], 2, "process 2"


def running(room, stand_in):
    """The same for all daemons that run."""
    # (one that has ended, of which the first process has not yet heard, does not run)
    if run(["pgrep", "-x", "-r", "D,R,S,T,t", "virtiofsd"])[0] == 0:
        left_out("all daemons that run", "a virtiofsd runs here")
        return
    yield "no daemon", ["--running"], 0, "no virtiofsd runs here\n"
    yield "no daemon, as JSON", ["--running", "--json"], 0, "[]\n"
    for it in ("one", "two"):
        Path(room, it).mkdir(exist_ok=True)
    with contextlib.suppress(FileExistsError):
        Path(room, "link").symlink_to("one")
    one, two, link = f"{room}/one", f"{room}/two", f"{room}/link"
    ranges, kernels = [MAPPED, MAPPED_GROUPS, *FORBIDDEN], ("0 100000 65536\n",) * 2
    with daemon(stand_in, ["--shared-dir", one, "--xattr"], user=65534, forks=True) as pid:
        yield "of a daemon the child", ["--running"], 5, f"guest 1, process {pid} of user 65534\n"
        told = f'"guests":[{{"groups":null,"guest":1,"names":null,"process":{pid},"runs_as":{{"group":65534,"user":65534}},"users":null}}],'
        yield "and no other guest", ["--running", "--json"], 5, told
        yield "one directory", ["--running"], 5, f"directory '{one}'\nguest 1"
        yield "a question", ["--running", "--explain", "user=5"], 0, f"guest 1, process {pid}\n  user 5 of the guest\n"
    with daemon(stand_in, ["--shared-dir", one, *ranges], kernels) as pid:
        with daemon(stand_in, [f"--shared-dir={two}", *ranges], kernels) as other:
            yield "two directories", ["--running"], 0, f"directory '{two}'\nguest 1, process {other} of user 0\n"
            yield "the first of them", ["--running"], 0, f"directory '{one}'\nguest 1, process {pid} of user 0\n"
            yield "the same as JSON", ["--running", "--json"], 0, f'"directory":"{two}","report":{{'
        with daemon(stand_in, ["--shared-dir", two, "-o", f"source={link}", *ranges], kernels) as other:
            yield "one directory, by a link and the older form", ["--running"], 5, "guests 1 and 2 reach the same users"
            with daemon(stand_in, [f"--shared-dir={two}", *ranges], kernels):
                yield "the status is that of the worst directory", ["--running"], 5, f"directory '{two}'\nguest 1"
        with daemon(stand_in, ["virtiofsd"], name="sudo"):
            yield "another program that has the daemon's word", ["--running"], 0, "nothing found"
        with daemon(stand_in, ["--shared-dir=two", *ranges], kernels, cwd=room, forks=True) as other:
            yield "a directory that is not absolute", ["--running"], 0, f"directory '{two}'\nguest 1, process {other}"
            with daemon(stand_in, [f"--shared-dir={two}", *ranges], kernels):
                yield "the same as that of another daemon", ["--running"], 5, "guests 1 and 2 reach the same users"
        with daemon(stand_in, ["--translate-uid", b"\xff"]) as other:
            yield "a word that is not UTF-8", ["--running"], 2, f"not checked: a word of process {other} is not UTF-8\n"
            yield "the other daemon beside it", ["--running"], 2, f"directory '{one}'\nguest 1, process {pid} of user 0\n"
            yield "the same as JSON", ["--running", "--json"], 2, f'"unread":["not checked: a word of process {other} is not UTF-8"]'
            yield "where nothing is to be written", ["--running", "--quiet"], 2, f"not checked: a word of process {other} is not UTF-8\n"
        with daemon(stand_in, ["--shared-dir", one, "--sandbox=none2"]) as other:
            yield "a value that virtiofsd refuses", ["--running"], 2, f"not checked: process {other}: virtiofsd refuses the value 'none2'"
            yield "in that directory the other daemon", ["--running"], 2, f"directory '{one}'\nguest 1, process {pid} of user 0\n"
        for beside in (["--pid", pid], ["--svg"], ["--mend"], ["--translate-uid=map:0:1:1"], ["--", "virtiofsd"]):
            yield f"{beside[0]} beside it", ["--running", *beside], 2, "'--running' goes with neither"


def files(room, _):
    """The same for users who start daemons, and the files that give them ids."""
    user = next(it for it in pwd.getpwall() if it.pw_uid not in (0, 4321))
    given = Path(room, "given")
    given.write_text(f"# a comment\n4321:100000:65536\n{user.pw_name}:200000:1000\n", encoding="utf-8")
    given_groups, none = Path(room, "given_groups"), Path(room, "none")
    given_groups.write_text("4321:300000:65536\n", encoding="ascii")
    none.write_text("", encoding="ascii")
    both = lambda it: ["--subuid", str(it), "--subgid", str(it)]
    daemon_of = lambda first, count: ["--", "virtiofsd", f"--uid-map=:0:{first}:{count}:", f"--gid-map=:0:{first}:{count}:",
                                      f"--translate-uid=forbid-guest:{count}:{4294967295 - count}",
                                      f"--translate-gid=forbid-guest:{count}:{4294967295 - count}"]
    yield "ids given by number", ["--run-as", "4321:4321", *both(given), *daemon_of(100000, 65536)], 0, "nothing found"
    yield "one id more", ["--run-as", "4321:4321", *both(given), *daemon_of(100000, 65537)], 5, "the daemon does not start"
    crlf = Path(room, "crlf")
    crlf.write_bytes(b"4321:100000:65536\r\n")
    yield "a file whose lines end in CR LF", ["--run-as", "4321:4321", *both(crlf), *daemon_of(100000, 65536)], 2, "has a carriage return"
    yield "ids given by name", ["--run-as", str(user.pw_uid), *both(given), *daemon_of(200000, 1000)], 0, "nothing found"
    apart = ["--run-as", "4321:4321", "--subuid", str(given), "--subgid", str(given_groups)]
    yield "a file for users and one for groups", [*apart, *daemon_of(100000, 65536)], 5, "the first --gid-map has ids that the user may not"
    yield "the same, with those of each", [*apart, *(it.replace("--gid-map=:0:1", "--gid-map=:0:3") for it in daemon_of(100000, 65536))], 0, "nothing found"
    yield "the last file counts", ["--run-as", "4321:4321", *both(none), *both(given), *daemon_of(100000, 65536)], 0, "nothing found"
    yield "a user in root's group", ["--run-as", "4321:0", *both(none), *daemon_of(100000, 65536)], 5, "the first --uid-map has ids that the user may not"
    yield "a group that is not the user's", ["--run-as", f"{user.pw_uid}:{user.pw_gid + 1}", *both(given), *daemon_of(200000, 1000)], 5, "the first --uid-map has ids that the user may not"
    yield "root, to whom no line gives ids", ["--run-as", "0:0", *both(given), *daemon_of(100000, 65536)], 5, "the first --uid-map has ids that the user may not"
    yield "a number that is no user's", ["--run-as", "4294967295:5", *both(given), *daemon_of(1, 1)], 2, "'4294967295:5' is no user"
    yield "a number that is no group's", ["--run-as", "5:4294967295", *both(given), *daemon_of(1, 1)], 2, "'5:4294967295' is no user"
    yield "a user by name", ["--run-as", user.pw_name, *both(given), *daemon_of(200000, 1000)], 0, f"started by user {user.pw_uid}\n"
    yield "a user by name, and a group", ["--run-as", f"{user.pw_name}:4321", *both(given), *daemon_of(200000, 1000)], 5, "the first --uid-map has ids that the user may not"
    yield "a user by name, and no group", ["--run-as", f"{user.pw_name}:", *both(given), *daemon_of(200000, 1000)], 2, f"'{user.pw_name}:' is no user"
    for words in (["sudo", "-u", user.pw_name], ["sudo", f"-u#{user.pw_uid}"], ["runuser", f"--user={user.pw_name}", "--"], ["su", "-", user.pw_name, "-c"],
                  ["systemd-run", "-p", f"User={user.pw_name}"], ["run0", "-u", user.pw_name], ["gosu", f"{user.pw_name}:{user.pw_gid}"]):
        name = " ".join(words)
        yield f"a user whom words name: {name}", [*both(given), "--", *words, *daemon_of(200000, 1000)[1:]], 0, f"started by user {user.pw_uid}\n"
        yield f"one to whom no line gives ids: {name}", [*both(none), "--", *words, *daemon_of(200000, 1000)[1:]], 5, "the first --uid-map has ids that the user may not"
        yield f"one without ranges: {name}", ["--", *words, "virtiofsd"], 5, f"the daemon acts as user {user.pw_uid} alone"
    yield "--run-as counts before such words", ["--run-as", "4321:4321", *both(given), "--", "sudo", "-u", user.pw_name, *daemon_of(100000, 65536)[1:]], 0, "started by user 4321\n"
    alike = ["sudo", "-u", user.pw_name, *daemon_of(200000, 1000)[1:]]
    yield "two guests by the same words", [*both(given), "--", *alike, "--", *alike], 5, "guests 1 and 2, started by user"
    ranges = ["--uid-map=:1:100000:65535:", "--gid-map=:1:100000:65535:", *(f"--translate-{it}=forbid-guest:{but}" for it in ("uid", "gid") for but in ("0:1", "65536:4294901759"))]
    outside = ["--run-as", "4321:4321", *both(given), "--", "virtiofsd", *ranges]
    yield "ranges with neither 0 nor the own id", outside, 5, "no file can be created as user 65534"
    yield "the same, with the own id", [*outside, "--uid-map=:70000:4321:1:", "--gid-map=:70000:4321:1:"], 0, "nothing found"
    for count in (0, 1):
        own = [f"--{it}-map=:4321:4321:{count}:" for it in ("uid", "gid")]
        yield f"a range of the own id with the count {count}", ["--run-as", "4321:4321", *both(none), "--", "virtiofsd", *own], 5, "the daemon acts as user 4321 alone"
    yield "files for no user", [*both(given), *daemon_of(1, 1)], 2, "'--subuid' and '--subgid' are for '--run-as'"
    kinds = Path(room, "kinds")
    kinds.write_text("# what is meant to be so\nkept lacking # two\n\n\troot#\n", encoding="ascii")
    yield "kinds that a file accepts", ["--accept-from", str(kinds), "--", "virtiofsd"], 0, "accepted: user 0 and group 0 act as root"
    kinds.write_text("kept", encoding="ascii")
    kept = ["virtiofsd", "--translate-uid=map:5:5:1", "--translate-gid=map:5:5:1"]
    yield "kinds of a file, and one more", ["--accept-from", str(kinds), "--accept=root", "--", *kept], 0, "nothing else found"
    yield "the same without the file", ["--accept=root", "--", *kept], 5, "keep their number"
    kinds.write_text("root\nrott\n", encoding="ascii")
    yield "a file with a word that is no kind", ["--accept-from", str(kinds), "--", "virtiofsd"], 2, f"{kinds}: '--accept' has no value 'rott'"
    kinds.write_bytes(b"root \xff\n")
    yield "a file of kinds that is not UTF-8", ["--accept-from", str(kinds), "--", "virtiofsd"], 2, f"{kinds} is not UTF-8"
    yield "no file of kinds", ["--accept-from", f"{room}/nosuch", "--", "virtiofsd"], 2, f"there is no file {room}/nosuch"
    yield "a folder of kinds", ["--accept-from", room, "--", "virtiofsd"], 2, f"{room} is no regular file"
    yield "a folder", ["--run-as", "4321:4321", *both(room), *daemon_of(1, 1)], 2, "is no regular file"
    yield "a file that never ends", ["--run-as", "4321:4321", *both("/dev/zero"), *daemon_of(1, 1)], 2, "/dev/zero is no regular file"
    with contextlib.suppress(FileExistsError):
        os.mkfifo(f"{room}/pipe")
    yield "a pipe", ["--run-as", "4321:4321", *both(f"{room}/pipe"), *daemon_of(1, 1)], 2, "pipe is no regular file"
    long = Path(room, "long")
    with long.open("wb") as it:
        it.truncate(16 * 1024 * 1024 + 1)
    yield "a file of more than 16 MiB", ["--run-as", "4321:4321", *both(long), *daemon_of(1, 1)], 2, "has more than 16 MiB"


def asked_of_tools():
    """What is tried, the user and the group, what the file says of {name} and {uid}, and the ranges: inside, outside, count.
    OWN is the user's own id, and for groups that of the group."""
    nobody = pwd.getpwnam("nobody")
    own, other, root = (nobody.pw_uid, nobody.pw_gid), (nobody.pw_uid, nobody.pw_gid - 1), (0, 0)
    line, ten = "{name}:100000:65536\n", ["0 100000 10"]
    yield "by name", *own, line, ["0 100000 65536"]
    yield "by number", *own, "{uid}:100000:65536\n", ["5 100001 65535"]
    yield "one id more", *own, line, ["0 100000 65537"]
    yield "one id before", *own, line, ["0 99999 2"]
    yield "no line", *own, "", ten
    yield "the line of another", *own, "root:100000:65536\n", ten
    yield "two lines that adjoin", *own, "{name}:100000:10\n{name}:100010:10\n", ["0 100000 20"]
    yield "two lines with one id between", *own, "{name}:100000:10\n{name}:100011:10\n", ["0 100000 20"]
    yield "two ranges", *own, line, ["0 100000 10", "10 100500 10"]
    yield "the second range is not given", *own, line, ["0 100000 10", "10 99000 10"]
    yield "the own id and given ones", *own, line, ["0 OWN 1", "1 100000 65535"]
    yield "the own id twice", *own, line, ["0 OWN 2", "2 100000 10"]
    yield "no line feed at the end", *own, line[:-1], ten
    yield "a comment and other lines", *own, f"# {line}\n:1:1\n{line}", ten
    yield "a blank at the end", *own, line[:-1] + " \n", ten
    yield "a carriage return at the end", *own, line[:-1] + "\r\n", ten
    yield "no count", *own, "{name}:100000\n", ten
    yield "the last id that there is", *own, "{name}:4294967290:5\n", ["0 4294967290 5"]
    yield "an id more than there are", *own, "{name}:4294967290:6\n", ["0 4294967290 6"]
    yield "in another group", *other, line, ten
    yield "in another group, the own id too", *other, line, ["0 OWN 1", "1 100000 10"]
    yield "root without a line", *root, "", ten
    yield "root with a line", *root, line, ten
    yield "root with the line of another", *root, "nobody:100000:65536\n", ten


def tool_differs(program, file, uid, gid, text, ranges):
    """How a tool and the program differ on ranges; nothing where they do not."""
    name = pwd.getpwuid(uid).pw_name
    file.write_bytes(text.format(name=name, uid=uid).encode("ascii"))
    of = {"uid": [it.replace("OWN", str(uid)) for it in ranges], "gid": [it.replace("OWN", str(gid)) for it in ranges]}
    options = [f"--{kind}-map=:{it.replace(' ', ':')}:" for kind in of for it in of[kind]]
    said = run([program, "--run-as", f"{uid}:{gid}", "--subuid", str(file), "--subgid", str(file), "--", "virtiofsd", *options])[1]
    for kind, tool in TOOLS.items():
        status, wrote = run(["unshare", "-m", "sh", "-c", ASKED, "sh", str(file), str(uid), str(gid), tool, " ".join(of[kind])])
        refused = re.search(rf"--{kind}-map has ids that the user may not give|--{kind}-map reaches past the greatest id|carriage return", said)
        if status not in (0, 1) or bool(refused) != (status == 1):
            return f"{tool} ends with {status}, {wrote!r}, and here {said!r}"
    return ""


def try_tools(tally, program, room):
    file = Path(room, "ids_of_tools")
    file.touch()
    for what, *case in asked_of_tools():
        tally.see(f"as the tools: {what}", tool_differs(program, file, *case))


def try_on(tally, program, cases):
    for what, words, status, told in cases:
        found = run([program, *words])
        is_right = found[0] == status and told in found[1]
        tally.see(what, "" if is_right else f"status {found[0]}, not {status}, or without {told!r}", found[1])


def main(words):
    tally = Tally(quietly=True)
    with tempfile.TemporaryDirectory(prefix="host-") as room:
        os.chmod(room, 0o755)
        source, stand_in = Path(room, "stand_in.c"), f"{room}/virtiofsd"
        source.write_text(STAND_IN, encoding="ascii")
        cc = compiler(room, "c")
        can = Path("/proc/self/uid_map").read_text().split() == HOST.split() and run(["unshare", "--user", "true"])[0] == 0
        is_made = os.getuid() == 0 and can and cc and run([cc, str(source), "-o", stand_in])[0] == 0
        if not is_made:
            left_out("the daemons that run", "that needs root, user namespaces and a C compiler")
        has_tools = os.getuid() == 0 and can and all(map(shutil.which, (*TOOLS.values(), "setpriv")))
        if not has_tools:
            left_out("newuidmap and newgidmap", "that needs root, user namespaces and both tools, Debian's uidmap")
        for program in map(os.path.abspath, words):
            if has_tools:
                try_tools(tally, program, room)
            for part in (processes, running, files) if is_made else (files,):
                try_on(tally, program, part(room, stand_in))
    return tally.end()


if __name__ == "__main__":
    sys.exit(main(sys.argv[1:]))
