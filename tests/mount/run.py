#!/usr/bin/env python3
"""Mounts examples/mapped_fs.c, and checks what a guest sees through it, and what it does on the host.

usage: run.py [--sanitized]
It compiles the example over the archive that is there, with --sanitized by AddressSanitizer. It needs root, /dev/fuse,
a C compiler (CC may name it) and libfuse 3. Where one is missing, a line that begins with LEFT OUT says so.
"""
import os
import re
import shutil
import sys
import tempfile
import traceback
from pathlib import Path

sys.dont_write_bytecode = True
sys.path.insert(0, str(Path(__file__).resolve().parents[1]))
from cases import CASES, REFUSED
from compiling import C_FLAGS, INCLUDE, LINKED, SANITIZED, TOP, compiler
from files import FILE_CASES, over_the_dead
from mounts import Configuration, Mounted, outcome
from operations import OPERATION_CASES, killed
from tally import Tally, left_out, run, waited

# A command with mounts and processes of its own, which are gone when it is; and one that tries whether a program can
# serve a mount. It needs no daemon, so that a fault of the daemon is none of this.
APART = ["unshare", "--mount", "--pid", "--fork", "--kill-child", "--mount-proc"]
TRIAL = "ls /dev/fuse; exec 3<>/dev/fuse; mount -i -t fuse -o fd=3,rootmode=40000,user_id=0,group_id=0 tests /tmp"
LIMITED, ENDED = ["timeout", "--foreground", "--signal=KILL", "600"], "the end of a command"


def seen(part, *arguments):
    """What a part yields: what it looks at, what came of it, and what has to. If an exception ends it, that too."""
    try:
        yield from part(*arguments)
    except Exception:
        yield "a part comes to its end", traceback.format_exc(), None


def on_mount(room, configuration, parts):
    with Mounted(room, configuration) as mount:
        for it in parts:
            yield from seen(it, mount)
    yield "the end of the daemon", mount.ended, ("", 0)


def mounted(room):
    for it, *parts in (*OPERATION_CASES, *CASES, *FILE_CASES):
        yield from ((f"{it.name}: {what}", *rest) for what, *rest in seen(on_mount, room, it, parts))


def refused(room):
    """A configuration that is refused, and a question about the example, end it before anything is mounted."""
    for word, told in (("-h", "-o translate_uid=SPEC"), ("-V", "libfuse 3.")):
        status, said = run([f"{room}/mapped_fs", word])
        yield f"mapped_fs {word}", (status, told in said), (0, True)
    host, guest = (tempfile.mkdtemp(dir=room) for _ in range(2))
    for *given, told in REFUSED:
        status, said = run([f"{room}/mapped_fs", "-f", *Configuration("", *given).options(), host, guest], 60)
        yield told, (status, said.count("\n"), told in said or said, os.path.ismount(guest)), (1, 1, True, False)


def trying(room):
    """The commands of docs/TRYING.md, run word for word. Each has to print what is shown below it."""
    lacking = [it for it in ("cc", "setfattr", "getfattr", "setpriv", "unshare") if not shutil.which(it)]
    if lacking:
        return left_out("the commands of docs/TRYING.md", f"there is no {', '.join(lacking)}")
    page = (TOP / "docs/TRYING.md").read_text(encoding="utf-8")
    commands = re.findall(r"^```sh\n(.*?)^```\n\n(?:```text\n(.*?)^```)?", page, re.M | re.S)
    yield "the commands of the page", len(commands), 6
    script = "".join(f"{command}echo {ENDED}\n" for command, _ in commands)
    status, said = run(["sh", "-ec", script], cwd=TOP, env={**os.environ, "TMPDIR": room})
    printed = [*said.split(f"{ENDED}\n")[:-1], *[f"status {status}: {said}"] * len(commands)]
    yield from ((command.strip(), found, wanted) for (command, wanted), found in zip(commands, printed))
    yield "what is still mounted", re.findall(r"^mapped_fs .*", Path("/proc/mounts").read_text(), re.M), []
    yield "the daemon's end", waited(lambda: "/mapped_fs" not in run(["sh", "-c", "ls -l /proc/[0-9]*/exe"])[1]), True


def main(words):
    if words not in ([], ["--sanitized"]):
        return print(__doc__, end="", file=sys.stderr) or 2
    status, why, tally = 0, "", Tally(quietly=True)
    if "IS_APART" not in os.environ:
        status, why = run([*APART, "sh", "-ec", TRIAL])
        if not status:
            again = [*APART, *LIMITED, sys.executable, *sys.argv]
            os.execvpe(again[0], again, {**os.environ, "IS_APART": "yes"})
    with tempfile.TemporaryDirectory(prefix="mount-") as room:
        os.chmod(room, 0o755)
        cc = compiler(room, "c", "-DFUSE_USE_VERSION=31", "-include", "fuse3/fuse_lowlevel.h", "-lfuse3")
        if status or not cc:
            lacking = "there is no C compiler with libfuse 3 and its headers (Debian's libfuse3-dev)"
            left_out("the tests on a mount", " ".join(why.split()) if status else lacking)
            return print("0 passed, 0 failed") or 0
        # (16 bytes that libfuse 3.14 itself does not give back at its end)
        Path(room, "leaks").write_text("leak:fuse_loop_cfg_create", encoding="utf-8")
        os.environ["LSAN_OPTIONS"] = f"suppressions={room}/leaks:print_suppressions=0"
        example = [f"{TOP}/examples/mapped_fs.c", *LINKED, "-lfuse3", "-pthread", "-o", f"{room}/mapped_fs"]
        status, said = run([cc, *C_FLAGS, INCLUDE, *(SANITIZED if words else []), *example])
        tally.see("the example", f"status {status} of the compiler" if status else "", said)
        os.mkdir(files := f"{room}/files")
        # (files in memory are quick, and have room for a list of 64 KiB; not each kernel gives them all attributes)
        run(["mount", "-t", "tmpfs", "-o", "nosuid,nodev,mode=755", "tests", files])
        if outcome(os.setxattr, files, "user.tried", b""):
            run(["sh", "-c", f"umount {files} && mount --bind {files} {files}"])
        for part in (mounted, refused, over_the_dead, killed, trying) if not status else ():
            for what, found, wanted in seen(part, room):
                tally.see(what, "" if found == wanted else f"{found!s:.2000}, not {wanted!s:.2000}")
        run(["umount", "--all", "--lazy", "--types", "fuse.mapped_fs"])
        run(["umount", "--recursive", "--lazy", files])
    return tally.end()


if __name__ == "__main__":
    sys.exit(main(sys.argv[1:]))
