"""Starts commands that end when this process ends, however it ends, and says what each took.

Every command is a process group of its own, with a shell in it that waits at a pipe which only this process holds open.
Once this process is gone, by Ctrl-C, by `kill` or by `kill -9`, the pipe closes and the shell kills its group.
"""
import contextlib
import os
import shutil
import signal
import subprocess
import sys
import tempfile
import threading
import time
from collections import namedtuple

WAITED_AT, HELD = os.pipe()
ENDING = threading.Event()
# (to the kernel's scheduler a session is one group, outside of which the niceness of a process counts for nothing)
GUARDED = '{ nice >/proc/self/autogroup; } 2>/dev/null; exec 3<&0 </dev/null; (read -r _ <&3; kill -9 0) >/dev/null 2>&1 & exec "$@" 3<&-'


# How a command ended: its status (negative for a signal), what it said, and its processor time in seconds.
Ended = namedtuple("Ended", "status said processor")


def run(words, folder=None, hear=None, **environment):
    """Runs a command to its end. Each line that it says is handed to `hear` as it comes."""
    how = {"stdin": WAITED_AT, "stdout": subprocess.PIPE, "stderr": subprocess.STDOUT, "start_new_session": True}
    how.update(cwd=folder, env={**os.environ, **environment}, encoding="utf-8", errors="replace")
    started = subprocess.Popen(["sh", "-c", GUARDED, "sh", *words], **how)
    said = []
    try:
        for line in started.stdout:
            said.append(line)
            if hear:
                hear(line.rstrip("\n"))
        _, status, used = os.wait4(started.pid, 0)
    finally:
        with contextlib.suppress(OSError):
            os.killpg(started.pid, signal.SIGKILL)
    if ENDING.is_set():
        # (a signal ended the command, and is about to end this process: nobody is told of it)
        threading.Event().wait()
    started.returncode = -os.WTERMSIG(status) if os.WIFSIGNALED(status) else os.WEXITSTATUS(status)
    return Ended(started.returncode, "".join(said), used.ru_utime + used.ru_stime)


def made_room(name):
    """Makes a folder for all temporary files of this process and of its commands. It goes when the process ends, also by
    a signal, at which the commands end too."""
    room = tempfile.mkdtemp(prefix=f"{name}-")
    # (the programs that rt runs as nobody lie in it)
    os.chmod(room, 0o711)
    os.environ["TMPDIR"] = tempfile.tempdir = room
    owner = os.getpid()

    def end(number, _):
        ENDING.set()
        if os.getpid() == owner:
            os.close(HELD)
            time.sleep(1)
            shutil.rmtree(room, ignore_errors=True)
        os._exit(128 + number)

    for it in (signal.SIGINT, signal.SIGTERM, signal.SIGHUP):
        if signal.getsignal(it) is not signal.SIG_IGN:
            signal.signal(it, end)
    return room


def cores():
    return len(os.sched_getaffinity(0))


def shown(seconds):
    return f"{int(seconds) // 60} min {int(seconds) % 60:02} s"


def say(text):
    # (in one call, so that lines of two threads do not mix)
    sys.stdout.write(f"{text}\n")
    sys.stdout.flush()
