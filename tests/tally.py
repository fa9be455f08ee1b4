"""What a part of the tests counts and says. Its last line is 'N passed, N failed'."""
import re
import subprocess
import threading
import time

SHOWN_AT_MOST, LONGEST = 20, 3000


class Tally:
    """What passed and what failed. Threads may share one. With `quietly`, what passed has no line of its own, and after
    some failures the next ones have none either."""

    def __init__(self, quietly=False):
        self.passed, self.failed, self.quietly, self.lock = 0, 0, quietly, threading.Lock()

    def see(self, name, found, said=""):
        """Counts one thing that was looked at: it passed if nothing was found. Returns whether it passed."""
        with self.lock:
            self.passed, self.failed = self.passed + (not found), self.failed + bool(found)
            if found and (self.failed <= SHOWN_AT_MOST or not self.quietly):
                print(f"FAILED {name}: {found}\n{said[-LONGEST:]}".rstrip(), flush=True)
            elif not found and not self.quietly:
                print(f"{name}: as it must be", flush=True)
        return not found

    def add(self, name, status, said):
        """Counts what a program of tests counted."""
        counted = re.search(r"(?:\A|\n)(?:test result: \w+\. )?(\d+) passed[,;] (\d+) failed[^\n]*\n*\Z", said)
        if not counted or not int(counted[1]) + int(counted[2]) or (status and not int(counted[2])):
            self.see(name, f"status {status}, and no count", said)
            return
        passed, failed = map(int, counted.groups())
        self.passed, self.failed = self.passed + passed, self.failed + failed
        lines = "\n".join(line for line in said.splitlines() if "FAILED" in line or "panicked" in line)
        print(f"{name}: {passed} passed, {failed} failed\n{lines[-LONGEST:]}".rstrip(), flush=True)

    def end(self):
        """Prints the last line. Returns the exit status: 0 if something passed and nothing failed."""
        print(f"{self.passed} passed, {self.failed} failed")
        return 1 if self.failed or not self.passed else 0


def left_out(what, why):
    print(f"LEFT OUT: {what}: {why}", flush=True)


def run(words, seconds=600, **how):
    """The status of a command, and what it wrote to both outputs."""
    to = {"stdin": subprocess.DEVNULL, "stdout": subprocess.PIPE, "stderr": subprocess.STDOUT}
    try:
        ended = subprocess.run(words, timeout=seconds, **to, **how)
    except (OSError, subprocess.TimeoutExpired) as error:
        return 1, str(error)
    return ended.returncode, ended.stdout.decode("utf-8", "replace")


def waited(holds, seconds=60):
    """Waits until a condition holds, or time is up. Returns whether it holds."""
    until = time.monotonic() + seconds
    while not (it := holds()) and time.monotonic() < until:
        time.sleep(0.001)
    return it
