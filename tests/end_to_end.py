#!/usr/bin/env python3
"""Runs programs on tables of words, and compares what they write and how they end.

usage: end_to_end.py PROGRAM.. -- TABLE..

Each row of each table is run on each program. docs/maintain/TESTS.md says what a row holds. A row that differs is
printed. The last line is 'N passed, N failed', and the exit status is 0 only if some passed and none failed.
"""
import contextlib
import itertools
import json
import os
import resource
import subprocess
import sys
import tempfile
from pathlib import Path

sys.dont_write_bytecode = True
from tally import Tally, run

SECONDS = 60
SCARCE_C = Path(__file__).resolve().parent / "scarce.c"
OUT_OF_MEMORY = b"virtiofs_mapcheck: out of memory\n", b"virtiofs_mapaudit: out of memory\n"
# How a shell starts a program whose standard output is not kept.
STARTS = {"full": 'exec "$@" >/dev/full', "closed": 'exec "$@" >&-'}


def texts_of(parts):
    """The texts that parts of a row stand for: a text itself, the copies that an object asks for, or the one text that
    the parts of a list make."""
    for part in parts:
        if isinstance(part, str):
            yield part
        elif isinstance(part, list):
            yield "".join(texts_of(part))
        else:
            for copy in range(part["copies"]):
                yield part["text"].format(*(first + copy * step for first, step in part.get("numbers", [])))


def is_wanted_output(row, output):
    if "json" in row:
        with contextlib.suppress(ValueError):
            return json.loads(output) == row["json"] and output.endswith(b"\n")
        return False
    if "output_has" in row:
        return all(part.encode() in output for part in row["output_has"])
    return output == "".join(texts_of([row["output"]])).encode()


def is_wanted_error(row, errors):
    """Whether standard error is what the row says. If it says nothing, status 2 needs some text, status 3 the line on
    memory, and others none."""
    if "errors_begin" in row:
        return errors.startswith(row["errors_begin"].encode())
    if "errors" in row:
        return errors == row["errors"].encode()
    if row["status"] == 3:
        return errors in OUT_OF_MEMORY
    return bool(errors) == (row["status"] == 2)


def scarce(room):
    """What scarce.c is compiled to, which is preloaded."""
    made = f"{room}/scarce.so"
    if not os.path.exists(made):
        status, said = run([os.environ.get("CC", "cc"), "-shared", "-fPIC", "-O2", SCARCE_C, "-o", made])
        if status:
            raise OSError(f"scarce.c does not compile: {said}")
    return made


def start(program, row, **how):
    # (a byte that is no UTF-8 stands in a row as the character that Python gives it)
    words = [program, *(it.encode("utf-8", "surrogateescape") for it in texts_of(row["words"]))]
    if "stdout" in row:
        words = ["sh", "-c", STARTS[row["stdout"]], "sh", *words]
    limit = (row.get("memory", -1),) * 2
    how.update(stdin=subprocess.DEVNULL, preexec_fn=lambda: resource.setrlimit(resource.RLIMIT_AS, limit))
    return subprocess.run(words, capture_output=True, timeout=SECONDS, **how)


def compared(row, ended, took=0):
    seen = (
        ("status", ended.returncode, ended.returncode == row["status"]),
        ("output", ended.stdout, is_wanted_output(row, ended.stdout)),
        ("standard error", ended.stderr, is_wanted_error(row, ended.stderr)),
        ("seconds of processor time", took, took <= row.get("seconds", took)),
    )
    return "; ".join(f"{what} {it!r:.400}" for what, it, is_wanted in seen if not is_wanted)


def refused_in_turn(program, row, room):
    """Refuses each request for memory in turn, until a run meets no refusal. Each run says that memory ran out and writes
    nothing else, or ends as the row says."""
    without = {"words": row["words"], "status": 3, "output": ""}
    for request in itertools.count(1):
        with tempfile.TemporaryFile() as told:
            to = {"LD_PRELOAD": scarce(room), "REFUSED": str(request), "TOLD": str(told.fileno())}
            ended = start(program, row, env={**os.environ, **to}, pass_fds=(told.fileno(),))
            was_refused = os.fstat(told.fileno()).st_size > 0
        found = compared(row, ended)
        if not was_refused:
            return found or request == 1 and "it asks for no memory"
        if found and compared(without, ended):
            return f"request {request} is refused: {found}"


def run_once(program, row, room):
    how = {}
    if "writes" in row:
        most, failing = map(str, row["writes"])
        how["env"] = {**os.environ, "LD_PRELOAD": scarce(room), "MOST": most, "FAILING": failing}
    before = sum(os.times()[2:4])
    ended = start(program, row, **how)
    took = sum(os.times()[2:4]) - before
    if "seconds" in row:
        print(f"{row['note']}: {took:.2f} s of processor time, by {os.path.basename(program)}")
    return compared(row, ended, took)


def differences(program, row, room):
    try:
        return (refused_in_turn if row.get("refused") else run_once)(program, row, room)
    except (OSError, subprocess.TimeoutExpired) as error:
        return f"{error!s:.400}"


def main(words):
    if "--" not in words:
        return __doc__
    at, tally = words.index("--"), Tally(quietly=True)
    with tempfile.TemporaryDirectory(prefix="tables-") as room:
        for table in words[at + 1 :]:
            with open(table, encoding="utf-8") as lines:
                for number, line in enumerate(lines, 1):
                    for program in map(os.path.abspath, words[:at]):
                        where = f"{os.path.basename(table)}:{number} by {os.path.basename(program)}"
                        tally.see(where, differences(program, json.loads(line), room), line)
    return tally.end()


if __name__ == "__main__":
    sys.exit(main(sys.argv[1:]))
