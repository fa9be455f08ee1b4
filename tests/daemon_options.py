#!/usr/bin/env python3
"""Compares how virtiofs_mapaudit takes words of a command line with how virtiofsd 1.13.2 took them.

usage: daemon_options.py PROGRAM..
       daemon_options.py record DAEMON

daemon_options.jsonl has a row for each list of words. `record` writes that file anew: it runs the daemon on the words of
each row, as root and as nobody, who has the host's ids 100000 to 165535, and says which options of its --help no row has. A
new row needs its words alone. It needs root, newuidmap and setpriv. A row has

  words    what stands after the folder that is shared and the socket
  takes    whether the daemon takes them: otherwise it ends at once with status 2
  option   the option whose value it refuses, if it does
  starts   as whom it starts with them
  uid_map  the ranges of users of its namespace, where it starts as nobody: inside, outside, count

Without `record`, each row is run on each program, which must take the words or say what is wrong with them as the daemon
did. The last line is 'N passed, N failed', and the exit status is 0 only if some passed and none failed.
"""
import json
import os
import re
import select
import shutil
import subprocess
import sys
import tempfile
from pathlib import Path

sys.dont_write_bytecode = True
from tally import Tally

TABLE = Path(__file__).resolve().with_suffix(".jsonl")
AS = {"root": [], "nobody": ["setpriv", "--reuid=65534", "--regid=65534", "--clear-groups"]}


def ended(daemon, user, words, folder):
    """Runs the daemon, until it ends or waits for its client: its status then is None. What it wrote, and its ranges."""
    line = [*AS[user], daemon, f"--shared-dir={folder}", f"--socket-path={folder}/socket", "--seccomp=none", *words]
    started = subprocess.Popen(line, stdin=subprocess.DEVNULL, stdout=subprocess.PIPE, stderr=subprocess.STDOUT, start_new_session=True, cwd=folder, env={"PATH": os.environ["PATH"], "RUST_LOG": "info"})
    text, ranges = b"", None
    while b"Waiting for vhost-user" not in text and select.select([started.stdout], [], [], 10)[0]:
        more = os.read(started.stdout.fileno(), 1 << 16)
        if not more:
            started.wait()
            break
        text += more
    if started.poll() is None:
        kids = Path(f"/proc/{started.pid}/task/{started.pid}/children").read_text().split() or [started.pid]
        ranges = [[int(it) for it in line.split()] for line in Path(f"/proc/{kids[0]}/uid_map").read_text().splitlines()]
        os.killpg(started.pid, 9)
        started.wait()
    return (None if ranges else started.returncode), text.decode("utf-8", "replace"), ranges


def record(daemon):
    """Writes the table."""
    if "MOUNTED" not in os.environ:
        mount = 'mount --make-rprivate / && for it in subuid subgid; do mount --bind "$0" /etc/$it; done && exec "$@"'
        with tempfile.NamedTemporaryFile("w") as ids:
            print("nobody:100000:65536", file=ids, flush=True)
            os.chmod(ids.name, 0o644)
            return subprocess.call(["unshare", "-m", "sh", "-c", mount, ids.name, sys.executable, __file__, "record", daemon], env={**os.environ, "MOUNTED": ""})
    rows = []
    with tempfile.TemporaryDirectory() as room:
        os.chmod(room, 0o755)
        daemon = shutil.copy(daemon, room)
        helped = subprocess.run([daemon, "--help"], capture_output=True, text=True, check=True).stdout
        given = [json.loads(line)["words"] for line in TABLE.read_text().splitlines()]
        tried = {word.partition("=")[0] for words in given for word in words}
        print("no row has", *sorted({*re.findall(r"--[a-z][a-z0-9-]+", helped)} - tried))
        for words in given:
            row = {"words": words}
            for user in AS:
                os.mkdir(folder := f"{room}/{user}")
                os.chmod(folder, 0o777)
                status, said, ranges = ended(daemon, user, words, folder)
                shutil.rmtree(folder)
                refused = re.search(r"nvalid(?: compat)? value '.*?' for '(?:-o )?([a-z-]+)", said) if status == 2 else None
                row |= {"takes": status != 2} | ({"option": refused[1]} if refused else {})
                row["starts"] = row.get("starts", []) + [user] * (status is None)
                row |= {"uid_map": ranges} if user == "nobody" and ranges and any("-map" in it for it in words) else {}
            rows.append(row)
    TABLE.write_text("".join(json.dumps(it, ensure_ascii=False) + "\n" for it in rows))
    print(f"{len(rows)} rows, {sum(it['takes'] for it in rows)} of them taken")
    return 0


def differences(program, row):
    line = [program, "--", "virtiofsd", "--shared-dir=/srv", "--socket-path=/run/socket", *row["words"]]
    it = subprocess.run([program, "--run-as=65534:65534", *line[1:]], capture_output=True, text=True, timeout=60)
    takes = it.returncode in (0, 5) and "unknown" not in it.stderr and "--posix-acl does not go" not in it.stdout
    if takes != row["takes"]:
        return f"the daemon {'takes' if row['takes'] else 'refuses'} it, and here status {it.returncode}: {it.stderr!r:.300}"
    if row.get("option", "") not in it.stderr:
        return f"{row['option']} is not named: {it.stderr!r:.300}"
    return takes and any("map" in it or "sandbox" in it for it in row["words"]) and starts_otherwise(line, row["starts"])


def starts_otherwise(line, starts):
    """Whether one of those who start it is told another thing than the daemon tells."""
    with tempfile.NamedTemporaryFile("w") as ids:
        print("nobody:100000:65536", file=ids, flush=True)
        for user, uid in ("root", "0"), ("nobody", "65534"):
            own = ["--run-as", uid, "--subuid", ids.name, "--subgid", ids.name]
            said = subprocess.run([line[0], *own, *line[1:]], capture_output=True, text=True, timeout=60).stdout
            told = not re.search("the daemon does not start|that the user may not give", said)
            if told != (user in starts):
                return f"started by {user} the daemon {'starts' if user in starts else 'does not start'}, and here {said!r:.300}"


def main(words):
    if len(words) == 2 and words[0] == "record":
        return record(words[1])
    tally = Tally(quietly=True)
    for program in map(os.path.abspath, words):
        for line in TABLE.read_text().splitlines():
            tally.see(f"{os.path.basename(program)}: {line}", differences(program, json.loads(line)))
    return tally.end()


if __name__ == "__main__":
    sys.exit(main(sys.argv[1:]))
