#!/usr/bin/env python3
"""Sees that programs that mix up ids, or keep a listed name longer than its list, do not compile. Nor does a library
that reads its ranges or its tries without counting the step.

caller.rt.txt is a program that must compile, or the refusals would show nothing. An edit puts 'new: TEXT' in the place
of 'old: TEXT', which stands once in the program, or in the file of the library that 'in: PATH' names. The edited line
must get 'error: NAME' first. (`rt try` tells of borrows only if the types are right, so these edits have a copy of their
own.) The sources of ranges and tries are read for new counters that are thrown away. The last line is 'N passed, N
failed'.
"""
import os
import re
import shutil
import sys
import tempfile
from concurrent.futures import ThreadPoolExecutor
from pathlib import Path

HERE = Path(__file__).resolve().parent
TOP = HERE.parent.parent
sys.dont_write_bytecode = True
sys.path.insert(0, str(HERE.parent))
from tally import Tally, run

SOURCE = TOP / "crates/virtiofs_map/src"
PROGRAM, SECONDS_AT_MOST = "crates/caller/src/main.rt", 3600
# The functions of ranges and tries that throw a count away, by their files. Their contracts promise no count.
UNCOUNTED = (
    ("soft_idmap.rt", "map_guest"),
    ("soft_idmap.rt", "map_host"),
    ("soft_idmap/image.rt", "look_up"),
    ("soft_idmap/stretches.rt", "stretch"),
    ("soft_idmap/words.rt", "becomes"),
    ("xattrmap/trie/walk.rt", "look_up"),
)
LOST = "fn find(steps: &mut Steps) {\n    read(0, &mut Steps::new());\n    let mut spare = Steps::new();\n}\n"


def lost_counters(text):
    """Each function of a source file that makes a new counter and does not add its count to another."""
    for function in re.split(r"\n(?= *(?:pub(?:\([^)]*\))? )?fn )", text):
        for line in re.findall(r"^.*\bSteps(?:::new| as )\b.*$", function, re.M):
            kept = re.fullmatch(r" *let mut (\w+) = Steps::new\(\);", line)
            added = f"steps.add(&{kept[1] if kept else 'Steps::new()'});"
            if function.count(line) != 1 or added not in (function if kept else line):
                yield re.search(r"\bfn (\w+)|\Z", function)[1]


def see_counters(tally):
    """Sees that only the functions in UNCOUNTED lose a count."""
    files = [it for of in ("soft_idmap", "xattrmap") for it in (SOURCE / f"{of}.rt", *(SOURCE / of).rglob("*.rt"))]
    found = {(str(it.relative_to(SOURCE)), name) for it in files for name in lost_counters(it.read_text("utf-8"))}
    tally.see("lost counters", found != set(UNCOUNTED) and f"they are in {sorted(found)}, and not in {UNCOUNTED}")
    tally.see("lost counters would be seen", [*lost_counters(LOST)] != ["find", "find"] and "they are not")


def lay_out(room):
    """Makes a repository with the libraries and the crate `caller`."""
    shutil.copytree(TOP, room, ignore=shutil.ignore_patterns(".git", "out"))
    (room / PROGRAM).parent.mkdir(parents=True)
    shutil.copy(HERE / "caller.rt.txt", room / PROGRAM)
    with open(room / "crates.txt", "a", encoding="utf-8") as it:
        it.write("caller: virtiofs_map\n")
    return room


def edited(tally, rooms):
    """Makes the edits, each in its room. Tells for each its name, its room, its line and the error that it must get."""
    for file in sorted(HERE.glob("*.edit")):
        said = dict(line.split(": ", 1) for line in file.read_text("utf-8").splitlines())
        path, room = said.get("in", PROGRAM), "borrows" if said["error"].startswith("borrow-") else "types"
        target = rooms[room] / path
        before, *after = target.read_text("utf-8").split(said["old"])
        if len(after) != 1:
            tally.see(file.stem, f"its old text stands {len(after)} times in {path}, and not once")
            continue
        target.write_text(before + said["new"] + after[0], "utf-8")
        yield file.stem, room, f"{path}:{before.count(chr(10)) + 1}", said["error"]


def tried(room):
    """The first error at each line that has one, what was said, and the status. A program that compiles is run."""
    folder, errors = room / "crates/caller", {}
    status, said = run(["rt", "try"], SECONDS_AT_MOST, cwd=folder)
    for path, line, name in re.findall(r"^(\S+?):(\d+):\d+: error\[([\w-]+)]", said, re.M):
        errors.setdefault(f"{os.path.relpath(folder / path, room)}:{line}", name)
    return errors, said, status


def main():
    tally = Tally()
    see_counters(tally)
    with tempfile.TemporaryDirectory(prefix="must-not-compile-") as top, ThreadPoolExecutor(2) as pool:
        # (the program that rt runs as nobody lies in it)
        os.chmod(top, 0o711)
        rooms = {it: lay_out(Path(top, it)) for it in ("caller", "types", "borrows")}
        edits = list(edited(tally, rooms))
        answers = dict(zip(rooms, pool.map(tried, rooms.values())))
    errors, said, status = answers["caller"]
    tally.see("the program without an edit compiles", errors or status and f"status {status}", said)
    for name, room, at, error in edits:
        errors, said, _ = answers[room]
        tally.see(name, errors.get(at) != error and f"errors {errors}, and not {error} at {at}", said)
    return tally.end()


if __name__ == "__main__":
    sys.exit(main())
