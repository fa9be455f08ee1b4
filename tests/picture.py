#!/usr/bin/env python3
"""Looks at what `virtiofs_mapaudit --svg` draws.

usage: picture.py PROGRAM..

Each drawing is XML with plain shapes and texts alone. No two texts overlap, if a character is 0.6 times as wide as the text
is high, and nothing lies outside. It ends with the same status as `--json`, and says that nothing is found if that is 0. All
ids from the guest that `--show ids` lists have labels. Each guest is named once, with its process. No option is cut in a
word. 100 ranges take less than 64 KB. docs/picture.svg is what the command in README.md writes now. The last line is
'N passed, N failed'.
"""
import json
import random
import re
import shlex
import subprocess
import sys
from pathlib import Path
from xml.etree import ElementTree

sys.dont_write_bytecode = True
from tally import Tally

TOP = Path(__file__).resolve().parent.parent
SVG, SEED, LAST = "{http://www.w3.org/2000/svg}", 59, 4294967294
TAGS = {SVG + it for it in "svg title desc defs pattern path rect g text".split()}
CASES = """-- virtiofsd
--translate-uid squash-host:10:5:100 --translate-gid host:0:4294967295:1
--translate-uid guest:0:1:4294967295 --translate-gid forbid-guest:0:4294967295
--uid-map :0:5:9: --uid-map :4:4294967290:99: --gid-map :7:7:0:
--uid-map :0:9:5: --translate-uid forbid-guest:5:4294967290 --gid-map :0:7:1: --translate-gid forbid-guest:1:4294967294
--accept root -- virtiofsd
--run-as 1000:1000 -- virtiofsd --sandbox=none
-- virtiofsd -- virtiofsd --translate-uid map:0:5:9 -- virtiofsd"""
COMMAND = re.compile(r"^virtiofs_mapaudit --svg ((?:.*\\\n)*.*) > docs/picture.svg$", re.M)


def ranges(made, count):
    """Specifications that map ranges at random."""
    guest, host = (sorted(made.sample(range(LAST), 2 * count)) for _ in "gh")
    for at, to in enumerate(made.sample(range(0, 2 * count, 2), count)):
        length = min(guest[2 * at + 1] - guest[2 * at], host[to + 1] - host[to])
        yield f"--translate-uid=map:{guest[2 * at]}:{host[to]}:{length}"


def cases():
    """What each case shows, and its words."""
    made, shown = random.Random(SEED), COMMAND.search((TOP / "README.md").read_text("utf-8"))[1]
    yield "docs/picture.svg", shlex.split(shown.replace("\\\n", ""))
    for line in CASES.splitlines():
        yield line, shlex.split(line)
    yield "single ids", [f"--translate-uid=guest:{3 * at}:{900 - 3 * at}:1" for at in range(9)]
    for count in (1, 2, 3, 4, 5, 20, 100, 1001):
        yield f"{count} ranges at random", [*ranges(made, count)]
    squashed = [f"--translate-uid=squash-guest:{2 * at}:5:1" for at in range(400)]
    yield "too many bands", [*squashed, *(f"--uid-map=:5:{at}:1:" for at in range(1000))]
    yield "refused", ["--translate-uid", "<b>&\x01", "--gid-map", "]]>"]
    yield "hostile rules", ["--xattrmap", ":prefix:all:<script>&\"']]>:<!--\x07\u202e:\n:bad:all:]]>:<b>:\n:ok:all:::"]
    yield "long rules", ["--xattrmap", ":ok:all:::" + ":bad:all:<&>:::" * 8000]
    with subprocess.Popen(["virtiofsd"], executable="/bin/cat", stdin=subprocess.PIPE) as daemon:
        yield "a process", ["--pid", str(daemon.pid)]


def points(path):
    """The points of a path."""
    x = y = 0
    for letter, numbers in re.findall(r"([A-Za-z])([^A-Za-z]*)", path):
        moved, by = [float(it) for it in numbers.split()], letter.islower()
        x = by * x + moved[0] if letter in "MLHlh" else x
        y = by * y + moved[-1] if letter in "MLVlv" else y
        yield x, y


def boxes(node, x, y, size, anchor):
    """Left, top, right and bottom of each text and what it says, and each point of a path."""
    at = re.fullmatch(r"translate\((-?\d+) (-?\d+)\)", node.get("transform", "translate(0 0)"))
    x, y = x + int(at[1]) + int(node.get("x", 0)), y + int(at[2]) + int(node.get("y", 0))
    size, anchor = int(node.get("font-size", size)), node.get("text-anchor", anchor)
    if node.tag == f"{SVG}text":
        width = 0.6 * size * len(node.text or "")
        left = x - width * {"start": 0, "middle": 0.5, "end": 1}[anchor]
        yield left, y - 0.8 * size, left + width, y + 0.2 * size, node.text
    for by_x, by_y in points(node.get("d", "")):
        yield x + by_x, y + by_y, x + by_x, y + by_y, ""
    for child in node if node.tag != f"{SVG}defs" else []:
        yield from boxes(child, x, y, size, anchor)


def ends_of(guest):
    """The first and the last id of all that ids of a guest become."""
    pieces = [it for kind in ("users", "groups") if guest[kind] for it in guest[kind]["from_guest"]]
    return {str(min(it[end], LAST)) for it in pieces for end in ("first", "last") if it["first"] <= LAST}


def numbers_in(titles, most=None):
    """The numbers of guests that each title names, or the first of them."""
    for title in titles:
        runs = re.findall(r"(\d+)(?: to (\d+))?", re.match(r"guests? ((?:\d+(?: to \d+)?(?:, | and )?)+)", title)[1])
        yield from [number for first, last in runs for number in range(int(first), int(last or first) + 1)][:most]


def wrong(text, words, guests, status):
    """What is wrong with a drawing."""
    root = ElementTree.fromstring(text)
    width, height = map(int, root.get("viewBox").split()[2:])
    drawn = list(boxes(root, 0, 0, 16, "start"))
    texts = sorted((it for it in drawn if it[4]), key=lambda it: it[1])
    shown, titles = [it[4] for it in texts], [it.findtext(f"{SVG}title") for it in root.findall(f"{SVG}g")]
    ends, given = {end for it in shown for end in it.split("–")}, " ".join(words).replace("=", " ").split()
    named = [*numbers_in(titles)]
    yield from (f"tag {it.tag}" for it in root.iter() if it.tag not in TAGS)
    yield from (f"outside: {it}" for it in drawn if min(it[:2]) < 0 or it[2] > width or it[3] > height)
    for at, one in enumerate(texts):
        yield from (f"{one} and {it}" for it in texts[at + 1:at + 40] if it[1] < one[3] and it[0] < one[2] and one[0] < it[2])
    if not any("too many" in it for it in shown):
        yield from (f"no label {end}" for guest in guests for end in ends_of(guest) - ends)
    is_each = sorted(named) == [at + 1 for at in range(len(guests))] and [*numbers_in(titles, 1)] == sorted(numbers_in(titles, 1))
    has_process = all(f", process {pid} of user" in titles[-1] for it, pid in zip(given, given[1:]) if it == "--pid")
    yield from [] if is_each and has_process and {*titles} <= {*shown} else [f"{titles} name {named}"]
    yield from ["outside of no namespace"] if "--sandbox=none" in words and "host, outside the namespace" in shown else []
    yield from ["nothing found?"] if (status == 0) != any(re.match("nothing (else )?found$", it) for it in shown) else []
    yield from (f"cut: {it}" for it in shown if re.match("--translate[^']*$", it) and not {*it.split()} <= {"..", *given})
    told = str([it.findtext(f"{SVG}desc") for it in root.findall(f"{SVG}g")]) + "--virtiofsd --accept root --pid --run-as 1000:1000"
    yield from (f"no word {it[:50]}" for it in words if re.match(r"[\w:-]{,80}\Z", it) and it not in told)
    yield from [f"{len(text)} bytes"] if len(text) >= 65536 else []


def main(programs):
    tally = Tally(quietly=True)
    for program, (name, words) in ((one, case) for one in programs for case in cases()):
        drawn, shown = (subprocess.run([program, *how, *words], stdout=subprocess.PIPE, stderr=subprocess.DEVNULL)
                    for how in (["--svg"], ["--json", "--show", "ids"]))
        found = ["another status"] if drawn.returncode != shown.returncode else []
        found += wrong(drawn.stdout, words, json.loads(shown.stdout)["guests"], drawn.returncode)
        tally.see(f"{name}, by {program.name}", found[:9])
        if name.endswith(".svg"):
            tally.see(f"{name} as it is", drawn.stdout != (TOP / name).read_bytes() and "it is drawn otherwise now")
    return tally.end()


if __name__ == "__main__":
    sys.exit(main([Path(it).resolve() for it in sys.argv[1:]]))
