#!/usr/bin/env python3
"""Applies the options that virtiofs_mapaudit advises, and sees that less is found with them and that guests can do no more.

usage: advice_by_trial.py PROGRAM..

Guests are made at random from a fixed seed; docs/maintain/TESTS.md says what is compared. The last line is 'N passed, N
failed'.
"""
import json
import os
import random
import re
import subprocess
import sys
from concurrent.futures import ThreadPoolExecutor

sys.dont_write_bytecode = True
from tally import Tally

SEED, TRIALS, SECONDS = 58, 3000, 60
LOW, HIGH = list(range(0, 12)), [4294967290, 4294967293, 4294967294]
OF_IDS = ("not_back", "lacking", "kept")
KINDS = (*OF_IDS, "root", "posix_acl", "acl_untranslated", "no_rule", "idle_rule")
SCOPES, TYPES = ("client", "server", "all"), ("ok", "bad", "prefix", "unsupported")
PIECES = ("", "", "user.", "user.a.", "trusted.", "security.", "system.", "u", "it's ", "é", "\x01")


def specification(random):
    first, to, count = random.choice(LOW + HIGH), random.choice(LOW + HIGH + [4294967295]), random.choice((1, 1, 2, 3, 5, 9, 4294967295))
    word = random.choice(("map", "map", "guest", "host", "squash-guest", "squash-host", "forbid-guest"))
    return f"{word}:{first}:{count}" if word == "forbid-guest" else f"{word}:{first}:{to}:{count}"


def rule(random):
    key, prepend = (random.choice(PIECES) + random.choice(("", "", "x", "y.")) for _ in range(2))
    return f"/{random.choice(TYPES)}/{random.choice(SCOPES)}/{key}/{prepend}/"


def guest(random):
    """The words of a guest at random."""
    for option in ("--translate-uid", "--translate-gid"):
        for _ in range(random.choice((0, 0, 1, 1, 2, 3))):
            yield from (option, specification(random))
    for option in ("--uid-map", "--gid-map"):
        for _ in range(random.choice((0, 0, 0, 1, 2))):
            yield from (option, f":{random.choice(LOW)}:{random.choice(LOW)}:{random.choice((0, 1, 4, 9, 65536))}:")
    if random.random() < 0.5:
        last = random.choice((["/map//user.g./"], ["/map/system./user.v./"], ["/map/user./v./"], [rule(random)], ["/bad/all///"], ["/ok/all///"]))
        yield from ("--xattrmap", " ".join([rule(random) for _ in range(random.choice((0, 1, 2, 3)))] + last))
    yield from random.choice(([],) * 5 + (["--xattr"], ["--xattr"], ["-o", "xattr"], ["--posix-acl"], ["--posix-acl"], ["-o", "posix_acl"]))


def command_lines(guests):
    """The words for guests: the command line of a daemon for each."""
    return [word for one in guests for word in ("--", "virtiofsd", *one)]


def guests(random):
    """The words of one to three guests, of which some have the same options. Half of the time some kinds of findings are
    accepted, or it is said who starts the daemons."""
    made = [list(guest(random))]
    for _ in range(random.choice((0, 0, 1, 2))):
        made.append(random.choice(made) if random.random() < 0.3 else list(guest(random)))
    own = [f"--accept={kind}" for kind in random.sample(KINDS, random.choice((0, 0, 1, 2)))]
    own += random.choice(([], [], ["--run-as=0:0"], ["--run-as=1000:1000", "--subuid=/dev/null", "--subgid=/dev/null"]))
    return [*own, *command_lines(made)]


def guests_in(words):
    """The words of each guest."""
    ends = [place for place, word in enumerate(words) if word == "--"] + [len(words)]
    return [words[first + 2 : last] for first, last in zip(ends, ends[1:])]


def answer(program, words):
    ended = subprocess.run([program, *words], capture_output=True, timeout=SECONDS)
    return ended.returncode, ended.stdout.decode()


def as_shell_reads(lines):
    """The words of lines, as a shell reads them."""
    ended = subprocess.run(["bash", "-c", f"printf '%s\\0' {' '.join(lines)}"], capture_output=True, check=True)
    return ended.stdout.decode().split("\0")[:-1] if lines else []


def kinds(findings):
    """What kinds are found, and of which guests. It makes a difference which guest sets a name, and whose ids they are."""
    return {(it["kind"], it.get("ids"), it.get("guest"), tuple(it.get("guests", ()))) for it in findings}


def ids_of(finding):
    """The ids of a finding, as pairs of whose they are and a span."""
    of_both = [(kind, it) for kind in ("users", "groups") for it in ((finding.get(kind) or {}).get("spans") or ())]
    return [(kind, it["first"], it["last"]) for kind, it in [*((finding.get("ids"), it) for it in finding.get("spans") or ()), *of_both]]


def are_within(left, found):
    """Whether each finding that is left has only ids that one like it had before."""
    had = {key: [ids for it in found if kinds([it]) == {key} for ids in ids_of(it)] for key in kinds(found)}
    lie_in = lambda ids, others: any(ids[0] == kind and first <= ids[1] and ids[2] <= last for kind, first, last in others)
    return all(lie_in(ids, had[key]) for it in left for key in kinds([it]) for ids in ids_of(it))


def values(option, words):
    return [value for name, value in zip(words, words[1:]) if name == option]


def becomes(specs, to_host, number):
    """What specifications make of an id: None where they forbid it."""
    for spec in specs:
        word, first, *rest = spec.split(":")
        first, to, count = int(first), int(rest[0]), int(rest[-1])
        if word == "map" and not to_host:
            first, to = to, first
        acts = {"map": True, "guest": to_host, "squash-guest": to_host, "forbid-guest": to_host}.get(word, not to_host)
        if acts and first <= number < first + count:
            return None if word == "forbid-guest" else to if word.startswith("squash") else to + number - first
    return number


def edges(specs):
    """The ids at the boundaries of specifications, and one beside each."""
    ends = [int(it) for spec in specs for it in spec.split(":")[1:-1]]
    ends += [it + int(spec.split(":")[-1]) for spec in specs for it in map(int, spec.split(":")[1:-1])]
    return {it for end in [0, 4294967294, *ends] for it in (end - 1, end, end + 1) if 0 <= it < 4294967295}


def rules_of(text):
    """The rules of a text, as (type, scope, key, prepend)."""
    rest, rules = text.strip(" \t\n\f\r"), []
    while rest:
        word, rest = rest[1:].split(rest[0], 1)[0], rest
        fields = rest[1:].split(rest[0], 4 if word != "map" else 3)
        rest = fields.pop().strip(" \t\n\f\r")
        if word != "map":
            rules.append(tuple(fields))
        elif fields[1]:
            rules += [("prefix", "all", *fields[1:]), ("bad", "all", fields[2], fields[1]), ("ok", "all", "", "")]
        else:
            rules += [("prefix", "all", "", fields[2]), ("bad", "all", "", "")]
    return rules


def decided(rules, side, name):
    """What rules make of a name of a side; None where none decides it."""
    for kind, scope, key, prepend in rules:
        if scope in ("all", side) and name.startswith(key if side == "client" else prepend):
            passed = {"ok": name, "prefix": prepend + name if side == "client" else name[len(prepend):]}.get(kind)
            return ("denied" if side == "server" else kind.replace("bad", "denied")) if passed is None else ("passes", passed)
    return None


def has_acl(words):
    return "--posix-acl" in words or "posix_acl" in values("-o", words)


def has_xattrs(words):
    return has_acl(words) or "--xattr" in words or "xattr" in values("-o", words) or "--xattrmap" in words


def opened(given, other):
    """What other options of a guest allow that the given ones do not, by a reading of both."""
    for option in ("--uid-map", "--gid-map"):
        if values(option, given) != values(option, other):
            return f"other values of {option}"
    if has_acl(other) and not has_acl(given):
        return "ACLs"
    if has_xattrs(other) != has_xattrs(given):
        return "xattrs"
    for option in ("--translate-uid", "--translate-gid"):
        before, after = values(option, given), values(option, other)
        for it in edges([*before, *after]):
            if becomes(after, True, it) not in (None, becomes(before, True, it)) or becomes(after, False, it) != becomes(before, False, it):
                return f"{option}: {it}"
    before, after = (rules_of("".join(values("--xattrmap", it)[-1:])) for it in (given, other))
    if not before:
        return "rules" if after else ""
    parts = sorted({it for rule in before for it in rule[2:]} | set(PIECES))
    for name in {one + two + more for one in parts for two in parts for more in ("", "z")}:
        for side in ("client", "server"):
            was, is_now = decided(before, side, name), decided(after, side, name)
            if is_now != was and (was is not None or is_now != "denied"):
                return f"{side} {name!r}: {was}, now {is_now}"
    return ""


def as_mend_says(text):
    """The options of each guest: a line for each option, and a line `--` between two guests."""
    return [as_shell_reads(lines.split("\n")[:-1]) for lines in re.split(r"^--\n", text, flags=re.M)]


def fault(program, words):
    """What is wrong with what a program advises for these words."""
    status, told = answer(program, ["--json", *words])
    told, (_, text), (mend_status, mend) = json.loads(told), answer(program, words), answer(program, ["--mend", *words])
    advised, lines = told["advised"], text.partition("with these options ")[2].splitlines()[1:]
    if told["refused"]:
        return "advice beside a refusal" if advised or lines or mend or status != 1 else ""
    if not advised:
        return "other options than were given" if lines or mend_status != status else ""
    options = advised["options"]
    # (guests with the same options have one line)
    shown = [as_shell_reads([it.partition(":")[2]] if it.partition(":")[2] else []) for it in lines if it.startswith("  guest")]
    alike = [one for place, one in enumerate(options) if one not in options[:place]]
    mended = as_mend_says(mend)
    if shown != alike or mended != options:
        return f"text, JSON and --mend differ: {shown}, {options}, {mended}"
    after_status, after = answer(program, ["--json", *words[: words.index("--")], *command_lines(options)])
    after, before, left = json.loads(after), kinds(told["findings"]), kinds(advised["findings"])
    counting = [it for it in told["findings"] if not it["accepted"]]
    wanted = 0 if all(it["accepted"] for it in advised["findings"]) else 5
    if after["refused"] or after["findings"] != advised["findings"] or {after_status, mend_status} != {wanted}:
        return f"applied, they give {after}"
    if not left <= before or not are_within(advised["findings"], told["findings"]):
        return f"more is found: {advised['findings']} after {told['findings']}"
    if kinds(counting) <= left and are_within(counting, advised["findings"]):
        return f"not less is found: {left} after {before}"
    for one, other in zip(guests_in(words), options):
        if more := opened(one, other):
            return f"opened: {more}"
    at_fault = {(it["guest"], it["ids"]) for it in told["findings"] if it["kind"] == "range"}
    specs_of = lambda it: values("--translate-uid" if it["ids"] == "users" else "--translate-gid", options[it["guest"] - 1])
    maps = lambda it: any(spec.split(":")[0] in ("map", "guest", "squash-guest") and spec.split(":")[-1] != "0" for spec in specs_of(it))
    # (to forbid ids where nothing is translated makes a finding of those that keep their number)
    ranges = lambda it: values("--uid-map" if it["ids"] == "users" else "--gid-map", options[it["guest"] - 1])
    is_free = lambda it: not specs_of(it) and any(one.split(":")[1] == one.split(":")[2] for one in ranges(it))
    kept = [number for number, one in enumerate(options, 1) if has_acl(one)]
    stay = {(it["guest"], it["ids"]) for it in told["findings"] if it["kind"] == "not_back" and it["accepted"]}
    bad = [
        it for it in advised["findings"]
        if it["kind"] in OF_IDS and not it["accepted"] and it["guest"] not in kept and (it["guest"], it["ids"]) not in at_fault
        and not (it["kind"] == "kept" and not maps(it)) and not (it["kind"] == "lacking" and is_free(it)) and not (it["kind"] == "lacking" and (it["guest"], it["ids"]) in stay)
    ]
    if bad:
        return f"ids are left: {bad}"
    counted = {(it["guest"], *ids) for it in counting if it["kind"] in OF_IDS for ids in ids_of(it)}
    for it in told["findings"]:
        for ids, first, last in ids_of(it) if it["accepted"] and it["kind"] in OF_IDS else ():
            option = "--translate-uid" if ids == "users" else "--translate-gid"
            specs = [values(option, one) for one in (guests_in(words)[it["guest"] - 1], options[it["guest"] - 1])]
            for one in (first, last):
                of_others = any(whose == (it["guest"], ids) and a <= one <= b for *whose, a, b in counted for whose in [tuple(whose)])
                was = becomes(specs[0], True, one)
                # (an id that also does not come back may be forbidden for that)
                if not of_others and was != becomes(specs[1], True, one) and (it["kind"] == "not_back" or becomes(specs[0], False, was) == one):
                    return f"{it['kind']} is accepted, and {option} {one} changes"
    return ""


def main(words):
    tally, made, programs = Tally(quietly=True), random.Random(SEED), [os.path.abspath(it) for it in words]
    asked = [(program, words) for words in [guests(made) for _ in range(TRIALS)] for program in programs]
    with ThreadPoolExecutor(len(os.sched_getaffinity(0))) as threads:
        list(threads.map(lambda it: tally.see(" ".join(it[1]), fault(*it)), asked))
    return tally.end()


if __name__ == "__main__":
    sys.exit(main(sys.argv[1:]))
