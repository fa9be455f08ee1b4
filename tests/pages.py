#!/usr/bin/env python3
"""Compares what the pages show with what programs write, and sees that what they name is there.

usage: pages.py PROGRAM..

The name of a program is that of its file up to the dot, and its page is docs/NAME.1. `man` shows it without a complaint,
and it has the forms or options that each build tells. Each build runs the examples of the manual pages. In README.md and
the guides a block of `sh` or `console` before one of `text` is run at the top, by each build if it begins with a program's
name, and `text` is all that is written. With PID it is for a running daemon. The values in a block of no language stand in
a command of the page too. Links lead somewhere, and named files are there. The last line is 'N passed, N failed'.
"""
import os
import re
import shlex
import subprocess
import sys
import tempfile
from pathlib import Path

sys.dont_write_bytecode = True
from tally import Tally, left_out, run

TOP = Path(__file__).resolve().parent.parent
GUIDES = ("README.md", "docs/ADMIN.md", "docs/C.md", "docs/RUST.md", "docs/RATTLE.md")
OF_DAEMON = "--fd=3 --translate-uid map:0:100000:65536 --shared-dir=/srv --xattrmap=:map::user.virtiofs.:".split()
# A file that a page names by its path from the top, and what in a path says that it is built, or left open by the page.
NAMED = r"(?<![\w/.~$\"}-])(?:docs|tests|crates|examples|include|bindings|completions)/[\w./*-]*[\w*]"
LEFT_OPEN = re.compile(r"/out(/|$)|[A-Z]+(/|$|\.(edit|1|rt)$)")


def plain(text):
    return re.sub(r"\\f.", "", text).replace("\\-", "-").replace("\\&", "").replace("\\(aq", "'").replace("\\e", "\\")


def section(page, name):
    return re.search(rf"^\.SH {name}\n(.*?)(?=^\.SH |\Z)", page, re.M | re.S)[1]


def forms_of_page(page):
    """The first words of the program's forms; none for a program that has options alone."""
    return re.findall(r"^\.B \w+ (\w+)$", section(page, "SYNOPSIS"), re.M)


def options_in(text):
    return sorted(set(re.findall(r"--[a-z-]+", text)))


def options_of_page(page):
    return options_in(plain(section(page, "OPTIONS")))


def examples(page):
    """Each command of a manual page, with its output."""
    for block in re.findall(r"^\.EX\n(.*?)^\.EE$", section(page, "EXAMPLES"), re.M | re.S):
        for part in re.split(r"^\$ ", block.replace("\\\n", ""), flags=re.M)[1:]:
            command, output = part.split("\\fP\n", 1)
            yield plain(command), plain(output)


def commands(tally, file):
    """Each command of a page in Markdown that has an output below it, or a PID in it."""
    blocks = re.findall(r"^```(\w*)\n(.*?)^```$", (TOP / file).read_text("utf-8"), re.M | re.S)
    for (kind, text), (after, output) in zip(blocks, [*blocks[1:], ("", "")]):
        if kind in ("sh", "console") and (after == "text" or "PID" in text):
            yield text, output if after == "text" else None
        elif not kind and text.startswith("--"):
            checked = " ".join(it for kind, it in blocks if kind == "sh").split()
            tally.see(f"values of a command, {file}", [it for it in text.split() if ":" in it and it not in checked])


def differs(command, wanted, environment):
    status, output = run(["bash", "-c", command], 600, env=environment, cwd=TOP)
    finds_none = " --explain " in command or wanted.endswith(("nothing found\n", "nothing else found\n"))
    is_right = status == (0 if finds_none else 5) or not command.startswith("virtiofs_mapaudit ")
    return f"status {status}" if not is_right else output != wanted and f"{output}is not\n{wanted}"


def daemon_differs(command, environment, room):
    """What is wrong with the command for a daemon that runs."""
    wanted = run(["virtiofs_mapaudit", "--", *OF_DAEMON], env=environment)[1]
    Path(room, "virtiofsd").write_text("read -r line\n")
    with subprocess.Popen(["sh", "virtiofsd", *OF_DAEMON], cwd=room, stdin=subprocess.PIPE) as daemon:
        of_process = wanted.replace("taken as started by root (--run-as USER)", f"process {daemon.pid} of user {os.getuid()}", 1)
        found = differs(command.replace("PID", str(daemon.pid)), of_process, environment)
    return found or "users 100000 to 165535 do not round-trip" not in wanted and wanted


def lacks(name, page, environment):
    """The forms, or the options, of the page where they are not those that the program tells."""
    forms = forms_of_page(page)
    usage = run([name] if forms else [name, "--help"], env=environment)[1]
    told = re.findall(rf"{name} (\w+)", usage) if forms else options_in(usage)
    of_page = forms or options_of_page(page)
    return told != of_page and f"the page has {of_page}, and the program {told}"


def see_man(tally, name):
    """Sees that `man` shows a page. Some systems have a stand-in of that name, which does not know the options."""
    if not re.search(r"^man \d", run(["man", "--version"])[1], re.M):
        left_out(f"whether {name}.1 can be shown", "there is no man, or another one")
        return
    how = {"capture_output": True, "text": True, "env": {**os.environ, "LC_ALL": "C.UTF-8", "MANPAGER": "cat"}}
    ended = subprocess.run(["man", "--warnings", "-l", f"{TOP}/docs/{name}.1"], **how)
    tally.see(f"man shows {name}", ended.stderr or ended.returncode or name not in ended.stdout and "nothing is shown")


def see_names(tally, page):
    """Sees that the links of a page lead somewhere, and that the files that it names are there."""
    text, anchor = page.read_text("utf-8"), lambda it: re.sub(r"[^\w -]", "", it.lower()).replace(" ", "-")
    for target in re.findall(r"\]\(([^)\s]+)\)", text if page.suffix == ".md" else ""):
        file, _, part = target.partition("#")
        to = page.parent / file if file else page
        heads = map(anchor, re.findall(r"^#+ (.*)", to.read_text("utf-8"), re.M)) if part and to.is_file() else [part]
        tally.see(f"{page.name} links {target}", ":" not in target and (not to.exists() or part not in heads) and "nowhere")
    for it in set(re.findall(NAMED, plain(text))):
        tally.see(f"{page.name} names {it}", not LEFT_OPEN.search(it) and not any(TOP.glob(it)) and "it is not there")


def kinds_differ(name, page, environment):
    """The kinds of findings of the manual page and of the completion, where they are not those that `--accept` takes."""
    said = subprocess.run([name, "--accept", "?", "--posix-acl"], capture_output=True, text=True, env=environment).stderr
    told = sorted(re.findall(r"'(\w+)'", said.partition("it has ")[2]))
    of_page = sorted(re.findall(r'^\.BR (\w+) " \(guest', section(page, "JSON"), re.M))
    of_words = re.search(r"--accept\)\n(.*?);;", (TOP / f"completions/{name}.bash").read_text("utf-8"), re.S)[1]
    completed = sorted(re.findall(r"\w+", " ".join(re.findall(r'"(.*)"', of_words))))
    return not (told == of_page == completed) and f"--accept takes {told}, the page has {of_page}, the completion {completed}"


def starters_differ(page):
    """The programs that start others, where those of the manual page are not those of the table."""
    table = (TOP / "crates/virtiofs_options/src/options.rt").read_text("utf-8")
    known = sorted(set(re.findall(r'^ {4}"([\w-]+)": .* => \w+,$', table, re.M)))
    listed = re.search(r"of these cases the first counts.*?^\.RS\n(.*?)^\.RE$", section(page, "CAVEATS"), re.M | re.S)[1]
    bold = [it.split()[0] for line in re.findall(r"^\.BR? (.*)", plain(listed), re.M) for it in shlex.split(line)[::2]]
    of_page = sorted({it for it in bold if not it.startswith("-")})
    return known != of_page and f"the table has {known}, and the page {of_page}"


def see_build(tally, programs, shown, asked):
    """Runs commands with these programs, which one compiler built, first on the path."""
    with tempfile.TemporaryDirectory(prefix="path-") as room:
        environment = {**os.environ, "PATH": f"{room}:{os.environ['PATH']}"}
        for it in programs:
            os.symlink(it.absolute(), f"{room}/{it.stem}")
            tally.see(f"forms and options, by {it.name}", lacks(it.stem, shown[it.stem], environment))
            if it.stem == "virtiofs_mapaudit":
                tally.see(f"kinds, by {it.name}", kinds_differ(it.stem, shown[it.stem], environment))
        for command, wanted in asked:
            if wanted is None:
                tally.see(f"{command}, by {programs[0].name}", daemon_differs(command, environment, room))
            elif command.startswith("virtiofs_") or not programs[0].suffix:
                tally.see(f"{command}, by {programs[0].name}", differs(command, wanted, environment))


def main(words):
    tally, programs = Tally(quietly=True), [Path(it) for it in words if os.access(it, os.X_OK)]
    tally.see("programs", len(programs) != len(words) and "not all are there")
    shown = {it.stem: (TOP / f"docs/{it.stem}.1").read_text("utf-8") for it in programs}
    of_pages = {it: list(examples(page)) for it, page in shown.items()} | {it: list(commands(tally, it)) for it in GUIDES}
    tally.see("commands", [it for it, found in of_pages.items() if not found and it != "docs/RATTLE.md"])
    for page in (*TOP.glob("*.md"), *TOP.glob("docs/**/*.*")):
        see_names(tally, page)
    recipes = re.findall(r'^const \w+: &str = "(.+)";$', (TOP / "crates/virtiofs_mapaudit/src/kinds.rt").read_text("utf-8"), re.M)
    tally.see("recipes", not recipes or [it for it in recipes if f"\n## {it}\n" not in (TOP / "docs/ADMIN.md").read_text("utf-8")])
    if "virtiofs_mapaudit" in shown:
        tally.see("programs that start others", starters_differ(shown["virtiofs_mapaudit"]))
    for name in sorted({it.stem for it in programs}):
        see_man(tally, name)
    for suffix in sorted({it.suffix for it in programs}):
        see_build(tally, [it for it in programs if it.suffix == suffix], shown, sum(of_pages.values(), []))
    return tally.end()


if __name__ == "__main__":
    sys.exit(main(sys.argv[1:]))
