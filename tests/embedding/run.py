#!/usr/bin/env python3
"""Runs tests of the static library in C and in Rust, and sees that its header declares what it exports.

It takes the archive that is there, and compiles and runs the files beside this one and the examples with it;
docs/maintain/TESTS.md says what each shows. CC, CXX and RUSTC may name the compilers. The files that have no compiler are
left out, and a line says so. The last line is 'N passed, N failed'.
"""
import os
import re
import sys
import tempfile
from pathlib import Path

sys.dont_write_bytecode = True
sys.path.insert(0, str(Path(__file__).resolve().parents[1]))
from compiling import ARCHIVE, C_FLAGS, INCLUDE, LINKED, SANITIZED, TOP, compiler, see_example, see_run
from declared import compared
from shown import shown
from tally import Tally, left_out, run

TESTS, SECONDS_AT_MOST = f"{TOP}/tests", 7200


def counts(tally, name, words):
    tally.add(name, *run(words))


def answers_tables(tally, name, words):
    """Asks the rows for which it can stand in for the program: their words are UTF-8, it ends by itself, and has memory."""
    lines = [it for table in ("program", "upstream_sample") for it in open(f"{TESTS}/{table}.jsonl", encoding="utf-8")]
    is_left_out = re.compile(r'\\udc[89a-f]|"(stdout|memory|writes)":|"status": [34]').search
    table = Path(f"{words[0]}.jsonl")
    table.write_text("".join(it.replace(', "refused": true', "") for it in lines if not is_left_out(it)), encoding="utf-8")
    tally.add(name, *run([sys.executable, f"{TESTS}/end_to_end.py", *words, "--", table], SECONDS_AT_MOST))


# What the run of each file has to do.
TESTS_C = dict.fromkeys(("ids.c", "names.c", "values.c", "ids_audits.c", "sentences.c", "start.c"), counts)
TESTS_RS = dict.fromkeys(("ids.rs", "names.rs", "values.rs", "ids_audits.rs", "start.rs"), counts)
IN_C = {**TESTS_C, **dict.fromkeys(("refused.c", "pages.c", "changed.c", "large.c"), counts),
        "mapcheck.c": answers_tables, "../../examples/owners.c": see_example}
# (a leak on purpose: if it were not found out, the other runs under the sanitizer would show nothing of leaks)
SANITIZED_C = {**TESTS_C, "leak.c": lambda *it: see_run(*it, lambda status, said: status and "detected memory leaks" in said)}
IN_RUST = {**TESTS_RS, "refused.rs": counts, "calls.rs": see_run, "../../examples/owners.rs": see_example,
           "../../examples/ask.rs": see_run, "../../examples/build.rs": see_run}
TOLD = (0, "xattrmap 0: rule 1: invalid scope 'all\\x1b', expected one of: all, client, server\n")
ASKED = (0, "guest user 1000 is host user 101000\n")
DAEMON = {"daemon.c": lambda *it: see_run(*it, lambda *ended: ended == TOLD),
          "../../examples/ask.c": lambda *it: see_run(*it, lambda *ended: ended == ASKED)}
# (a NULL that the header hands to a symbol of the archive ends the program)
NO_NULL = ["-fsanitize=nonnull-attribute", "-fsanitize-undefined-trap-on-error"]
STRICT = ["-Wall", "-Wextra", "-pedantic", "-Wconversion", "-Wcast-qual", "-Werror", INCLUDE]
WRAPPED = "-Wl,--wrap=malloc,--wrap=realloc"
FLAGS = {"refused.c": [WRAPPED], "refused.rs": ["-C", f"link-arg={WRAPPED}"], **dict.fromkeys(TESTS_RS, ["--test"])}


def over_archive(tally, room):
    c, cxx, rust, sanitizing = (compiler(room, *it) for it in (["c"], ["cc"], ["rs"], ["c", *SANITIZED]))
    flags, end, in_rust = [*C_FLAGS, INCLUDE], [*LINKED, "-pthread"], [rust, "-O", "-D", "warnings"]
    for it in LINKED:
        in_rust += ["-L", f"native={os.path.dirname(it)}", "-l", f"static={Path(it).stem[len('lib'):]}"]
    by_sanitizing = ["-C", "debug-assertions", "-C", f"linker={sanitizing}", "-C", f"link-arg={SANITIZED[0]}"]
    for how, files, before, after, *compilers in (
        ("", IN_C, [c, *flags], end, c),
        ("", DAEMON, [c, "-std=c99", *STRICT], end, c),
        *((f" in C++{it}", DAEMON, [cxx, f"-std=c++{it}", *STRICT, "-x", "c++"], ["-x", "none", *end], cxx)
          for it in (11, 17)),
        *((f" in edition {it}", dict.fromkeys(("values.rs", "ids_audits.rs", "start.rs"), counts),
           [*in_rust, f"--edition={it}"], [], rust) for it in (2015, 2018, 2024)),
        ("", IN_RUST, [*in_rust, "--edition=2021"], [], rust),
        (" under AddressSanitizer", SANITIZED_C, [sanitizing, *flags, *SANITIZED, *NO_NULL], end, sanitizing),
        # (what rustc compiles is not instrumented; each request for memory goes by the sanitizer all the same)
        (" under AddressSanitizer", TESTS_RS, [*in_rust, "--edition=2021", *by_sanitizing], [], rust, sanitizing),
    ):
        if None in compilers:
            left_out(f"{', '.join(files)}{how}", "no compiler for that works here")
            continue
        for file, does in files.items():
            name, program = f"{Path(file).name}{how}", f"{room}/{Path(file).stem}"
            status, said = run([*before, *FLAGS.get(file, []), f"{TESTS}/embedding/{file}", *after, "-o", program])
            if tally.see(f"{name} compiles", status and f"status {status}", said):
                does(tally, name, [program])


def main():
    os.environ["ASAN_OPTIONS"] = "detect_leaks=1"
    tally = Tally()
    with tempfile.TemporaryDirectory(prefix="embedding-") as room:
        for name, found in [*compared(TOP), *shown(TOP)]:
            tally.see(name, "\n".join(found))
        if tally.see("the archive", not os.path.isfile(ARCHIVE) and "there is none: ./build makes it"):
            over_archive(tally, room)
    return tally.end()


if __name__ == "__main__":
    sys.exit(main())
