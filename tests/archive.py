#!/usr/bin/env python3
"""Builds the static library over the libraries that `rt ci` has proved and left in `crates/*/out`.

`rt ci` proves the crate of the static library, and makes no archive of it. `rt lib` makes one, but takes none of those
libraries: it would prove them all again. So the kit's compiler is called here with the words that `rt lib` calls it with.
It proves the crate itself once more, and builds nothing that it does not prove. If one of the libraries is not there,
`rt lib` has to do. The last line is 'N passed, N failed'.
"""
import os
import sys

sys.dont_write_bytecode = True
from compiling import ARCHIVE, KIT, TOP
from tally import Tally, run

NAME, SECONDS_AT_MOST = "virtiofs_map_c", 7200


def libraries():
    """What crates.txt says that the crate uses: the libraries of the repository, and those of the kit."""
    with open(f"{TOP}/crates.txt", encoding="utf-8") as lines:
        used = dict(it.split(":") for it in lines if ":" in it and not it.startswith("#"))
    named = used[f"{NAME} staticlib"].split()
    return [it for it in named if it in used], ["std", *(it for it in named if it not in used)]


def compiled(ours, kits):
    words = ["rattle", "build", "--crate-name", NAME, "src/lib.rt", "-L", f"dependency={KIT}/rlibs"]
    for it in kits:
        words += ["--extern", f"{it}={KIT}/rlibs/{it}.rlib"]
    for name, rlib in ours.items():
        words += ["--extern", f"{name}={rlib}", "-L", f"dependency={os.path.dirname(rlib)}"]
    words += ["--antt-project", f"{KIT}/rattle/logic/antt-project.json", "--logic-built", f"{KIT}/logic_built"]
    return [*words, "--links", f"{NAME}=", "--crate-type", "staticlib", "--toolchain", f"{KIT}/toolchain",
            "--backend", "llvm", "-o", ARCHIVE]


def main():
    tally, (names, kits) = Tally(), libraries()
    ours = {it: f"{TOP}/crates/{it}/out/rlib/{it}.rlib" for it in names}
    words = compiled(ours, kits) if all(map(os.path.isdir, ours.values())) else ["rt", "lib"]
    folder = os.path.dirname(os.path.dirname(ARCHIVE))
    os.makedirs(os.path.dirname(ARCHIVE), exist_ok=True)
    status, said = run(words, SECONDS_AT_MOST, cwd=folder)
    tally.see(f"the archive, by {words[0]}", status and f"status {status}", said)
    return tally.end()


if __name__ == "__main__":
    sys.exit(main())
