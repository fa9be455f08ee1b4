"""What several parts of the tests compile with: the compilers, the flags, and the archive of the static library."""
import os
import shutil
from pathlib import Path

from tally import run

TOP = Path(__file__).resolve().parents[1]
KIT = os.path.dirname(os.path.dirname(os.path.realpath(shutil.which("rt") or "rt")))
ARCHIVE = f"{TOP}/crates/virtiofs_map_c/out/libvirtiofs_map_c.a"
LINKED = [ARCHIVE, f"{KIT}/c/liblibc_c.a"]
C_FLAGS = ["-std=c99", "-Wall", "-Wextra", "-pedantic", "-Werror", "-O2"]
INCLUDE = f"-I{TOP}/include"
SANITIZED = ["-fsanitize=address", "-g"]
PROBE_C = '#include <stdbool.h>\n#include <stdio.h>\nint main(void) { return puts("") < 0; }\n'
# By the ending of files: the variable that may name their compiler, the compilers to try, and a program to try them on.
COMPILERS = {
    "c": ("CC", ["cc", "clang", "gcc", f"{KIT}/toolchain/bin/clang"], PROBE_C),
    "cc": ("CXX", ["c++", "clang++", "g++"], PROBE_C),
    "rs": ("RUSTC", ["rustc"], "fn main() {}\n"),
}


def compiler(room, ending, *flags):
    """The first compiler that makes a program which runs, or None."""
    variable, names, text = COMPILERS[ending]
    source, program = f"{room}/probe.{ending}", f"{room}/probe"
    Path(source).write_text(text, encoding="utf-8")
    for it in (os.environ.get(variable), *names):
        if it and run([it, source, *flags, "-o", program])[0] == 0 and run([program])[0] == 0:
            return it
    return None


def see_run(tally, name, words, is_right=lambda status, said: status == 0, **how):
    """Runs a command. It passes if it ends with status 0, or as `is_right` says. Returns whether it passed."""
    status, said = run(words, **how)
    return tally.see(name, "" if is_right(status, said) else f"status {status}, and this output:", said)


def see_example(tally, name, words):
    wanted = Path(f"{TOP}/examples/expected.txt").read_text(encoding="utf-8")
    see_run(tally, name, words, lambda status, said: (status, said) == (0, wanted))
