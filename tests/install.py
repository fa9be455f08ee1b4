#!/usr/bin/env python3
"""Checks that ./install installs what programs need, and removes it again.

It installs the builds that are there into a temporary folder. Over what is installed it compiles examples/owners.c, by
what pkg-config says, and with Cargo the program of the Rust crate's front page and the crate's documentation. What this
machine has no program for is left out, and a line says so. The last line is 'N passed, N failed'.
"""
import os
import re
import runpy
import shlex
import shutil
import sys
import tempfile
from pathlib import Path

sys.dont_write_bytecode = True
from compiling import ARCHIVE, C_FLAGS, TOP, compiler, see_example, see_run
from pages import forms_of_page, options_of_page
from tally import Tally, left_out, run

PREFIX = "/opt/virtiofs"
VERSION = re.search(r'^version = "(.+)"$', (TOP / "bindings/rust/Cargo.toml").read_text("utf-8"), re.M)[1]
# What each program is asked, and what it answers.
ASKED = {
    "virtiofs_mapcheck": ("ids map:0:1000:10 ask guest=5 host=1005", "1005\n5\n"),
    "virtiofs_mapaudit": ("--version", "virtiofs_mapaudit 3.2.3\n"),
}
COMPLETED = """source "$1"; name=${1##*/}; shift; COMP_WORDS=("$name" "$@"); COMP_CWORD=$#
"_$name" 2>/dev/null; echo "${COMPREPLY[@]}" """
# What is completed at the last of some words: these words, or those of the manual page where that says None.
COMPLETIONS = (
    ("virtiofs_mapcheck", [""], None),
    ("virtiofs_mapcheck", ["ids", "ask", ""], ["guest=", "host="]),
    ("virtiofs_mapaudit", [""], None),
    ("virtiofs_mapaudit", ["--", "virtiofsd", "--u"], ["--uid-map"]),
    ("virtiofs_mapaudit", ["--translate-uid", "=", "forb"], ["forbid-guest:"]),
)
MANIFEST = """workspace = {{}}
package = {{ name = "daemon", version = "1.0.0", edition = "2021" }}
dependencies = {{ virtiofs_map = {{ path = "{}" }} }}
"""


def install(destdir, *words, by=TOP):
    return run([sys.executable, f"{by}/install", "--prefix", PREFIX, "--destdir", destdir, *words])


def is_used(tally, below):
    """The programs and their completions."""
    for name, (words, wanted) in ASKED.items():
        see_run(tally, f"{name} answers", [f"{below}/bin/{name}", *words.split()], lambda *it, to=wanted: it == (0, to))
    for name, words, wanted in COMPLETIONS:
        page = (below / f"share/man/man1/{name}.1").read_text("utf-8")
        wanted = sorted(forms_of_page(page)) or options_of_page(page) if wanted is None else wanted
        file = f"{below}/share/bash-completion/completions/{name}"
        is_right = lambda status, said, to=wanted: (status, sorted(said.split())) == (0, to)
        see_run(tally, f"{name} {' '.join(words)}", ["bash", "-c", COMPLETED, "bash", file, *words], is_right)


def in_c(tally, room, pkg_config):
    """The example, by what pkg-config says."""
    cc = compiler(room, "c")
    if not pkg_config or not cc:
        left_out("the example in C by pkg-config", "there is no " + ("C compiler" if pkg_config else "pkg-config"))
        return
    status, said = run([pkg_config, "--cflags", "--libs", "virtiofs_map"])
    words = [cc, *C_FLAGS, f"{TOP}/examples/owners.c", *shlex.split(said), "-o", f"{room}/owners"]
    if tally.see("pkg-config", status, said) and see_run(tally, "the example in C compiles", words):
        see_example(tally, "the example in C", [f"{room}/owners"])


def in_rust(tally, room, below, pkg_config):
    """The program on the front page of the crate's documentation, and this documentation."""
    cargo, daemon, crate = shutil.which("cargo"), Path(room, "daemon"), below / "share/virtiofs_map/rust"
    if not cargo or not compiler(room, "rs"):
        left_out("the program over the Rust crate and its documentation", "there is no cargo, or no rustc that links")
        return
    (daemon / "src").mkdir(parents=True)
    program = re.search(r"^//! ```\n(.*?)^//! ```$", (crate / "lib.rs").read_text("utf-8"), re.M | re.S)[1]
    (daemon / "src/main.rs").write_text(re.sub(r"^//! ?", "", program, flags=re.M), encoding="utf-8")
    (daemon / "Cargo.toml").write_text(MANIFEST.format(crate), encoding="utf-8")
    strict = {"RUSTFLAGS": "-D warnings", "RUSTDOCFLAGS": "-D warnings", "CARGO_TARGET_DIR": f"{room}/target"}
    by_pkg_config = {it: value for it, value in {**os.environ, **strict}.items() if it != "VIRTIOFS_MAP_LIB"}
    by_nothing = {**by_pkg_config, "PKG_CONFIG": "/nowhere"}
    by_variable = {**by_nothing, "VIRTIOFS_MAP_LIB": f"{below}/lib"}
    build = [cargo, "build", "--offline"]
    for way, environment in (("VIRTIOFS_MAP_LIB", by_variable), ("pkg-config", by_pkg_config))[: 2 if pkg_config else 1]:
        if see_run(tally, f"the front page's program builds by {way}", build, cwd=daemon, env=environment):
            see_run(tally, f"the front page's program by {way}", [f"{room}/target/debug/daemon"])
    document = [cargo, "doc", "--offline", "--no-deps", "-p", "virtiofs_map"]
    see_run(tally, "cargo doc with no archive", document, cwd=daemon, env=by_nothing)
    see_run(tally, "cargo check with no archive", [cargo, "check", "--offline"], cwd=daemon, env=by_nothing)
    is_right = lambda status, said: status and "VIRTIOFS_MAP_LIB may name" in said
    see_run(tally, "a build with no archive says why", build, is_right, cwd=daemon, env=by_nothing)
    # (the archive of a build tree lacks the kit's memory, and that of another version calls that the crate makes)
    for what, archive in (("of a build tree", Path(ARCHIVE).read_bytes()), ("of no version", b"!<arch>\n")):
        (wrong := Path(room, f"wrong {what}")).mkdir()
        (wrong / "libvirtiofs_map.a").write_bytes(archive)
        is_right = lambda status, said: status and "./install puts there" in said and VERSION in said
        see_run(tally, f"a build with an archive {what} says which one it wants", build, is_right, cwd=daemon,
                env={**by_nothing, "VIRTIOFS_MAP_LIB": str(wrong)})


def virtiofsd(tally, room):
    """The steps by which examples/virtiofsd/make makes of virtiofsd one on this library."""
    made = runpy.run_path(f"{TOP}/examples/virtiofsd/make")
    fake, source = Path(room, "fake"), os.environ.get("VIRTIOFSD_SOURCE")
    for it in (*made["REPLACED"], "Cargo.toml"):
        (fake / it).parent.mkdir(parents=True, exist_ok=True)
        (fake / it).write_text("")
    for path, old, _ in (it for step in made["STEPS"] for it in made["edits"](step)):
        with open(fake / path, "a", encoding="utf-8") as it:
            it.write(old)
    see_run(tally, "make finds what its edits name", [f"{TOP}/examples/virtiofsd/make", fake, f"{room}/edited"])
    (fake / "src/server.rs").write_text("")
    is_right = lambda status, said: status == 1 and said.startswith("errno: this does not stand exactly once")
    see_run(tally, "make says what it does not find", [f"{TOP}/examples/virtiofsd/make", fake, f"{room}/none"], is_right)
    tally.see("and makes nothing", Path(room, "none").exists() and "it made a folder")
    for step in made["STEPS"] if source and shutil.which("cargo") else ():
        tree, steps = f"{room}/{step}", dict.fromkeys(("drop-in", step))
        if see_run(tally, f"virtiofsd with {step} is made", [f"{TOP}/examples/virtiofsd/make", source, tree, *steps]):
            how = {**os.environ, "CARGO_TARGET_DIR": f"{room}/virtiofsd"}
            see_run(tally, f"virtiofsd with {step} compiles", ["cargo", "check", "-q", "--offline"], cwd=tree, env=how)
    if not source:
        left_out("virtiofsd with each step compiles", "VIRTIOFSD_SOURCE names no source tree of virtiofsd 1.13.2")


def main():
    tally = Tally()
    with tempfile.TemporaryDirectory(prefix="install-") as room:
        at, below = f"{room}/at", Path(f"{room}/at{PREFIX}")
        (below / "lib").mkdir(parents=True)
        (below / "lib/theirs.a").write_text("theirs\n")
        tally.see("an install", *install(at))
        tally.see("an install over an install", *install(at))
        version = re.search(r'^version = "(.+)"$', (below / "share/virtiofs_map/rust/Cargo.toml").read_text(), re.M)[1]
        of_page, of_header, guide = f'"virtiofs_map {version}"', f"MAP_VERSION {version[0]}\n", "share/doc/virtiofs_map/ADMIN.md"
        holds = [(f"share/man/man1/{it}.1", said) for it in ASKED for said in (of_page, guide)]
        for it, said in (*holds, ("include/virtiofs_map.h", of_header), (guide, "# ")):
            tally.see(f"{said.strip()} in {it}", said not in (below / it).read_text("utf-8") and "it is not there")
        is_used(tally, below)
        pkg_config = shutil.which(os.environ.get("PKG_CONFIG") or "pkg-config")
        os.environ.update(PKG_CONFIG_PATH=f"{below}/lib/pkgconfig", PKG_CONFIG_SYSROOT_DIR=at)
        in_c(tally, room, pkg_config)
        in_rust(tally, room, below, pkg_config)
        virtiofsd(tally, room)
        tally.see("an uninstall", *install(at, "--uninstall"))
        tally.see("what others put there stays", [str(it) for it in below.rglob("*") if it.is_file()] != [f"{below}/lib/theirs.a"])
        shutil.copytree(TOP, f"{room}/bare", ignore=shutil.ignore_patterns(".git", "out"))
        status, said = install(f"{room}/none", by=f"{room}/bare")
        tally.see("what is not built is said", status != 1 or said.count("there is no ") != 3, said)
        status, said = install(f"{room}/none", "--lib", by=f"{room}/bare")
        tally.see("an archive that is not built is said", status != 1 or "./build lib makes it" not in said, said)
        (Path(room, "bare") / "crates/virtiofs_map_c/out").mkdir()
        shutil.copy(ARCHIVE, f"{room}/bare/crates/virtiofs_map_c/out")
        tally.see("the library alone", *install(f"{room}/lib", "--lib", by=f"{room}/bare"))
        found = {it.name for it in Path(f"{room}/lib").rglob("*") if it.is_file()}
        wanted = {"libvirtiofs_map.a", "virtiofs_map.h", "virtiofs_map.pc", "lib.rs", "C.md", "LICENSE"}
        tally.see("it has no program", [*wanted - found, *found & {*ASKED, *(f"{it}.1" for it in ASKED)}])
    return tally.end()


if __name__ == "__main__":
    sys.exit(main())
