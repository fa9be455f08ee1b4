"""Sees that the code which pages show is code that is compiled, and that the header has the names that they name."""
import re
from textwrap import dedent

PAGES = {"C.md": ("c", "examples/*.c"), "RUST.md": ("rust", "examples/*.rs", "tests/embedding/calls.rs"),
         "RATTLE.md": ("rust", "crates/virtiofs_map_callers/src/*.rt")}
OF_C = re.compile(r"\bvirtiofs_(?!map\b|mapcheck|mapaudit|map_c|acl\b|id_audit\b)\w*[a-z0-9]\b(?!\.rs)|\bVIRTIOFS_\w+")


def blocks(page, kind):
    return re.findall(rf"^```{kind}\n(.*?)^```$", page, re.M | re.S)


def runs_of_lines(text, count):
    """Each run of so many lines of a file, without the blanks that all of them begin with."""
    lines = text.splitlines(keepends=True)
    return (dedent("".join(lines[at:at + count])) for at in range(len(lines) - count + 1))


def stands(block, files):
    return any(block in runs_of_lines(text, block.count("\n")) for text in files)


def shown(top):
    """What to see, and what is wrong with it."""
    pages = {it: (top / "docs" / it).read_text("utf-8") for it in PAGES}
    for name, (kind, *globs) in PAGES.items():
        files = [it.read_text("utf-8") for one in globs for it in sorted(top.glob(one))]
        found = blocks(pages[name], kind)
        wrong = [it for it in found if not stands(it, files)]
        yield f"the code of {name} is compiled", wrong if found else ["it has none"]
    header = (top / "include/virtiofs_map.h").read_text("utf-8")
    plain = re.sub(r"^ \* ?", "", header, flags=re.M)
    crate = re.sub(r"^//! ?", "", (top / "bindings/rust/lib.rs").read_text("utf-8"), flags=re.M)
    for whose, name, text in (("header", "C.md", plain), ("crate", "RUST.md", crate)):
        program = blocks(pages[name], PAGES[name][0])[0]
        yield f"the {whose}'s program", [] if stands(program, [text]) else [f"it is not the first of {name}"]
    declared = set(re.findall(r"\w+", re.sub(r"/\*.*?\*/", "", header, flags=re.S)))
    wrong = {it for page in pages.values() for it in OF_C.findall(page)} - declared - {"VIRTIOFS_MAP_LIB"}
    yield "names of the header", sorted(wrong)
