"""What include/virtiofs_map.h declares, beside what the crate exports and what the Rust file says of both.

Nothing else checks one against the other: C and Rust take each declaration at its word.
"""
import re

# What a type of C is in Rust. Structs have their names in small letters alone, without the header's prefix.
OF_C = {"uint8_t": "u8", "uint16_t": "u16", "uint32_t": "u32", "size_t": "usize"}
IN_C = r"\b(?P<to>void|bool|uint32_t|size_t)\s+(?P<name>virtiofs_map_\w+)\s*\((?P<said>[^()]*)\)\s*;"
IN_RUST = r"fn\s+(?P<name>virtiofs_\w+)\s*\((?P<said>[^()]*)\)\s*(?:->\s*(?P<to>\w+))?"


def text_of(files):
    """All files as one text, without comments."""
    return re.sub(r"/\*.*?\*/|//[^\n]*", " ", "\n".join(it.read_text(encoding="utf-8") for it in files), flags=re.S)


def plain_name(name):
    return name.replace("_", "").lower()


def of_c(said):
    """The kind of an argument or a member in C: its type, and whether it leads to what may be written."""
    word = next(it for it in re.findall(r"\w+", said) if it not in ("const", "struct"))
    word = OF_C.get(word) or plain_name(word.replace("virtiofs_", ""))
    return f"{'leads to' if 'const' in said else 'writes to'} {word}" if "*" in said else word


def of_rust(said):
    """The same of Rust. A slice of bytes in an array is a text of C, and an array is its elements."""
    of_type = said.split(":", 1)[1].strip()
    word = "text" if "[&[u8]]" in of_type else plain_name(re.findall(r"\w+", of_type.split(";")[0])[-1])
    pointer = re.match(r"\*const|\*mut|&mut|&", of_type)
    return f"{'writes to' if 'mut' in pointer[0] else 'leads to'} {word}" if pointer else word


# Structs that the crate takes in the place of a slice.
LENT = {"Words": ["leads to u32", "usize"], "Bytes": ["leads to u8", "usize"], "Room": ["writes to u8", "usize"]}


def arguments_of_rust(said):
    """The arguments of C that one of Rust's comes to: none for the allocator, two for a slice, and one for an array."""
    if lent := re.search(r": (\w+)<'_>$", said):
        return LENT[lent[1]]
    return [] if said.endswith(": Global") else [of_rust(said), "usize"][: 1 + ("[" in said and ";" not in said)]


def parts_of(said, mark=","):
    return [it.strip() for it in said.split(mark) if it.strip() not in ("", "void")]


def functions(text, pattern, arguments_of):
    """The functions that a text declares, exports or imports: of each its arguments and what it answers."""
    return {
        it["name"]: [*sum(map(arguments_of, parts_of(it["said"])), []), "->", OF_C.get(it["to"], it["to"] or "void")]
        for it in re.finditer(pattern, text)
    }


def structs(text, before, mark, kind_of):
    """The structs of C, or of Rust: the kinds of their members."""
    found = re.finditer(before + r"\bstruct (?:virtiofs_)?(\w+)\s*\{([^{}]*)\}", text)
    return {plain_name(it[1]): [*map(kind_of, parts_of(it[2], mark))] for it in found}


def compared(top):
    """Each comparison by its name, with what it found."""
    header, rust = text_of([top / "include/virtiofs_map.h"]), text_of(top.glob("bindings/rust/virtiofs_map*.rs"))
    # (one struct is the library's own)
    crate = text_of([*top.glob("crates/virtiofs_map_c/src/**/*.rt"), top / "crates/virtiofs_acl/src/merges.rt"])
    declared = functions(header, IN_C, lambda it: [of_c(it)])
    codes = dict(re.findall(r"\bVIRTIOFS_(\w+)\s*=\s*(\d+)", header))
    # (what a caller asks himself, and what only the Rust file asks)
    of_others = ("virtiofs_map_version", "virtiofs_map_server_xattrlist")
    uncalled = [it for it in declared if len(re.findall(rf"\b{it}\(", header)) < 2 and it not in of_others]
    yield "the header has functions and constants", [] if declared and codes else ["it has not"]
    yield "the header calls all that it declares", uncalled
    for who, text, before in (("the crate", crate, 'extern "C" '), ("the Rust file", rust, r"\b")):
        for what, found, wanted in (
            ("functions", functions(text, before + IN_RUST, arguments_of_rust), declared),
            ("structs", structs(text, r"#\[repr\(C\)\][^{}]*?", ",", of_rust), structs(header, "", ";", of_c)),
            ("constants", dict(re.findall(r"\bpub const (\w+): u32 = (\d+);", text)), codes),
        ):
            names = {*found, *wanted} if (who, what) == ("the crate", "functions") else found
            told = ((it, f"{it} is {found.get(it)}, and in the header {wanted.get(it)}") for it in sorted(names))
            yield f"{who} has the {what} of the header", [said for it, said in told if found.get(it) != wanted.get(it)]
