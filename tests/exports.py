#!/usr/bin/env python3
"""Prints the functions and structs of the tree's library, in words that are the same for each language.

    python3 tests/exports.py rattle FILE..     as a crate exports them; an allocator is no parameter in C, and a slice is two
    python3 tests/exports.py c FILE..          as C declares them
    python3 tests/exports.py rust FILE..       as a package in Rust declares them

One line is a function with the types of its parameters and its result, a struct with the names and types of its fields, or a status.
tests/bindings.sh compares the three lists.
"""
import re
import sys
from pathlib import Path

# The words for types, by language; what isn't named here is printed as it is, so that it differs from all others.
WORDS = {
    "rattle": {
        "u64": "u64", "u32": "u32", "bool": "bool", "CallResult": "result", "&mut Handle": "handle*", "&mut u64": "u64*",
        "&mut Shortage": "shortage*", "&mut Piece": "piece*", "&mut Stats": "stats*", "&mut Pair": "entry*",
        "&[Pair]": "entry const*, size", "&mut [Pair]": "entry*, size", "Opaque": "pointer",
    },
    "c": {
        "uint64_t": "u64", "uint32_t": "u32", "bool": "bool", "size_t": "size", "ist_result": "result", "void": "nothing",
        "ist_owner *": "handle*", "ist_pass *": "handle*", "ist_note *": "handle*", "void *": "handle*", "uint64_t *": "u64*",
        "ist_shortage *": "shortage*", "ist_piece *": "piece*", "ist_stats *": "stats*", "ist_entry *": "entry*",
        "const ist_entry *": "entry const*",
    },
    "rust": {
        "u64": "u64", "u32": "u32", "bool": "bool", "usize": "size", "CallResult": "result", "*mut Handle": "handle*",
        "*mut u64": "u64*", "*mut Shortage": "shortage*", "*mut Piece": "piece*", "*mut Stats": "stats*", "*mut Pair": "entry*",
        "*const Pair": "entry const*", "*mut c_void": "pointer",
    },
}
STRUCTS = {
    "CallResult": "result", "Shortage": "shortage", "Piece": "piece", "Stats": "stats", "Pair": "entry",
    "Handle": "handle",
}


def fields_of(text, kind):
    """Returns the names and types of fields or parameters."""
    found = []
    for it in re.split(r"[,;]", text):
        it = " ".join(it.split())
        if not it or it.startswith("pub ghost") or ": Global" in it:
            continue
        if kind == "c":
            name = re.search(r"(\w+)$", it)[1]
            said = it[: -len(name)].strip()
            # Two fields of one type, as `uint64_t key, value`.
            said = said or found[-1][1]
            found.append((name, said))
        else:
            name, said = re.match(r"(?:pub )?(\w+): (.+)", it).groups()
            found.append((name, said))
    return found


def word(said, kind):
    return WORDS[kind].get(said, f"?{said}")


def functions(text, kind):
    head = {
        "rattle": r'pub extern "C" fn (\w+)\(([^)]*)\)(?: -> (\w+))?',
        "c": r"(?m)^(\w+) (\w+)\(([^)]*)\);",
        "rust": r"\n    fn (ist_\w+)\(([^)]*)\)(?: -> (\w+))?;",
    }[kind]
    for it in re.findall(head, text):
        result, name, said = it if kind == "c" else (it[2], it[0], it[1])
        result = word(result, kind) if result else "nothing"
        parameters = ", ".join(word(it, kind) for _, it in fields_of("" if said == "void" else said, kind))
        yield f"{name}({parameters}) -> {result}"


def structs(text, kind):
    if kind == "c":
        found = [(name.removeprefix("ist_"), body) for body, name in re.findall(r"typedef struct \w+ \{([^}]*)\} (\w+);", text)]
    else:
        found = re.findall(r"#\[repr\(C\)\]\s*(?:#\[derive[^\]]*\]\s*)?(?:pub )?struct (\w+) \{([^}]*)\}", text)
    for name, body in found:
        if kind == "c" and name in ("owner", "pass", "note"):
            yield "handle {full: bool, at: pointer}" if " ".join(body.split()) == "bool full; void *at;" else f"handle {{{body}}}"
        elif name in STRUCTS or kind == "c":
            body = re.sub(r"pub ghost [^\n]*", "", body)
            words = ", ".join(f"{it}: {word(said, kind)}" for it, said in fields_of(body, kind))
            yield f"{STRUCTS.get(name, name)} {{{words.replace('opaque', 'at')}}}"


def statuses(text, kind):
    for name, value in re.findall({"c": r"IST_(\w+) = (\d+)"}.get(kind, r"const (\w+): u32 = (\d);"), text):
        yield f"status {name} = {value}"


def main():
    kind, *paths = sys.argv[1:]
    text = "\n".join(Path(path).read_text() for path in paths)
    text = re.sub(r"/\*.*?\*/|//[^\n]*", "", text, flags=re.S)
    print("\n".join(sorted({*functions(text, kind), *structs(text, kind), *statuses(text, kind)})))


if __name__ == "__main__":
    main()
