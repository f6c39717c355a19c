#!/usr/bin/env python3
"""Prints everything that a clause of a call's contract unfolds to: each definition once, with its comment, before those that it uses,
down to lists, maps, numbers and the other names of the kit.

    python3 tools/statement.py [--count] [--markdown] [--top TOP] CRATE::CALL CLAUSE [CRATE::CALL CLAUSE]..
    python3 tools/statement.py [--count] [--markdown] [--top TOP] --of CRATE.FILE.DEFINITION..

A clause is shown with the premises of its call (`requires`). A struct that contracts see as another value, by `impl Model`, is shown as
that value; a trait by what contracts see of it. What is shown once isn't shown again under a further clause. The last line counts the
definitions and their lines, without comments.

    --count      only the counts, one line for each clause and one for all
    --markdown   as Markdown
    --top TOP    of the repository in this folder, in place of this one
"""
import re
import sys
from dataclasses import dataclass
from pathlib import Path

sys.dont_write_bytecode = True
from sources import BINDERS, WORD, Leaf, Sources

TOP = Path(__file__).resolve().parent.parent


class Unknown(Exception):
    """What isn't in the sources."""


# ---- what an item uses


def bound_in(text):
    """Returns the names that a text binds: by λ, `let` and typed binders."""
    found = [it.partition(":")[0] for binder in BINDERS for it in binder.findall(text)]
    return {name for it in found for name in re.findall(r"[A-Za-z_][\w']*", it)}


def places_in(text, own=()):
    """Returns where the words of a text are, in order, without texts in quotes, fields' names, and what it binds itself."""
    text = re.sub(r'"(?:[^"\\]|\\.)*"|--.*|//.*', lambda it: " " * len(it[0]), text)
    bound = bound_in(text) | {*own}
    is_field = lambda it: text[: it.start()].endswith(".") or re.match(r"\s+=\s", text[it.end() :])
    return [it for it in WORD.finditer(text) if it[0].partition(".")[0] not in bound and not is_field(it)]


def references_in(sources, item, text, own=(), at=0):
    """Returns what the words of a text in an item stand for, each with where it begins and ends."""
    return [(at + it.start(), at + it.end(), sources.meaning(item, it[0])) for it in places_in(text, own)]


def in_definition(sources, item):
    """Returns what the words of a definition of specs/ stand for. A variable of a pattern stands for itself in its equation."""
    text = "\n".join(item.lines)
    heads = [it.start() for it in re.finditer(rf"(?m)^{re.escape(item.name)}(?=\s)", text) if it.start()]
    head, rules = text[: (heads + [None])[0]], zip(heads, [*heads[1:], len(text)])
    fields = re.findall(r"(?m)^  pub ([A-Za-z_][\w-]*) :", head) if head.startswith("pub record") else []
    own = {item.name, *fields, *item.constructors, *bound_in("\n".join(item.around))}
    found = references_in(sources, item, head, own)
    for begin, end in rules:
        middle = begin + re.search(r"\s=\s|$", text[begin:end]).start()
        patterns = [(it, sources.meaning(item, it[0])) for it in WORD.finditer(text, begin + len(item.name), middle)]
        found += [(it.start(), it.end(), of) for it, of in patterns if is_case(of)]
        variables = {it[0] for it, of in patterns if not is_case(of)}
        found += references_in(sources, item, text[middle + 2 : end], own | variables, middle + 2)
    return found


def is_case(it):
    """Whether what a word of a pattern stands for is a constructor, so that the word isn't a variable."""
    if isinstance(it, Leaf):
        return it.name[0].isupper() or it.name in ("true", "false", "zero", "suc")
    return it is not None and it.kind in ("definition", "enum") and bool(it.constructors)


def model_of(item):
    """Returns the `impl Model` of a struct, if it has one that names a value."""
    of = [it for it in item.unit.items if it.kind == "impl" and it.name == f"impl {item.name}" and "Model for" in it.lines[0]]
    of = [it for it in of if any(line.startswith("    ghost Value = ") for line in it.lines)]
    return of[0] if of else None


def shown(item):
    """Returns the lines in which an item is shown."""
    model = item.kind in ("struct", "enum") and model_of(item)
    if model:
        value = re.search(r"(?ms)^    ghost Value = .*?};?$", "\n".join(model.lines))
        return [f"{re.match(r'[^{;(]*', item.lines[0])[0].strip()}, as contracts see it", *value[0].split("\n")]
    if item.kind == "trait":
        text = "\n".join(item.lines)
        ghosts = re.findall(r"(?m)(?:^    //(?!/).*\n)*^    ghost \w+: \{[^}]*\};", text)
        return [it for line in [item.lines[0].rstrip(" {"), *ghosts] for it in line.split("\n")]
    return [it for it in item.lines if not it.lstrip().startswith("#[")]


def references(sources, item):
    """Returns what the words stand for in the lines in which an item is shown, each with where it begins and ends."""
    if item.kind == "definition":
        return in_definition(sources, item)
    model = item.kind in ("struct", "enum") and model_of(item)
    lines = shown(item)
    first = len(lines[0]) + 1 if model else 0
    return references_in(sources, model or item, "\n".join(lines)[first:], {item.name, *item.constructors}, first)


def used_by(sources, item):
    """Returns the items and leaves that an item uses, in order."""
    return [it for _, _, it in references(sources, item)]


# ---- statements


@dataclass
class Statement:
    """What is to be unfolded: its title, the lines that state it, and what they use."""

    title: str
    lines: list
    uses: list


def find_call(sources, path):
    """Returns the function at CRATE::CALL."""
    crate, *parts = path.split("::")
    for unit in sources.of_crate(crate):
        for item in unit.items:
            place = [it for it in (*unit.module[1:], item.owner, item.name) if it]
            if item.kind == "fn" and place[-len(parts) :] == parts and (len(parts) > 1 or not item.owner):
                return item
    raise Unknown(f"there is no function {path}")


def signature(item):
    """Returns the lines of a function before its clauses and body."""
    lines = []
    for line in item.lines:
        if re.match(r"\s*(?:requires|ensures|//)|\{$", line):
            break
        lines.append(line[:-2] if line.endswith(" {") else line)
    return lines


def of_clause(sources, path, name):
    """Returns the statement of a clause, with the premises of its call."""
    item = find_call(sources, path)
    found = [it for it in item.clauses if it.name == name and it.kind == "ensures"]
    if not found:
        raise Unknown(f"{path} has no clause {name}; it has {', '.join(it.name for it in item.clauses if it.kind == 'ensures')}")
    own = [*[it for it in item.clauses if it.kind == "requires"], found[0]]
    text = "\n".join(line for it in own for line in it.lines)
    lines = [*signature(item), *[line for it in own for line in [*[f"    {line}" for line in it.comment], *it.lines]]]
    types = types_of(item, text)
    body = re.sub(r"(?m)^\s*(?:requires|ensures)(?: \w+)? \{", "", text)
    own_names = {"self", "result", *parameters(item)}
    uses = [it for _, _, it in references_in(sources, item, body, own_names)] + [sources.meaning(item, word) for word in types]
    return Statement(f"{path}, {name}", lines, uses)


def parameters(item):
    """Returns the types of a function's parameters by their names."""
    given = " ".join(it.strip() for it in signature(item)).partition(") -> ")[0]
    return dict(re.findall(r"(?:mut )?(\w+): ((?:[^,()]|\([^)]*\))*)", given[given.index("(") :]))


def types_of(item, text):
    """Returns the words of the types of those parameters, and of the result, that a text names."""
    result = " ".join(it.strip() for it in signature(item)).partition(") -> ")[2]
    types = {**parameters(item), "result": result, "self": item.owner}
    return [word for name, it in types.items() if re.search(rf"\b{name}\b", text) for word in re.findall(r"[A-Z]\w*", it)]


def of_definition(sources, path):
    """Returns the statement of a definition by its name."""
    crate, _, rest = path.partition(".")
    module, _, name = rest.rpartition(".")
    unit = sources.units.get((crate, ("specs", *module.split("."))))
    if not unit or name not in unit.names:
        raise Unknown(f"there is no definition {path}")
    return Statement(path, [], [unit.names[name]])


class Unfolding:
    """What a statement unfolds to: the items that weren't seen, each before those that it uses; the names of the kit; and what was seen."""

    def __init__(self, sources, statement, seen):
        self.sources, self.statement, self.seen, self.before = sources, statement, seen, {*seen}
        self.items, self.leaves, self.above = [], {}, set()
        self.follow(statement.uses)

    def follow(self, uses):
        for it in reversed(uses):
            if isinstance(it, Leaf):
                self.leaves[str(it)] = it
            elif it in self.before:
                self.above.add(it.name)
            elif it is not None and it not in self.seen:
                self.seen.add(it)
                self.follow(used_by(self.sources, it))
                self.items.insert(0, it)


# ---- what is printed


def count_of(items):
    """Returns how many items there are and their lines without comments, and of these what is in specs/."""
    of = lambda items: f"{len(items)} definitions, {sum(not re.match(r' *(?:--|//)', line) for it in items for line in shown(it))} lines"
    return f"{of(items)} (in specs/: {of([it for it in items if it.kind == 'definition'])})"


def names_of_kit(leaves):
    """Returns the names of the kit, a line for each of their modules."""
    homes = {}
    for it in leaves.values():
        homes.setdefault(it.module.removeprefix("Rattle."), set()).add(it.name)
    return "\n".join(f"{home}: {' '.join(sorted(names))}" for home, names in sorted(homes.items()))


def text_of(items):
    """Returns the items with their comments, and with a line wherever the file is another one."""
    parts, last = [], None
    for it in items:
        place = f"crates/{it.unit.crate}/{it.unit.path}"
        parts += [f"---- {place}"] * (place != last) + ["\n".join([*it.comment, *shown(it)])]
        last = place
    return "\n\n".join(parts)


def printed(found, is_markdown):
    """Returns the text of what a statement unfolds to."""
    fence = (lambda kind, text: f"```{kind}\n{text}\n```") if is_markdown else (lambda kind, text: text)
    said = (lambda text: f"{text}:") if is_markdown else (lambda text: f"---- {text}")
    title, lines = found.statement.title, found.statement.lines
    parts = [f"`{title.replace(', ', '`, `')}`:" if is_markdown else title, fence("rust", "\n".join(lines))] if lines else []
    parts += [said("It unfolds to"), fence("antt", text_of(found.items))]
    if found.above:
        parts += [said("Shown above"), fence("", " ".join(sorted(found.above)))]
    return "\n\n".join([*parts, said("Names of the kit"), fence("", names_of_kit(found.leaves)), count_of(found.items)])


def statements(sources, words):
    if words[:1] == ["--of"]:
        return [of_definition(sources, it) for it in words[1:]]
    if not words or len(words) % 2:
        raise Unknown("the arguments are pairs of a call and a clause")
    return [of_clause(sources, *words[at : at + 2]) for at in range(0, len(words), 2)]


def report(sources, words, options):
    """Prints what was asked for, and at the end the count of all."""
    seen, every, asked = set(), [], statements(sources, words)
    for it in asked:
        found = Unfolding(sources, it, seen)
        every += found.items
        print(f"{it.title}: {count_of(found.items)}" if "--count" in options else printed(found, "--markdown" in options) + "\n")
    if len(asked) > 1:
        print(f"in all {count_of(every)}")


def main(words):
    options = {it for it in words if it in ("--count", "--markdown")}
    words = [it for it in words if it not in options]
    top = TOP
    if words[:1] == ["--top"] and len(words) > 1:
        top, words = Path(words[1]), words[2:]
    try:
        report(Sources(top), words, options)
    except Unknown as why:
        print(f"statement: {why}", file=sys.stderr)
        return 2
    return 0


if __name__ == "__main__":
    sys.exit(main(sys.argv[1:]))
