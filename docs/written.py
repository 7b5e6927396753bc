"""The pages that are written: those of docs/reference, and docs/CASES.md."""
import re
from collections import Counter
from functools import cache

from sources import NAME, SHORT, TOP, clauses_of, copied, definition_files, definitions_of, indent, named, parsed, public_calls, tracked

REFERENCE = "docs/reference"


def anchors(headings):
    """What a link names each of a page's headings by: of equal ones the later are numbered."""
    seen = Counter()
    for heading in headings:
        name = re.sub(r"[^\w\- ]", "", heading.lower()).replace(" ", "-")
        seen[name] += 1
        yield name if seen[name] == 1 else f"{name}-{seen[name] - 1}"


@cache
def places_of_definitions():
    """Where the pages of definitions explain each definition, by its crate, its file and its name."""
    places = {}
    for crate in copied():
        entries = [entry for path in definition_files(crate) if definitions_of(path)[1] for entry in [(path.stem, ""), *((path.stem, it.name) for it in definitions_of(path)[1])]]
        for (file, name), anchor in zip(entries, anchors(name or file for file, name in entries)):
            places[crate, file, name] = f"../{crate}/definitions.md#{anchor}"
    return places


def link(text, target):
    return f"[{text}]({target})"


def source(path):
    return link("Source", f"../../../{named(path)}")


def of_crate(crate):
    return f"Of {link(f'`{crate}`', f'../README.md#{crate}')}."


@cache
def definitions_at(path):
    """Where the pages explain the definitions that a file imports and, in specs/, has, by the names that they have there."""
    found = {}
    for crate, file, names in re.findall(r"use Rattle\.(\w+)\.specs\.(\w+)\.\{([^}]*)\}", path.read_text()):
        for it, name in re.findall(r"(\w+)(?: as (\w+))?", names):
            found[name or it] = (crate, file, it)
    for crate, file, name in re.findall(r"use Rattle\.(\w+)\.specs\.(\w+) as (\w+)", path.read_text()):
        found.update({f"{name}.{it}": (crate, file, it) for of, where, it in places_of_definitions() if (of, where) == (crate, file)})
    if path.suffix == ".antt":
        found.update({it.name: (path.parts[-3], path.stem, it.name) for it in definitions_of(path)[1]})
    return {name: places_of_definitions()[it] for name, it in found.items() if it in places_of_definitions()}


def cited(path, text):
    """Links to the definitions that a text of a file cites; what follows a dot is a field, unless a file goes by the name before it."""
    names = dict.fromkeys(name for names in re.findall(r"(?<![\w.])(([A-Za-z_]\w*)(?:\.[A-Za-z_]\w*)?)", text) for name in names)
    return [link(f"`{name}`", definitions_at(path)[name]) for name in names if name in definitions_at(path)]


def sentence(it):
    """The comment of a definition as a sentence. A variable of the code that it begins with stays as it is."""
    first = it.note.split(" ")[0]
    variable = first not in ("a", "the") and (len(first) == 1 or len(first) <= 3 and first in NAME.findall(" ".join(it.code)))
    return re.sub(r"(?<=[^.])$", ".", it.note if variable else it.note[:1].upper() + it.note[1:])


def definitions_page(crate):
    out = [f"# The definitions of `{crate}`", "", f"{of_crate(crate)} What its contracts say, a heading for each file of `specs/`, and below it one for each definition. {link('The guide', '../../GUIDE.md#how-to-read-a-contract')} says how a definition is read. A list is written from the front, and an index counts from 0. The name of a loan means what it ends as. Of a lemma, and of a definition of more than {SHORT} lines, the type alone is here."]
    for path in definition_files(crate):
        lead, definitions = definitions_of(path)
        if definitions:
            out += ["", f"## {path.stem}", "", f"{lead} {source(path)}"]
        for it in definitions:
            code = "\n".join(it.code)
            out += ["", f"### `{it.name}`", "", sentence(it), "", "```antt", code, "```"]
            # the name of a field may be that of a definition, too
            links = cited(path, re.sub(rf"^ *\w+ :|\b{it.name}\b", "", code, flags=re.M))
            out += ["", " · ".join(links)] if links else []
    return out


def call_entry(call, path):
    """A heading with what the call does, its contract, and where the definitions that it cites are explained."""
    code = [f"{call.around} {{", *(f"    {line}" for line in call.head)] if call.around else call.head
    parts = [f"## `{call.name}`", call.note, "\n".join(["```rust", *code, "```"])]
    says = " ".join(says for _, says in clauses_of(call))
    return "\n\n".join(["", *filter(None, parts), " · ".join([source(path), *cited(path, says)])])


def type_pages(crate):
    """The pages of a crate's types and of its functions: of each the name, where the type is, its comment, and the lines."""
    calls, notes, homes = {}, {}, {}
    files = sorted(tracked(f"crates/{crate}/src/*.rt"), key=lambda path: path.with_suffix("").parts)
    times = Counter(name for path in files for name in parsed(path)[0])
    for path in files:
        # a type that another module has too goes by its module, as a caller names it
        full = lambda name: f"{path.parent.name}::{name}" if times[name] > 1 and path.parent.name != "src" else name
        for name, note in parsed(path)[0].items():
            notes[full(name)], homes[full(name)] = note, path
        for call in public_calls(path):
            calls.setdefault(full(call.owner) or "functions", []).append((call, path))
    for name in sorted({*calls, *filter(notes.get, notes)}, key=lambda name: (name == "functions", name not in calls, name)):
        note, home = notes.get(name, f"What `{crate}` has beside its types."), homes.get(name)
        # the calls in the type's own file, and in the folder of its name, come first
        own = sorted(calls.get(name, []), key=lambda it: bool(home) and not it[1].with_suffix("").is_relative_to(home.with_suffix("")))
        _, *ends = anchors([name, *(call.name for call, _ in own)])
        contents = [" · ".join(link(f"`{call.name}`", f"#{end}") for (call, _), end in zip(own, ends))] if len(own) > 1 else []
        page = [f"# `{name}`" if home else "# Functions", "", f"{of_crate(crate)} {note}".strip(), *(line for it in contents for line in ("", it)), *(call_entry(*it) for it in own)]
        yield name, home, note, page if own else None


def reference():
    """Each page, by its path."""
    out = ["# The reference", "", "Written by `make pages` from the comments and the contracts of the sources: the public calls of the crates that a user copies, a page a type, and the definitions in their contracts. [The guide](../GUIDE.md#how-to-read-a-contract) says how one is read."]
    found = {}
    for crate in copied():
        about = re.match(r"//! (.*?)\n(?!//!)", (TOP / f"crates/{crate}/src/lib.rt").read_text(), re.S).group(1).replace("\n//!", "")
        out += ["", f"## `{crate}`", "", about, "", "| Page | What it is about |", "|---|---|"]
        for name, home, note, page in [*type_pages(crate), ("definitions", None, "What the names in its contracts mean.", definitions_page(crate))]:
            file = f"{crate}/{name.replace('::', '-')}.md" if page else f"../../{named(home)}"
            if page:
                found[f"{REFERENCE}/{file}"] = page
            first = re.sub(r"[.:](\s.*)?$", ".", note, flags=re.S)
            out.append(f"| {link(name if name in ('functions', 'definitions') else f'`{name}`', file)} | {first} |")
    found[f"{REFERENCE}/README.md"] = out
    found["docs/CASES.md"] = cases_page()
    return {name: "\n".join(lines) + "\n" for name, lines in found.items()}


# The cases, by the rule that each shows

def listed_cases():
    """The names of docs/cases.txt, in their groups."""
    groups = {}
    for line in (TOP / "docs/cases.txt").read_text().split("\n"):
        if line.startswith("  "):
            groups[list(groups)[-1]].append(line.strip())
        elif line and line[0] != "#":
            groups[line] = []
    return groups


@cache
def places_of_cases():
    """Where each case is: at a line of a script, or in a function of a test."""
    places = {}
    for path in tracked("crates/program_player/stdin") + tracked("refusals/rooms") + tracked("crates/tests*.rt"):
        lines = path.read_text().split("\n")
        for at, line in enumerate(lines):
            made = re.fullmatch(r"\s*(?:#|//) (?:Case|Rust's test): (.*)", line)
            if made and path.suffix == ".rt":
                # above a test, or within one
                around = reversed(lines[:at]) if indent(line) else lines[at:]
                function = next(found[1] for found in map(re.compile(r"fn (\w+)").match, around) if found)
                places.setdefault(made[1], []).append((path, f"`{function}`"))
            elif made:
                places.setdefault(made[1], []).append((path, f"line {at + 1}"))
    return places


def cases_page():
    out = ["# The cases", "", "Written by `make pages` from `docs/cases.txt`, which has the names, and from the lines `# Case:` and `# Rust's test:` of scripts and tests. The gate fails if one is missing. A script of [the player](PLAYER.md) has its answers beside it, in a file whose name ends in `stdout`. `make refused` plays those of `refusals/rooms`, and tries each test of `crates/tests_memory` with each request for memory refused."]
    for group, names in listed_cases().items():
        out += ["", f"## {group}", "", "| Case | Where |", "|---|---|"]
        for name in names:
            places = [f"{where} of {link(f'`{named(path)}`', f'../{named(path)}')}" for path, where in places_of_cases().get(name, [])]
            out.append(f"| {name} | {', '.join(places)} |")
    return out
