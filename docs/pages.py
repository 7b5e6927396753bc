#!/usr/bin/env python3
"""The pages of docs/reference, which are written from the sources, and what a page may not say.

    docs/pages.py write    writes docs/reference, of each crate that a user copies: the public calls with their comments and
                           contracts, a page a type, and the definitions in these contracts with their comments; and
                           docs/CASES.md, where each case of docs/cases.txt is
    docs/pages.py check    says where a page is not what the sources say: a written page that is out of date; a public definition
                           of specs/ or a public function with no comment; a name, a clause, a file, a mutant, a target of make,
                           a link or a heading that is not there; a number of crates, mutants, examples of use or commands
                           that is another; a public call with a condition that docs/DECISIONS.md does not list; lines that are quoted
                           from a file that does not have them; a name in elsewhere.txt that no page needs; a changelog that does
                           not begin with VERSION; where crates/tests_memory/calls.txt is not the list of the calls that may be
                           refused; a name in docs/cases.txt that no case has, and a case that has no name there

docs/sources.py reads the sources, docs/written.py has what is written of them.
"""
import re
import sys
from collections import Counter
from functools import cache

from sources import NAME, TOP, clauses_of, copied, crates, definition_files, definitions_of, indent, library, may_refuse, named, parsed, public_calls, tracked
from written import REFERENCE, anchors, listed_cases, places_of_cases, reference

FILE = re.compile(r"(?<![\w/.+-])[\w+-]+(?:/[\w.+-]+)*\.(?:rt|antt|py|edit|txt|md|script|svg)\b(?![(\w])")
WORDS = "no one two three four five six seven eight nine ten eleven twelve thirteen fourteen fifteen sixteen seventeen eighteen nineteen twenty".split()
# of one and of two a page may speak without counting
NUMBER = rf"\b(\d[\d,]*|{'|'.join(WORDS[3:])})\b"


@cache
def pages():
    """The pages, each with its text, that outside of blocks of code, and, of those that are written by hand, what is in backticks
    there."""
    found = []
    for page in tracked("*.md"):
        text = page.read_text()
        plain = re.sub(r"^```.*?^```$", "", text, flags=re.M | re.S)
        # the changelog names what is gone
        by_hand = page.name != "CHANGELOG.md" and not named(page).startswith(REFERENCE)
        found.append((page, text, plain, re.findall(r"`([^`\n]+)`", plain) if by_hand else []))
    return found


def faults():
    written = reference()
    for name in sorted({*written, *map(named, tracked(REFERENCE))}):
        if not (TOP / name).exists() or (TOP / name).read_text() != written.get(name):
            yield f"{name} is not what the sources say: make pages"
    for crate in library():
        for path in definition_files(crate):
            yield from (f"{named(path)}: the public definition {it.name} has no comment" for it in definitions_of(path)[1] if not it.note)
        for path in tracked(f"crates/{crate}/src/*.rt"):
            yield from (f"{named(path)}: the public function {it.owner and it.owner + '::'}{it.name} has no comment" for it in public_calls(path) if not it.note)
    version, newest = (TOP / "VERSION").read_text().strip(), re.search(r"^## (\S+),", (TOP / "CHANGELOG.md").read_text(), re.M)
    if not newest or newest.group(1) != version:
        yield f"CHANGELOG.md does not begin with {version}, as VERSION has it"
    yield from faults_of_conditions()
    yield from faults_of_names()
    yield from faults_of_bodies()
    yield from faults_of_counts()
    yield from faults_of_clauses()
    yield from faults_of_links()
    yield from faults_of_quotes()
    yield from faults_of_refusals()
    yield from faults_of_cases()


def names_not_there():
    """What is in backticks and no source has: each with its page, and all that the backticks hold."""
    sources = {page.stem for page, *_ in pages()}
    for path in tracked("."):
        if path.suffix != ".md" and path.name != "elsewhere.txt" and path.parent.name != "results":
            sources.update(NAME.findall(path.read_bytes().decode(errors="ignore") + " " + named(path)))
    for page, _, _, quotes in pages():
        for quoted in quotes:
            yield from ((page, word, f"{word} (`{quoted}`)") for word in NAME.findall(quoted) if word not in sources and not word.isupper())


def files_not_there():
    """The files that a page names, wherever in it, and that are not there. A file goes by its path from the top, from crates/ or from
    a crate's folder, or by its name alone, and with a crate behind it is one of that crate. One with a part in capitals is any."""
    there = set()
    for parts in [path.relative_to(TOP).parts for path in tracked(".")]:
        ends = range(1, len(parts) + 1)
        there.update([parts[-1], *("/".join(parts[begin:end]) for begin in range(3 if parts[0] == "crates" else 1) for end in ends if begin < end)])
    for page, text, _, _ in pages():
        text = "" if page.name == "CHANGELOG.md" else re.sub(r"\]\([^)]*\)", "]", text)
        for name in sorted({*FILE.findall(text), *re.findall(r"`([\w.-]+(?:/[\w.-]+)+)`", text)}):
            if name not in there and not re.search(r"\b[A-Z]+\b(?!\.md)|\.\.", name):
                yield page, name, f"file {name}"
        for names, crate in re.findall(r"((?:`[\w/.]+`(?:, | and )?)+) of `(\w+)`", text):
            its = {path.name for path in tracked(f"crates/{crate}")}
            yield from ((page, name, f"file {name} of {crate}") for name in FILE.findall(names) if its and name.split("/")[-1] not in its)


def faults_of_names():
    # names of Rust's crates and of std that pages speak of, and that no source of this repository has
    elsewhere, needed = set((TOP / "docs/elsewhere.txt").read_text().split()), set()
    for page, name, what in [*names_not_there(), *files_not_there()]:
        needed.add(name)
        if name not in elsewhere:
            yield f"{named(page)}: there is no {what}"
    yield from (f"docs/elsewhere.txt: no page needs {word}" for word in sorted(elsewhere - needed))


def bodies():
    """The mutants that the gate tries, and those outside it, each with its crate."""
    gate = [(path.parts[-3], path.stem) for path in tracked("crates/*/must-fail/*.edit")]
    return gate, [(path.parts[-2], path.stem) for path in tracked("wrong-bodies/*.edit")]


def faults_of_bodies():
    """The list of mutants has a row for each; what it names by their rules, and what other pages name, is there."""
    name, there = "wrong-bodies/README.md", sum(bodies(), [])
    rules, _, rows = (TOP / name).read_text().partition("## By crate")
    listed = re.findall(r"^\| ([a-z]\w*) \| ([\w-]+) \|", rows, re.M)
    for crate, it in sorted({*there, *listed}):
        if there.count((crate, it)) != listed.count((crate, it)):
            yield f"{name}: {crate} has {it} {there.count((crate, it))} times, the list {listed.count((crate, it))} times"
    for crate, names in re.findall(r"\b(\w+): ([\w-]+-[\w-]+(?:, [\w-]+)*)", rules):
        yield from (f"{name}: {crate} has no mutant {it}" for it in names.split(", ") if (crate, it) not in there)
    for page, text, _, quotes in pages():
        cited = [*re.findall(r"BODY=([a-z][\w-]+)", text), *(it for it in quotes if re.fullmatch(r"[a-z_]+(-[a-z_]+){3,}", it))]
        yield from (f"{named(page)}: there is no mutant {it}" for it in cited if it not in [body for _, body in there])


def number(said):
    return int(said.replace(",", "")) if said[0].isdigit() else WORDS.index(said.lower())


def counts():
    """How many there are of what pages count, by the phrase, with `#` for the number. A phrase is tried before those below it."""
    gate, beside = bodies()
    player, guide, enum = ((TOP / name).read_text() for name in ("docs/PLAYER.md", "docs/GUIDE.md", "crates/starlark_runs/src/command.rt"))
    first = sum(map(number, re.findall(NUMBER + " scripts, which all begin with `mode`", player)))
    scripts = re.split("^mode .*$", (TOP / "crates/program_player/stdin").read_text(), flags=re.M)[1 : 1 + first]
    of_rust = len(re.findall("^[^# \n]", "\n".join(scripts), re.M))
    return {
        "# crates below it": len(copied()) - 1,
        "the # (?:crates )?that a user copies": len(copied()),
        "# crates beside it": sum(len(line.split()) - 1 for line in re.findall("^ *app: (.*)$", guide, re.M)),
        r"\(`must-fail/`\) in # crates": len({crate for crate, _ in gate}),
        "# crates": len(crates()),
        "# mutants (?:in|of|tried by) the gate": len(gate),
        "# (?:mutants )?outside (?:it|the gate)": len(beside),
        "# mutants": len(gate) + len(beside),
        "# examples of use": sum(len(public_calls(path)) for path in tracked("crates/*_callers/src/*.rt")),
        r"# commands of \[`Command`\]": len(re.findall("^    [A-Z]", enum.partition("pub enum Command<")[2].partition("\n}")[0], re.M)),
        "first # commands are": of_rust,
        "answers to # of them": of_rust,
        "# commands": (TOP / "crates/program_player/stdout").read_text().count("\n"),
    }


def faults_of_counts():
    """What was tried and what was asked for had other counts."""
    patterns = {re.compile(phrase.replace("#", NUMBER), re.I): count for phrase, count in counts().items()}
    for page, _, plain, quotes in pages():
        text = re.sub(r"^- \*Tried:\*.*" + (r"|^\| [^|]*" if page.name == "DECISIONS.md" else ""), "", plain, flags=re.M)
        for pattern, count in patterns.items() if quotes and page.name != "CASES.md" else ():
            yield from (f"{named(page)}: {found[0]}: there are {count:,}" for found in pattern.finditer(text) if number(found[1]) != count)
            text = pattern.sub("", text)


def fields_of(says, records, seen=()):
    """The fields of the records that a clause cites, and of those that they cite."""
    for word in NAME.findall(says):
        if word in records and word not in seen:
            for field, deeper in records[word].items():
                yield field
                yield from fields_of(deeper, records, (*seen, word))


def faults_of_clauses():
    """Clauses are cited behind their call, as `Type::call`: `clause`, `clause`. On the page of guarantees functions are calls too,
    a bar of a table may take the place of the colon, and of several calls each has each of the clauses."""
    records, clauses = {}, {}
    for it in [it for crate in library() for path in definition_files(crate) for it in definitions_of(path)[1]]:
        records.setdefault(it.name, {}).update(it.fields)
    for path in [path for crate in library() for path in tracked(f"crates/{crate}/src/*.rt")]:
        for call in public_calls(path):
            for name, says in clauses_of(call):
                clauses.setdefault((call.owner, call.name), set()).update([name, *fields_of(says, records)])
    for page, _, plain, quotes in pages():
        cited = r"((?:`(?:\w+::)?\w+`(?:, )?)+)(?:: | \| )" if page.name == "GUARANTEES.md" else r"(`\w+::\w+`): "
        for calls, names in re.findall(cited + r"((?:`\w+`(?:, )?)+)", plain if quotes else ""):
            for owner, call in re.findall(r"`(?:(\w+)::)?(\w+)`", calls):
                here = [of_call for (o, c), of_call in clauses.items() if c == call and owner in ("", o)]
                if not here and owner in {o for o, _ in clauses if o}:
                    yield f"{named(page)}: there is no call {owner}::{call}"
                yield from (f"{named(page)}: {owner and owner + '::'}{call} has no clause {it}" for it in NAME.findall(names) if here and not any(it in of_call for of_call in here))


@cache
def anchors_of(page):
    return {*anchors(re.findall("^#+ (.*)$", re.sub(r"^```.*?^```$", "", page.read_text(), flags=re.M | re.S), re.M))}


def faults_of_links():
    targets = re.findall(r"^([a-z]+):", (TOP / "Makefile").read_text(), re.M)
    for page, text, plain, _ in pages():
        yield from (f"{named(page)}: there is no make {it}" for it in re.findall(r"(?:`|^    |^)make ([a-z]+)", text, re.M) if it not in targets)
        for path, _, heading in [it.partition("#") for it in re.findall(r"\]\(([^):]+)\)", plain)]:
            there = (page.parent / path).resolve() if path else page
            if not there.exists():
                yield f"{named(page)}: there is no {path}"
            elif heading and heading not in anchors_of(there):
                yield f"{named(page)}: {named(there)} has no heading {heading}"


def faults_of_quotes():
    """Quotes are code blocks that name a file beside their language. The file has their lines one below the other, at whatever depth."""
    def cut(lines):
        depth = min((indent(line) for line in lines if line.strip()), default=0)
        return [line[depth:].rstrip() for line in lines]

    for page, text, _, _ in pages():
        for name, code in re.findall(r"^ *```\w+ (\S+)\n(.*?)^ *```$", text, re.M | re.S):
            quoted, path = cut(code.splitlines()), TOP / name
            lines = path.read_text().splitlines() if path.is_file() else []
            if not any(cut(lines[i : i + len(quoted)]) == quoted for i in range(len(lines))):
                yield f"{named(page)}: {name} has no such lines: {quoted[0]}"


def plays(command, words):
    """Whether the command begins with these two words, but for the slot between them, and has the others behind them."""
    return (command[:1] + command[2:3])[: len(words)] == words[:2] and set(words[2:]) <= set(command[3:])


def faults_of_refusals():
    name, there, listed, crate = "crates/tests_memory/calls.txt", [], [], ""
    script = "crates/program_player/stdin"
    commands = [line.split(" ") for line in (TOP / script).read_text().split("\n")]
    for of in library():
        for path in tracked(f"crates/{of}/src/*.rt") if of != "starlark_callers" else []:
            for call in parsed(path)[1]:
                if call.kind in ("pub", "impl") and may_refuse(call):
                    there.append((of, f"{call.owner or path.stem}::{call.name}"))
    for line in (TOP / name).read_text().split("\n"):
        call, _, tried = line.partition(": ")
        if line and not tried:
            crate = line if line[0] != "#" else crate
        elif line and line[0] != "#":
            listed.append((crate, call))
            if tried.startswith("player "):
                if not any(plays(command, tried.split(" ")[1:]) for command in commands):
                    yield f"{name}: {call}: no line of {script} is a command {tried.partition(' ')[2]}"
                continue
            made = re.fullmatch(r"(\w+)/([\w/]+) (\w+)(?: by (\w+))?", tried)
            path = made and TOP / f"crates/{made.group(1)}/src/{made.group(2)}.rt"
            text = path.read_text() if made and path.exists() else ""
            if made and not re.search(rf"#\[test\]\nfn {made.group(3)}\(", text):
                yield f"{name}: {call}: there is no test {tried}"
            elif made and not re.search(rf"\b{made.group(4) or call.split('::')[-1]}\b", text):
                yield f"{name}: {call}: the file of {tried} does not name it"
            elif not made and "no memory" not in tried:
                yield f"{name}: {call}: neither a test nor a reason: {tried}"
    for of, call in sorted({*listed, *there}):
        if listed.count((of, call)) != there.count((of, call)):
            yield f"{name}: {of} has {call} {there.count((of, call))} times, the list {listed.count((of, call))} times"


def faults_of_conditions():
    """The page of decisions names each public call that asks something of its caller, `Type::{call, call}` those of one type."""
    name = "docs/DECISIONS.md"
    part = re.search(r"^## Conditions$(.*?)^## ", (TOP / name).read_text(), re.M | re.S).group(1)
    listed = set(re.findall(r"`((?:\w+::)?[a-z]\w*)`", part))
    listed.update(f"{owner}::{call}" for owner, calls in re.findall(r"`(\w+)::\{([^}]*)\}`", part) for call in calls.split(", "))
    asking, calls = set(), set()
    for path in [path for crate in library() if crate not in ("starlark_callers", "starlark_uses") for path in tracked(f"crates/{crate}/src/*.rt")]:
        for call in public_calls(path):
            calls.add(full := f"{call.owner}::{call.name}" if call.owner else call.name)
            asking.update([full] if any(line.strip().startswith("requires") for line in call.head) else [])
    yield from (f"{name}: the conditions of {it} are not listed" for it in sorted(asking - listed))
    yield from (f"{name}: {it} has no condition" for it in sorted(listed & calls - asking | {it for it in listed - calls if "::" in it}))


def faults_of_cases():
    listed = [name for names in listed_cases().values() for name in names]
    yield from (f"docs/cases.txt: there is no case {name}" for name in listed if name not in places_of_cases())
    yield from (f"{named(places[0][0])}: docs/cases.txt has no case {name}" for name, places in places_of_cases().items() if name not in listed)
    yield from (f"docs/cases.txt: {name} is there {times} times" for name, times in Counter(listed).items() if times > 1)


def main():
    if sys.argv[1:] == ["write"]:
        for path in tracked(REFERENCE):
            path.unlink()
        for name, text in reference().items():
            (TOP / name).parent.mkdir(parents=True, exist_ok=True)
            (TOP / name).write_text(text)
    elif sys.argv[1:] == ["check"]:
        found = list(faults())
        for fault in found:
            print(fault, file=sys.stderr)
        sys.exit(1 if found else 0)
    else:
        sys.exit(__doc__)


main()
