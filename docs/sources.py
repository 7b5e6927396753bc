"""What the sources say: the crates, their public calls with comments and clauses, and the definitions of their specs/."""
import re
import subprocess
from collections import namedtuple
from functools import cache
from itertools import takewhile
from pathlib import Path

TOP = Path(__file__).resolve().parent.parent
NAME = re.compile(r"[A-Za-z_][A-Za-z0-9_]*")


@cache
def tracked(pattern):
    files = subprocess.run(["git", "ls-files", "-co", "--exclude-standard", "--", pattern], cwd=TOP, capture_output=True, text=True, check=True)
    return sorted({TOP / f for f in files.stdout.split("\n") if f and (TOP / f).is_file()})


def named(path):
    return path.relative_to(TOP).as_posix()


def indent(line):
    return len(line) - len(line.lstrip())


def crates():
    """What each crate uses, in the order of crates.txt."""
    lines = [line.split(":") for line in (TOP / "crates.txt").read_text().split("\n") if ":" in line and line[0] != "#"]
    return {name.strip(): deps.split() for name, deps in lines}


def library():
    return [crate for crate in crates() if crate.startswith("starlark_")]


def copied():
    """starlark_map, starlark_dict and the crates below them, each before those that it uses."""
    needed = {"starlark_map", "starlark_dict"}
    for crate, deps in reversed(crates().items()):
        needed.update(deps if crate in needed else [])
    return [crate for crate in reversed(crates()) if crate in needed]


# A call is public by itself ("pub"), by a public trait that asks for it ("trait"), or as that of an impl of a trait ("impl"); its
# head is its signature and its clauses, and `around` the line of the impl or trait that it is in. The fields of a definition are those of
# a record, with what they say, and its code is what a page shows of it.

Call = namedtuple("Call", "owner name note head kind around")
Definition = namedtuple("Definition", "name note fields code")
# a definition of more lines is not shown
SHORT = 5


def prose(lines):
    """The paragraphs of a comment."""
    return " ".join(lines).replace("  ", "\n\n")


def without_generics(text):
    depth, out = 0, ""
    for i, c in enumerate(text):
        if c == "<":
            depth += 1
        elif c == ">" and text[i - 1] != "-":
            depth -= 1
        elif depth == 0:
            out += c
    return out


@cache
def parsed(path):
    """The comments of a file's public types and traits, by their names, and the calls."""
    types, calls, note, block, head = {}, [], [], "", []
    owner, kind, around = "", "", ""
    for line in path.read_text().split("\n"):
        text = line.strip()
        made = re.match(r"pub (?:struct|enum|trait) (\w+)", line)
        call = re.match(r"(pub )?(?:final )?(?:const )?(?:unsafe )?fn (\w+)", text)
        if made:
            types[made.group(1)] = prose(note)
        if head and text not in ("{", "{}"):
            head.append(line)
        elif block or re.match(r"(unsafe )?impl\b|pub trait ", line):
            block += " " + text
            if "{" in text:
                around = re.sub(r",? *\{.*", "", block).strip()
                plain = without_generics(around.split(" where ")[0])
                kind = "trait" if "pub trait" in plain else "impl" if " for " in plain else ""
                owner, block = NAME.findall(plain.split(":")[0] if kind == "trait" else plain)[-1], ""
        elif call and not head:
            head, found = [line], call
        if head and re.search(r"(^\s*| )\{\}?$|;$", line):
            head[-1] = re.sub(r" \{\}?$|;$", "", head[-1])
            depth = indent(head[0])
            own = "pub" if found.group(1) else kind if depth else ""
            calls.append(Call(owner if depth else "", found.group(2), prose(note), [it[depth:].rstrip() for it in head], own, around if depth else ""))
            head, note = [], []
        elif text.startswith("///"):
            note.append(text[3:].strip())
        elif text and not head and not text.startswith("#["):
            note = []
    return types, calls


def may_refuse(call):
    """Whether the call answers a Result."""
    signature = re.split(r" (?:where|requires|ensures)\b", " ".join(it.strip() for it in call.head))[0]
    return re.match(r"\s*Result<", signature.rpartition("->")[2])


def public_calls(path):
    return [call for call in parsed(path)[1] if call.kind in ("pub", "trait")]


def clauses_of(call):
    """The clauses of a call, by their names, and what each says."""
    found = []
    for line in call.head[1:]:
        made = re.match(r"\s*(requires|ensures)\*?\s*(\w+)?(.*)", line)
        if made:
            found.append((made.group(2) or made.group(1), made.group(3)))
        elif found:
            found[-1] = (found[-1][0], f"{found[-1][1]} {line.strip()}")
    return found


def definition_files(crate):
    return [path for path in tracked(f"crates/{crate}/specs/*.antt") if path.name not in ("Lib.antt", "formers.antt") and "formers" not in path.parts]


@cache
def definitions_of(path):
    """What a file of specs/ is about, and its public definitions. The code of a definition begins with the modules
    that it is in, whose parameters come before its own."""
    lead, definitions, note, modules = "", [], [], []
    lines = path.read_text().split("\n")
    for at, line in enumerate(lines):
        text = line.strip()
        if text.startswith("--"):
            note.append(text[2:].strip())
            continue
        modules = [it for it in modules if not text or indent(it) < indent(line)]
        made = re.match(r"(unfoldable )?(abbrev )?pub (abbrev )?(record |data )?([^\s:({]+)", text)
        if not lead and not definitions and re.match("(unfoldable )?(pub )?use ", text):
            lead = " ".join(note)
        elif text.startswith("module "):
            modules.append(line)
        elif made and made.group(5) not in ("use", "mod") and "-" not in made.group(5) and indent(line) == 2 * len(modules):
            block = [line, *takewhile(lambda it: it.strip() and indent(it) >= indent(line), lines[at + 1 :])]
            fields = dict(re.findall(r"^ +pub ([^\s:]+)(.*)", "\n".join(block[1:]), re.M)) if made.group(4) else {}
            if not made.group(4):
                # the type alone, of a long definition, and of a lemma, which is declared without a word before `pub`
                of_type = [line, *takewhile(lambda it: indent(it) > indent(line), block[1:])]
                block = block if any(made.groups()[:3]) and len(block) - len(of_type) <= SHORT else of_type
            code = [re.sub(r"^( *)(?:unfoldable |abbrev )?pub (?:abbrev )?", r"\1", it) for it in [*modules, *block]]
            definitions.append(Definition(made.group(5), " ".join(note), fields, code))
        note = []
    return lead, definitions
