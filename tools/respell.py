#!/usr/bin/env python3
"""Brings the names of this repository's own definitions and lemmas to the spelling of the language: words in snake case, types in upper camel case.

usage: tools/respell.py [--list] [ROOT]     rewrites crates/ below ROOT in place; with --list only prints old name, new name

A name with dashes in specs/ or proofs/ is turned unless it is the library's (imported from Rattle.std) or made by the checker (a goal, a step, an arm).
In src/ it is turned where it stands in an import or a clause; names of functions, strings, comments and files stay. Run once, before any edit by hand.
"""
import glob
import os
import re
import sys

TOKEN = re.compile(r"(?<![\w'+\-])[^\W\d][\w'+]*(?:-[\w'+]+)+(?![\w'\-])")
MADE = re.compile(r"^([Ii]n|[Ii]f|[Tt]hen|[Ee]lse|After|loop|match|index|returns|overflow|bounds)-|-(requires|preserved|init|smaller|ensures)$")

# Names that would fall together with another, and one that says a library's older name.
OTHER = {"No-memory": "LacksMemory", "getD-changed": "get_or_changed"}


def files(root, kind):
    return sorted(p for p in glob.glob(os.path.join(root, "crates", "*", "**", "*" + kind), recursive=True) if "/out/" not in p)


def bare(line):
    """The line without its comment."""
    return re.sub(r"(^|\s)--(\s.*)?$", r"\1", line)


def gather(root):
    """The names to turn, and those of them that are fields of records."""
    keep, seen, fields = set(), set(), set()
    for path in files(root, ".antt"):
        in_record = False
        # Below proofs/F/ stand the proofs of one function, with the names that the checker makes.
        of_lemmas = os.path.basename(os.path.dirname(path)) in ("specs", "proofs")
        for raw in open(path, encoding="utf-8"):
            line = bare(raw.rstrip("\n"))
            use = re.match(r"use ([^{]*)\.\{(.*)\}", line)
            if use:
                names = [n.split(" as ") for n in use[2].split(", ")]
                if use[1].startswith("Rattle.std") or use[1].split(".")[-1] in ("Goals", "Given") or not use[1].startswith("Rattle."):
                    keep |= {n[0].strip() for n in names}
                elif use[1].startswith("Rattle."):
                    seen |= {n[-1].strip() for n in names}
                continue
            goal = re.match(r"(?:abbrev )?pub (\S+) : goal\.", line)
            if goal:
                keep.add(goal[1])
            if re.match(r"\S", line):
                in_record = bool(re.match(r"(pub )?record ", line))
            field = re.match(r"  pub (\S+) :", line)
            if in_record and field:
                fields.add(field[1])
            for m in TOKEN.finditer(line):
                before = line[: m.start()]
                path_of = re.search(r"([\w'+\-]+)((?:\.[\w'+\-]+)*)\.$", before)
                if path_of and path_of[1] in ("c", "w", "l", "goal"):
                    continue
                if of_lemmas or not MADE.search(m[0]):
                    seen.add(m[0])
    return {n for n in seen | fields if "-" in n and n not in keep}, fields


def turned(name):
    if name in OTHER:
        return OTHER[name]
    if name[0].isupper():
        return "".join(part[0].upper() + part[1:] for part in name.split("-"))
    return name.replace("-", "_")


def spans(text):
    """The parts of a source that are neither strings nor comments."""
    at = 0
    for m in re.finditer(r'b?"(?:\\(?:.|\n)|[^"\\])*"|//[^\n]*|b?\'(?:\\.|[^\'\\\n])\'', text):
        yield at, m.start()
        at = m.end()
    yield at, len(text)


def rewrite_antt(text, names, fields):
    out = []
    for raw in text.split("\n"):
        code = bare(raw)
        note = raw[len(code):]

        def one(m):
            path_of = re.search(r"([\w'+\-]+)((?:\.[\w'+\-]+)*)\.$", code[: m.start()])
            if path_of and path_of[1] in ("c", "w", "l", "goal") and m[0] not in fields:
                return m[0]
            return names.get(m[0], m[0])

        note = re.sub(r"`([^`]*)`", lambda q: "`" + TOKEN.sub(lambda m: names.get(m[0], m[0]), q[1]) + "`", note)
        out.append(TOKEN.sub(one, code) + note)
    return "\n".join(out)


def rewrite_rt(text, names):
    out, at = [], 0
    for start, end in spans(text):
        out.append(text[at:start])
        out.append(TOKEN.sub(lambda m: names.get(m[0], m[0]), text[start:end]))
        at = end
    out.append(text[at:])
    return "".join(out)


def main(argv):
    show = "--list" in argv
    rest = [a for a in argv if a != "--list"]
    root = rest[0] if rest else "."
    old, fields = gather(root)
    names = {n: turned(n) for n in sorted(old)}
    if show:
        for n, t in names.items():
            print(n, t)
        return 0
    for path in files(root, ".antt") + files(root, ".rt"):
        text = open(path, encoding="utf-8").read()
        new = rewrite_antt(text, names, fields) if path.endswith(".antt") else rewrite_rt(text, names)
        if new != text:
            open(path, "w", encoding="utf-8").write(new)
    return 0


if __name__ == "__main__":
    raise SystemExit(main(sys.argv[1:]))
