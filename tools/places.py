#!/usr/bin/env python3
"""Counts the places of older forms in src/, and lists them with -v: places.py [-v] [FOLDER]"""
import os
import re
import sys

verbose = "-v" in sys.argv[1:]
rest = [a for a in sys.argv[1:] if a != "-v"]
top = rest[0] if rest else "."

# name of the kind of place, and what a line of it matches
LINES = [
    ("1 a fault as an option", r"-> Option<DrawFault>"),
    ("1 a result in a result", r"Result<Result<"),
    ("1 an error passed on by hand",
     r"let Ok\(.*\) = .* else|Err\((fault|mistake)\) =>|is_err\(\)|return (Ok\()?Err\((fault|mistake)\)|Refused\(DrawFault::NoMemory\)"),
    ("1 a refusal as a case or a flag", r"^\s*Refused\(DrawFault\)|-> bool.*// .*refus|fn extend\(.*-> bool"),
    ("1 an enum of two cases, one with a value", r"^pub enum (TreeCheck|Tried)"),
    ("3 a loop by index or count", r"for \w+ in \w[\w()+]*\.\.|\b(tries|count|i|n) \+= 1|\.enumerate\(\)"),
    ("3 a loop that fills a list or looks for one", r"^\s+for .* in "),
    ("3 a loop with its end inside", r"^\s+(loop \{|while )"),
    ("4 a word or text by a function", r"fn \w+_(word|text)\(|fn text\("),
    ("4 equality or order by a function", r"fn (is|worse|same)\("),
    ("4 a conversion by a function", r"fn (keyword_of|plan_keyword|draw_keyword|hall_keyword|reported|told_\w+|how_it_went|small|copy_of)\b"),
    ("5 entries, plan and arrows as parameters", r"^\s+(entries: &(mut )?Entries|draw: &Draw),$|\((entries: &(mut )?Entries|draw: &Draw), plan: &P, arrows: &S"),
    ("5 size, root and depth as parameters", r"size: u16, (root: u16, )?depth: u16|^\s+depth: u16,$"),
    ("5 what a draw needs, asked one by one", r"let (Hall::Ready\(plan\)|Some\(arrows\)|Some\(running\)) = &(mut )?self\."),
    ("6 a buffer of fixed size, or a list with its length beside", r"\[.*; MOST_VERTICES\]|first: u16,|pops: usize,"),
    ("6 a list walked by a place beside it", r"^\s+place: usize,"),
    ("7 a value that says which step to run", r"enum (Dash|Style)\b"),
]

SPLIT = re.compile(r"^(\s*)(?:pub(?:\(crate\))? )?(?:final )?fn (\w+)", re.M)


def sources():
    for folder, dirs, files in os.walk(os.path.join(top, "crates")):
        dirs[:] = sorted(d for d in dirs if d not in ("out", "proofs", "specs"))
        for f in sorted(files):
            path = os.path.join(folder, f)
            if f.endswith(".rt") and "/src/" in path and "_trials/" not in path:
                yield os.path.relpath(path, top), open(path).read()


def functions(text):
    starts = [m for m in SPLIT.finditer(text)]
    for m in starts:
        lines = text[m.start():].split("\n")
        out = []
        for line in lines:
            out.append(line)
            if line.rstrip() == m.group(1).lstrip("\n") + "}":
                break
        yield m.group(2), re.sub(r"\s+", " ", " ".join(out)).strip()


files = list(sources())
for name, pattern in LINES:
    found = []
    for path, text in files:
        for k, line in enumerate(text.split("\n"), 1):
            if not line.lstrip().startswith(("//", "ghost use")) and re.search(pattern, line):
                found.append(f"    {path}:{k}: {line.strip()}")
    print(f"{len(found):4}  {name}")
    if verbose:
        print("\n".join(found))

# Functions that stand twice: the same text behind the name, and not a method that each `impl` of a trait owes.
seen = {}
for path, text in files:
    for name, body in functions(text):
        key = re.sub(r"fn \w+", "fn", body, count=1)
        if "{" in body and len(body) > 60:
            seen.setdefault((key, re.search(r"\bimpl .* for ", text) is not None), []).append(f"{path} {name}")
twins = [where for (key, _), where in seen.items() if len(where) > 1]
print(f"{len(twins):4}  2 functions that stand twice, word for word ({sum(len(w) for w in twins)} places)")
if verbose:
    for where in twins:
        print("    " + "  =  ".join(where))

# Clauses that stand in three contracts or more, whatever they are called and of whichever moment they speak.
clauses = {}
for path, text in files:
    for m in re.finditer(r"^\s+(requires|ensures)(?: \w+)? \{ (.*) \}$", text, re.M):
        said = re.sub(r"\.(now|old|new)\b", "", m.group(2))
        if len(said) > 12:
            clauses.setdefault((m.group(1), said), []).append(f"{path}:{text[:m.start()].count(chr(10)) + 2}")
often = {k: w for k, w in clauses.items() if len(w) > 2}
print(f"{len(often):4}  5 a clause in three contracts or more ({sum(len(w) for w in often.values())} places)")
if verbose:
    for (kind, said), where in often.items():
        print(f"    {kind} {said}: " + ", ".join(where))
