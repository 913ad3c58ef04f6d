#!/usr/bin/env python3
"""Lists the places of each point of docs/DESIGN-PASS.md in crates/*/src.

    python3 tools/places.py [COMMIT]

reads the files of a commit (by git), or those of the work tree where none is named.
Tests (src/tests.rt, a mod tests, the crate day_tests) are left out: they state values, not designs.
A line that is listed is a candidate; docs/DESIGN-PASS.md says of each what became of it.
"""
import os
import re
import subprocess
import sys

COMMIT = sys.argv[1] if len(sys.argv) > 1 else None


def files():
    if COMMIT:
        names = subprocess.run(["git", "ls-tree", "-r", "--name-only", COMMIT, "crates"], capture_output=True, text=True, check=True).stdout.split()
    else:
        names = subprocess.run(["git", "ls-files", "--cached", "--others", "--exclude-standard", "crates"], capture_output=True, text=True, check=True).stdout.split()
        names = [n for n in names if os.path.exists(n)]
    for name in sorted(names):
        if "/src/" not in name or not name.endswith(".rt") or name.endswith("/tests.rt") or "day_tests" in name:
            continue
        if COMMIT:
            text = subprocess.run(["git", "show", f"{COMMIT}:{name}"], capture_output=True, text=True, check=True).stdout
        else:
            text = open(name).read()
        cut = text.find("#[cfg(test)]\nmod tests {")
        yield name, text if cut < 0 else text[:cut]


SOURCES = list(files())


def lines(pattern):
    found = []
    for name, text in SOURCES:
        for n, line in enumerate(text.splitlines(), 1):
            if re.search(pattern, line) and not line.lstrip().startswith("//"):
                found.append((name, n, line.strip()))
    return found


def show(title, found):
    print(f"-- {title}: {len(found)}")
    for place in found:
        print("   " + (f"{place[0]}:{place[1]}: {place[2]}" if isinstance(place, tuple) else place))


FUNCTION = re.compile(r"^( *)(?:pub(?:\([a-z]+\))? )?fn (\w+)", re.M)


def functions():
    """Each function with its name, its head (signature and clauses) and its body, with strings and comments as they are."""
    for name, text in SOURCES:
        for m in FUNCTION.finditer(text):
            indent = m.group(1)
            tail = text[m.start():]
            open_at = re.search(r"\{\n|;\n", tail)
            body = re.search(rf"^{indent}\{{\n(.*?)^{indent}\}}", tail, re.M | re.S)
            end = re.search(rf"^{indent}\}}", tail, re.M)
            one = re.match(r"[^\n]*\{\n", tail)
            if one and end:
                yield name, m.group(2), one.group(0), tail[one.end():end.start()]
            elif body and end and body.start() < end.start():
                yield name, m.group(2), tail[:body.start()], body.group(1)


def normal(body):
    """A body with every name of a value, type, field, variant and number made alike: twins differ in these only."""
    body = re.sub(r"//[^\n]*", "", body)
    body = re.sub(r'"[^"]*"', "S", body)
    keep = {"if", "else", "match", "for", "in", "while", "return", "let", "mut", "self", "Some", "None", "Ok", "Err", "true", "false", "as"}
    body = re.sub(r"\b[A-Za-z_]\w*\b", lambda m: m.group(0) if m.group(0) in keep else "n", body)
    body = re.sub(r"\b\d[\d_]*\w*\b", "0", body)
    return re.sub(r"\s+", " ", body).strip()


def twins():
    seen = {}
    for name, fn, _, body in functions():
        key = normal(body)
        if len(key) > 24:
            seen.setdefault(key, []).append(f"{name}: {fn}")
    return ["  ~  ".join(group) for group in seen.values() if len(group) > 1]


CLAUSE = re.compile(r"^ *(?:requires|ensures)\s+(?:\w+ )?\{ (.*) \}\s*$", re.M)


def clauses():
    """Facts that three or more contracts state, by the words of the clause; .old, .now, .new and names of arguments alike."""
    seen = {}
    for name, fn, head, _ in functions():
        for clause in set(CLAUSE.findall(head)):
            seen.setdefault(clause, []).append(f"{name}: {fn}")
    for name, text in SOURCES:
        for trait_fn in re.finditer(r"^    fn (\w+)[^\n]*\n((?:        ensures[^\n]*\n)+)", text, re.M):
            for clause in set(re.findall(r"\{ (.*) \}", trait_fn.group(2))):
                places = seen.setdefault(clause, [])
                place = f"{name}: {trait_fn.group(1)}"
                if place not in places:
                    places.append(place)
    return [f"{clause}   in   " + ", ".join(places) for clause, places in seen.items() if len(places) > 2 and len(clause) > 12]


def together():
    """Pairs of parameters (name and type) that three or more functions of one file take side by side."""
    seen = {}
    for name, fn, head, _ in functions():
        inside = re.search(r"\((.*?)\)\s*(?:->|\n|$)", re.sub(r"\s+", " ", head) + "\n")
        if not inside:
            continue
        params = [p.strip() for p in re.split(r", (?![^<(]*[>)])", inside.group(1)) if ":" in p]
        params = [p for p in params if not p.startswith(("rt:", "heap:"))]
        for i, a in enumerate(params):
            for b in params[i + 1:]:
                seen.setdefault((name, a, b), []).append(fn)
    return [f"{name}: {a}, {b}   in   " + ", ".join(fns) for (name, a, b), fns in seen.items() if len(fns) > 2]


def hand_matches():
    """A match on an Option or a Result whose arms a method of it says."""
    found = []
    for name, text in SOURCES:
        for m in re.finditer(r"match [^\n]*\{\n(?:[^\n]*=>[^\n]*\n){1,2}\s*\}", text):
            arms = m.group(0)
            if re.search(r"\b(None|Err\(_?\w*\)) =>", arms) and re.search(r"\b(Some|Ok)\(", arms):
                found.append((name, text[:m.start()].count("\n") + 1, re.sub(r"\s+", " ", arms)[:110]))
    return found


# Each point with its lists of candidates: a title, and a pattern of lines or a function that finds them.
POINTS = [
    ("POINT 1: own enums, numbers for kinds, faults as Options, flags with a value", [
        ("own enums", r"^\s*(pub(\([a-z]+\))? )?enum "),
        ("constants of u8 or u32", r"^\s*(pub )?const [A-Z_]+: u(8|32) = "),
        ("faults in an Option, taken out by hand", r"-> Option<\w*Fault>|if let Some\(fault\)"),
        ("flags beside a value", r"\(bool, |, bool\)"),
        ("numbers for kinds or refusals in a type", r"^\s*pub (number|kind|layer): "),
    ]),
    ("POINT 2: twins", [
        ("functions with one body but for names and numbers", twins),
    ]),
    ("POINT 3: loops", [
        ("loops over numbers, with a count or with an index by hand", r"for \w+ in [^{]*\.\.|enumerate\(\)|\+= 1;|\bwhile\b"),
        ("loops over elements that a chain says", r"for \w+ in (?![^{]*\.\.)(?!.*enumerate)"),
    ]),
    ("POINT 4: equality, order, copying, conversion and printing by hand", [
        ("orders and equalities", r"impl (PartialEq|Eq|PartialOrd|Ord)\b|fn (precedes|comes_before|one_key|cmp)\b"),
        ("conversions by functions", r"fn (refusal|fault_words|arrival|words)\b"),
        ("conversions by `as` that From does", r"\b(capacity|farms|farm|k|p|receiver|place) as (usize|u32|u64)\b|MAX as u32|\.receiver as usize"),
        ("structs built anew field by field", r"^\s*\w+: self\.\w+,$"),
        ("matches that a method says", hand_matches),
    ]),
    ("POINT 5: facts and parameters that return", [
        ("clauses of three or more contracts", clauses),
        ("parameters that travel together", together),
    ]),
    ("POINT 6: vectors and arrays", [
        ("fields that are vectors or heaps", r"^\s*(pub(\([a-z]+\))? )?\w+: (Vec|BinaryHeap|&'a \[)<?"),
        ("elements by number", r"\ball\[\d\]|\.len\(\) == \d"),
    ]),
    ("POINT 7: switches on which step or test to run", [
        ("enums passed to say what to do", r"\b(pick|mark): (Pick|Mark)\b|fn is\(self"),
    ]),
]

for point, lists in POINTS:
    print(point)
    for title, wanted in lists:
        show(title, lines(wanted) if isinstance(wanted, str) else wanted())
