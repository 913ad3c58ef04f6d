#!/usr/bin/env python3
"""Respells the repository's own definitions and lemmas as today's Rattle spells names.

usage: python3 tools/respell.py [FOLDER]      in a checkout that the kit's port script has turned; FOLDER is its top, else the current folder

Words (definitions, lemmas, fields, constructors of specs) go to snake case, types and facts to upper camel case.
Names that Rattle makes (goals, invariants, measures), names of the libraries and names of src/ keep their spelling.
A second run changes nothing.
"""

import os
import re
import sys

SIGNATURE = re.compile(r"^(\s*)((?:abbrev |unfoldable |pub |data |record )*)([^\s(){}:=,;|\[\]]+)((?:\s+[({][^:]*:[^)}]*[)}])*)\s+:(\s|$)(.*)")
TOKEN = re.compile(r"[^\s(){}\[\].,;|«»`]+")
OWN = re.compile(r"Rattle\.(\w+)\.")
# where the snake case is the name of a function of src/ beside it, two crates have one name, or a part of the name is a word of the library that has gone
TAKEN = {
    "allFree": "all_free_word",
    "chosenFarm": "chosen_farm_of",
    "freeTanker": "free_tanker_of",
    "isFarm": "is_farm_place",
    "isTanker": "is_tanker_place",
    "atDairy": "dairy_reaction",
    "atFarm": "farm_reaction",
    "atTanker": "tanker_reaction",
    "loadFault": "load_fault_of",
    "startFault": "start_fault_of",
    "eventFault": "event_fault_of",
    "entryBy": "entry_for",
    "onlyNumber": "only_number_of",
    "allSent": "all_sent_of",
    "sentOut": "sent_out_of",
    "lastUnloading": "last_unloading_of",
    "laterUnloading": "later_unloading_of",
    "isMilking": "is_milking_message",
    "isPumping": "is_pumping_message",
    "isUnloading": "is_unloading_message",
    "faultWords": "words_of_fault",
    "bares-getD": "bares_get_or",
    "copies-within": "copies_within_lem",
    "executions-within": "executions_within_lem",
}
IN_REPORT = {"atDairy": "dairy_deed", "atFarm": "farm_deed", "atTanker": "tanker_deed"}
# names that Rattle makes, in Answers.antt and Invariants.antt
MADE = re.compile(r"(-requires(-|$)|^(loop|returns|invariant|decreases|overflow|nonzero|bounds|in|if)-.*|-preserved$|-init$)")


def files(top):
    for folder, dirs, names in os.walk(os.path.join(top, "crates")):
        dirs[:] = sorted(d for d in dirs if d not in ("out", "must-fail"))
        for n in sorted(names):
            if n.endswith((".antt", ".rt")):
                yield os.path.join(folder, n)


def snake(name):
    name = name.replace("-", "_")
    name = re.sub(r"(?<=[a-z0-9'])([A-Z])", lambda m: "_" + m.group(1).lower(), name)
    return name


def camel(name):
    return re.sub(r"-(\w)", lambda m: m.group(1).upper(), name)


def declared(texts):
    """The repository's own names that want another spelling: old to new."""
    found = {}
    for path, text in texts.items():
        if not path.endswith(".antt"):
            continue
        answers = os.path.basename(path) in ("Answers.antt", "Invariants.antt")
        for line in text.splitlines():
            if line.lstrip().startswith("--") or re.match(r"(use|mod|pub mod) ", line):
                continue
            m = SIGNATURE.match(line)
            if not m:
                continue
            name, type_ = m.group(3), m.group(6)
            if answers and (type_.startswith("goal.") or MADE.search(name)):
                continue
            if name[0] == "◌" or not re.search(r"-|[a-z][A-Z]", name):
                continue
            if name in TAKEN:
                new = TAKEN[name]
            elif name[0].isupper():
                new = camel(name)
            else:
                new = snake(name)
            if new != name:
                found[name] = new
    return found


def imported_from_elsewhere(text, own):
    """Names that a file takes from a library that is none of the repository's."""
    names = set()
    for line in text.splitlines():
        m = re.match(r"\s*(?:ghost )?use (\S+?)\.\{(.*)\}", line)
        if not m:
            continue
        crate = OWN.match(m.group(1) + ".")
        if crate and crate.group(1) in own:
            continue
        for it in m.group(2).split(","):
            names.add(it.split(" as ")[-1].strip())
    return names


def respelled(line, path, names, skip):
    code, mark, comment = line, "", ""
    if path.endswith(".rt"):
        if '"' in line:
            return line
        i = line.find("//")
    else:
        m = re.search(r"(^|\s)--(\s|$)", line)
        i = m.start() if m else -1
    if i >= 0:
        code, comment = line[:i], line[i:]

    def one(m, hyphens=True):
        t = m.group(0)
        if t in skip or t not in names or (not hyphens and "-" in t):
            return t
        return names[t]

    return TOKEN.sub(one, code) + mark + TOKEN.sub(lambda m: one(m, False), comment)


def main(argv):
    top = argv[0] if argv else "."
    top = os.path.abspath(top)
    own = {d for d in os.listdir(os.path.join(top, "crates"))}
    texts = {}
    for p in files(top):
        with open(p, encoding="utf-8") as f:
            texts[p] = f.read()
    names = declared(texts)
    changed = 0
    for path, text in texts.items():
        here = names | IN_REPORT if "/crates/report/" in path else names
        skip = imported_from_elsewhere(text, own)
        there = set(TOKEN.findall(text))
        for old in sorted(there & set(here) - skip):
            if here[old] in there:
                print(f"fall together: {path}: {old} and {here[old]}")
        new = "".join(respelled(l, path, here, skip) for l in text.splitlines(keepends=True))
        if new != text:
            changed += 1
            with open(path, "w", encoding="utf-8") as f:
                f.write(new)
    print(f"respell: {len(names)} names, {changed} files")


if __name__ == "__main__":
    main(sys.argv[1:])
