#!/usr/bin/env python3
"""Brings this repository's own definitions and lemmas to the spelling of today's Rattle, after /opt/rattle/port/port.py. Run once, at the top.

A definition in camel case gets snake case, and so does one of specs/ (an `abbrev`) or a record's field whose words are joined by dashes. Types, modules, functions of src/
and lemmas whose parts are joined by a dash keep their names. LEMMAS are the few lemmas whose name a definition gets: each
becomes its definition's name with `_lem`, in the files that speak of it."""
import collections
import os
import re
import sys

DECLARED = re.compile(r"^(\s*)((?:(?:abbrev|pub|unfoldable|data|record|ruleset)\s+)*)([^\s:(){}]+)\s+(?:(?:\{[^}]*\}\s*|\([^)]*\)\s*)*):\s")
LEMMAS = {
    "body_bytes": ["records/proofs/Records.antt"],
    "cut_list": ["change/proofs/Cutting.antt", "change/proofs/cut/cut_records/Proof.antt", "directory/proofs/name/cut_names/Proof.antt"],
    "first_body": ["rules/proofs/FoldFits.antt"],
    "first_key": ["walk/proofs/Stepping.antt"],
    "node_lists": ["gather/proofs/Gathering.antt", "gather/proofs/gather/node_lists/Proof.antt"],
    "row_count": ["base/proofs/Sifting.antt"],
    "same_kind": ["rules/proofs/Laws.antt"],
}


def texts(top, endings):
    for folder, dirs, files in os.walk(top):
        dirs[:] = sorted(d for d in dirs if d != "out")
        for f in sorted(files):
            if f.endswith(endings):
                yield os.path.join(folder, f)


def snake(name):
    return re.sub(r"(?<=[a-z0-9])([A-Z])", lambda m: "_" + m.group(1).lower(), name)


def renamed(top):
    new = {}
    for path in texts(top, ".antt"):
        record = None
        with open(path, encoding="utf-8") as f:
            for line in f:
                depth = len(line) - len(line.lstrip())
                if re.match(r"\s*(?:pub )?record .*\bwhere", line):
                    record = depth
                elif line.strip() and record is not None and depth <= record:
                    record = None
                m = DECLARED.match(line)
                if not m or m.group(3)[0].isupper():
                    continue
                name = m.group(3)
                to = snake(name)
                field = record is not None
                if "-" in to and (field or "/specs/" in path and "abbrev" in m.group(2)):
                    to = to.replace("-", "_").lower()
                if to != name:
                    new[name] = to
    return new


def main():
    top = "crates"
    new = renamed(top)
    token = re.compile(r"(?<![\w'·-])(" + "|".join(sorted(map(re.escape, new), key=len, reverse=True)) + r")(?![\w'-])")
    words = collections.defaultdict(set)
    for path in texts(top, (".antt", ".rt")):
        with open(path, encoding="utf-8") as f:
            text = f.read()
        for w in set(re.findall(r"[^\s(){}\[\],;.:]+", re.sub(r"(--|//).*", "", text))):
            words[w].add(path)
    if "--look" in sys.argv:
        for a, b in sorted(new.items()):
            if b in words:
                print(a, b, len(words[b]), sorted(words[b])[:3])
        print(len(new), "names")
        return
    for path in texts(top, (".antt", ".rt", ".edit")):
        with open(path, encoding="utf-8") as f:
            text = f.read()
        changed = text
        for lemma, files in LEMMAS.items():
            if path[len(top) + 1 :] in files:
                changed = re.sub(r"(?<![\w'·.-])" + lemma + r"(?![\w'-])", lemma + "_lem", changed)
        changed = token.sub(lambda m: new[m.group(1)], changed)
        if changed != text:
            with open(path, "w", encoding="utf-8") as f:
                f.write(changed)
    # the documents that name them
    for path in ["README.md", *texts("docs", ".md")]:
        with open(path, encoding="utf-8") as f:
            text = f.read()
        changed = re.sub(r"`[^`\n]+`", lambda m: token.sub(lambda n: new[n.group(1)], m.group(0)), text)
        if changed != text:
            with open(path, "w", encoding="utf-8") as f:
                f.write(changed)


main()
