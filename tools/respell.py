#!/usr/bin/env python3
"""Brings the repository's own definitions, lemmas and fields to snake case, after the kit's port.py has run.

usage: python3 tools/respell.py [--dry]       at the top of the repository, once

A name of specs/ or of a lemma file in camel case or with dashes becomes snake case, in every .antt file, in the clauses and comments of every
.rt file, and in the must-fail edits. Where a lemma would fall together with a definition or another lemma, it ends in `_lem`. Names from src/,
strings, inputs and outputs keep their spelling, and so do the names that Rattle makes for goals.
"""
import collections
import os
import re
import sys

SIG = re.compile(r"^(\s*)((?:pattern |unfoldable |abbrev |pub |axiom )*)([^\s(){}:;,.\"]+)(?:\s*\{[^}]*\})?\s*:\s", re.M)
BREAK = re.compile(r"([\s(){}\[\],;.\"]+)")
PROOF = ("Proof.antt", "Invariants.antt", "Answers.antt")


def snake(name):
    name = re.sub(r"([a-z0-9])([A-Z])", r"\1_\2", name.replace("-", "_"))
    return name.lower()


def files(ending):
    for folder, dirs, names in os.walk("crates"):
        dirs[:] = sorted(d for d in dirs if d != "out")
        for n in sorted(names):
            if n.endswith(ending):
                yield os.path.join(folder, n)


def is_function_proof(path):
    return path.split("/")[2] == "proofs" and os.path.basename(path) in PROOF


def read(path):
    with open(path, encoding="utf-8") as f:
        return f.read()


def fields_of(text):
    """The names of the fields of the records that a file declares."""
    found, inside = set(), False
    for line in text.split("\n"):
        if re.match(r"^(\s*)(pub )?record .* where\s*$", line):
            inside = True
        elif inside and line.strip() and not line.startswith("  "):
            inside = False
        m = re.match(r"^  +(?:pub )?([^\s(){}:;,.\"]+) : ", line)
        if inside and m:
            found.add(m.group(1))
    return found


def declared():
    """The names that specs/ and lemma files declare, with where; the helpers of function proofs too; and the fields."""
    own, local, fields = collections.defaultdict(set), collections.defaultdict(set), set()
    for p in files(".antt"):
        t = read(p)
        if is_function_proof(p):
            for m in SIG.finditer(t):
                if not t[m.end():].startswith("tie.") and not m.group(3).endswith("_spec"):
                    local[m.group(3)].add(p)
            continue
        f = fields_of(t)
        fields |= f
        for m in SIG.finditer(t):
            if m.group(3) not in f:
                own[m.group(3)].add(p)
    return own, local, fields


def wanted(name):
    if name[0].isupper() and "-" not in name:
        return False
    return snake(name) != name


def mapping():
    own, local, fields = declared()
    names = {n for n in own if wanted(n)}
    taken = {n for n in own if not wanted(n)} | {snake(n) for n in names if "-" not in n}
    out = {}
    for n in sorted(names):
        s = snake(n)
        out[n] = s + "_lem" if "-" in n and s in taken else s
    # A lemma that port.py has turned already, and a definition in camel case.
    camel = {snake(n) for n in names if "-" not in n}
    for n in sorted(camel & set(own)):
        out[n] = n + "_lem"
    for n in sorted(local):
        if wanted(n) and n not in out:
            out[n] = snake(n)
    of_fields = {n: snake(n) for n in fields if wanted(n)}
    return out, of_fields


def respell(text, names, fields, function_proof):
    """Tokens of antt; a projection and a label of a record are fields."""
    out = []
    lines = text.split("\n")
    in_record_declaration = False
    for line in lines:
        if re.match(r"^(\s*)(pub )?record .* where\s*$", line):
            in_record_declaration = True
        elif in_record_declaration and line.strip() and not line.startswith("  "):
            in_record_declaration = False
        comment = ""
        if line.lstrip().startswith("--"):
            out.append(camel_only(line, names, fields))
            continue
        parts = BREAK.split(line)
        for i in range(0, len(parts), 2):
            t = parts[i]
            if not t:
                continue
            before = parts[i - 1] if i else ""
            behind = parts[i + 1] if i + 1 < len(parts) else ""
            after = parts[i + 2] if i + 2 < len(parts) else ""
            projected = before.endswith(".") and not before.endswith("..") and i >= 2 and (parts[i - 2] == "" or not parts[i - 2][0].isupper())
            label = t in fields and (
                (in_record_declaration and i <= 4 and all(q in ("", "pub") for q in parts[0:i:2]))
                or (after == "=" and not (i == 0))
                or (after == ":" and i > 0 and "{" in "".join(parts[:i]) and "record" in line)
            )
            if projected and names.get(t) == t + "_lem":
                continue
            if projected or label:
                if t in fields:
                    parts[i] = fields[t]
                elif t in names and not function_proof:
                    parts[i] = snake(t)
                elif t in names and "-" not in t:
                    parts[i] = names[t]
                continue
            if t in names:
                parts[i] = names[t]
            elif t in fields and "-" in t and not function_proof:
                parts[i] = fields[t]
        out.append("".join(parts))
    return "\n".join(out)


def camel_only(text, names, fields):
    def turn(m):
        w = m.group(0)
        return names.get(w) or fields.get(w) or w

    return re.sub(r"(?<![\w-])[a-z][a-z0-9]*(?:[A-Z][A-Za-z0-9]*)+(?![\w])", turn, text)


def respell_source(text, names, fields):
    """Clauses and comments of a .rt file: camel case names stand nowhere else but in strings."""
    out = []
    for line in text.split("\n"):
        pieces = re.split(r'(b?"(?:[^"\\]|\\.)*")', line)
        out.append("".join(p if i % 2 else camel_only(p, names, fields) for i, p in enumerate(pieces)))
    return "\n".join(out)


def main():
    dry = "--dry" in sys.argv
    names, fields = mapping()
    for p in files(".antt"):
        t = read(p)
        n = respell(t, names, fields, is_function_proof(p))
        if n != t and not dry:
            with open(p, "w", encoding="utf-8") as f:
                f.write(n)
    for p in [*files(".rt"), *files(".edit")]:
        t = read(p)
        n = respell_source(t, names, fields)
        if n != t and not dry:
            with open(p, "w", encoding="utf-8") as f:
                f.write(n)
    for n in sorted(names):
        print(n, names[n])
    for n in sorted(fields):
        print("field", n, fields[n])


main()
