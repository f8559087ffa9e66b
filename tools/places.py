#!/usr/bin/env python3
"""Counts in src/ the places that a design pass looks at, and lists them.

usage: python3 tools/places.py [POINT ..]      at the top of the repository; POINT is 1 to 8, all where none is given

1 codes: groups of constants that number kinds or refusals, and fields that are a code or a flag beside a value. 2 twins: functions whose bodies are
the same but for names and numbers. 3 loops: `while`, `loop`, and `for` over a range whose variable indexes something. 4 by hand: arithmetic that
converts, compares or prints. 5 facts in the contracts of three or more functions, and parameters that stand together in three or more.
6 an array or a buffer with a count beside it. 7 switches: parameters that are a bool, and comparisons of a command or a task. 8 proofs: answers and
lemmas by crate. A line that begins with `// Stays: ` gives the reason for which a place is as it is; a place has it that stands below it, or in an item
that stands below it, and is marked so.
"""
import collections
import os
import re
import sys

INTEGER = r"(?:u8|u16|u32|u64|usize)"
CONST = re.compile(r"^\s*(?:pub(?:\(crate\))? )?const ([A-Z][A-Z0-9_]*): " + INTEGER + r" = ([0-9]+|b'.'|b'\\.'|usize::MAX|u64::MAX);")
CODE_FIELD = re.compile(r"^\s+(?:pub )?(fault|number|kind|status|reason|ok|mark|motion|used|form|shape|sum|digits|negative|mode|line|handler|operation|selector): (?:" + INTEGER + r"|bool),")
FUNCTION = re.compile(r"^\s*(?:pub(?:\(crate\))? )?fn ([a-z_0-9]+)")


def sources():
    for folder, dirs, names in os.walk("crates"):
        dirs[:] = sorted(d for d in dirs if d not in ("out", "proofs", "specs", "must-fail", "data"))
        for n in sorted(names):
            if n.endswith(".rt"):
                path = os.path.join(folder, n)
                with open(path, encoding="utf-8") as f:
                    yield path, f.read().split("\n")


def functions(lines):
    """(name, first line, signature and clauses, body) of each function."""
    i = 0
    while i < len(lines):
        m = FUNCTION.match(lines[i])
        if not m or lines[i].lstrip().startswith("//"):
            i += 1
            continue
        start, head = i, []
        indent = len(lines[i]) - len(lines[i].lstrip())
        while i < len(lines) and lines[i] != " " * indent + "{" and not lines[i].endswith(" {"):
            head.append(lines[i].strip())
            i += 1
        if i < len(lines) and lines[i].endswith(" {") and lines[i].strip() != "{":
            head.append(lines[i].strip()[:-2])
        i += 1
        body = []
        while i < len(lines) and lines[i] != " " * indent + "}":
            body.append(lines[i].strip())
            i += 1
        yield m.group(1), start + 1, " ".join(head), body
        i += 1


def codes(all_sources):
    for path, lines in all_sources:
        group = []
        for i, line in enumerate(lines + ["//"]):
            m = CONST.match(line)
            if m:
                group.append((m.group(1), m.group(2), i + 1))
            elif line.strip():
                values = [v for _, v, _ in group]
                if len(group) > 1 and len(set(values)) == len(values) and all(v.startswith("b'") or v.isdigit() and int(v) < 256 for v in values):
                    yield path, group[0][2], f"{len(group)} constants from {group[0][0]} = {group[0][1]}"
                for name, value, at in group:
                    if name.startswith(("NO_", "NOTHING")):
                        yield path, at, f"{name} = {value}"
                group = []
        struct = None
        for i, line in enumerate(lines):
            m = re.match(r"^\s*(?:pub )?struct ([A-Za-z]+)", line)
            if m:
                struct = m.group(1)
            f = CODE_FIELD.match(line)
            if f and struct:
                yield path, i + 1, f"{struct}.{f.group(1)}"
            if line == "}":
                struct = None


def twins(all_sources):
    shapes = collections.defaultdict(list)
    for path, lines in all_sources:
        for name, at, head, body in functions(lines):
            text = " ".join(b for b in body if not b.startswith("//"))
            if len(text) < 30:
                continue
            shape = re.sub(r"b?'(\\?.)'|b?\"[^\"]*\"", "#", text)
            shape = re.sub(r"\b[A-Za-z_][A-Za-z_0-9]*\b", lambda m: m.group(0) if m.group(0) in KEYWORDS else "x", shape)
            shape = re.sub(r"\b[0-9][0-9a-fx_]*\b", "#", shape)
            shape = re.sub(r"x(::x)+", "x", shape)
            shapes[shape].append((path, at, name))
    for shape, group in sorted(shapes.items(), key=lambda g: g[1]):
        if len(group) > 1:
            path, at, name = group[0]
            yield path, at, ", ".join(f"{n} ({p.split('/')[1]})" for p, _, n in group)


KEYWORDS = set("if else match let mut for in while loop return break as fn Some None Ok Err true false self Self".split())


def loops(all_sources):
    for path, lines in all_sources:
        for i, line in enumerate(lines):
            if line.lstrip().startswith("//"):
                continue
            code = line.strip()
            if re.match(r"(while |loop \{)", code) or re.search(r"= loop \{", code):
                yield path, i + 1, code
            m = re.match(r"for ([a-z_]+) in .*\.\.", code)
            if m and m.group(1) != "_":
                inside = []
                indent = len(line) - len(line.lstrip())
                for later in lines[i + 1:]:
                    if later == " " * indent + "}":
                        break
                    inside.append(later)
                if re.search(r"\[[^\]]*\b" + m.group(1) + r"\b[^\]]*\]", "\n".join(inside)):
                    yield path, i + 1, code


BY_HAND = re.compile(r"4294967295|2147483648|4294967296|% 256\b|/ 256\b|\b256 \*|\* 256\b|b'0' \+|- b'0'|% 10\b|/= 10\b|/ 10\b|\* 10\b|BYTE \*|% BYTE|/ BYTE|WRAP|HALF")


def by_hand(all_sources):
    for path, lines in all_sources:
        for name, at, head, body in functions(lines):
            text = " ".join(b for b in body if not b.startswith("//"))
            if BY_HAND.search(text) or name in ("same", "copy", "copied", "give", "equal"):
                yield path, at, name


def facts(all_sources):
    found = collections.defaultdict(set)
    together = collections.defaultdict(set)
    for path, lines in all_sources:
        for name, at, head, body in functions(lines):
            where = f"{path.split('/')[1]}::{name}"
            for clause in re.findall(r"requires (?:[a-z_]+ )?\{(.*?)\}(?= requires| ensures|$)", head):
                for fact in clause.split("×"):
                    fact = fact.strip(" ()")
                    shape = re.sub(r"\b[a-z_]+\.(now|old|new)\b", "_", fact)
                    shape = re.sub(r"\b(self|p|s|k|rows|cell|operand|events?)\b", "_", shape)
                    found[shape].add(where)
            m = re.search(r"\((.*?)\)(?: ->|$| requires| ensures| where)", head)
            if m:
                params = [p.strip() for p in m.group(1).split(",") if ":" in p]
                for i in range(len(params)):
                    for j in range(i + 1, len(params)):
                        for k in range(j + 1, len(params)):
                            together[(params[i], params[j], params[k])].add(where)
    for shape, where in sorted(found.items(), key=lambda f: -len(f[1])):
        if len(where) > 2:
            yield "requires", len(where), f"{shape}: {', '.join(sorted(where))}"
    seen = set()
    for three, where in sorted(together.items(), key=lambda f: (-len(f[1]), f[0])):
        if len(where) > 2 and frozenset(where) not in seen:
            seen.add(frozenset(where))
            yield "together", len(where), f"{'; '.join(three)}: {', '.join(sorted(where))}"


def buffers(all_sources):
    for path, lines in all_sources:
        struct, fields = None, []
        for i, line in enumerate(lines):
            m = re.match(r"^(?:pub )?struct ([A-Za-z]+)", line)
            if m:
                struct, fields, at = m.group(1), [], i + 1
            elif struct and re.match(r"^    (?:pub )?[a-z_]+: ", line):
                fields.append(line.strip())
            elif line == "}" and struct:
                if any(re.search(r": (\[|Room)", f) for f in fields) and any(re.search(r"(held|count|kept|length|size): ", f) for f in fields):
                    yield path, at, f"struct {struct}"
                struct = None
        for name, at, head, body in functions(lines):
            if re.search(r"(page|room|buffer|name|bytes|list|word|visits|records): &'?[a-z]*\s?(mut )?[\[A-Z][^,]*, (held|length|count|before|at): usize", head):
                yield path, at, f"fn {name}"


def switches(all_sources):
    for path, lines in all_sources:
        for name, at, head, body in functions(lines):
            for flag in re.findall(r"\b([a-z_]+): bool\b", head):
                yield path, at, f"fn {name}, {flag}"
            text = " ".join(body)
            if len(re.findall(r"\b(kind|command|task|operation|option|mode) == ", text)) > 1:
                yield path, at, f"fn {name} compares a kind more than once"


def proofs(_):
    for crate in sorted(os.listdir("crates")):
        answers = lines = lemmas = 0
        for folder, dirs, names in os.walk(os.path.join("crates", crate, "proofs")):
            for n in names:
                if n.endswith(".antt"):
                    with open(os.path.join(folder, n), encoding="utf-8") as f:
                        text = f.read()
                    if n == "Answers.antt":
                        answers += len(re.findall(r"^pub [^\s]+ : goal", text, re.M))
                    lines += text.count("\n")
                    if folder.endswith("proofs"):
                        lemmas += len(re.findall(r"^(?:pub |unfoldable |abbrev )*[a-z][a-z_0-9']* : ", text, re.M))
        yield crate, answers, f"answers; {lemmas} lemmas, {lines} lines"


POINTS = {1: codes, 2: twins, 3: loops, 4: by_hand, 5: facts, 6: buffers, 7: switches, 8: proofs}


def indent_of(line):
    return len(line) - len(line.lstrip())


def has_reason(lines, at):
    """Whether a reason stands above the line with this number, or above an item that it is in."""
    i = at - 1
    while True:
        above = i - 1
        while above >= 0 and lines[above].strip().startswith(("//", "#[")):
            if lines[above].strip().startswith("// Stays: "):
                return True
            above -= 1
        if indent_of(lines[i]) == 0:
            return False
        outside = i - 1
        while outside >= 0 and (not lines[outside].strip() or indent_of(lines[outside]) >= indent_of(lines[i]) or lines[outside].strip() == "{"):
            outside -= 1
        if outside < 0:
            return False
        i = outside


def main():
    here = list(sources())
    text = dict(here)
    for point in [int(a) for a in sys.argv[1:]] or sorted(POINTS):
        rows = list(POINTS[point](here))
        marked = [a in text and has_reason(text[a], b) for a, b, _ in rows]
        print(f"point {point}: {len(rows)}" + (f", with a reason {sum(marked)}" if any(marked) else ""))
        for (a, b, c), m in zip(rows, marked):
            print(f"    {a}:{b}: {c}" + (" [stays]" if m else ""))
    stays = sum(line.lstrip().startswith("// Stays: ") for _, lines in here for line in lines)
    print(f"lines that give a reason: {stays}")


main()
