#!/usr/bin/env python3
"""Counts the places of docs/DESIGN-PASS.md in crates/*/src and crates/*/proofs.

    tools/design_places.py [ROOT]        ROOT is a checkout; prints each place under its point, and a line of counts
"""
import collections
import glob
import os
import re
import sys

ROOT = sys.argv[1] if len(sys.argv) > 1 else os.path.join(os.path.dirname(__file__), "..")


def sources():
    for path in sorted(glob.glob(os.path.join(ROOT, "crates", "*", "src", "*.rt"))):
        yield os.path.relpath(path, os.path.join(ROOT, "crates")), open(path).read().split("\n")


def code(line):
    return line.split("//")[0]


def functions():
    """Each function: file, line, name, signature with its contract, body."""
    for path, lines in sources():
        for i, line in enumerate(lines):
            m = re.match(r'( *)(?:pub(?:\(crate\))? )?(?:extern "C" )?fn (\w+)', line)
            if not m:
                continue
            indent, j = m.group(1), i
            while not (lines[j] == indent + "{" or (lines[j].endswith("{") and "ensures" not in lines[j] and "requires" not in lines[j])):
                if lines[j].endswith(";"):
                    break
                j += 1
            if lines[j].endswith(";"):
                continue
            end = j + 1
            while lines[end] != indent + "}":
                end += 1
            yield path, i + 1, m.group(2), "\n".join(lines[i : j + 1]), "\n".join(code(x) for x in lines[j + 1 : end])


KEPT = {"if", "else", "let", "return", "match", "mut", "for", "in", "while", "as", "true", "false", "self"}


def shape(body):
    tokens = re.findall(r"[A-Za-z_]\w*|\d\w*|[^\s\w]", body)
    return tuple(t if t in KEPT else "name" if re.match(r"[A-Za-z_]", t) else "number" if t[0].isdigit() else t for t in tokens)


def grep(pattern, only=""):
    for path, lines in sources():
        if only and not re.match(only, path):
            continue
        for i, line in enumerate(lines):
            if re.search(pattern, code(line)):
                yield f"{path}:{i + 1}: {line.strip()}"


def point_1():
    for path, lines in sources():
        text = "\n".join(lines)
        for m in re.finditer(r"^(?:pub )?enum (\w+)(?:<\w+>)? \{\n(.*?)\n\}", text, re.M | re.S):
            if re.search(r"^\s+(Refused|Bad)\(", m.group(2), re.M):
                yield f"{path}: enum {m.group(1)}"
        for m in re.finditer(r"^pub struct (\w+)(?:<\w+>)? \{\n(.*?)\n\}", text, re.M | re.S):
            if re.search(r": bool,", m.group(2)):
                yield f"{path}: struct {m.group(1)}, a flag with a value beside it"
    yield from grep(r"(Refused|Bad)\([0-9]+|return [1-9][0-9]*;|refusal\([0-9]+,")
    yield from grep(r"\brefusal: u32\b|fn \w*refusal\w*\([^)]*\) -> u32")


def point_2():
    by_shape = collections.defaultdict(list)
    for path, line, name, _, body in functions():
        s = shape(body)
        if len(s) >= 8:
            by_shape[s].append(f"{path}:{line}: fn {name}")
    for group in by_shape.values():
        if len(group) > 1:
            yield from (f"{x}   (as {len(group) - 1} other)" for x in group)
    types = collections.defaultdict(list)
    for path, lines in sources():
        for m in re.finditer(r"^(?:pub )?(?:struct|enum) (\w+)(?:<[^>]*>)? \{\n(.*?)\n\}", "\n".join(lines), re.M | re.S):
            fields = re.sub(r"//[^\n]*|pub |\w+:|\b\w+\(", "", m.group(2))
            types[(m.group(1), "".join(fields.split()))].append(f"{path}: {m.group(1)}")
    for group in types.values():
        if len(group) > 1:
            yield from group


def point_3():
    yield from grep(r"\bwhile\b|\bloop\b")
    for path, line, _, _, body in functions():
        for m in re.finditer(r"for (\w+) in 0\.\.\d+ \{\s*if [^{]*\b\1\b[^{]*<", body):
            yield f"{path}:{line}: a for over a fixed range, with a test of the index"


def point_4():
    yield from grep(r"fn (from_words|wide|number|value|same|same_direction|is_quad|most|least|fewer|farther|less|direction|flat_if|upright)\(")
    yield from grep(r"\bsay(_\w+)?\(.*(number|place|count|number as|n as)", r"(cases|pictures)/")


def point_5():
    clauses, lent = collections.defaultdict(set), collections.defaultdict(set)
    for path, line, name, head, _ in functions():
        for m in re.finditer(r"requires (?:\w+ )?\{ (.*) \}$", head, re.M):
            for part in m.group(1).split(" × "):
                part = part.strip("() ")
                clauses[(path.split("/")[0], part)].add(f"{path}:{line}: fn {name}")
        m = re.search(r"fn \w+(?:<[^>]*>)?\((.*?)\)\s*(?:->|\n|$)", head, re.S)
        params = [p.strip() for p in (m.group(1) if m else "").split(",") if ":" in p]
        for n in (4, 3):
            for i in range(len(params) - n + 1):
                lent[(path.split("/")[0], ", ".join(params[i : i + n]))].add(f"{path}:{line}: fn {name}")
    for (crate, part), where in sorted(clauses.items()):
        if len(where) >= 3:
            yield f"{crate}: `{part}` in {len(where)} contracts"
    seen = set()
    for (crate, params), where in sorted(lent.items(), key=lambda x: -len(x[0][1])):
        key = (crate, tuple(sorted(where)))
        if len(where) >= 3 and key not in seen:
            seen.add(key)
            yield f"{crate}: ({params}) in {len(where)} functions"


def point_6():
    yield from grep(r"^(pub )?type \w+ = \[")
    yield from grep(r"n: usize,? .*Scratch|flags: &mut Scratch, n: usize|rows: &\[u8; 64\], count: usize|flags: &\[u8; 64\], count: usize|room: usize")


def point_7():
    yield from grep(r"\bdyn\b|: fn\(|Box<")


def point_8():
    for path in sorted(glob.glob(os.path.join(ROOT, "crates", "*", "proofs", "**", "Proof.antt"), recursive=True)):
        yield os.path.relpath(path, os.path.join(ROOT, "crates"))


def main():
    for n in range(1, 9):
        places = list(globals()[f"point_{n}"]())
        print(f"== point {n}: {len(places)} places")
        for place in places:
            print("  ", place)


main()
