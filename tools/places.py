#!/usr/bin/env python3
"""Lists the places in crates/*/src that may be written in an older form, a list for each of eight points.

    tools/places.py            counts for each point and pattern
    tools/places.py 3          the places of point 3, one a line; those of point 8 are the proof files

The patterns are wide: what they find is read, and docs/DESIGN-PASS.md says what came of each."""

import collections
import pathlib
import re
import sys

TOP = pathlib.Path(__file__).resolve().parent.parent

# Point 1: own forms of Option and Result, flags, numbers for kinds and refusals.
# Point 3: indices counted by hand. Point 4: comparing, copying, converting, printing by hand.
# Point 6: buffers with a length, parallel arrays, arenas. Point 7: switches on the step, tables of functions.
LINES = {
    1: {
        "an answer made again from the same answer": r"Ok\((\w+)\) => Ok\(\1\)|Err\((\w+)\) => Err\(\2\)|None => None\b|Some\((\w+)\) => Some\(|Err\(_\) => None|Err\((\w+)\) => match \4",
        "an answer replaced by hand": r"let (Ok|Some)\(\w+\) = .* else|Err\(_\) => Err\(|None => Err\(|\.is_err\(\) \{|^\s*\}? ?else \{ ?return Err|if let Ok\(_\)",
        "a number for a kind or a refusal": r"\bfn \w+(<.*>)?\(.*-> (u8|\(u8, usize\))|^\) -> u8|const \w+_KIND: u8",
        "a function that changes a thing and answers whether": r"\bfn \w+(<.*>)?\(.*&mut .*-> bool",
    },
    3: {
        "a range as an index": r"\bfor \w+ in [^{]*\.\.[^{]*\{",
        "a loop by a condition": r"\bwhile ",
        "a list walked to build, count or test": r"\bfor [^{]* in (?![^{]*\.\.)[^{]*\{",
        "a counter": r"\b(\w+) \+= (1|n|count);|\b(\w+) = \3\.saturating_add\(1\)",
    },
    4: {
        "an impl of a comparison, a copy or a print": r"^impl.* (PartialEq|Eq|PartialOrd|Ord|Hash|Clone|Copy|fmt::Display|fmt::Debug)(<.*>)? for ",
        "a conversion under a name of its own": r"\bfn (to_|from_|into_|as_|number|decode|encode|same|comes_before|word_order|is_blank|show)\w*",
        "an enum or struct without a derived ==": r"^(pub )?(enum|struct) \w+",
    },
    6: {
        "a buffer and how much of it counts": r"\[0(u8|u32)?; [^\]]+\]|\blen: usize|\[0?\.\.\w",
        "lists that belong together": r"^\s+(pub(\(crate\))? )?\w+: Vec<(?!u8>>)",
    },
    7: {
        "a choice by an enum of what to do": r"^\s+match (self|digest|call|\*call|command|word) \{",
        "a function kept as a value": r"(: |<)fn\(|\bdyn \b|\bimpl Fn\b|\bFn(Mut|Once)?\(",
    },
}


def files():
    return sorted(TOP.glob("crates/*/src/**/*.rt"))


def by_line(point):
    for name, pattern in LINES[point].items():
        for path in files():
            text = path.read_text().splitlines()
            for number, line in enumerate(text, 1):
                code = line.split("//")[0]
                if not re.search(pattern, code):
                    continue
                if "derived ==" in name and "PartialEq" in "".join(text[max(0, number - 4):number]):
                    continue
                yield name, f"{path.relative_to(TOP)}:{number}", line.strip()


def functions():
    """Each function with its signature, its clauses and its body."""
    for path in files():
        text = re.sub(r"//[^\n]*", "", path.read_text())
        for m in re.finditer(r"\bfn (\w+)[^;{]*?\(", text):
            start = m.start()
            depth, i = 0, m.end() - 1
            while i < len(text):
                c = text[i]
                if c == "{":
                    depth += 1
                elif c == "}":
                    depth -= 1
                    line_start = text.rfind("\n", 0, i) + 1
                    is_clause = re.match(r"\s*(ensures|requires)\b", text[line_start:i])
                    if depth == 0 and not is_clause:
                        break
                elif c == ";" and depth == 0:
                    break
                i += 1
            yield path.relative_to(TOP), text.count("\n", 0, start) + 1, m.group(1), text[start:i + 1]


def body_of(code):
    lines = [l for l in code.splitlines() if not re.match(r"\s*(ensures|requires)\b", l)]
    whole = "\n".join(lines)
    at = whole.find("{")
    return whole[at:] if at >= 0 else ""


def twins():
    """Point 2: functions of one shape, with other names, types and numbers."""
    shapes = collections.defaultdict(list)
    for path, line, name, code in functions():
        tokens = re.findall(r"[A-Za-z_]\w*|\d\w*|\"[^\"]*\"|[^\s\w]", body_of(code))
        keep = {"let", "if", "else", "for", "in", "match", "return", "Ok", "Err", "Some", "None", "self", "mut", "while"}
        shape = " ".join(t if t in keep or not re.match(r"\w|\"", t) else ("n" if t[0].isdigit() else "x") for t in tokens)
        if len(tokens) > 12:
            shapes[shape].append(f"{path}:{line}: {name}")
    for places in shapes.values():
        if len(places) > 1:
            for p in places:
                yield "a function of the shape of another", p.split(": ")[0], f"{p.split(': ')[1]}, one of {len(places)}"


def repeated():
    """Point 5: clauses in three functions or more, and parameters that stand together in three or more."""
    clauses, pairs = collections.defaultdict(set), collections.defaultdict(set)
    for path, line, name, code in functions():
        where = f"{path}:{line}"
        for m in re.finditer(r"(?:requires|ensures)\s*\w*\s*\{ (.*) \}\s*$", code, re.M):
            clauses[re.sub(r"result\b", "_", m.group(1))].add(where)
        head = code.split("->")[0].split("{")[0]
        params = re.findall(r"(\w+): (&mut \[?\w+[^,)]*|[^,)]+)", head[head.find("("):])
        for i, a in enumerate(params):
            for b in params[i + 1:]:
                pairs[" and ".join(f"{n}: {t}" for n, t in sorted((a, b)))].add(where)
    for text, where in clauses.items():
        if len(where) > 2:
            for w in sorted(where):
                yield "a clause in three functions or more", w, text[:100]
    for text, where in pairs.items():
        if len(where) > 2:
            for w in sorted(where):
                yield "parameters that stand together in three functions or more", w, text[:100]


def proofs():
    """Point 8: the proof files, each with how many lines it has."""
    for path in sorted(TOP.glob("crates/*/proofs/**/*.antt")):
        if "out" not in path.parts:
            yield "a proof file", path.relative_to(TOP), len(path.read_text().splitlines())


def places(point):
    others = {2: twins, 5: repeated, 8: proofs}
    return list(others[point]() if point in others else by_line(point))


def main():
    if len(sys.argv) > 1:
        for name, where, line in places(int(sys.argv[1])):
            print(f"{where}\t{name}\t{line}")
        return
    for point in (1, 2, 3, 4, 5, 6, 7):
        found = places(point)
        print(f"point {point}: {len(found)}")
        for name, count in collections.Counter(name for name, _, _ in found).items():
            print(f"    {count:3}  {name}")
    found = places(8)
    print(f"point 8: {len(found)} proof files of {sum(lines for _, _, lines in found)} lines")


main()
