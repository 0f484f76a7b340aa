#!/usr/bin/env python3
"""Lists where src/ has a form that today's Rattle could say better, point by point, as docs/DESIGN-PASS.md counts them.

Run at the top of the repository, or of a checkout of an older commit: `python3 tools/count_places.py [POINT]`. Each row is a
place to look at and no verdict; the page says what became of each.
"""
import collections
import difflib
import glob
import re
import sys

FILES = sorted(glob.glob("crates/*/src/**/*.rt", recursive=True))
LINES = [(f, n, line.rstrip("\n")) for f in FILES for n, line in enumerate(open(f, encoding="utf-8"), 1)]
CODE = [row for row in LINES if not re.match(r"\s*(//|ghost use|ensures|requires)", row[2])]


def rows(pattern):
    return [f"{f}:{n}: {line.strip()}" for f, n, line in CODE if re.search(pattern, line)]


def functions():
    """Each function with its file, its signature, its clauses and its body."""
    for f in FILES:
        text = open(f, encoding="utf-8").read().split("\n")
        for n, line in enumerate(text):
            head = re.match(r"(\s*)(?:pub(?:\(crate\))? )?fn (\w+)", line)
            if not head:
                continue
            body = next((m for m in range(n, len(text)) if re.search(r"[{;]$|\{\}$", text[m])), n)
            if text[body].endswith(";"):
                continue
            end = next((m for m in range(n, len(text)) if text[m] == head.group(1) + "}" or text[m].endswith("{}")), n)
            part = text[n : end + 1]
            clauses = [c.strip() for c in part if re.match(r"\s*(ensures|requires)", c)]
            start = next((m for m, c in enumerate(part) if c == head.group(1) + "{" or c.endswith("{")), 0)
            yield f, head.group(2), " ".join(part[: start + 1]), clauses, "\n".join(part[start + 1 :])


def twins():
    """Pairs of functions whose bodies are alike but for names."""
    bodies = []
    for f, name, _, _, body in functions():
        tokens = [re.sub(r"^[a-z_]\w*$", "x", t) for t in re.findall(r"\w+|[^\w\s]", body)]
        if len(tokens) >= 14 and "summary_checks" not in f and "hierarchy_checks" not in f and "/checks/" not in f:
            bodies.append((f, name, tokens))
    found = []
    for i, (f, name, one) in enumerate(bodies):
        for g, other_name, other in bodies[i + 1 :]:
            if difflib.SequenceMatcher(None, one, other, autojunk=False).ratio() >= 0.8:
                found.append(f"{f} {name} ~ {g} {other_name}")
    structs = collections.defaultdict(list)
    for f in FILES:
        for m in re.finditer(r"struct (\w+)[^{;]*\{([^}]*)\}", open(f, encoding="utf-8").read()):
            structs[m.group(1)] = sorted(re.findall(r"^\s*(?:pub )?(\w+):", m.group(2), re.M))
    names = sorted(structs)
    for i, one in enumerate(names):
        for other in names[i + 1 :]:
            if len(set(structs[one]) & set(structs[other])) >= 2:
                found.append(f"struct {one} ~ struct {other}")
    return found


def repeated_clauses():
    where = collections.defaultdict(list)
    for f, name, _, clauses, _ in functions():
        for clause in clauses:
            body = re.sub(r"^(ensures|requires)( \w+)? ", "", clause)
            where[body].append(f.split("/")[1] + "::" + name)
    return [f"{len(v)} functions: {k} in {', '.join(v)}" for k, v in sorted(where.items()) if len(v) >= 3]


def travelling_parameters():
    groups = collections.defaultdict(list)
    for f, name, signature, _, _ in functions():
        parameters = re.findall(r"(\w+): (?!usize>|Key)", signature.split("->")[0])
        parameters = [p for p in parameters if p.islower() and p not in ("hierarchy", "rt")]
        for i, one in enumerate(parameters):
            for other in parameters[i + 1 :]:
                groups[(one, other)].append(f.split("/")[1] + "::" + name)
    return [f"{len(v)} functions: ({a}, {b}) in {', '.join(v)}" for (a, b), v in sorted(groups.items()) if len(v) >= 3]


def proofs():
    lemmas = glob.glob("crates/*/proofs/*.antt")
    lemmas = [p for p in lemmas if not p.endswith("Lib.antt")]
    answers = [p for p in glob.glob("crates/*/proofs/**/Answers.antt", recursive=True)]
    invariants = [p for p in glob.glob("crates/*/proofs/**/Invariants.antt", recursive=True)]

    def size(paths):
        return sum(len(open(p, encoding="utf-8").read().split("\n")) - 1 for p in paths)

    given = sum(len(re.findall(r"^pub [\w-]+ :", open(p, encoding="utf-8").read(), re.M)) for p in answers)
    return [
        f"{len(lemmas)} files of lemmas, {size(lemmas)} lines",
        f"{len(answers)} files of answers, {size(answers)} lines, {given} answers",
        f"{len(invariants)} files of invariants, {size(invariants)} lines",
    ]


POINTS = {
    "1": lambda: rows(r"\benum \w+|^\s+(pub )?\w+: bool,|u8>|-> u8|^\s+\w+\.len\(\)$|^\s+0$|== \w+\.len\(\)|>= \w+\.len\(\)|None => None|return None;|Some\(_?\w*\) => Some|Ok\(_?\w*\) => |Err\(\w*\) => |let mut (\w+) = false"),
    "2": twins,
    "3": lambda: rows(r"^\s*for .* in .*\.\.|^\s*while |\.enumerate\(\)|^\s*for \(?\w+(, \w+)?\)? in "),
    "4": lambda: rows(r"char::from|_be_bytes|fn (same_\w+|comes_before|is_lower|order_asked|digit_value|spell|slot|node|prefix|\w+_text|push_\w+)\b|impl.* (Display|PartialEq|PartialOrd|From|TryFrom)"),
    "5": lambda: repeated_clauses() + travelling_parameters(),
    "6": lambda: rows(r"\[[^\[\]]*\.\.\w+\.len\(\)\]|\[0\.\.\w+\]|\bused: usize|LEVELS\]|&mut \[\w+\]|Option<usize>|\(high - low\)|\[\w+( \+ 1)?\]\.key"),
    "7": lambda: rows(r"match (step|kind)|\bdyn |: fn\(|impl Fn|\[fn"),
    "8": proofs,
}

for point, look in POINTS.items():
    if len(sys.argv) > 1 and sys.argv[1] != point:
        continue
    found = look()
    print(f"point {point}: {len(found)}")
    for row in found:
        print("   ", row)
