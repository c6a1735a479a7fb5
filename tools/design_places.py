#!/usr/bin/env python3
"""Lists the places in crates/*/src that docs/DESIGN-PASS.md counts, point by point.

    python3 tools/design_places.py            every place
    python3 tools/design_places.py --counts   the number of places of each point alone
"""
import re
import sys
from collections import defaultdict
from pathlib import Path

SOURCES = sorted(Path("crates").glob("*/src/**/*.rt"))
SIGNATURE = re.compile(r"^( *)(?:pub(?:\(crate\))? )?fn (\w+)")
KEYWORDS = {
    "if", "else", "match", "for", "in", "while", "let", "mut", "return", "fn", "pub", "self", "Self", "as", "true", "false",
    "Some", "None", "Ok", "Err", "break", "continue", "move",
}


def functions(path):
    """Each function of a file: its name, first line, signature, contract and body."""
    lines = path.read_text().split("\n")
    at = 0
    while at < len(lines):
        begin = SIGNATURE.match(lines[at])
        if not begin or lines[at].rstrip().endswith(";"):
            at += 1
            continue
        indent = begin.group(1)
        first = at
        head, contract, body = [], [], []
        while at < len(lines) and not re.match(indent + r"(\{\}?$|\})", lines[at]) and not (
            at == first and lines[at].rstrip().endswith("{")
        ):
            text = lines[at].strip()
            inside = re.match(r"(requires|ensures)\b", text) or (contract and not text.startswith("where"))
            (contract if inside else head).append(text)
            at += 1
            if head and at < len(lines) and lines[at - 1].rstrip().endswith(") {"):
                break
        if at < len(lines) and at == first:
            head.append(lines[at].strip())
        at += 1
        while at < len(lines) and lines[at] != indent + "}" and not lines[at - 1].rstrip().endswith("{}"):
            body.append(lines[at])
            at += 1
        yield begin.group(2), first + 1, " ".join(head), " ".join(contract), body


def code_lines(path):
    for number, line in enumerate(path.read_text().split("\n"), 1):
        text = line.strip()
        if text and not text.startswith("//") and not text.startswith("ghost") and not re.match(r"(requires|ensures)\b", text):
            yield number, text


def by_pattern(pattern):
    found = re.compile(pattern)
    return [f"{path}:{number}: {text}" for path in SOURCES for number, text in code_lines(path) if found.search(text)]


def shape(body):
    """A body with every name and number of its own taken out."""
    text = re.sub(r"//.*", "", "\n".join(body))
    words = re.findall(r"b?'[^']*'|b?\"[^\"]*\"|\w+|[^\w\s]", text)
    return " ".join(
        word if word in KEYWORDS or not re.match(r"[\w'\"]", word) else ("0" if re.match(r"\d|b?['\"]", word) else "x")
        for word in words
    )


def twins():
    """Functions whose bodies are alike but for names and numbers; bodies of fewer than 12 words are left out."""
    groups = defaultdict(list)
    for path in SOURCES:
        for name, line, _, _, body in functions(path):
            text = shape(body)
            if len(text.split()) >= 12:
                groups[text].append(f"{path}:{line} {name}")
    return [" ~ ".join(group) for group in groups.values() if len(group) > 1]


def facts():
    """Facts that stand in the `requires` of three functions or more."""
    where = defaultdict(set)
    for path in SOURCES:
        for name, line, _, contract, _ in functions(path):
            for clause in re.findall(r"requires(?: \w+)? \{ (.*?) \}(?= requires| ensures|$)", contract):
                for fact in re.split(r" × ", clause):
                    fact = fact.strip()
                    while fact.startswith("(") and fact.endswith(")") and fact[1:-1].count("(") == fact[1:-1].count(")"):
                        fact = fact[1:-1]
                    where[re.sub(r"\.(now|old)\b", "", fact)].add(f"{path}:{line} {name}")
    return [f"{len(places)} times: {fact}" for fact, places in sorted(where.items()) if len(places) >= 3]


def companions():
    """Pairs of parameters, by name and type, that stand together in three functions or more."""
    where = defaultdict(set)
    for path in SOURCES:
        for name, line, head, _, _ in functions(path):
            params = re.search(r"\((.*)\)", head)
            names = re.findall(r"(\w+): ([^,()]+(?:\([^()]*\))?)", params.group(1)) if params else []
            names = [f"{n}: {re.sub(chr(38) + '(mut )?', '', t).strip()}" for n, t in names]
            for i, a in enumerate(names):
                for b in names[i + 1:]:
                    where[(a, b)].add(f"{path}:{line} {name}")
    return [f"{len(places)} times: {a}, {b}" for (a, b), places in sorted(where.items()) if len(places) >= 3]


def answers():
    """Files of answers and of invariants, and lemma files."""
    files = sorted(Path("crates").glob("*/proofs/**/Answers.antt"))
    goals = [f"{path}: {goal}" for path in files for goal in re.findall(r"^pub (\S+) : goal\.", path.read_text(), re.M)]
    return goals


POINTS = [
    (1, "own enums, flags with a value beside, numbers for kinds or refusals, `Option` of a number as an answer",
     lambda: by_pattern(r"\benum \w|let mut \w+ = (false|true);|=> [0-9][0-9_]*,|\b99(_999)?\b|-> Option<usize>|Result<bool")),
    (2, "functions whose bodies are alike but for names and numbers", twins),
    (3, "`while`, and `for` over a range of numbers", lambda: by_pattern(r"\bwhile\b|\bfor \w+ in [^{]*\.\.")),
    (4, "comparisons of several parts, casts, printing by hand",
     lambda: by_pattern(r"[^=!<>]=?[<>=]=? [^|&{]*(&&|\|\|)|\bas [ui](8|16|32|64|size)\b|\bprint(ln)?!")),
    (5, "facts that stand in three contracts or more", facts),
    (5, "pairs of parameters that stand together in three signatures or more", companions),
    (6, "arrays of a fixed length, and fields that count", lambda: by_pattern(r"\[[^\[\]]*; (\d+|[A-Z_]+|N)\]|\blen: usize")),
    (7, "switches on a part, a step or a state; function pointers", lambda: by_pattern(r"match (part|state|step|name)\b|: fn\(|dyn ")),
    (8, "answers in proof files", answers),
]


def main():
    for point, what, places in POINTS:
        found = places()
        print(f"point {point}: {what}: {len(found)}")
        if "--counts" not in sys.argv:
            for place in found:
                print("   ", place)


main()
