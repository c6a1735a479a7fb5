#!/usr/bin/env python3
"""Spells the repository's own definitions and lemmas in snake case, once, over specs/, proofs/ and the clauses of src/.

    python3 tools/spell_names.py [--check]

A name turns if a file of specs/ or proofs/ declares it with a capital inside, as legIn, or with a dash, as same-row.
Names of goals, invariants and measures stay, since Rattle makes them; so do names behind a first dot of c., g., l. and
goal. The functions of src/ keep their names. With --check nothing is written. A name that would meet another in some
file is told on a line 'meets:'.
"""

import glob
import re
import sys

WORD = re.compile(r'[^\s(){}.;,@"«»]+')
DECLARED = re.compile(
    r"(?m)^( *)((?:(?:pub|abbrev|unfoldable)\s+)*)(?!let\b|where\b|use\b|data\b|record\b|module\b|mod\b)"
    r'([^\s(){}.;,@"«»:]+)((?:\s+\{[^{}\n]*\}|\s+\([^()\n]*\))*)\s*:(?=\s)([^\n]*)'
)
MADE = re.compile(r"(?:c|g|l|w|goal)\.$")
QUIET = re.compile(r'"(?:[^"\\\n]|\\.)*"|--[^\n]*')
GHOST = re.compile(r"ghost\s+use\b[^;]*;|(?:requires|ensures)\s*\*?\s*(?:\w+\s*)?\{|ghost\s*(?:\w+\s*(?::\s*(?:(?:owns|lends)\s*)?|=\s*))?\{|#\[tactic[^\]]*\]")
# lemmas that would have the name of a definition or of a function of src/
LEMMAS = {"fields-from", "leg-of", "no-entry", "not-later", "is-number", "order-laws", "ride-laws", "score-laws", "tour-laws"}
TAKEN = {"data", "open", "record", "ruleset", "result"}


def snake(name):
    return re.sub(r"(?<=[a-z0-9])[A-Z]", lambda m: "_" + m[0].lower(), name).replace("-", "_")


def files(kind):
    return sorted(glob.glob(f"crates/*/{kind}/**/*.antt", recursive=True))


def declared():
    """The names that turn, and those of them that are fields of records."""
    names, fields = {}, set()
    for path in files("specs") + files("proofs"):
        with open(path, encoding="utf-8") as f:
            text = f.read()
        records = [(m.start(), len(m[1])) for m in re.finditer(r"(?m)^( *)(?:pub )?record [^\n]* where$", text)]
        for m in DECLARED.finditer(text):
            name = m[3]
            if m[5].strip().startswith(("goal.", "given.")) or not re.match(r"[a-zA-Z]", name):
                continue
            if "-" in name or re.search(r"[a-z0-9][A-Z]", name) and name[0].islower():
                names[name] = snake(name)
                inside = [i for at, i in records if at < m.start() and not re.search(rf"(?m)^ {{0,{i}}}\S", text[text.index("\n", at) + 1 : m.start()])]
                if inside and len(m[1]) > inside[-1]:
                    fields.add(name)
    for old in sorted(names):
        if "-" in old and old in LEMMAS:
            names[old] += "_lem"
    return names, fields


def turn_words(text, names, fields):
    """The text with its words turned, quoted text and comments aside."""
    out, last = [], 0
    for quiet in list(QUIET.finditer(text)) + [None]:
        end = quiet.start() if quiet else len(text)
        out.append(turn_plain(text[last:end], names, fields))
        if quiet:
            out.append(quiet[0] if quiet[0].startswith('"') else turn_plain(quiet[0], names, fields))
            last = quiet.end()
    return "".join(out)


def turn_plain(text, names, fields):
    def one(m):
        word, before = m[0], text[: m.start()]
        if word not in names:
            return word
        if before.endswith(".") and not before.endswith(("..", " .")):
            head = re.search(r"([^\s(){};,@]*)\.$", before)[1]
            if MADE.search(before):
                return word
            if word not in fields and head.split(".")[0] != "Rattle":
                return word
        return names[word]

    return WORD.sub(one, text)


def ghost_parts(text):
    """The stretches of a source file that are clauses, ghost items and their imports."""
    at = 0
    while m := GHOST.search(text, at):
        if m[0].endswith("{"):
            depth, end = 1, m.end()
            while depth:
                depth += {"{": 1, "}": -1}.get(text[end], 0)
                end += 1
        else:
            end = m.end()
        yield m.start(), end
        at = end


def turn_source(text, names, fields):
    out, last = [], 0
    for start, end in ghost_parts(text):
        out += [text[last:start], turn_words(text[start:end], names, fields)]
        last = end
    return "".join(out) + text[last:]


def main():
    check = "--check" in sys.argv
    names, fields = declared()
    by_new = {}
    for old, new in names.items():
        by_new.setdefault(new, []).append(old)
        if new in TAKEN:
            print("meets:", old, "would be the word", new)
    for new, olds in sorted(by_new.items()):
        if len(olds) > 1:
            print("meets:", " and ".join(olds), "are both", new)
    for path in files("specs") + files("proofs") + sorted(glob.glob("crates/*/src/**/*.rt", recursive=True)):
        with open(path, encoding="utf-8") as f:
            text = f.read()
        words = set(WORD.findall(text)) | set(re.findall(r"\w+", text) if path.endswith(".rt") else [])
        for word in sorted(words & names.keys()):
            if names[word] in words:
                print("meets:", f"{path}: {word} and {names[word]}")
        new = turn_source(text, names, fields) if path.endswith(".rt") else turn_words(text, names, fields)
        if new != text and not check:
            with open(path, "w", encoding="utf-8") as f:
                f.write(new)
    print(len(names), "names,", len(fields), "of them fields")


if __name__ == "__main__":
    main()
