#!/usr/bin/env python3
"""Spells the definitions and lemmas of this repository in snake case, as today's Rattle does: `dataIn` becomes `data_in`, and
`told-leaves` becomes `told_leaves`.

usage: tools/snake_names.py [--check] [ROOT]

Types, facts and modules keep their capital, and so do the constants that are spelled as the code spells them. A name that would meet
another keeps apart from it: a lemma that would have its definition's name gets `_lem`. --check lists what would be renamed, a tab
between the old name and the new one, and writes nothing. It goes by whole words, in `crates/`: in .antt files, in the clauses of .rt
files, in edits, and in the comments of all three. It was run once, right after port.py, on what that had made of the repository.
"""
import collections
import os
import re
import sys

WORD = re.compile(r"[^\s(){}.;,@\"«»`]+")
MODIFIERS = r"(?:(?:abbrev|unfoldable|pub) )*"
DECLARED = re.compile(rf"^(\s*(?:where )?(?:\| )?{MODIFIERS}(?:pub )?)((?:[^\s(){{}}.;,@\":=]+ )+)(?:\{{[^{{}}]*\}} |\([^()]*\) )*: ")
GENERATED = ("Proof.antt", "Answers.antt", "Invariants.antt")
# Lemmas that port.py had spelled like the definition that takes their name now.
LEMMAS = "as_written by_length by_place closed_at cut_short ends_by goes_on handed_out hands_out kept_in to_the_end".split()


def files(root, *endings):
    for folder, dirs, names in os.walk(os.path.join(root, "crates")):
        dirs[:] = sorted(d for d in dirs if d != "out")
        for n in sorted(names):
            if n.endswith(endings):
                yield os.path.join(folder, n)


def code(line):
    """The line without its comment."""
    at = re.search(r"(?<![^\s(){}.;,@])--(?![^\s-])", line)
    return line[: at.start()] if at else line


def is_own(path):
    return not os.path.basename(path) in GENERATED


def declared(root):
    """The names that specs/ and the lemma files of proofs/ declare, each with the files that do."""
    found = collections.defaultdict(set)
    for path in files(root, ".antt"):
        if not is_own(path):
            continue
        with open(path, encoding="utf-8") as f:
            for line in f:
                m = DECLARED.match(code(line).rstrip("\n") + " ")
                if not m:
                    continue
                names = m[2].split()
                while names and names[0] in ("data", "record", "module", "use"):
                    names = names[1:]
                for n in names:
                    found[n].add(path)
    return found


def snake(name):
    if name[:1].isupper() or name.upper() == name:
        return name
    words = re.sub(r"(?<=[a-z0-9])([A-Z])(?=[a-z0-9-]|$)", lambda m: "_" + m[1].lower(), name)
    words = re.sub(r"(?<=[a-z0-9])([A-Z])", lambda m: "_" + m[1].lower(), words)
    return re.sub(r"(?<=\w)-(?=\w)", "_", words)


def table(found):
    """The new name of each that changes, and the lemmas that had to give way."""
    new, gave = {n: n + "_lem" for n in LEMMAS if n in found}, []
    taken = {n: n for n in found if snake(n) == n and n not in new} | {s: n for n, s in new.items()}
    # Definitions first, then lemmas, whose dash gives way.
    for n in sorted(found, key=lambda n: ("-" in n, n)):
        s = snake(n)
        if s == n:
            continue
        if s in taken and "-" in n:
            gave.append((n, taken[s], s + "_lem"))
            s += "_lem"
        if s in taken:
            raise SystemExit(f"{n} and {taken[s]} would both be {s}")
        taken[s] = n
        new[n] = s
    return new, gave


def is_camel(name):
    return re.match(r"[a-z]\w*?[a-z0-9][A-Z]", name) is not None


def turn_code(text, new, plain):
    """plain: a file whose names are the repository's own. In a proof that walks the code, a dash behind a dot is Rattle's."""

    def word(m):
        n = m[0]
        if not plain and not is_camel(n) and m.start() and text[m.start() - 1] == ".":
            return n
        return new.get(n, n)

    return WORD.sub(word, text)


def turn_said(text, new):
    """A comment: camel case alone, and a dash behind the name of a file of laws, as in 'Laws/Steps, act-kind'."""
    camel = WORD.sub(lambda m: new.get(m[0], m[0]) if is_camel(m[0]) else m[0], text)
    if not re.search(r"\b(?:Laws|Theorems)\b", text):
        return camel
    return WORD.sub(lambda m: new.get(m[0], m[0]) if "-" in m[0] else m[0], camel)


def turned(path, text, new):
    lines, of_src = [], False
    for line in text.split("\n"):
        if path.endswith(".antt"):
            c = code(line)
            lines.append(turn_code(c, new, is_own(path)) + turn_said(line[len(c) :], new))
        elif path.endswith(".rt"):
            lines.append(turn_said(line, {k: v for k, v in new.items() if is_camel(k)}))
        elif line.startswith("#"):
            lines.append(turn_said(line, new))
        else:
            if line.startswith("file:"):
                of_src = "src/" in line
            head, _, rest = line.partition(" ")
            rest = turn_said(rest, {k: v for k, v in new.items() if is_camel(k)}) if of_src else turn_code(rest, new, True)
            lines.append(line if line.startswith("file:") else head + _ + rest)
    return "\n".join(lines)


def main(argv):
    check = "--check" in argv
    root = next((a for a in argv if not a.startswith("--")), ".")
    new, gave = table(declared(root))
    if check:
        for n, s in sorted(new.items()):
            print(n, s, sep="\t")
        return
    for path in files(root, ".antt", ".rt", ".edit"):
        with open(path, encoding="utf-8") as f:
            text = f.read()
        other = turned(path, text, new)
        if other != text:
            with open(path, "w", encoding="utf-8") as f:
                f.write(other)
    print(f"{len(new)} names; these lemmas would have had their definition's name: {', '.join(s for _, _, s in gave)}")


if __name__ == "__main__":
    main(sys.argv[1:])
