#!/usr/bin/env python3
"""Brings the repository's own definitions and lemmas to today's spelling, after the kit's port.py.

    python3 tools/respell.py        run once, at the top of the repository

Words are in snake case: `lowestFree` becomes `lowest_free`, `page-found` becomes `page_found`, and an old word of the
library inside a name (`getD`) takes its new one (`get_or`). Types and modules keep their camel case, and so do all names
of Rattle source. A lemma whose new name would be a definition's gets `_lem`. Names that come from the library, and names that Rattle makes
(`cast-result`, `returns-2`), stay as they are.
"""
import collections
import glob
import re

TOKEN = re.compile(r"[^\s(){}\[\].,;:λ`\"]+")
# cited by their type's name alone, so that no import tells whose they are
OF_LIBRARY = {"not-nil"}
CRATES = [l.split(":")[0].strip() for l in open("crates.txt") if l.strip() and not l.startswith("#")]
OWN = re.compile(r"Rattle\.(" + "|".join(CRATES) + r")\.(specs|proofs)(?!\.declared)")
SPECS = sorted(glob.glob("crates/*/specs/**/*.antt", recursive=True))
LEMMAS = sorted(glob.glob("crates/*/proofs/*.antt"))
PROOFS = sorted(glob.glob("crates/*/proofs/*/**/*.antt", recursive=True))


def code(line):
    return re.sub(r"(^|\s)--(\s.*|$)", "", line)


def snake(name):
    name = name.replace("getD", "get_or").replace("-", "_")
    return re.sub(r"(?<=[a-z0-9_])[A-Z]", lambda m: "_" + m.group(0).lower(), name).replace("__", "_")


def is_camel(name):
    return re.match(r"^[a-z][a-z0-9_'-]*[A-Z]", name)


def is_dashed(name):
    return re.match(r"^[a-z].*-", name)


def tokens(paths):
    found = set()
    for path in paths:
        for line in open(path):
            found |= set(TOKEN.findall(code(line)))
    return found


def from_library(paths):
    found = set()
    for path in paths:
        for m in re.finditer(r"^\s*(?:pub )?use (\S+?)\.\{([^}]*)\}", open(path).read(), re.M):
            if not OWN.match(m.group(1)):
                found |= {n.strip().split(" as ")[0].strip() for n in m.group(2).split(",")}
    return found


def renames():
    library = from_library(SPECS + LEMMAS + PROOFS) | OF_LIBRARY
    names = tokens(SPECS + LEMMAS)
    # of a function's proof only its own name: the labels in it are Rattle's
    names |= {n for n in tokens(PROOFS) if n.endswith("-spec") and is_dashed(n)} | {n for n in tokens(PROOFS) if is_camel(n)}
    defined = {n for n in tokens(SPECS)}
    old = sorted(n for n in names if (is_camel(n) or is_dashed(n)) and n not in library)
    fixed = {n for n in defined if n not in old} | library
    camel = {n: snake(n) for n in old if is_camel(n) and "-" not in n}
    taken = collections.Counter(camel.values())
    assert all(k == 1 for k in taken.values()), [n for n in taken if taken[n] > 1]
    out = dict(camel)
    for n in old:
        if n not in out:
            new = snake(n)
            out[n] = new + "_lem" if new in taken or new in fixed else new
    seen = collections.defaultdict(list)
    for n, new in out.items():
        seen[new].append(n)
    assert all(len(v) == 1 for v in seen.values()), [v for v in seen.values() if len(v) > 1]
    return out


def respell(text, names):
    return TOKEN.sub(lambda m: names.get(m.group(0), m.group(0)), text)


def in_antt(text, names):
    camel = {n: names[n] for n in names if is_camel(n)}
    lines = []
    for line in text.split("\n"):
        head = code(line)
        lines.append(respell(head, names) + respell(line[len(head):], camel))
    return "\n".join(lines)


def in_source(text, names):
    camel = {n: names[n] for n in names if is_camel(n)}
    lines = []
    for line in text.split("\n"):
        clause = re.match(r"\s*(ghost use|ensures|requires)\b", line)
        lines.append(respell(line, names if clause else camel))
    return "\n".join(lines)


def in_page(text, names):
    # a name stands between backticks, behind its module's or alone; port.py turned some of them in the code alone
    camel = {n: names[n] for n in names if is_camel(n)}
    text = respell(text, camel)
    known = tokens(SPECS + LEMMAS)

    def today(m):
        n = m.group(0)
        return names.get(n) or (snake(n) if (is_camel(n) or is_dashed(n)) and snake(n) in known else n)

    return re.sub(r"`[^`\n]+`", lambda m: TOKEN.sub(today, m.group(0)), text)


def main():
    names = renames()
    for paths, how in (
        (SPECS + LEMMAS + PROOFS, in_antt),
        (sorted(glob.glob("crates/*/src/**/*.rt", recursive=True)), in_source),
        (["Makefile", "README.md", "CONTRIBUTING.md"] + sorted(glob.glob("docs/*.md")), in_page),
    ):
        for path in paths:
            text = open(path).read()
            new = how(text, names)
            if new != text:
                open(path, "w").write(new)
    for n in sorted(names):
        if names[n].endswith("_lem"):
            print("look: a definition has this lemma's name:", n, "->", names[n])
    print(len(names), "names respelled")


main()
