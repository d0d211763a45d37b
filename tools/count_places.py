#!/usr/bin/env python3
"""Counts, in the repository's top folder, the places that docs/DESIGN-PASS.md speaks of."""

import glob
import re

SOURCES = sorted(glob.glob("crates/*/src/*.rt"))


def lines(pattern):
    """The lines of the sources that hold the pattern, comments left out."""
    found = []
    for name in SOURCES:
        for number, line in enumerate(open(name), 1):
            code = line.split("//")[0]
            if re.search(pattern, code):
                found.append(f"{name}:{number}: {line.strip()}")
    return found


def signatures():
    """Each function with the names of its parameters."""
    head = re.compile(r"\bfn (\w+)(?:<[^>]*>)?\s*\(([^{}]*?)\)\s*(?:->|where|requires|ensures|\{|;)", re.S)
    for name in SOURCES:
        for match in head.finditer(open(name).read()):
            parts = [part.strip() for part in re.split(r",\s*(?![^\[]*\])", match.group(2)) if part.strip()]
            yield name, match.group(1), {part.split(":")[0].replace("mut ", "").strip(" &") for part in parts}


def texts():
    """Each function with its parameters as they stand."""
    head = re.compile(r"\bfn (\w+)(?:<[^>]*>)?\s*\(([^{}]*?)\)\s*(?:->|where|requires|ensures|\{|;)", re.S)
    for name in SOURCES:
        for match in head.finditer(open(name).read()):
            yield name, match.group(1), match.group(2)


def enums():
    """Each enum with its variants' heads."""
    for name in SOURCES:
        for match in re.finditer(r"pub enum (\w+)[^{]*\{(.*?)\n\}", open(name).read(), re.S):
            body = re.sub(r"//[^\n]*", "", match.group(2))
            yield name, match.group(1), re.findall(r"^    (\w+)\s*([({]?)", body, re.M)


def bodies():
    """Each function's text from its parameters on, without its contract."""
    for name in SOURCES:
        text = re.sub(r"//[^\n]*", "", open(name).read())
        for match in re.finditer(r"^( *)(?:pub(?:\(crate\))? )?fn (\w+)(.*?)^\1\}", text, re.S | re.M):
            rest = re.sub(r"\n\s*(requires|ensures|ghost)\b[^\n]*", "", match.group(3))
            yield name, match.group(2), rest


def twins():
    """Functions whose texts are alike but for names, types and numbers, short ones left out."""
    shapes = {}
    for name, function, text in bodies():
        shape = re.sub(r"\b\d\w*\b", "0", re.sub(r"\b(?!(?:fn|if|else|while|for|in|match|return|let|mut|as|true|false|self)\b)[A-Za-z_]\w*\b", "x", text))
        shape = re.sub(r"\s+", "", shape)
        if len(shape) >= 34:
            shapes.setdefault(shape, []).append(f"{name}: {function}")
    return sorted(" ~ ".join(group) for group in shapes.values() if len(group) > 1)


def show(title, found):
    print(f"{title}: {len(found)}")
    for place in found:
        print("   ", place)


show("1 enums of the shape of Option (two variants, one without a value)",
     [f"{f}: {n}" for f, n, v in enums() if len(v) == 2 and sum(1 for _, o in v if not o) == 1])
show("1 enums with a variant for what is none of the others",
     [f"{f}: {n}" for f, n, v in enums() if any(h in ("Broken", "Refused") for h, _ in v) and len(v) > 2])
show("1 refusals told by a number", lines(r"status: ([1-9]|10|11)\b|plain\([1-9]\)"))
show("1 a status or a flag with values beside it", lines(r"^pub struct Progress|\bgood: bool\b"))
show("1 parameters of type bool", lines(r"\b\w+: bool\b[,)]"))
show("2 functions alike but for names, types and numbers, by groups", twins())
show("3 loops that count by hand", lines(r"^\s*while "))
show("4 conversions, order and bounds written as functions",
     lines(r"fn (pack_\w+|unpack_\w+|decode|ref_bits|reference|bits_of|int_of|younger|younger_than|lesser|before|one_less|four_at)\("))
groups = list(signatures())
show("5 functions over the page range or the heap with its marks, part by part",
     [f"{f}: {n}" for f, n, p in groups if {"first", "pages"} <= p or {"born", "turned"} <= p or {"heap", "turned"} <= p])
show("5 functions of eight and more parameters", [f"{f}: {n}" for f, n, p in groups if len(p) >= 8])
show("6 functions over a buffer with a place in it beside", [f"{f}: {n}" for f, n, p in groups if {"out", "at"} <= p or {"trail", "p"} <= p])
show("6 functions that are lent a list to write and a number that is not an element of it",
     [f"{f}: {n}" for f, n, t in texts() if re.search(r"&mut \[", t) and re.search(r"\b(at|count|end|start|bound|k|p): (usize|u\d+|Progress)", t)])
show("7 switches on a function to run, tables of functions", lines(r"\bfn\(|dyn Fn|Box<dyn"))
proofs = glob.glob("crates/*/proofs/**/Proof.antt", recursive=True)
answers = [name for name in glob.glob("crates/*/proofs/**/Answers.antt", recursive=True)]
invariants = [name for name in glob.glob("crates/*/proofs/**/Invariants.antt", recursive=True)]
lemmas = glob.glob("crates/*/proofs/*.antt")
size = lambda names: sum(len(open(name).read().splitlines()) for name in names)
print(f"8 proofs: {len(proofs)} Proof.antt ({size(proofs)} lines), {len(answers)} Answers.antt ({size(answers)} lines), "
      f"{len(invariants)} Invariants.antt ({size(invariants)} lines), {len(lemmas)} files of lemmas ({size(lemmas)} lines)")
print(f"functions: {len(groups)}; lines of src: {size(SOURCES)}")
