#!/usr/bin/env python3
"""Spells the repository's own names of specs/ and proofs/ as today's Rattle does: words, fields and lemmas in snake case.

usage: tools/respell.py      at the top of the repository, once, after the kit's port.py

`badShape` becomes `bad_shape` and `shape-good` becomes `shape_good`; types, facts and modules keep their capitals. A lemma that would meet a
definition's name gets `_lem` behind it. Names of src/, of libraries, of goals and of what Rattle makes of the source stay. Must-fail edits and
the pages are respelled too.
"""

import collections
import glob
import os
import re

DECLARED = re.compile(r"(?m)^( *)(?:(?:abbrev|unfoldable|pub|opaque|private) )*([^\s(){}.;,@\"«»]+)(?: \{[^{}\n]*\})* :")
BOUND = re.compile(r"(?:\blet |λ |\()([a-z][\w'-]*)(?= [=:]|\.)")
TOKEN = re.compile(r"[^\s(){}.;,@\"«»\[\]`]+")
OWN = {line.split(":")[0].split()[0] for line in open("crates.txt") if line.strip() and not line.startswith("#")}
USE = re.compile(r"(?m)^ *(?:pub |ghost )*use ([^\s;{]+)\.\{([^{}]*)\}")
# names of a definition and of a lemma that fall together: the lemma's gets an ending
LEMMAS = {
    "crates/bundle_file/proofs/Padding.antt": {"two_at": "two_at_lem"},
    "crates/bundle_storage/proofs/Storing.antt": {"list_at": "list_at_lem"},
}


def snake(name):
    name = name.replace("getD", "get_or")
    return re.sub(r"(?<=[a-z0-9])[A-Z]", lambda m: "_" + m[0].lower(), name).replace("-", "_")


def texts():
    return sorted(glob.glob("crates/*/specs/*.antt") + glob.glob("crates/*/proofs/*.antt"))


def of_functions():
    return sorted(set(glob.glob("crates/*/proofs/**/*.antt", recursive=True)) - set(texts()))


def read(path):
    with open(path, encoding="utf-8") as f:
        return f.read()


def of_libraries(text):
    found = set()
    for path, names in USE.findall(text):
        steps = path.split(".")
        if steps[0] != "Rattle" or steps[1] not in OWN:
            found |= {n.strip() for n in names.split(",")}
    return found


def mapping():
    names = set()
    for path in texts():
        text = re.sub(r"(?m)--.*$", "", read(path))
        here = {m[2] for m in DECLARED.finditer(text)} | {m[1] for m in BOUND.finditer(text)}
        names |= here - of_libraries(text)
    names = {n for n in names if re.fullmatch(r"[A-Za-z][\w'-]*", n) and (n[0].islower() or "-" in n)}
    plain = {n for n in names if snake(n) == n}
    camel = {n for n in names if snake(n) != n and "-" not in n}
    met = plain | {snake(n) for n in camel}
    turned = {n: snake(n) for n in camel}
    for n in names - plain - camel:
        turned[n] = snake(n) + ("_lem" if snake(n) in met else "")
    by = collections.defaultdict(set)
    for n in turned:
        by[turned[n]].add(n)
    for new, olds in by.items():
        assert len(olds) == 1, (new, olds)
    return turned


def fields():
    found = set()
    for path in texts():
        inside = False
        for line in read(path).split("\n"):
            if re.match(r"^ *(\w+ )*record ", line):
                inside = True
            elif not line.strip() or not line.startswith(" "):
                inside = False
            elif inside:
                m = re.match(r"^ +(?:pub )?([^:(){}]+?)(?: \{[^{}\n]*\})* :", line)
                if m:
                    found |= set(re.split(r"[, ]+", m[1]))
    return found


def turn(text, turned, own_fields, strict, keep=frozenset()):
    """The text with its names respelled; strict: a name behind a dot is respelled only where it is a field of a record of ours."""

    def one(m):
        n = m[0]
        if n in keep or n not in turned:
            return n
        if strict and m.start() and m.string[m.start() - 1] == "." and n not in own_fields:
            return n
        return turned[n]

    return TOKEN.sub(one, text)


def turn_lines(text, change):
    """change for what is no comment; in a comment, for names in backticks, and for those with a capital inside."""
    out = []
    for line in text.split("\n"):
        code, mark, comment = line.partition("--")
        comment = re.sub(r"`[^`]*`", lambda m: change(m[0]), comment)
        comment = re.sub(r"\b[a-z]+[a-z0-9]*[A-Z]\w*", lambda m: change(m[0]), comment)
        out.append(change(code) + mark + comment)
    return "\n".join(out)


def constructor(text):
    """The text of a file that imports or declares the constructor `result` of an answer, with its new name."""
    if not re.search(r"answers\.specs\.Refusals\.\{[^}]*\bresult\b", text) and "pub data Answer" not in text:
        return text
    lines = (line.partition("--") for line in text.split("\n"))
    return "\n".join(re.sub(r"(?<![\w.'-])result(?![\w'-])", "the_result", code) + mark + rest for code, mark, rest in lines)


def unnamed(m):
    name, variable, body = m[1], m[2], m[3].strip()
    body = re.sub(rf"(?<![\w.']){variable}(?![\w'])", "result", body) if variable != "_" else body
    if body.startswith("(") and closes(body) == len(body) - 1:
        body = body[1:-1]
    return f"ensures{name} {{ {body} }}"


def closes(text):
    depth = 0
    for i, c in enumerate(text):
        depth += (c == "(") - (c == ")")
        if depth == 0:
            return i
    return -1


def clauses(text):
    """The clauses of a source: the constructor by its new name, no λ."""
    text = text.replace("{alone as Listing·alone}", "{alone}").replace("Listing·alone", "alone")
    if not re.search(r"answers\.specs\.Refusals\.\{[^}]*\bresult\b", text):
        return text
    text = re.sub(r"(?m)^ghost use Rattle\.answers\.specs\.Refusals\.\{[^}]*", lambda m: re.sub(r"\bresult\b", "the_result", m[0]), text)
    text = re.sub(r"(?<![\w.'])result(?= (?:\[\]|\())", "the_result", text)
    return re.sub(r"ensures\*((?: \w+)?) \{ λ (\w+)\. ⌜(.*?)⌝ \}", unnamed, text, flags=re.S)


def write(path, text, was):
    if text != was:
        with open(path, "w", encoding="utf-8") as f:
            f.write(text)


def main():
    turned, own_fields = mapping(), fields()
    of_specs = {m[2] for path in glob.glob("crates/*/specs/*.antt") for m in DECLARED.finditer(read(path))}
    for path in texts() + of_functions():
        was = read(path)
        keep = of_libraries(was)
        strict = path not in texts()
        mine = turned | LEMMAS.get(path, {})
        text = turn_lines(was, lambda t: turn(t, mine, own_fields, strict, keep))
        write(path, constructor(text), was)
    words = {n: new for n, new in turned.items() if "-" not in n or n in of_specs}
    for path in glob.glob("crates/*/src/**/*.rt", recursive=True) + glob.glob("crates/*/must-fail/*.edit"):
        was = read(path)
        mine = turned if "\nfile: specs" in was or "\nfile: proofs" in was else words
        text = turn(was, mine, own_fields, False)
        write(path, clauses(text) if path.endswith(".rt") else text, was)
    for path in ["README.md", "CONTRIBUTING.md", *glob.glob("docs/*.md"), *glob.glob("bundles/*.md")]:
        was = read(path)
        write(path, re.sub(r"`[^`\n]*`", lambda m: turn(m[0], turned, own_fields, False), was), was)


main()
