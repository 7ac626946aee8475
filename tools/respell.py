#!/usr/bin/env python3
"""Brings the names of the repository's own definitions and lemmas to one spelling: words in snake case, types in camel case, ' for the old prime.

usage: python3 tools/respell.py    at the top of the repository, once, after the kit's port.py

A name is the repository's own where an .antt file declares it (a signature, a field, a binder or a let) or a clause has it as its label. Names that the
library or the check makes keep their spelling, and so do functions of src/, strings, inputs and outputs. Comments and pages change inside backticks only.
"""
import os
import re

IDENT = r"[A-Za-z_][\w'′-]*"
TOKEN = re.compile(r"(?<![\w'′◌-])([A-Za-z_][\w'′]*(?:-[\w'′]+)*-?)(?![\w'′-])")
OLD = re.compile(r"-|′|^up_?[tT]o[-A-Z]|^upTo|^[A-Z][A-Za-z]*_")

# Where the plain turn would fall together with another name of the repository.
APART = {"No-gain": "GainsNothing", "So-far": "KnownSoFar", "Part-added": "AddsPart", "Nothing-left": "LeavesNothing"}


def turned(name):
    if name in APART:
        return APART[name]
    name = name.replace("′", "'")
    if name[0].isupper():
        return "".join(word[:1].upper() + word[1:] for word in re.split("[-_]", name))
    name = name.replace("-", "_")
    return re.sub(r"(?<=[a-z])([A-Z])", lambda m: "_" + m[1].lower(), name)


def files(ends):
    for folder, dirs, names in os.walk("crates"):
        built = folder.count(os.sep) == 1
        dirs[:] = sorted(d for d in dirs if not (built and d == "out"))
        for name in sorted(names):
            if name.endswith(ends):
                yield os.path.join(folder, name)


def read(path):
    with open(path, encoding="utf-8") as f:
        return f.read()


def bare(text):
    return re.sub(r"--.*", "", text)


def declared():
    """The names that the repository declares, those that are fields or labels, and those that the check makes."""
    own, fields, made = set(), set(), set()
    for path in files(".antt"):
        text = bare(read(path))
        in_record = False
        for line in text.split("\n"):
            head = re.match(r"\s*(?:pub )?(?:record|data) (" + IDENT + ")", line)
            if head:
                own.add(head[1])
                in_record = True
            elif re.match(r"\S", line):
                in_record = False
            m = re.match(r"\s*(?:(?:pub|abbrev|unfoldable|data|record)\s+)*((?:" + IDENT + r"\s+)*" + IDENT + r")\s*(?:\{[^}]*\}\s*|\([^)]*\)\s*)*:\s(.*)", line)
            if m and (m[2] or "").startswith("goal."):
                made.update(m[1].split())
            elif m:
                own.update(m[1].split())
                if in_record:
                    fields.update(m[1].split())
            for m in re.finditer(r"\bas (" + IDENT + ")", line):
                own.add(m[1])
            m = re.match(r"\s*" + IDENT + r" ([^=:]*) =(\s|$)", line)
            if m and path.count(os.sep) == 3:
                own.update(re.findall(IDENT, m[1]))
            for m in re.finditer(r"let\s+(" + IDENT + ")", line):
                own.add(m[1])
            for m in re.finditer(r"[({]((?:" + IDENT + r"\s+)*" + IDENT + r")\s*:", line):
                own.update(m[1].split())
            for m in re.finditer(r"λ ((?:" + IDENT + r"\s+)*" + IDENT + r")\.", line):
                own.update(m[1].split())
    for path in files(".rt"):
        text = read(path)
        own.update(name for name in re.findall(r"(?m)^ghost use .*\bas (" + IDENT + ")", text) if "-" in name)
        for m in re.finditer(r"(?:ensures|requires|ghost)\s+(" + IDENT + r")\s*[:{]", text):
            if "-" in m[1]:
                own.add(m[1])
                fields.add(m[1])
    return own - made, fields


def turn(text, own, fields):
    def one(m):
        name = m[1]
        if name not in own or not OLD.search(name):
            return m[0]
        if m.start() and text[m.start() - 1] == "." and name not in fields:
            return m[0]
        return turned(name)

    return TOKEN.sub(one, text)


def in_backticks(text, own, fields):
    return re.sub(r"`[^`\n]*`", lambda m: turn(m[0], own, fields), text)


def parts(text, mark):
    """The text cut into code, strings and comments, as pairs of a kind and a text."""
    cut = re.compile(r'(?P<comment>' + mark + r'[^\n]*)|(?P<string>b?"(?:\\.|[^"\\])*"|b?\'(?:\\.|[^\'\\])\')')
    at = 0
    for m in cut.finditer(text):
        yield "code", text[at : m.start()]
        yield m.lastgroup, m[0]
        at = m.end()
    yield "code", text[at:]


def by_recursion(line):
    """The library's `All` goes by index: the older one, which the port script takes in as All, is written by its own name."""
    if re.match(r"(pub )?use ", line):
        return line.replace("AllByRecursion as All", "AllByRecursion")
    return re.sub(r"(?<![\w.'-])All(?![\w'-])", "AllByRecursion", line)


def turn_antt(text, own, fields):
    lines = []
    old_all = "AllByRecursion as All" in text
    for line in text.split("\n"):
        m = re.search(r"(^|\s)--(\s|$)", line)
        code, comment = (line[: m.start()], line[m.start() :]) if m else (line, "")
        code = by_recursion(code) if old_all else code
        lines.append(turn(code, own, fields) + in_backticks(comment, own, fields))
    return "\n".join(lines)


def turn_rt(text, own, fields):
    out = ""
    for kind, part in parts(text, "//"):
        out += turn(part, own, fields) if kind == "code" else in_backticks(part, own, fields) if kind == "comment" else part
    return out


def rewritten(path, how, own, fields):
    """Whether the file changed."""
    old = read(path)
    new = how(old, own, fields)
    if new != old:
        with open(path, "w", encoding="utf-8") as f:
            f.write(new)
    return new != old


def main():
    own, fields = declared()
    taken = {}
    for name in sorted(n for n in own if OLD.search(n)):
        if taken.setdefault(turned(name), name) != name or turned(name) in own and turned(name) != name:
            print(f"together: {name} and {taken[turned(name)] if taken[turned(name)] != name else turned(name)} are {turned(name)}")
    pages = ["README.md"] + sorted(os.path.join("docs", n) for n in os.listdir("docs") if n.endswith(".md"))
    changed = 0
    for paths, how in ((files(".antt"), turn_antt), (files((".rt", ".edit")), turn_rt), (pages, in_backticks)):
        changed += sum(rewritten(path, how, own, fields) for path in paths)
    print(f"respelled {len(taken)} names in {changed} files")


if __name__ == "__main__":
    main()
