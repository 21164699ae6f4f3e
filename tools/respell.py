#!/usr/bin/env python3
"""Brings the repository's own definitions and lemmas to today's spelling: words in snake case, where port.py left them in mixed case, and
fields of records and constructors of data without a dash. Run it once, at the top of the repository, on what port.py wrote.

A dash between two names of a lemma stays. Names from source files, exported names, strings, inputs and outputs stay. In must-fail edits and
pages the names in mixed case are turned too, and in pages those with a dash that stand between backquotes.

usage: python3 tools/respell.py
"""
import os
import re

PART = r"[^\s(){}\[\];.,:λ→×∷⌜⌝\"⟨⟩`@|\\«»]+"
TOKEN = re.compile(PART)
NAME = re.compile(r"[A-Za-z0-9_'\-]+")
MIXED = re.compile(r"([a-z0-9])([A-Z])")

# Two names that would fall together with another, and what each is called instead.
APART = {"is_free": "is_free_lem", "in_stack": "within_stack", "program-run": "program_ran"}
MIXED_APART = {"substAllowance": "allowed_substs", "shiftAllowance": "allowed_shifts"}
# Local names of one letter and a letter.
LOCAL = re.compile(r"e[A-Z]")
# The paper's words for two kinds of step: as words they stay, as names they are spelled with an underscore.
STEPS = ("leave-fun", "leave-inert", "in-order")


def files(top, ends):
    for folder, dirs, names in os.walk(top):
        dirs[:] = sorted(d for d in dirs if d not in ("out", "target", ".git"))
        for name in sorted(names):
            if name.endswith(ends):
                yield os.path.join(folder, name)


def read(path):
    with open(path, encoding="utf-8", newline="") as it:
        return it.read()


def write(path, text):
    with open(path, "w", encoding="utf-8", newline="") as it:
        it.write(text)


def snake(part):
    if part == "getD":
        return "get_or"
    if not part[:1].islower():
        return part
    return MIXED.sub(lambda m: m.group(1) + "_" + m.group(2).lower(), part)


def turned(token):
    if LOCAL.fullmatch(token):
        return token
    if token in MIXED_APART:
        return MIXED_APART[token]
    return "-".join(snake(part) for part in token.split("-"))


def labels(text):
    """The names with a dash that a file declares as a field or a constructor."""
    block = None
    for line in text.split("\n"):
        line = line.split("--")[0].rstrip()
        if not line:
            continue
        indent = len(line) - len(line.lstrip())
        if block is not None and indent <= block:
            block = None
        if re.match(r"\s*(pub )?(record|data) ", line):
            block = indent
        elif block is not None:
            m = re.match(r"\s*(pub )?([^\s:(){}]+)\s*:(\s|$)", line)
            if m and "-" in m.group(2):
                yield m.group(2)


def tables():
    mixed, dashed = {}, {}
    for path in files("crates", (".antt", ".rt")):
        for token in TOKEN.findall(read(path)):
            if NAME.fullmatch(token) and turned(token) != token:
                mixed[token] = turned(token)
    for path in files("crates", ".antt"):
        for token in labels(read(path)):
            dashed[token] = turned(token).replace("-", "_")
    return mixed, dashed


def code(text, table):
    """The text with the names of the table turned, but for comments and strings."""
    def line(it):
        at = it.find("--")
        head, tail = (it, "") if at < 0 else (it[:at], it[at:])
        pieces = re.split(r'("(?:[^"\\]|\\.)*")', head)
        for i in range(0, len(pieces), 2):
            pieces[i] = TOKEN.sub(lambda m: table.get(m.group(0), m.group(0)), pieces[i])
        return "".join(pieces) + tail
    return "\n".join(line(it) for it in text.split("\n"))


def words(text, table):
    return TOKEN.sub(lambda m: table.get(m.group(0), m.group(0)), text)


def quoted(text, table):
    return re.sub(r"`[^`\n]+`", lambda m: words(m.group(0), table), text)


def strings_apart(text, table):
    pieces = re.split(r'("(?:[^"\\]|\\.)*")', text)
    for i in range(0, len(pieces), 2):
        pieces[i] = words(pieces[i], table)
    return "".join(pieces)


def source(line, in_code, mixed):
    head, slashes, tail = line.partition("//")
    return strings_apart(strings_apart(head, in_code) + slashes + tail, mixed)


def main():
    mixed, dashed = tables()
    in_code = dict(dashed)
    in_code.update(APART)
    in_pages = {k: v for k, v in dashed.items() if k not in STEPS}
    for path in files("crates", ".antt"):
        text = read(path)
        new = quoted(words(code(text, in_code), mixed), in_pages)
        if new != text:
            write(path, new)
    for path in files("crates", ".rt"):
        text = read(path)
        new = "\n".join(source(line, in_code, mixed) for line in text.split("\n"))
        if new != text:
            write(path, new)
    pages = [os.path.join("docs", f) for f in sorted(os.listdir("docs")) if f.endswith(".md") and f != "CHANGES.md"] + ["README.md"]
    for path in list(files("crates", ".edit")):
        text = read(path)
        new = "\n".join(words(words(line, in_code), mixed) if line.startswith(("old:", "new:")) else line for line in text.split("\n"))
        if new != text:
            write(path, new)
    for path in pages:
        text = read(path)
        new = quoted(quoted(text, in_pages), mixed)
        if new != text:
            write(path, new)


main()
