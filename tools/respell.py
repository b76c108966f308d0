#!/usr/bin/env python3
"""Brings the repository's own ghost names to today's spelling: definitions, lemmas, fields and local names in snake case.

usage: python3 tools/respell.py OLD, at the top of the repository right after port.py, where OLD is a folder with the tree as it was before port.py

Functions of src/, types, modules, strings and names of the library keep theirs. A lemma whose name would fall together with its definition's
(`rows-of` beside `rowsOf`) gets `_lem`. port.py has let some of these fall together already: which of the two a place meant is read from OLD.
"""
import collections
import os
import re
import sys

WORD = r"[A-Za-z0-9_'₀-₉μκΔα-ωᴰ→·-]"
TOKEN = re.compile(rf"(?<!{WORD})[a-z]{WORD}*")
CRATES = "crates"


def snake(name):
    name = name.replace("getD", "get_or")
    return re.sub(r"(?<=[a-z0-9])([A-Z])", lambda m: "_" + m.group(1).lower(), name).replace("-", "_")


def files(root):
    yield from (p for p in ["README.md", *sorted(os.path.join("docs", f) for f in os.listdir(os.path.join(root, "docs")))] if p.endswith(".md"))
    for folder, dirs, names in os.walk(os.path.join(root, CRATES)):
        dirs[:] = sorted(d for d in dirs if d not in ("out", "target"))
        for f in sorted(names):
            if f.endswith((".rt", ".antt", ".edit")):
                yield os.path.relpath(os.path.join(folder, f), root)


def read(root, path):
    with open(os.path.join(root, path), encoding="utf-8") as f:
        return f.read()


def pieces(text, path):
    """The text in pieces, each with whether names in it are to be turned everywhere ('code'), only between back quotes ('said') or not at all."""
    mark = "--" if path.endswith(".antt") else "//"
    for line in text.splitlines(keepends=True):
        at = line.find(mark)
        if path.endswith(".antt") and at > 0 and line[at - 1] not in " \t":
            at = -1
        if at >= 0 and not (mark == "//" and line[:at].count('"') % 2):
            yield line[:at], "code"
            yield line[at:], "said"
        elif path.endswith(".md"):
            yield line, "said"
        else:
            yield line, "code"


def declared(root):
    names = collections.Counter()
    for path in files(root):
        if path.endswith(".antt"):
            for line in read(root, path).splitlines():
                m = re.match(r"\s*((?:unfoldable |abbrev |pub |data |record )*)([^\s(){}\[\],;.λ|:=]+) (?::|\(|\{)", line)
                if m and not line.startswith(("use ", "--")):
                    names[m.group(2)] += 1
    return names


def library(root, own):
    names = set()
    for path in files(root):
        for line in read(root, path).splitlines():
            m = re.match(r"\s*(?:pub |ghost )*use ([\w.+'-]+)\.\{(.*)\}", line)
            if m and not (m.group(1).startswith("Rattle.") and m.group(1).split(".")[1] in own):
                for item in m.group(2).split(","):
                    names.add(item.strip().split(" as ")[0])
    return names


def main(argv):
    old, new = argv[0], "."
    crates = set(os.listdir(os.path.join(new, CRATES)))
    lib = library(new, crates)
    before = declared(old)
    groups = collections.defaultdict(set)
    for name in before:
        groups[snake(name)].add(name)
    # of two names that would fall together, the lemma's, with dashes, is set apart
    apart = {}
    for key, names in groups.items():
        if len(names) > 1:
            for name in names:
                if "-" in name:
                    apart[name] = key + "_lem"
    # one law is named by two dashes, the other by one
    apart["path-of-tree"] = "path_of_tree"
    together = {snake(name) for name in apart}
    odd = []
    for path in files(new):
        text = read(new, path)
        was = read(old, path) if os.path.exists(os.path.join(old, path)) else ""
        meant = {}
        for key in together:
            olds = [m.group(0) for m in TOKEN.finditer(was) if snake(m.group(0)) == key]
            news = [m.group(0) for m in TOKEN.finditer(text) if snake(m.group(0)) == key]
            if key in news:
                if len(set(olds)) == 1:
                    meant[key] = iter(olds * (len(news) + 1))
                elif len(olds) == len(news):
                    meant[key] = iter(olds)
                else:
                    odd.append(f"{path}: {key}: {len(olds)} places before, {len(news)} now: {sorted(set(olds))}")
        out = []

        def turn(m, how):
            name = m.group(0)
            key = snake(name)
            source = next(meant[key], name) if key in meant else name
            if source in apart and (how == "code" or quoted(m)):
                return apart[source]
            if name in lib or how == "said" and not (quoted(m) and name in before):
                return name
            start = m.start()
            if m.string[max(0, start - 4):start] == "tie." or "·" in name:
                return name
            if "-" in name or re.search(r"[a-z0-9][A-Z]", name):
                return key
            return name

        def quoted(m):
            return m.string[: m.start()].count("`") % 2 == 1

        for piece, how in pieces(text, path):
            if path.endswith(".edit"):
                how = "code" if piece.startswith(("old:", "new:")) else "said"
            if path.endswith(".rt") and how == "code":
                # names between quotes are text
                parts = re.split(r'("(?:[^"\\]|\\.)*")', piece)
                out.append("".join(p if i % 2 else TOKEN.sub(lambda m: turn(m, how), p) for i, p in enumerate(parts)))
            else:
                out.append(TOKEN.sub(lambda m: turn(m, how), piece))
        result = "".join(out)
        if result != text:
            kinds = collections.defaultdict(set)
            for a, b in zip(TOKEN.finditer(text), TOKEN.finditer(result)):
                kinds[b.group(0)].add(a.group(0))
            for b, many in kinds.items():
                if len(many) > 1:
                    odd.append(f"{path}: {sorted(many)} are {b} now")
            with open(os.path.join(new, path), "w", encoding="utf-8") as f:
                f.write(result)
    print("\n".join(odd))


main(sys.argv[1:])
