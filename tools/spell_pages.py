#!/usr/bin/env python3
"""Brings names in back quotes of README.md and docs/ to the spelling that crates/ has now: python3 tools/spell_pages.py at the top, after spell_names.py.

A name that crates/ has no more is replaced by its snake case, or by that with `_lem`, where crates/ has just one of these.
"""

import os
import re

WORD = re.compile(r'[^\s(){}.;,@"«»`]+')
NAME = re.compile(r"(?<![\w'-])[A-Za-z][\w'-]*")


def words():
    found = set()
    for folder, folders, names in os.walk("crates"):
        folders[:] = [f for f in folders if f != "out"]
        found.update(folders)
        for n in names:
            found.add(n.rsplit(".", 1)[0])
            with open(os.path.join(folder, n), encoding="utf-8", errors="replace") as f:
                found.update(WORD.findall(f.read()))
    return found


def pages():
    yield "README.md"
    for folder in ("docs", "docs/changes"):
        for n in sorted(os.listdir(folder)):
            if n.endswith(".md") and n != "PORT.md":
                yield os.path.join(folder, n)


def main():
    there = words()

    def one(m):
        if m[0] in there or not re.search(r"[a-z][A-Z]|-", m[0]):
            return m[0]
        plain = re.sub(r"(?<=[a-z0-9])[A-Z]", lambda c: "_" + c[0].lower(), m[0])
        forms = [f for f in (plain, plain.replace("-", "_"), plain.replace("-", "_") + "_lem") if f in there]
        return forms[0] if forms else m[0]

    for page in pages():
        with open(page, encoding="utf-8") as f:
            old = f.read()
        new = re.sub(r"`[^`\n]+`", lambda s: NAME.sub(one, s[0]), old)
        if new != old:
            with open(page, "w", encoding="utf-8") as f:
                f.write(new)


if __name__ == "__main__":
    main()
