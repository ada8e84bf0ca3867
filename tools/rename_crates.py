#!/usr/bin/env python3
"""Renames the crates whose names Rattle's own libraries have: json is json_grammar, sha1 is sha1_hash. Run once, at the top, after spell_names.py."""

import os
import re
import subprocess

NEW = {"json": "json_grammar", "sha1": "sha1_hash"}


def rewrite(path, change):
    with open(path, encoding="utf-8") as f:
        old = f.read()
    new = change(old)
    if new != old:
        with open(path, "w", encoding="utf-8") as f:
            f.write(new)


def paths(text):
    for old, new in NEW.items():
        text = re.sub(rf"\bRattle\.{old}\b(?![_-])", f"Rattle.{new}", text)
    return text


def uses(text):
    for old, new in NEW.items():
        text = re.sub(rf"(?<![\w:.]){old}::", f"{new}::", text)
    return text


def main():
    for old, new in NEW.items():
        subprocess.run(["git", "mv", f"crates/{old}", f"crates/{new}"], check=True)
    rewrite("crates.txt", lambda t: "\n".join(re.sub(r"^[^#]*", lambda m: re.sub(r"\b(json|sha1)\b(?!_)", lambda w: NEW[w[0]], m[0]), line) for line in t.split("\n")))
    for folder, folders, names in os.walk("crates"):
        folders[:] = [f for f in folders if f != "out"]
        for n in names:
            if n.endswith(".antt"):
                rewrite(os.path.join(folder, n), paths)
            elif n.endswith(".rt"):
                rewrite(os.path.join(folder, n), lambda t: uses(paths(t)))
    for page in ["README.md"] + [os.path.join("docs", n) for n in os.listdir("docs") if n.endswith(".md") and n != "PORT.md"]:
        rewrite(page, lambda t: re.sub(r"(`|crates/)(json|sha1)(?=[`/])", lambda m: m[1] + NEW[m[2]], t))


if __name__ == "__main__":
    main()
