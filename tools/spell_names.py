#!/usr/bin/env python3
"""Brings the names that this repository declares in antt to today's spelling, once, after port.py: python3 tools/spell_names.py at the top.

A function, a lemma or a field in camel case becomes snake case. A dash stays where it joins the names of two functions, as in `length-cipher`, and
becomes an underscore before a plain word, as in `after_stem`. Types and modules keep their upper camel case. Only .antt files, the clauses and
`ghost use` items of .rt files, and names in back quotes of .md files change: functions of src/, exported names and strings stay.
It prints the names that fall together or meet a binder or a parameter of their file, and ends with 1 if there are any that OTHER does not settle.
"""

import collections
import os
import re
import sys

NAME = r'[^\s(){}.;,@"«»]+'
WORD = re.compile(r"(?<![^\s(){}.;,@\"«»])" + NAME)
COMMENT = re.compile(r"(?m)(?<![^\s(){};,])--[^\n]*")
DECLARED = re.compile(r"^(\s*)((?:(?:pub|abbrev|unfoldable|pattern) +)*)(" + NAME + r") *(?:\{[^{}]*\} *)*:(?= |$)")
TYPED = re.compile(r"^\s*(?:pub +)?(?:record|data) +(?:pub +)?(" + NAME + ")")
CLAUSE = re.compile(r"\b(?:requires|ensures)\*?(?: +\w+)? *\{|\bghost +\w+ *(?::|=)? *\{")
# What a file imports of the libraries keeps its name there.
OF_LIBRARY = re.compile(r"\buse (?:Prim|mathlib|native|lib|borrow|denote|Rattle\.(?:std|core|std_\w+))\.\S*?\.?\{([^}]*)\}")
GHOST_USE = re.compile(r"\bghost use\b[^;]*;")
# The library's functions whose names stand in names of lemmas.
LIBRARY = set("append length take drop map replicate get_or set xors cons snoc nil word be int reverse filled placed".split())
# Lemmas that already have the spelling which a function gets: each as a word behind no dot, in .antt files.
RESPELLED = {n: n + "_lem" for n in ("kept_by", "keys_in", "lent_row", "read_kept", "read_under", "sub_word")}
# The same below one path: a helper that would hide a constructor, and a definition that has the name of what a function returns.
RESPELLED_IN = {
    "crates/json_text/proofs/Decimals.antt": {"is_whole": "is_whole_value"},
    "crates/skrapnefja/": {"result": "plain_result"},
}
# The names of the fields of records: these turn behind a dot too.
FIELDS = set()
# A clause that port.py left with its binder.
BOUND = re.compile(r"(requires|ensures)\* \{ λ r\. ⌜ (.*) ⌝ \}")


def files():
    for folder, folders, names in os.walk("crates"):
        folders[:] = sorted(f for f in folders if f != "out")
        for n in sorted(names):
            if n.endswith((".antt", ".rt")):
                yield os.path.join(folder, n)


def read(path):
    with open(path, encoding="utf-8") as f:
        return f.read()


def declared(path):
    """The names that a file declares, each with whether it is a record's field."""
    inside = None
    for line in COMMENT.sub("", read(path)).split("\n"):
        indent = len(line) - len(line.lstrip())
        if line.strip() and inside is not None and indent <= inside:
            inside = None
        typed = TYPED.match(line)
        if typed:
            inside = indent
            yield typed[1], False
            continue
        it = DECLARED.match(line)
        if it and not re.search(r": *tie\.|statement M$", line):
            yield it[3], inside is not None


def snake(name):
    return re.sub(r"(?<=[a-z0-9])[A-Z]", lambda m: "_" + m[0].lower(), name)


def spelled(name, functions):
    """Today's spelling of a name; `functions` are those whose names a dash may join."""
    if "-" not in name and re.match("[A-Z]", name):
        return name
    parts = [snake(p) if re.match("[a-z]", p) else p for p in name.split("-")]
    out = parts[0]
    last = parts[0]
    for p in parts[1:]:
        joins = last in functions and (p in functions or re.match("[A-Z]", p))
        out += ("-" if joins else "_") + p
        last = p if joins else last + "_" + p
    return out


def table():
    names = collections.defaultdict(set)
    functions = set(LIBRARY)
    for path in files():
        if path.endswith(".antt"):
            for n, field in declared(path):
                names[n].add(path)
                if field:
                    FIELDS.add(n)
                if "/specs/" in path and re.match("[a-z]", n) and "-" not in n:
                    functions.add(snake(n))
    turned = {}
    taken = {snake(n) for n in names if "-" not in n}
    for n in sorted(names):
        if not re.fullmatch(r"[A-Za-z][\w'-]*", n):
            continue
        new = spelled(n, functions)
        if new != n:
            # A lemma that would have its function's name.
            turned[n] = new + "_lem" if "-" in n and new in taken and n != "is-whole" else new
    return turned, names


def clauses(text):
    """The stretches of a Rust file that are antt."""
    out = []
    for m in GHOST_USE.finditer(text):
        out.append((m.start(), m.end()))
    for m in CLAUSE.finditer(text):
        deep, at = 1, m.end()
        while at < len(text) and deep:
            deep += {"{": 1, "}": -1}.get(text[at], 0)
            at += 1
        out.append((m.end(), at - 1))
    return sorted(out)


def turn_words(text, turned, alias=()):
    def one(m):
        w = m[0]
        if w not in turned:
            return w
        if "-" in w and text[m.start() - 1 : m.start()] == "." and w not in FIELDS:
            head = re.search(r'([^\s(){};,@"«»]+)\.$', text[: m.start()])
            if not head or head[1].split(".")[0] not in alias:
                return w
        return turned[w]

    return WORD.sub(one, text)


def of_library(text):
    return {n.split(" as ")[0].strip() for m in OF_LIBRARY.finditer(text) for n in m[1].split(",")}


def below(path):
    """What is spelled anew below a path alone."""
    return {old: new for place, names in RESPELLED_IN.items() if path.startswith(place) for old, new in names.items()}


def turn_undotted(text, table):
    hidden = [(m.start(), m.end()) for m in COMMENT.finditer(text)]

    def one(m):
        if text[m.start() - 1 : m.start()] == "." or any(a <= m.start() < b for a, b in hidden):
            return m[0]
        return table.get(m[0], m[0])

    return WORD.sub(one, text)


def turn_antt(text, turned, path):
    turned = {old: new for old, new in turned.items() if old not in of_library(text)}
    text = turn_undotted(text, {**RESPELLED, **below(path)})
    alias = {"Rattle"} | set(re.findall(r"(?m)^use \S+ as (\S+)", text)) - {"tie", "goal"}
    out, at = [], 0
    for m in COMMENT.finditer(text):
        out.append(turn_words(text[at : m.start()], turned, alias))
        out.append(re.sub(r"`[^`\n]*`", lambda s: "`" + turn_words(s[0][1:-1], turned, alias) + "`", m[0]))
        at = m.end()
    out.append(turn_words(text[at:], turned, alias))
    return "".join(out)


def turn_rust(text, turned, path):
    alias = {"Rattle"} | set(re.findall(r"ghost use \S+ as (\w+)", text))
    turned = {old: new for old, new in turned.items() if old not in of_library(text)}
    out, at = [], 0
    for start, end in clauses(text):
        if start < at:
            continue
        out.append(text[at:start])
        part = text[start:end]
        if part.startswith("ghost use") or "λ r. ⌜" in part:
            part = turn_undotted(part, below(path))
        out.append(turn_words(part, turned, alias))
        at = end
    out.append(text[at:])
    return BOUND.sub(lambda m: f"{m[1]} {{ {turn_undotted(m[2], {'r': 'result'})} }}", "".join(out))


def turn_page(text, turned):
    return re.sub(r"`[^`\n]*`", lambda s: "`" + turn_words(s[0][1:-1], turned, {"Rattle"}) + "`", text)


def pages():
    yield "README.md"
    for n in sorted(os.listdir("docs")):
        if n.endswith(".md") and n not in ("PORT.md",):
            yield os.path.join("docs", n)


def main():
    turned, names = table()
    bad = 0
    back = collections.defaultdict(set)
    for old, new in turned.items():
        back[new].add(old)
    for new, olds in sorted(back.items()):
        if len(olds) > 1 or new in names:
            print(f"together: {new}: {sorted(olds)}{' and itself, in ' + ' '.join(sorted(names[new])[:3]) if new in names else ''}")
            bad += 1
    for path in files():
        text = read(path)
        body = COMMENT.sub("", text) if path.endswith(".antt") else "\n".join(text[a:b] for a, b in clauses(text))
        words = set(WORD.findall(body))
        for w in sorted(words & set(turned)):
            if turned[w] in words and turned[w] not in names:
                print(f"hides: {path}: {w} -> {turned[w]} is there already")
                bad += 1
        if path.endswith(".rt"):
            params = set(re.findall(r"\b(\w+)\s*:(?!:)", text))
            for w in sorted(words & set(turned)):
                if turned[w] in params:
                    print(f"parameter: {path}: {w} -> {turned[w]}")
                    bad += 1
    if "--check" in sys.argv:
        print(len(turned), "names")
        return bad > 0
    for path in files():
        text = read(path)
        new = turn_antt(text, turned, path) if path.endswith(".antt") else turn_rust(text, turned, path)
        if new != text:
            with open(path, "w", encoding="utf-8") as f:
                f.write(new)
    for path in pages():
        text = read(path)
        new = turn_page(text, turned)
        if new != text:
            with open(path, "w", encoding="utf-8") as f:
                f.write(new)
    return bad > 0


if __name__ == "__main__":
    raise SystemExit(main())
