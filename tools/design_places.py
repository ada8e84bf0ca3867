#!/usr/bin/env python3
"""Lists the places of src/ that docs/DESIGN-PASS.md counts: python3 tools/design_places.py [FOLDER] [POINT..]

FOLDER is the top of a checkout (this one by default). Each line is a point's letter, the place, and what stands there;
the last lines count the places of each letter. Point 8 looks at proofs/."""
import collections
import pathlib
import re
import sys

FN = re.compile(r"\bfn (\w+)(<[^>{(]*>)?\(((?:[^()]|\((?:[^()]|\([^()]*\))*\))*)\)\s*(?:-> ([^\n{]+?))?(?=\n|\s*\{)")


def functions(text):
    """Each function: name, parameters, result, clauses, body, the comment above, the line."""
    for m in FN.finditer(text):
        start = text.find("\n{", m.end())
        one_line = re.match(r"\s*\{", text[m.end():])
        indent = re.search(r"[ \t]*$", text[:text.rfind("fn ", 0, m.start() + 3)].split("\n")[-1]).group()
        if one_line:
            clauses, opened = "", m.end() + one_line.end() - 1
        else:
            opened = text.find("\n" + indent.replace("pub ", "") + "{\n", m.end())
            opened = start if opened < 0 else opened
            clauses, opened = text[m.end():opened], opened + 1
        depth, i = 0, text.find("{", opened)
        for j in range(i, len(text)):
            depth += {"{": 1, "}": -1}.get(text[j], 0)
            if depth == 0:
                break
        above = []
        for line in reversed(text[:m.start()].split("\n")[:-1]):
            if not line.strip().startswith(("//", "#[")):
                break
            above.insert(0, line.strip())
        yield (m.group(1), m.group(3), (m.group(4) or "").strip(), clauses, text[i:j + 1], " ".join(above),
               text.count("\n", 0, m.start()) + 1)


def parameters(text):
    return [p.strip() for p in re.split(r",\s*(?![^<\[]*[>\]])", text) if ":" in p]


def shape(body):
    tokens = re.findall(r"[A-Za-z_]\w*|0x[0-9a-fA-F]+|\d+|[^\s\w]", body)
    kept = {"if", "else", "while", "for", "in", "let", "mut", "return", "match", "loop", "true", "false", "as"}
    return tuple("N" if t[0].isdigit() else t if not (t[0].isalpha() or t[0] == "_") or t in kept else "I" for t in tokens)


def facts(clauses):
    for m in re.finditer(r"requires(?: \w+)? \{ (.*?) \}\n", clauses + "\n"):
        depth, fact = 0, ""
        for part in re.split(r"( × )", m.group(1)):
            depth += part.count("(") - part.count(")")
            if part == " × " and depth == 0:
                yield fact.strip()
                fact = ""
            else:
                fact += part
        yield fact.strip()


def bare(fact):
    return re.sub(r"^\((.*)\)$", r"\1", fact)


def main():
    top = pathlib.Path(sys.argv[1] if len(sys.argv) > 1 else ".")
    wanted = sys.argv[2:]
    found = []
    shapes, fact_places, groups = collections.defaultdict(list), collections.defaultdict(list), collections.defaultdict(list)
    for path in sorted(top.glob("crates/*/src/*.rt")):
        text, name = path.read_text(), str(path.relative_to(top / "crates"))
        add = lambda letter, line, what: found.append((letter, f"{name}:{line}", what))
        for m in re.finditer(r"^(?:pub )?enum (\w+)", text, re.M):
            add("1a", text.count("\n", 0, m.start()) + 1, f"enum {m.group(1)}")
        for m in re.finditer(r"^ +pub (answer|made|readable|first|second): (?:Answer|Made|bool|Result)\b.*$", text, re.M):
            add("1c", text.count("\n", 0, m.start()) + 1, m.group().strip())
        for m in re.finditer(r"^ *(while|loop) ?.*\{$", text, re.M):
            add("3", text.count("\n", 0, m.start()) + 1, m.group().strip())
        for m in re.finditer(r"^ +pub length: \w+", text, re.M):
            add("6", text.count("\n", 0, m.start()) + 1, m.group().strip())
        for fn, given, result, clauses, body, above, line in functions(text):
            if fn.startswith("skrapnefja_") or fn.startswith("primitives_"):
                continue
            if result == "bool" and "&mut" in given:
                add("1b", line, f"fn {fn} -> bool with a lent buffer")
            if re.match(r"u\d+|usize", result) and re.search(r"(, and|, or|;) (0|3|16|128|256|65,536|e)\b|, or (0|the length) |\d where ", above):
                add("1d", line, f"fn {fn} -> {result}: {above[:90]}")
            if re.search(r"\b(given|negative|named): bool", given):
                add("1e", line, f"fn {fn}")
            if re.search(r"^(equal|differences|known|copy_\w+|to_\w+|of_\w+|from_\w+|\w+_number|number_of|combo_of|combo_in|halves_of|join\w*|split_\w+|byte\d|bytes_of|put_\w+|lesser|less)$", fn):
                add("4", line, f"fn {fn}")
            if re.search(r"\b(wide|padded|given): bool", given) or re.search(r"match combo \{|match self\.combo \{", body):
                add("7", line, f"fn {fn}")
            if len(shape(body)) >= 24:
                shapes[shape(body)].append(f"{name}:{line} {fn}")
            for fact in set(map(bare, facts(clauses))):
                fact_places[fact].append(f"{name}:{line} {fn}")
            names = tuple(p.split(":")[0].strip() for p in parameters(given))
            for size in range(len(names), 2, -1):
                for at in range(len(names) - size + 1):
                    groups[names[at:at + size]].append(f"{name}:{line} {fn}")
    for places in shapes.values():
        if len(places) > 1:
            found.extend(("2", p.split(" ")[0], f"{p.split(' ')[1]}, of one shape with {len(places) - 1} more: {places[0]}") for p in places)
    for fact, places in fact_places.items():
        if len(places) > 2:
            found.append(("5a", f"{len(places)} functions", fact))
    longest = {g: p for g, p in groups.items() if len(p) > 2}
    for g, places in longest.items():
        if not any(len(h) > len(g) and len(longest[h]) == len(places) and any(h[i:i + len(g)] == g for i in range(len(h) - len(g) + 1)) for h in longest):
            found.append(("5b", f"{len(places)} functions", ", ".join(g)))
    for path in sorted(top.glob("crates/*/proofs/**/Answers.antt")):
        name = str(path.relative_to(top / "crates"))
        lets = collections.Counter(re.findall(r"^ *(let \w[\w-]* :.*)$", path.read_text(), re.M))
        found.extend(("8a", name, f"{n} times: {text[:110]}") for text, n in lets.items() if n > 1)
        found.extend(("8b", name, goal) for goal in re.findall(r"^(\S+) c = search rules$", path.read_text(), re.M))
    counts = collections.Counter(letter for letter, _, _ in found)
    for letter, place, what in sorted(found):
        if not wanted or any(letter.startswith(w) for w in wanted):
            print(letter, place, what)
    for letter in sorted(counts):
        print("count", letter, counts[letter])


main()
