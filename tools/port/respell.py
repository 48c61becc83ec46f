#!/usr/bin/env python3
"""Brings this repository's own definitions and lemmas to snake case: `checkReadable` and `code-known` become `check_readable`, `code_known`.

usage: tools/port/respell.py FOLDER BEFORE [TEXT..]

FOLDER is a checkout whose crates/ port.py has turned, BEFORE the same checkout before port.py. Turned are the names that specs/ and proofs/
declare, in specs/, proofs/ and the clauses of src/. Names of types, facts and modules, of functions of src/, the papers' word cH, and goals
that the checker makes keep theirs. Where a lemma falls together with a definition in some file, the lemma gets `_lem`. TEXT are further
files, of which only words in backticks are turned; then crates/ is left as it is.
"""
import os
import re
import sys

TOKEN = re.compile(r"[^\s(){}\[\],.;:\"`⌜⌝«»λ]+")
DECLARED = re.compile(r"^\s*(?:pub |abbrev |unfoldable )*((?:[^\s(){}\[\],.;:\"]+ )+): (.*)$")
ALONE = re.compile(r"^\s*(?:pub |abbrev |unfoldable )*([^\s(){}\[\],.;:\"]+) :$")
RULESET = re.compile(r"^(?:pub |abbrev )*ruleset (?:pub )?([^\s]+)")
GOAL = re.compile(r"^(tie|lts|goal|reads)\.")
KEEP = {"cH", "getD"}


def snake(name):
    name = re.sub(r"getD(?![a-z])", "get_or", name)
    turned = lambda part: re.sub(r"(?<=[a-z0-9'])([A-Z]+)", lambda m: "_" + m.group(1).lower(), part)
    return "_".join(part if part == "cH" else turned(part) for part in name.split("-"))


def turns(name):
    return name not in KEEP and bool(re.match(r"[a-z]", name)) and not re.search(r"[◌→≡≤<*+]", name) and snake(name) != name


def files(root, endings):
    for folder, dirs, names in os.walk(os.path.join(root, "crates")):
        dirs[:] = sorted(d for d in dirs if d != "out")
        for n in sorted(names):
            if n.endswith(endings):
                yield os.path.join(folder, n)


def read(path):
    with open(path, encoding="utf-8") as f:
        return f.read()


def declared(root):
    found = set()
    for path in files(root, (".antt",)):
        for line in read(path).split("\n"):
            line = line.split("--")[0].rstrip()
            m, alone, rules = DECLARED.match(line), ALONE.match(line), RULESET.match(line)
            if m and not GOAL.match(m.group(2)):
                found.update(m.group(1).split())
            elif alone or rules:
                found.add((alone or rules).group(1))
    return found


def code_of(text, antt):
    return "\n".join(l.split("--")[0] if antt else ("" if l.lstrip().startswith("//") else l) for l in text.split("\n"))


def tokens(text, antt=True):
    return set(TOKEN.findall(code_of(text, antt)))


def turned(text, names, antt):
    """The text with the names turned; in comments only names in camel case."""
    lines = []
    for line in text.split("\n"):
        at = line.find("--") if antt else (0 if line.lstrip().startswith("//") else len(line))
        code, comment = (line, "") if at < 0 else (line[:at], line[at:])
        code = TOKEN.sub(lambda m: names.get(m.group(), m.group()), code)
        comment = TOKEN.sub(lambda m: names[m.group()] if m.group() in names and re.search("[A-Z]", m.group()) else m.group(), comment)
        lines.append(code + comment)
    return "\n".join(lines)


def plan(root, before):
    """The names, and for each file those that are in snake case already and whose lemma gets `_lem` there."""
    own = declared(root)
    names = {n: snake(n) for n in own if turns(n)}
    spelled = {}
    for n in own:
        spelled.setdefault(names.get(n, n), set()).add(n)
    together = set()
    for path in files(root, (".antt",)):
        seen = {}
        for t in tokens(read(path)) & own:
            seen.setdefault(names.get(t, t), set()).add(t)
        together.update(n for n, ts in seen.items() if len(ts) > 1)
    for n in together:
        for old in spelled[n]:
            if "-" in old:
                names[old] = n + "_lem"
    dashed = {n: n.replace("_", "-") for n in together if n in spelled[n] and any(re.search("[a-z][A-Z]", o) for o in spelled[n])}
    inside = {}
    for path in files(root, (".antt",)):
        was = path.replace(root, before, 1)
        if os.path.exists(was):
            old = tokens(read(was))
            inside[path] = {n: n + "_lem" for n, d in dashed.items() if d in old}
    return names, inside, together


def main(argv):
    root, before, texts = argv[0].rstrip("/"), argv[1].rstrip("/"), argv[2:]
    names, inside, together = plan(root, before)
    if texts:
        for path in texts:
            text = read(path)
            new = re.sub(r"`[^`\n]+`", lambda q: TOKEN.sub(lambda m: names.get(m.group(), m.group()), q.group()), text)
            if new != text:
                with open(path, "w", encoding="utf-8") as f:
                    f.write(new)
        return 0
    changed = 0
    for path in files(root, (".antt", ".rt")):
        text = read(path)
        new = turned(text, names | inside.get(path, {}), path.endswith(".antt"))
        if new != text:
            changed += 1
            with open(path, "w", encoding="utf-8") as f:
                f.write(new)
    print(f"{len(names)} names, {changed} files; lemmas that fall together with a definition get _lem: {', '.join(sorted(together))}")
    return 0


if __name__ == "__main__":
    raise SystemExit(main(sys.argv[1:]))
