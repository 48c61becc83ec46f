#!/usr/bin/env python3
"""Turns Proof.antt files of the older form into Answers.antt and Invariants.antt.

usage: tools/port/answers.py CRATE OLD NAMES [FOLDER..]

CRATE is a crate's folder, OLD a folder that has its Proof.antt files under the same paths below proofs/ (they are no longer in CRATE), NAMES
what `rt check --generated NAMES --old-names` wrote. Goals that only said `search rules` are left to the checker. Prints what is left by hand.
"""
import json
import os
import re
import sys

LEFT = []
PAIRS = set()


def norm(n):
    n = re.sub(r"_lem$", "", n)
    return n.replace("_", "-").lower()


def bare(n):
    """A goal's name without what kind of overflow it speaks of, which old names did not have."""
    n = norm(n)
    n = re.sub(r"^(overflow|nonzero)-", "", n)
    n = re.sub(r"^slice-bounds-", "part-", n)
    return n


def blocks(text):
    out, now = [], []
    for line in text.split("\n"):
        if line and not line[0].isspace() and re.match(r"^(pub |abbrev |unfoldable |mutual|module )*[^\s]+.* : |^(pub |abbrev )*[^\s]+ :$|^mutual|^module |^-- ", line) and now and not now[-1].strip():
            out.append("\n".join(now).rstrip())
            now = []
        now.append(line)
    out.append("\n".join(now).rstrip())
    return [b for b in out if b.strip()]


class Function:
    def __init__(self, data, key):
        self.key = key
        self.needs = data["needs"]
        self.asked_at = data["asked_at"]
        self.places = {}
        for old, parent, step, callee, more in data["places"]:
            self.places.setdefault(old, (parent, step, callee))
        self.arms = data["arms"]
        self.names = data["places_by_name"]
        self.typed = data["typed"]
        self.params = data["params"]
        self.loops = data["loops"]
        self.data = data
        self.settled = data["settled"]

    def find(self, name):
        """The index of the goal of that old name."""
        for f in (norm, bare):
            for i, (old, new) in enumerate(self.needs):
                if f(old) == f(name):
                    return i
        return None

    def clauses_of(self, i, step):
        """The names of the clauses of the call that made a step."""
        at = self.asked_at[i][0]
        order = [x[0] for x in self.data["places"]]
        while at is not None and at in self.places:
            parent, (old, new), callee = self.places[at]
            if old and norm(old) == step:
                k = self.data["clauses"][order.index(at)]
                return k["fields"] if k else None
            at = parent
        return None

    def chain(self, i):
        """The steps in scope at a goal: normalised old name to new name and callee; and arms by old step and field."""
        steps, arms = {}, {}
        at = self.asked_at[i][0] if self.asked_at[i] else None
        order = list(self.places)
        while at is not None and at in self.places:
            parent, (old, new), callee = self.places[at]
            if old:
                steps.setdefault(norm(old), (new, callee))
            arm = self.arms[order.index(at)] if order.index(at) < len(self.arms) else None
            if arm:
                for field, step, path in arm[2]:
                    arms.setdefault((norm(step), ".".join(path)), (arm[0], field))
            at = parent
        return steps, arms


def turn_body(f, i, body, var="c"):
    while True:
        m = re.search(rf"let (\w+) = {var}(?:\.before)* in\s*", body)
        if not m:
            break
        body = body.replace(m.group(0), "", 1)
        body = re.sub(rf"(?<![\w.'-]){m.group(1)}(?=\.)", var, body)
    for m in re.finditer(rf"let (\w+) = ({var}(?:\.before)*\.([\w-]+)) in[ \n]*", body):
        uses = re.findall(rf"(?<![\w.'-]){m.group(1)}\.(ensures|new|auto)(?![\w-])", body)
        if uses and m.group(3) not in ("args", "loop") and not re.search(rf"(?<![\w.'-]){m.group(1)}(?![\w.'-])(?! = )", body.replace(m.group(0), "")):
            body = re.sub(rf"(?<![\w.'-]){m.group(1)}(?=\.)", m.group(2), body.replace(m.group(0), "", 1))
    steps, arms = f.chain(i)
    typed = {norm(s): v for ts in f.typed for v, s in ts}
    typed.update({norm(s): v for v, s in f.typed[i]} if i < len(f.typed) else {})

    def slices(m):
        step = norm(m.group(1))
        v = typed.get(step)
        if v is None and typed:
            base = re.sub(r"\d+$", "", step)
            v = next((x for s, x in typed.items()), None)
        return f"{var}.type_inv.{v}" if v else None

    def whole(m):
        v = slices(m)
        return v if v else m.group(0)

    path = rf"\b{var}(?:\.before)*\.(shared[-_]slice[-_]known[\w-]*)\.given"
    body = re.sub(rf"\(λ (?P<i>\w+)\. \({path} (?P=i)\)\.fits\)".replace(r"\.(shared", r"\.(?P<s>shared"), lambda m: f"(λ {m.group('i')}. ({typed_of(typed, m.group('s'), var)} {m.group('i')}).fits)", body)
    body = re.sub(rf"\({path} ((?:[\w.'₀-]+|\([^()]*\)))\)\.fits".replace(r"\.(shared", r"\.(?P<s>shared"), lambda m: f"({typed_of(typed, m.group('s'), var)} {m.group(2)}).fits", body)

    def step(m):
        name, rest = m.group(1), m.group(2) or ""
        n = norm(name)
        if n == "requires" and ".Lts-" in f.key:
            if rest.startswith(".1"):
                return f"{var}.requires{rest[2:]}"
            if rest.startswith(".0"):
                return f"{var}.decreases{rest[2:]}"
        if n in ("args", "requires", "well-formed", "ranges", "type-inv", "decreases"):
            m2 = re.match(r"\.t(\d+)(?!\w)", rest)
            if n == "args" and m2 and f"t{m2.group(1)}" not in f.parameters and int(m2.group(1)) <= len(f.parameters):
                rest = "." + f.parameters[int(m2.group(1)) - 1] + rest[m2.end():]
            return f"{var}.{name.replace('-', '_')}{rest}"
        parts = rest.split(".")[1:]
        if re.match(r"match\d*$", n) and parts and parts[0] == "rest":
            for at, arm in enumerate(f.arms):
                if arm and arm[0].startswith("in_default"):
                    for x in arm[2]:
                        if norm(x[1]) == n and not x[2]:
                            return ".".join([var, arm[0], x[0], "rest"] + parts[1:])
        for k in range(len(parts), -1, -1):
            key = (n, ".".join(parts[:k]))
            if key in arms and (k or n in ("match",)):
                arm, field = arms[key]
                return ".".join([var, arm, field] + parts[k:])
        if n not in steps and re.sub(r"\d+$", "", n) in steps:
            n = re.sub(r"\d+$", "", n)
        if n in steps:
            new, callee = steps[n]
            fields = f.clauses_of(i, n)
            if fields and len(parts) > 1 and parts[0] == "ensures" and parts[1].isdigit():
                k = 0
                while k < len(fields) - 1 and len(parts) > 1 + k and parts[1 + k] == "1":
                    k += 1
                if k == len(fields) - 1:
                    parts[1:1 + k] = [fields[k]]
                elif len(parts) > 1 + k and parts[1 + k] == "0":
                    parts[1:2 + k] = [fields[k]]
            if parts and parts[0] in ("new", "auto") and callee in f.params:
                ps, k = f.params[callee], 0
                while len(parts) > 1 + k and parts[1 + k] == "1":
                    k += 1
                if len(parts) > 1 + k and parts[1 + k] == "0" and k < len(ps):
                    parts[1:2 + k] = [ps[k]]
            if fields and parts == ["ensures"]:
                text = f"{var}.{new}.ensures.{fields[-1]}"
                for x in reversed(fields[:-1]):
                    text = f"({var}.{new}.ensures.{x}, {text})"
                return text
            return ".".join([var, new] + parts)
        LEFT.append(f"{f.key.split('-proofs.')[1]}: {f.needs[i][1]}: no step {name}")
        return f"{var}.{name}{rest}"

    body = re.sub(rf"(?<![\w.'-]){var}(?:\.before)*\.([\w-]+)((?:\.[\w'-]+)*)", step, body)
    return unnegated(body)


def argument(text, at):
    """Where the argument that begins at a place begins and ends."""
    while at < len(text) and text[at].isspace():
        at += 1
    start, depth = at, 0
    while at < len(text):
        if text[at] in "([{":
            depth += 1
        elif text[at] in ")]}":
            if depth == 0:
                break
            depth -= 1
        elif depth == 0 and (text[at].isspace() or text[at] in ",;"):
            break
        at += 1
    return start, at


def unnegated(body):
    """A negated test says today what it says of what is negated, so the lemmas that said so go."""
    while True:
        m = re.search(r"(?<![\w-])not-(?:true|false)(?![\w-])", body)
        if not m:
            return body
        _, first = argument(body, m.end())
        start, end = argument(body, first)
        body = body[:m.start()] + body[start:end] + body[end:]


def helper(fs, aliases, block):
    """A lemma over the record of a place that several goals share: its name, today's text, the place's name today."""
    m = re.search(r"(\(t : ℕ\) )?\((\w+) : ([\w-]*lts)\.([\w-]+)[^()]*(?:\([^()]*\)[^()]*)*\)", block)
    if not m:
        return None
    who = "" if m.group(3) == "lts" else aliases.get(m.group(3), norm(m.group(3)[:-4]))
    f = fs.get(who)
    if f is None:
        return None
    olds = list(f.places)
    at = next((k for k, o in enumerate(olds) if norm(o) == norm(m.group(4))), None)
    if at is None:
        return None
    place = f.names[at] if at < len(f.names) else None
    order = [x[0] for x in f.data["places"]]
    place = f.names[order.index(olds[at])]
    if len(fs) > 1:
        place = f"{who_name(f)}-{place}"
    var = m.group(2)
    f.asked_at.append([olds[at], place])
    f.needs.append(["", "helper"])
    f.typed.append(next((t for (o, _), t in zip(f.asked_at, f.typed) if o == olds[at]), []))
    i = len(f.asked_at) - 1
    text = block.replace(m.group(0), f"{m.group(1) or str()}({var} : {place}{chr(32) + chr(116) if m.group(1) else str()})")
    text = turn_body(f, i, text, var)
    f.asked_at.pop(), f.needs.pop(), f.typed.pop()
    name = re.match(r"^(?:abbrev |pub )*(\S+) :", block).group(1)
    return name, text, place, i


def last_expression(body):
    """Where the last expression of a sequence of lets begins."""
    at = 0
    while True:
        m = re.compile(r"\s*let\b").match(body, at)
        if not m:
            return at
        k, depth, lets = m.end(), 0, 1
        while k < len(body):
            if body[k] in "([{":
                depth += 1
            elif body[k] in ")]}":
                depth -= 1
            elif depth == 0:
                w = re.compile(r"(?<![\w.'-])(let|in)(?![\w'-])").match(body, k)
                if w:
                    lets += 1 if w.group(1) == "let" else -1
                    k = w.end() - 1
                    if lets == 0:
                        break
            k += 1
        if k >= len(body):
            return at
        at = k + 1


def parts_of(text):
    """The parts of a tuple, or None."""
    t = text.strip()
    if not t.startswith("("):
        return None
    depth, now, out = 0, "", []
    for k, ch in enumerate(t):
        if ch in "([{":
            depth += 1
            if depth == 1:
                continue
        if ch in ")]}":
            depth -= 1
            if depth == 0:
                if k != len(t) - 1:
                    return None
                break
        if ch == "," and depth == 1:
            out.append(now)
            now = ""
        else:
            now += ch
    if now.strip():
        out.append(now)
    return out if len(out) > 1 else None


def by_clause(name, body, fields):
    """Answers for a goal of several clauses, which is a record today."""
    if not fields:
        return [(name, body)]
    at = last_expression(body)
    lets, last = body[:at], body[at:]
    parts = parts_of(last)
    while parts and len(parts) < len(fields) and parts_of(parts[-1]):
        parts[-1:] = parts_of(parts[-1])
    if parts and len(parts) >= len(fields):
        parts = parts[:len(fields) - 1] + ([parts[-1]] if len(parts) == len(fields) else ["(" + ", ".join(p.strip() for p in parts[len(fields) - 1:]) + ")"])
        return [(name, lets + " record { " + "; ".join(f"{x} = {' '.join(p.split())}" for x, p in zip(fields, parts)) + " }")]
    if re.match(r"\s*(search|omega|simp|rw|grind|cc|elim)\b", last):
        return [(f"{name}-clause-{x}", body) for x in fields]
    PAIRS.add(tuple(fields))
    return [(name, f"{lets} as_{'_'.join(fields)} ({last.strip()})")]


def pair(fields):
    """A lemma that takes a tuple of several clauses for the record of them."""
    n = "as_" + "_".join(fields)
    types = [chr(ord("A") + k) for k in range(len(fields))]
    nested = lambda ts: ts[0] if len(ts) == 1 else f"{ts[0]} × " + (nested(ts[1:]) if len(ts) == 2 else f"({nested(ts[1:])})")
    record = "record { " + "; ".join(f"{x} : {t}" for x, t in zip(fields, types)) + " }"
    value = "record { " + "; ".join(f"{x} = p" + ".1" * k + (".0" if k < len(fields) - 1 else "") for k, x in enumerate(fields)) + " }"
    return f"{n} : {{{' '.join(types)} : Type 0}} → {nested(types)} → {record}\n{n} p = {value}"


def spec_arguments(text):
    """The arguments of `tie.spec`."""
    at = text.find("tie.spec")
    if at < 0:
        return []
    rest, out, depth, now = text[at + 8:], [], 0, ""
    for ch in rest:
        if ch == "(":
            depth += 1
        if ch == ")":
            depth -= 1
            if depth < 0:
                break
        if depth == 0 and ch.isspace():
            if now:
                out.append(now)
            now = ""
        else:
            now += ch
    if now:
        out.append(now)
    return out


def typed_of(typed, step, var, f=None):
    v = typed.get(norm(step))
    if v is None:
        v = next(iter(typed.values()), None)
    return f"{var}.type_inv.{v}" if v else f"{var}.{step}.given"


def loop_body(line_args, body, prefix):
    """The text of an invariant over the record l; the first variables are those outside, then those at the start (with ₀), then those now."""
    names = {}
    for a in line_args:
        names[a] = f"l.initial.{a[:-1]}" if a.endswith("₀") else f"l.{a}"
    return re.sub(r"(?<![\w.'-])([A-Za-z_][\w']*₀?)", lambda m: names.get(m.group(1), m.group(1)), body)


def main(argv):
    crate, old, names = argv[:3]
    only = argv[3:]
    name = os.path.basename(os.path.abspath(crate))
    table = json.load(open(os.path.join(names, "names.json"), encoding="utf-8"))
    for folder, dirs, fs in os.walk(os.path.join(old, "proofs")):
        if "Proof.antt" not in fs:
            continue
        rel = os.path.relpath(folder, os.path.join(old, "proofs"))
        if only and rel not in only:
            continue
        convert(crate, name, rel, os.path.join(folder, "Proof.antt"), table)
    for l in LEFT:
        print("left:", l)
    return 0


def functions(table, name, rel):
    path = rel.replace("/", ".")
    out = {}
    for key in table:
        k = key.partition("-proofs.")[2]
        if k == path + ".Lts":
            out[""] = Function(table[key], key)
        elif k.startswith(path + ".Lts-"):
            out[norm(k[len(path) + 5:])] = Function(table[key], key)
    return out


def convert(crate, name, rel, path, table):
    text = open(path, encoding="utf-8").read()
    text = re.sub(r"^use [^\n]*\{\n[^}]*\}", lambda m: re.sub(r"\s*\n\s*", "", m.group(0)).replace(",}", "}").replace(",", ", "), text, flags=re.M)
    fs = functions(table, name, rel)
    if not fs:
        LEFT.append(f"{rel}: no names in the table")
        return
    for who, f in fs.items():
        f.parameters = parameters(crate, rel, f.key.split(".Lts-")[1] if who else rel.split("/")[-1])
    lines = text.split("\n")
    k = 0
    while k < len(lines) and lines[k].startswith("--"):
        k += 1
    header = [l for l in lines[:k] if "Assumes nothing" not in l]
    uses, rest = [], []
    for l in lines[k:]:
        if l.startswith("use "):
            if re.search(r"\.(Reads|Kinds|Tie|Statement|Lts[\w-]*)\b|borrow\.Fn\.|\{statement\}|Tie\.\{close\}", l):
                continue
            uses.append(l)
        else:
            rest.append(l)
    aliases = {}
    for l in lines:
        m = re.match(r"use Rattle\.\S+\.Lts-(\S+) as (\S+)$", l)
        if m:
            aliases[m.group(2)] = norm(m.group(1))
    answers, invariants, helpers, shared, opened = [], [], [], {}, set()
    alone = "" in fs
    cycle = len(fs) > 1
    for b in blocks("\n".join(rest)):
        said = []
        while b.startswith("--") and "\n" in b:
            line, b = b.split("\n", 1)
            said.append(line)
            b = b.lstrip("\n")
        first = b.split("\n")[0]
        m = re.match(r"^(?:abbrev |pub )*(\S+) :\s*(.*)$", first)
        if not m:
            if b.strip().startswith("--"):
                helpers.append(b)
            else:
                LEFT.append(f"{rel}: block not understood: {first}")
                helpers.append(b)
            continue
        label, typ = m.group(1), m.group(2)
        body_lines = b.split("\n")[1:]
        if not typ and body_lines:
            typ = body_lines.pop(0).strip()
        g = re.match(r"^(?:\(t : ℕ\) → )?([\w-]+)\.Need-([\w-]+)( .*)?$", typ)
        inv = re.match(r"^([\w-]+)\.(invariant|decreases)-(loop[\w-]*)$", typ)
        if g:
            who = "" if g.group(1) == "tie" else aliases.get(g.group(1), norm(g.group(1)[:-4]))
            if who not in fs:
                LEFT.append(f"{rel}: no function {who}")
                continue
            f = fs[who]
            i = f.find(g.group(2))
            if i is None:
                if not re.search(r"= search rules$", b):
                    LEFT.append(f"{rel}: goal {g.group(2)} is not there: {' '.join(b.split())[:300]}")
                continue
            new = f.needs[i][1]
            unf = [l for l in body_lines if l.startswith("unfolding")]
            body = "\n".join(l for l in body_lines if not l.startswith("unfolding"))
            m2 = re.match(rf"^{re.escape(label)}((?: [\w₀κ]+)*) =(.*)$", body, re.S)
            if not m2:
                LEFT.append(f"{rel}: {label}: no plain body")
                continue
            args, body = m2.group(1).split(), m2.group(2)
            args = [a for a in args if a != "κs"]
            if body.strip() == "search rules":
                continue
            var = args[-1] if args else "c"
            full = new if not cycle else f"{who_name(f)}-{new}"
            for h, (place, _) in shared.items():
                body = re.sub(rf"(?<![\w.-]){re.escape(h)}( t)? {var}(\.before)*(?![\w.])", lambda m: f"{h}{m.group(1) or ''} (goal.at.{full} {'t ' if '-' in full and cycle else ''}{var}).{place.split(who_name(f) + '-', 1)[-1] if cycle else place}", body)
            body = turn_body(f, i, body, var)
            for goal, text in by_clause(full, body, f.data["asked"].get(f.needs[i][0])):
                answers.append("\n".join([f"pub {goal} : goal.{goal}"] + unf + [" ".join([goal] + args) + " =" + text]))
        elif inv:
            who = "" if inv.group(1) == "tie" else aliases.get(inv.group(1), norm(inv.group(1)[:-4]))
            f = fs[who]
            loop = inv.group(3)
            for (o, n), _ in f.loops:
                if norm(o) == norm(loop):
                    loop = n
                    break
            kind = inv.group(2)
            body = "\n".join(body_lines)
            m2 = re.match(rf"^((?:unfolding[^\n]*\n)?)(?:{re.escape(label)})((?: [^\s=]+)*) =(.*)$", body, re.S)
            if not m2:
                LEFT.append(f"{rel}: {label}: no plain body")
                continue
            args, body = m2.group(2).split(), m2.group(3)
            full = f"{kind}-{loop}" if not cycle else f"{kind}-{who_name(f)}-{loop}"
            invariants.append(f"abbrev pub {full} : goal.{full}\n{full} l =" + loop_body(args, body, "l"))
        elif re.search(r"Measures|: ℕ → In |Claims|statement M|PlainCycle", first) or "→ In " in typ or typ.endswith("statement M"):
            if "Measures" in first:
                invariants.append(measure(crate, rel, label, b))
            if typ.endswith("statement M") and alone:
                f = fs[""]
                unf = [l for l in body_lines if l.startswith("unfolding")]
                given = spec_arguments("\n".join(body_lines))
                given = given[len(given) - len(f.needs):] if len(given) >= len(f.needs) else given
                for i, arg in enumerate(given):
                    m3 = re.match(r"^\(λ (\w+)((?: \w+)*)\. (.*)\)$", arg, re.S)
                    if m3 and i < len(f.needs):
                        body = turn_body(f, i, m3.group(3), m3.group(1))
                        if body.strip() == "search rules":
                            continue
                        new = f.needs[i][1]
                        extra = [a for a in m3.group(2).split() if a != "κs"]
                        if m3.group(2).strip() and "κs" not in m3.group(2):
                            LEFT.append(f"{rel}: {new}: more than one variable")
                        for goal, text in by_clause(new, " " + body, f.data["asked"].get(f.needs[i][0])):
                            answers.append("\n".join([f"pub {goal} : goal.{goal}"] + unf + [f"{goal} {m3.group(1)} ={text}"]))
        else:
            made = helper(fs, aliases, b)
            if made:
                lemma, text, place, need = made
                shared[lemma] = (place, need)
                helpers.append("\n".join(said + [text]))
                opened.add(place)
                continue
            if re.search(r"lts\.|\.before|tie\.", b):
                LEFT.append(f"{rel}: helper {label} cites what is no longer made")
            helpers.append("\n".join(said + [b]))
    to = os.path.join(crate, "proofs", rel)
    os.makedirs(to, exist_ok=True)
    mod = f"Rattle.{name}.proofs.{rel.replace('/', '.')}"
    if invariants:
        with open(os.path.join(to, "Invariants.antt"), "w", encoding="utf-8") as out:
            out.write("\n".join(header + uses + [f"use {mod}.Given as goal", ""]) + "\n" + "\n\n".join(invariants) + "\n")
    helpers = [pair(fields) for fields in sorted(PAIRS)] + helpers
    PAIRS.clear()
    if answers or helpers:
        with open(os.path.join(to, "Answers.antt"), "w", encoding="utf-8") as out:
            more = [f"use {mod}.Goals.{{{', '.join(sorted(opened))}}}"] if opened else []
            out.write("\n".join(header + uses + [f"use {mod}.Goals as goal"] + more + [""]) + "\n" + "\n\n".join(helpers + answers) + "\n")


def parameters(crate, rel, function):
    """The names of a function's parameters, from its source."""
    module = rel.split("/")[:-1]
    path = os.path.join(crate, "src", *module) + ".rt" if module else os.path.join(crate, "src", "lib.rt")
    if not os.path.exists(path):
        path = os.path.join(crate, "src", "main.rt")
    text = open(path, encoding="utf-8").read()
    m = re.search(rf"fn {function}(?:<[^>]*>)?\(([^)]*)\)", text, re.S)
    return [re.sub(r"^(mut )?", "", p.strip()).split(":")[0].strip() for p in m.group(1).split(",") if p.strip()] if m else []


def measure(crate, rel, label, block):
    names = re.sub(r"^μ-", "", label).replace("-", "_")
    ps = parameters(crate, rel, names)
    body = block.split("=", 1)[1]
    def arg(m):
        k = m.group(1).count(".1")
        return f"l.{ps[k]}" if k < len(ps) else m.group(0)
    body = re.sub(r"(?<![\w.])a((?:\.1)*)\.0(?![\w])", arg, body)
    if re.search(r"(?<![\w.])a(?:\.\d)+", body):
        body = re.sub(r"(?<![\w.])a((?:\.1)+)(?![\w.])", lambda m: f"l.{ps[m.group(1).count('.1')]}" if m.group(1).count(".1") < len(ps) else m.group(0), body)
    if not ps:
        LEFT.append(f"{rel}: no parameters of {names}")
    return f"abbrev pub decreases-{names} : goal.decreases-{names}\ndecreases-{names} l ={body}"


def who_name(f):
    return f.key.split(".Lts-", 1)[1]


if __name__ == "__main__":
    raise SystemExit(main(sys.argv[1:]))
