#!/usr/bin/env python3
"""Brings the names that this repository gave its definitions and lemmas to the spelling of today's Rattle: snake case.

usage: tools/port_names.py KIT     run once, at the top, after the kit's port.py (KIT is the folder of the Rattle kit)

Renamed are words that crates/*/specs and crates/*/proofs declare: isBusy becomes is_busy, page-some page_some. Where a definition and a lemma
would fall together, the lemma gets _lem (also one that port.py had renamed to that name); where a bound name and a definition would, the bound name gets _holds. Types, facts, modules, names of
src/, exported names and strings stay. What was renamed is written to tools/port_names.txt, a line each: old new.
"""
import collections
import os
import re
import sys

TOKEN = re.compile(r"[^\s(){}\[\],;.λ\"«»:`]+")
MARKS = ("abbrev", "unfoldable", "pub", "private")


def code_of(line):
    m = re.search(r"(^|\s)--(\s|$)", line)
    return (line[: m.start()], line[m.start() :]) if m else (line, "")


def declared(text):
    """The names that a file declares, each with how: 'sig' (a definition, a lemma, a field), 'type', 'bound' or 'module'."""
    out = collections.defaultdict(set)
    for line in text.splitlines():
        code = code_of(line)[0]
        m = re.match(r"^\s*((?:(?:abbrev|unfoldable|pub|private)\s+)*)([^\s:(){}\[\]=,;λ\"]+(?:\s+[^\s:(){}\[\]=,;λ\"]+)*)\s+:(?:\s|$)", code)
        if m:
            for n in m.group(2).split():
                if n not in MARKS + ("let", "use", "record", "data", "module", "mod"):
                    out[n].add("sig")
        m = re.match(r"^\s*(?:pub\s+)?(?:record|data)\s+(\S+)", code)
        if m:
            out[m.group(1)].add("type")
        for m in re.finditer(r"\bas ([^\s(){};,]+)", code):
            out[m.group(1)].add("module")
        m = re.match(r"^\s*(?:pub\s+)?module\s+([^\s(){}]+)", code)
        if m:
            out[m.group(1)].add("module")
        for m in re.finditer(r"\blet\s+(\S+)\s*[:=]", code):
            out[m.group(1)].add("bound")
        for m in re.finditer(r"[({]([^():{}=]+?)\s:\s", code):
            for n in m.group(1).split():
                out[n].add("bound")
        for m in re.finditer(r"λ\s*([^.:]+?)\.(?=\s)", code):
            for n in TOKEN.findall(m.group(1)):
                out[n].add("bound")
        m = re.match(r"^\s*([^\s:=]+)((?:\s+[^\s:=]+)*)\s=(\s|$)", code)  # the patterns of a case
        if m:
            for n in TOKEN.findall(m.group(2)):
                out[n].add("bound")
        for m in re.finditer(r"\b(?:elim\b.*?\[|\|)\s*([^↦]+)↦", code):
            for n in TOKEN.findall(m.group(1)):
                out[n].add("bound")
    return out


def answers(text):
    """The names of a proof file that are those of the generated needs."""
    return set(re.findall(r"(?m)^(?:abbrev )?(\S+) : (?:\(.*?\) → )?tie\.(?:Need|InvT|MeasureT)", text))


def snake(name):
    name = re.sub(r"(?<=[a-z])(?=24CS)", "_", name).replace("24CSM01", "24csm01").replace("24CS32", "24cs32").replace("AT24CM01", "At24cm01").replace("FFFFh", "ffffh")
    name = name.replace("-", "_")
    name = re.sub(r"(?<=[A-Z])([A-Z])(?=[a-z])", lambda m: "_" + m.group(1).lower(), name)
    name = re.sub(r"(?<=[a-z0-9])_?([A-Z])", lambda m: "_" + m.group(1).lower(), name)
    return re.sub(r"_([A-Z])", lambda m: "_" + m.group(1).lower(), name)


def files(top, *ends):
    for folder, dirs, names in os.walk(top):
        dirs[:] = sorted(d for d in dirs if d not in ("out", ".git"))
        for n in sorted(names):
            if n.endswith(ends):
                yield os.path.join(folder, n)


def read(path):
    with open(path, encoding="utf-8") as f:
        return f.read()


def renaming(top, kit_words):
    how, own_answers = collections.defaultdict(set), set()
    for p in files(top, ".antt"):
        text = read(p)
        here = answers(text)
        own_answers |= here
        for n, kinds in declared(text).items():
            if n not in here:
                how[n] |= kinds
    old = [n for n in how if "type" not in how[n] and n[0].islower() and re.match(r"^[A-Za-z0-9'₀-₉′_-]+$", n) and ("-" in n or "′" in n or re.search("[a-z0-9][A-Z]", n))]
    old = [n for n in old if not (n in kit_words and "sig" not in how[n] and "module" not in how[n])]
    groups = collections.defaultdict(list)
    for n in old:
        groups[snake(n).replace("′", "'")].append(n)
    new, away = {}, set()
    for to, those in groups.items():
        taken = to in how and bool(how[to] - {"bound"})
        if taken and any("sig" in how[n] and "-" not in n for n in those):
            # port.py has given a lemma that name: the definition takes it, and the lemma gives way
            away.add(to)
            taken = False
        # the definition, in camel case, keeps the plain name
        for n in sorted(those, key=lambda n: ("sig" not in how[n], "-" in n)):
            if not taken:
                new[n], taken = to, True
            else:
                new[n] = to + ("_lem" if "sig" in how[n] else "_holds")
    return new, away


def main(argv):
    if len(argv) != 1 or not os.path.isdir("crates"):
        print(__doc__)
        return 2
    kit_words, kit_by_module = set(), {}
    for p in files(argv[0], ".antt"):
        for line in read(p).splitlines():
            kit_words.update(TOKEN.findall(code_of(line)[0]))
    new, away = renaming("crates", kit_words)
    own = {c for c in os.listdir("crates")}
    changed = 0
    for p in list(files("crates", ".antt", ".rt", ".edit")) + list(files("docs/edits", ".edit", ".txt")):
        text = read(p)
        kept = answers(text)
        for m in re.finditer(r"(?m)^use ([^\s{]+?)\.?\{([^}]*)\}", text):
            parts = m.group(1).split(".")
            if not (parts[0] == "Rattle" and len(parts) > 1 and parts[1] in own) and parts[0][0].isalpha():
                # names of the kit, and of a nested module of one's own where that is no path
                if len(parts) > 1 or parts[0] in ("Rattle",):
                    kept |= {n.strip() for n in m.group(2).split(",") if n.strip() in kit_words}
        plain = p.endswith(".rt")
        gone = set()
        if p.endswith(".antt"):
            gone = {n for n, kinds in declared(text).items() if n in away and "sig" in kinds and n not in kept}
            for m in re.finditer(r"(?m)^use ([^\s{]+?)\.?\{([^}]*)\}", text):
                if ".specs." not in m.group(1) + ".":
                    gone |= {n.strip() for n in m.group(2).split(",")} & away

        def to(m, where=None):
            n = m.group(0)
            # behind a dot a name is a generated step's, unless the file declares it as a field
            if n in gone and (m.string[m.start() - 1 : m.start()] != "." or m.string[m.start() - 2 : m.start()] == "p."):
                return n + "_lem"
            if n in kept or n not in new or (plain and "-" in n):
                return n
            return new[n]

        lines = []
        for line in text.split("\n"):
            if p.endswith(".antt"):
                code, comment = code_of(line)
                comment = re.sub(r"`([^`]*)`", lambda m: "`" + TOKEN.sub(to, m.group(1)) + "`", comment)
                comment = TOKEN.sub(lambda m: to(m) if "-" not in m.group(0) else m.group(0), comment)
                lines.append(TOKEN.sub(to, code) + comment)
            else:
                lines.append(TOKEN.sub(to, line))
        after = "\n".join(lines)
        if after != text:
            changed += 1
            with open(p, "w", encoding="utf-8") as f:
                f.write(after)
    with open("tools/port_names.txt", "w", encoding="utf-8") as f:
        f.writelines(f"{n} {new[n]}\n" for n in sorted(new))
        f.writelines(f"{n} {n}_lem\n" for n in sorted(away))
    print(f"{len(new)} names, {changed} files")
    return 0


if __name__ == "__main__":
    raise SystemExit(main(sys.argv[1:]))
