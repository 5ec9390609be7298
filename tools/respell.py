#!/usr/bin/env python3
"""Brings the repository's own definitions and lemmas to snake case, as the library spells its words; types and facts
keep their capitals. Run once at the top, after the kit's script for an older repository and before any edit by hand:

    python3 tools/respell.py LANDED

LANDED is the last commit in the old spelling: the must-fail edits are turned by the words that changed since.
Functions of src/, exported names, strings, inputs and outputs are not touched. What it could not turn, and names that
fall together, it prints.
"""

import collections
import os
import re
import subprocess
import sys

WORD = re.compile(r"[^\s(){}\[\];,.λ⌜⌝\"`:|«»]+")
DECLARED = re.compile(r"^( *)(?:abbrev |unfoldable )?(?:pub )?(?:abbrev |unfoldable )?(?:(record|data|infixr|infixl|infix) )?(.*)$")
# Words whose parts are not read by their humps.
WHOLE = {"getD": "get_or"}


def files(top, ends):
    for folder, dirs, names in os.walk(top):
        dirs[:] = sorted(d for d in dirs if d not in ("out", "target", ".git"))
        for n in sorted(names):
            if n.endswith(ends):
                yield os.path.join(folder, n)


def read(path):
    with open(path, encoding="utf-8") as f:
        return f.read()


def code_of(line):
    at = line.find("--")
    while at >= 0:
        if at == 0 or line[at - 1] in " (":
            return line[:at], line[at:]
        at = line.find("--", at + 2)
    return line, ""


def snake(word):
    holes = word.replace("◌", "")
    if not re.search(r"[a-z]", holes) or not re.match(r"[a-z]", holes):
        return word
    parts = []
    for part in re.split(r"-", word):
        for old, new in WHOLE.items():
            part = re.sub(rf"{old}(?![a-z])", new, part)
        part = re.sub(r"(?<=[a-z0-9'])([A-Z])", lambda m: "_" + m.group(1), part)
        parts.append("_".join(p if i == 0 and p[:1].isupper() else p.lower() for i, p in enumerate(part.split("_"))))
    return "_".join(parts)


def declared(path):
    """The names that a file of antt declares: definitions, lemmas, fields and constructors."""
    found, fields = set(), set()
    inside = None
    for line in read(path).split("\n"):
        code = code_of(line)[0]
        if not code.strip():
            continue
        indent = len(code) - len(code.lstrip())
        m = re.match(r"^ *(?:(?:abbrev|unfoldable) )?(?:pub )?(?:(?:abbrev|unfoldable) )?(record|data) (\S+)", code)
        if m:
            inside = (m.group(1), indent)
            continue
        if inside and indent <= inside[1]:
            inside = None
        m = re.match(r"^ *(?:(?:abbrev|unfoldable) )?(?:pub )?((?:[^\s(){}:;,]+ )*[^\s(){}:;,]+) :(?: |$)", code)
        if not m:
            continue
        if inside:
            (fields if inside[0] == "record" else found).update(m.group(1).split())
        elif indent <= 8 and " " not in m.group(1):
            found.add(m.group(1))
    return found, fields


def own(path):
    """A file of definitions or of lemmas; the folder of one function's proof has names that Rattle makes."""
    parts = path.split(os.sep)
    at = parts.index("crates")
    return parts[at + 2] == "specs" or (parts[at + 2] == "proofs" and len(parts) == at + 4)


def foreign(text):
    """What a file takes from libraries: these words are not the repository's."""
    taken = set()
    for head, words in re.findall(r"use ([A-Za-z_.·-]+)\.\{([^}]*)\}", text):
        if not re.match(r"Rattle[.·](%s)[.·]" % "|".join(CRATES), head):
            for w in words.split(","):
                taken.update(w.split())
    return taken


def turn(code, names, fields, kept, loose):
    out, last = [], 0
    for m in WORD.finditer(code):
        w = m.group()
        if w in names and w not in kept:
            before = code[: m.start()]
            if before.endswith(".") and w not in fields:
                head = re.search(r"([^\s(){}\[\],.]+)\.$", before)
                if not loose and not (head and (head.group(1)[:1].isupper() or head.group(1) in ALIASES)):
                    continue
            out.append(code[last : m.start()] + names[w])
            last = m.end()
    return "".join(out) + code[last:]


def said(text, names):
    """A comment: words in camel case, names of a page's list, and code between quotes."""
    def word(m):
        w = m.group()
        return names.get(w, w) if re.search(r"[A-Z◌]", w) or "`" in m.string[max(0, m.start() - 1) : m.start()] else w

    listed = re.match(r"^(--     )(\S+(?: [A-Za-z] *)*)(.*)$", text, re.S)
    if listed:
        head = WORD.sub(lambda m: names.get(m.group(), m.group()), listed.group(2))
        return listed.group(1) + head + WORD.sub(word, listed.group(3))
    text = re.sub(r"`[^`\n]*`", lambda m: WORD.sub(lambda n: names.get(n.group(), n.group()), m.group()), text)
    return WORD.sub(word, text)


def learn(landed, path):
    """Which word stands for which, from the lines of a file that kept their number of words."""
    old = subprocess.run(["git", "show", f"{landed}:{path}"], capture_output=True, text=True)
    if old.returncode:
        return []
    import difflib
    a, b = old.stdout.split("\n"), read(path).split("\n")
    strip = lambda t: re.sub(r" \.(?=[A-Za-z])", ".", t)
    a = [strip(x) for x in a]
    pairs = []
    for tag, i, j, k, l in difflib.SequenceMatcher(None, a, b, autojunk=False).get_opcodes():
        if tag == "replace" and j - i == l - k:
            for x, y in zip(a[i:j], b[k:l]):
                if x.startswith("use ") or x.startswith("ghost use"):
                    continue
                x, y = WORD.findall(x), WORD.findall(y)
                if len(x) == len(y):
                    pairs += [(p, q) for p, q in zip(x, y) if p != q]
    return pairs


def main():
    global CRATES, ALIASES
    landed = sys.argv[1]
    CRATES = sorted(os.listdir("crates"))
    every = list(files("crates", (".antt", ".rt")))
    names, fields, everywhere = set(), set(), collections.Counter()
    defined, late = set(), set()
    ALIASES = set()
    for path in every:
        text = read(path)
        if path.endswith(".antt"):
            ALIASES.update(re.findall(r"use [A-Za-z_.·-]+ as ([A-Za-z_-]+)", text))
            for line in text.split("\n"):
                everywhere.update(WORD.findall(code_of(line)[0]))
            if own(path):
                f, g = declared(path)
                names |= f | g
                fields |= g
                late |= g
                if path.split(os.sep)[2] == "specs":
                    defined |= f
    # Where a lemma would have its definition's name it gets `_lem`, as in the library.
    groups = collections.defaultdict(set)
    for n in names:
        groups[snake(n.strip("◌"))].add(n)
    table = {}
    for new, olds in sorted(groups.items()):
        first = sorted(olds, key=lambda n: (n not in defined, n in late, "-" in n, n))
        for i, n in enumerate(first):
            to = new if i == 0 else new + "_lem"
            if i > 1:
                print(f"falls together: {', '.join(sorted(olds))} -> {new}")
            if "◌" in n:
                table[n.strip("◌")] = to
                to = n.replace(n.strip("◌"), to)
            table[n] = to
        if len(first) > 1:
            print(f"two of one name: {first[0]} -> {new}; {', '.join(first[1:])} -> {new}_lem")
    table = {n: to for n, to in table.items() if n != to}
    for n, to in sorted(table.items()):
        if "◌" not in n and to in everywhere and to not in names:
            print(f"stands already: {n} -> {to} ({everywhere[to]} places)")
    clauses = {n: to for n, to in table.items() if not re.fullmatch(r"[a-z0-9_']+", n)}
    for path in every:
        text = read(path)
        kept = foreign(text)
        new = []
        for line in text.split("\n"):
            if path.endswith(".rt"):
                at = line.find("//")
                code, rest = (line, "") if at < 0 else (line[:at], line[at:])
                # A word that was in snake case already may be a function's.
                code = turn(code, clauses, fields, kept, False) if not re.search(r'"', code) else code
                new.append(code + re.sub(r"`[^`\n]*`", lambda m: WORD.sub(lambda n: table.get(n.group(), n.group()), m.group()), rest))
            else:
                code, rest = code_of(line)
                new.append(turn(code, table, fields, kept, own(path)) + said(rest, table))
        new = "\n".join(new)
        if new != text:
            with open(path, "w", encoding="utf-8") as f:
                f.write(new)
    edits(landed, table)


def edits(landed, table):
    learned = collections.Counter()
    per = {}
    for path in files("crates", (".antt",)):
        if own(path):
            per[path] = learn(landed, path)
            learned.update(per[path])
    best = {}
    for (old, new), n in learned.items():
        if n > best.get(old, ("", 0))[1]:
            best[old] = (new, n)
    best = {o: n for o, (n, _) in best.items() if re.search(r"[^a-z]", o)}
    best.update({o: n for o, n in table.items() if o not in best})
    for path in files("crates", (".edit",)):
        lines = read(path).split("\n")
        target = None
        for i, line in enumerate(lines):
            if line.startswith("file: "):
                target = os.path.join(os.path.dirname(os.path.dirname(path)), line[6:])
            elif re.match(r"(old|new): ", line) and target:
                near = dict(best)
                near.update(dict(per.get(target, [])))
                if target.endswith(".antt"):
                    text = re.sub(r"\(([^\s()]+) \.([\w-]+)\)", r"\1.\2", line[5:])
                    text = re.sub(r"\(([^()]+) \.([\w-]+)\)", r"(\1).\2", text)
                    text = re.sub(r" \.(?=[A-Za-z])", ".", text)
                    text = re.sub(r"(?<!\S)_(\S+)_(?!\S)", r"◌\1◌", text)
                else:
                    text = line[5:]
                    near = {n: to for n, to in near.items() if not re.fullmatch(r"[a-z0-9_']+", n)}
                lines[i] = line[:5] + WORD.sub(lambda m: near.get(m.group(), m.group()), text)
        with open(path, "w", encoding="utf-8") as f:
            f.write("\n".join(lines))
        body = read(target)
        for line in lines:
            if line.startswith("old: ") and body.count(line[5:]) != 1:
                print(f"edit: {path}: {body.count(line[5:])} times: {line[5:]}")


main()
