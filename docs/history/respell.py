#!/usr/bin/env python3
"""Brings the names of this repository's own definitions and lemmas to one spelling: types and
facts in upper camel case, everything else in snake case. Run once, at the top, after the kit's
port.py; a second run changes nothing.

Names that the kit makes of source names (labels of goals and steps) get the source's spelling
back: a dash there joins parts, and each part is spelled as in src/. Functions of src/ are not
touched, nor strings, inputs, outputs and edits.
"""
import os
import re
import sys

TOKEN = re.compile(r"(?<![\w'])[^\W\d][\w']*(?:-[\w'+]+)*")
HEAD = re.compile(
    r"^ *(?:(?:abbrev|unfoldable|pub|data|record|ruleset|axiom) +)*([^\s(){}.;,@\"«»:=]+)"
    r"((?: +[({][^:=]*:[^=]*?[)}])*) +:(?!=)(.*)"
)
# fields that are spelled in mixed case, and names that would fall together with fields of src/
OTHERS = {
    "arcCosine": "arc_cosine",
    "end-cap": "end_cap_events",
    "start-cap": "start_cap_events",
}
# what the kit spelled with a dash, and spells with an underscore now
MADE = [
    ("in-default", "in_default"),
    ("in-ok-", "in_ok-"),
    ("in-err-", "in_err-"),
    ("type-inv", "type_inv"),
    ("overflow-add-", "overflow_add-"),
    ("overflow-sub-", "overflow_sub-"),
    ("well-formed", "well_formed"),
]


def files(kinds):
    for folder, folders, names in os.walk("crates"):
        folders[:] = [f for f in folders if f not in ("out", "target")]
        for name in names:
            if name.endswith(kinds):
                yield os.path.join(folder, name)


def read(path):
    with open(path, encoding="utf8") as f:
        return f.read()


def own_names():
    """The names with a dash that the files of specs/ and proofs/ declare, but for answers to goals."""
    found = set()
    for path in files((".antt",)):
        for line in read(path).split("\n"):
            if line.startswith(("--", "use ")):
                continue
            m = HEAD.match(line)
            if m and not m.group(3).strip().startswith("goal."):
                found.add(m.group(1))
            m = re.match(r"^ *(?:(?:abbrev|unfoldable|pub) +)*(?:data|record|ruleset) +([^\s(){}:]+)", line)
            if m:
                found.add(m.group(1))
    return {n for n in found if "-" in n and not re.search(r"[◌+]", n.replace("-++", ""))}


def spelled(name):
    if name[0].isupper():
        return "".join(part[0].upper() + part[1:] for part in name.split("-"))
    return name.replace("-++", "_append").replace("-", "_")


def source_names():
    """Words of src/ that have an underscore, longest first."""
    words = set()
    for path in files((".rt",)):
        words |= set(re.findall(r"[a-z][a-z0-9]*(?:_[a-z0-9]+)+", read(path)))
    return sorted(words, key=lambda w: (-len(w), w))


def label(token, sources):
    for old, new in MADE:
        token = re.sub(rf"(?<![\w-]){old}" if not old.endswith("-") else rf"(?<![\w]){old}", new, token)
    for word in sources:
        token = re.sub(rf"(?<![\w]){word.replace('_', '-')}(?![\w])", word, token)
    return token


def main():
    own = own_names()
    table = {n: spelled(n) for n in own}
    table.update(OTHERS)
    taken = {}
    for old, new in table.items():
        if new in taken:
            sys.exit(f"{old} and {taken[new]} fall together")
        taken[new] = old
    sources = source_names()
    changed = 0
    for path in files((".antt", ".rt")):
        text = read(path)
        label_too = "/proofs/" in path and path.endswith(".antt")

        def turn(m):
            token = m.group(0)
            if token in table:
                return table[token]
            if label_too and "-" in token:
                return label(token, sources)
            return token

        lines = []
        for line in text.split("\n"):
            mark = "--" if path.endswith(".antt") else "//"
            code, sep, note = line.partition(mark) if not (mark == "//" and '"' in line) else (line, "", "")
            if mark == "//" and '"' in line:
                lines.append(line)
                continue
            note = re.sub(r"`[^`]*`", lambda m: TOKEN.sub(turn, m.group(0)), note)
            lines.append(TOKEN.sub(turn, code) + sep + note)
        new = "\n".join(lines)
        if new != text:
            changed += 1
            with open(path, "w", encoding="utf8") as f:
                f.write(new)
    for path in ["README.md"] + [os.path.join("docs", n) for n in sorted(os.listdir("docs"))]:
        if os.path.basename(path).startswith("PORT"):
            continue
        text = read(path)
        new = re.sub(r"`[^`\n]*`", lambda m: TOKEN.sub(lambda t: table.get(t.group(0), t.group(0)), m.group(0)), text)
        if new != text:
            changed += 1
            with open(path, "w", encoding="utf8") as f:
                f.write(new)
    print(f"respell: {len(table)} names, {changed} files")


main()
