#!/usr/bin/env python3
"""Brings the repository's own definitions and lemmas to one spelling: words in snake case, types and facts in upper camel case.

usage: python3 tools/spell.py          at the top of the repository: rewrites crates/ and the names in docs and README
       python3 tools/spell.py --list   prints the map, and what falls together, and writes nothing

A name is the repository's own where a file of specs/ or proofs/ has it and no import from a library brings it in.
Names that Rattle makes of the code (goals and steps) join their parts by dashes: they stand only in answer files, and stay.
Strings and the code's own names stay; a comment of antt or Rattle is turned where a name in it was declared.
"""
import glob
import re
import sys

WORD = r"[A-Za-z_][\w'′₀-₉]*(?:-[\w'′₀-₉]+)*"
TOKEN = re.compile(r"(?<![\w'′₀-₉\-·])" + WORD + r"(?![\w'′₀-₉\-])")
STRING = re.compile(r'b?"(?:[^"\\]|\\.)*"' + r"|b'(?:[^'\\]|\\.)'")
KEYWORDS = r"(?:(?:abbrev|unfoldable|pub|private|abstract|record|data|transparent)\s+)*"
# a name whose turned form would be a word of the logic or of Rattle
AVOID = {"in", "of", "let", "use", "open", "data", "record", "where", "type", "self", "rule", "result", "old", "new"}
# names that would fall together with another of the same meaning in one scope, and their new names
CHOSEN = {"used-by": "used_by_lem"}


def own_files():
    for f in sorted(glob.glob("crates/*/specs/**/*.antt", recursive=True) + glob.glob("crates/*/proofs/**/*.antt", recursive=True)):
        yield f


def is_answers(f):
    return f.rsplit("/", 1)[-1] in ("Answers.antt", "Invariants.antt", "Choices.antt", "Proof.antt")


def split_comment(line, mark):
    """The code and the comment of a line."""
    i = 0
    while i < len(line):
        m = STRING.match(line, i)
        if m:
            i = m.end()
        elif line.startswith(mark, i) and (i == 0 or line[i - 1].isspace()):
            return line[:i], line[i:]
        else:
            i += 1
    return line, ""


def tokens(code):
    kept = STRING.sub(lambda m: " " * len(m.group()), code)
    return TOKEN.findall(kept)


def crates():
    return {f.split("/")[1] for f in glob.glob("crates/*/src")}


def foreign(lines, own):
    """What the imports of a file bring in from libraries."""
    names = set()
    text = "".join(lines)
    for m in re.finditer(r"(?m)^\s*(?:ghost )?use ([\w·.\-]+?)\.?(?:\{([^}]*)\}|as (\w+)|)\s*;?$", text):
        path = m.group(1)
        m2 = re.match(r"Rattle\.(\w+)\.", path + ".")
        if m2 and m2.group(1) in own:
            continue
        for t in TOKEN.findall(m.group(2) or ""):
            names.add(t)
    return names


def camel(name):
    parts = re.split(r"[-_]", name)
    return "".join(p[:1].upper() + p[1:] for p in parts)


def snake(name):
    name = name.replace("-", "_")
    return re.sub(r"(?<=[a-z0-9])([A-Z])", lambda m: "_" + m.group(1).lower(), name)


def gather():
    own = crates()
    used, outside, declared_types, declared = set(), set(), set(), set()
    for f in own_files():
        with open(f, encoding="utf-8") as it:
            lines = it.readlines()
        outside |= foreign(lines, own)
        if is_answers(f):
            continue
        for line in lines:
            code, _ = split_comment(line, "--")
            used |= set(tokens(code))
            m = re.match(r"\s*" + KEYWORDS + "((?:" + WORD + r"\s+)+)(?:[({].*)?:", code)
            if m:
                declared |= set(m.group(1).split())
            if re.match(r"\s*" + KEYWORDS + r"(?:record|data)\s", code) or re.search(r":.*\bType [01](?:\s+where)?\s*$", code):
                m = re.match(r"\s*" + KEYWORDS + "(" + WORD + ")", code)
                if m:
                    declared_types.add(m.group(1))
    return used, outside, declared_types, declared


def mapping():
    used, outside, types, declared = gather()
    turned = {}
    for t in sorted(used - outside):
        if t.startswith("_"):
            continue
        if t in CHOSEN:
            turned[t] = CHOSEN[t]
        elif t[0].isupper() and ("-" in t or "_" in t):
            turned[t] = camel(t) if t in types or t in declared else t
        elif t[0].islower() and ("-" in t or re.search("[A-Z]", t)):
            turned[t] = snake(t)
    return {a: b for a, b in turned.items() if a != b}, used, outside, types, declared


def turn_code(code, names):
    out, last = [], 0
    for m in STRING.finditer(code):
        out.append(TOKEN.sub(lambda t: names.get(t.group(), t.group()), code[last : m.start()]))
        out.append(m.group())
        last = m.end()
    out.append(TOKEN.sub(lambda t: names.get(t.group(), t.group()), code[last:]))
    return "".join(out)


def main():
    names, used, outside, types, declared = mapping()
    back = {}
    for a, b in names.items():
        back.setdefault(b, []).append(a)
    for b, olds in sorted(back.items()):
        both = olds + ([b] if b in used or b in outside else [])
        if len(both) > 1 or b in AVOID:
            where = []
            for f in own_files():
                with open(f, encoding="utf-8") as it:
                    here = set()
                    for line in it:
                        here |= set(tokens(split_comment(line, "--")[0]))
                n = [x for x in both if x in here]
                if len(n) > 1:
                    where.append(f.removeprefix("crates/"))
            print(f"together: {b} <- {' '.join(olds)}{' (and it stands already)' if b in used else ''}{' (a library has it)' if b in outside else ''}: in one file {where}")
    if "--list" in sys.argv:
        for a, b in names.items():
            print(a, "->", b, "" if a in declared else "(not declared)", "(type)" if a in types else "")
        return
    for f in own_files():
        rewrite(f, "--", names, declared)
    for f in sorted(glob.glob("crates/*/src/**/*.rt", recursive=True)):
        rewrite(f, "//", names, declared)
    for f in sorted(glob.glob("crates/*/must-fail/*.edit")):
        rewrite(f, "//", names, declared)
    marked = re.compile(r"`[^`\n]*`")
    for f in sorted(glob.glob("docs/**/*.md", recursive=True) + ["README.md"]):
        with open(f, encoding="utf-8") as it:
            text = it.read()
        new = marked.sub(lambda m: TOKEN.sub(lambda t: names.get(t.group(), t.group()), m.group()), text)
        if new != text:
            with open(f, "w", encoding="utf-8") as it:
                it.write(new)


def rewrite(f, mark, names, declared):
    with open(f, encoding="utf-8") as it:
        lines = it.readlines()
    out = []
    for line in lines:
        code, comment = split_comment(line, mark)
        if comment:
            comment = re.sub(r"`[^`]*`", lambda m: TOKEN.sub(lambda t: names.get(t.group(), t.group()), m.group()), comment)
            comment = TOKEN.sub(lambda t: names.get(t.group(), t.group()) if "-" not in t.group() and t.group() in declared else t.group(), comment)
        out.append(turn_code(code, names) + comment)
    if out != lines:
        with open(f, "w", encoding="utf-8") as it:
            it.writelines(out)


main()
