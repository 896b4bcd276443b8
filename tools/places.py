#!/usr/bin/env python3
"""Counts the places of docs/DESIGN-PASS.md in crates/*/src and crates/*/proofs, and prints each with its line.

usage: places.py [POINT..] [--count]      POINT: 1 to 8, all if none is given; --count prints the numbers alone

It goes by text, so it finds candidates: a line that it prints is a place, or stands in the page with its reason.
"""
import collections
import difflib
import pathlib
import re
import sys

ROOT = pathlib.Path(__file__).resolve().parent.parent
SOURCES = sorted(ROOT.glob("crates/*/src/**/*.rt"))
HEAD = re.compile(r"^( *)(pub(?:\(crate\))? )?fn (\w+)", re.M)


class Function:
    """A function with its parameters, the clauses of its contract, and its body."""

    def __init__(self, path, line, name, head, body):
        self.path, self.line, self.name, self.head, self.body = path, line, name, head, body

    def place(self):
        return f"{self.path.relative_to(ROOT)}:{self.line} {self.name}"


def functions(path):
    text = path.read_text()
    for match in HEAD.finditer(text):
        indent = match.group(1)
        end = re.compile(rf"^{indent}\}}$", re.M).search(text, match.end())
        start = re.compile(rf"^{indent}\{{$| \{{$", re.M).search(text, match.end())
        if not end or not start or start.start() > end.start():
            continue
        line = text.count("\n", 0, match.start()) + 1
        head, body = text[match.start() : start.start()], text[start.end() : end.start()]
        yield Function(path, line, match.group(3), head, body)


FUNCTIONS = [f for path in SOURCES for f in functions(path)]


def lines(pattern, said):
    """Each line of src/ that the pattern meets."""
    wanted = re.compile(pattern)
    for path in SOURCES:
        for number, line in enumerate(path.read_text().splitlines(), 1):
            if wanted.search(line) and not line.lstrip().startswith("//"):
                yield f"{path.relative_to(ROOT)}:{number} {said}: {line.strip()}"


def bodies(pattern, said):
    wanted = re.compile(pattern, re.S)
    for f in FUNCTIONS:
        for match in wanted.finditer(f.body):
            line = f.line + (f.head + f.body[: match.start()]).count("\n")
            yield f"{f.path.relative_to(ROOT)}:{line} {f.name}, {said}: {' '.join(match.group(0).split())[:90]}"


def results_by_hand():
    """1: a Result or an Option handed on by hand, a flag that tells of work, numbers for kinds."""
    yield from bodies(r"let (Ok|Some|Err)\([^=]*\) = [^;{]* else \{\s*return (None|checked|Ok\(\w+\)|Err\(\w+\.unwrap_err\(\)\));", "handed on")
    yield from bodies(r"Err\(\w+\) => (?:return )?(?:Ok\()?Err\(", "an error turned")
    yield from bodies(r"match \w+ \{\s*Some\(_\) => \w+,\s*None => ", "the first that is there")
    for f in FUNCTIONS:
        if "-> bool" in f.head and "&mut" in f.head and not f.path.parts[-3].endswith("_tests"):
            yield f"{f.place()}: a flag that tells how a change went"
    for f in FUNCTIONS:
        if len(re.findall(r"^ *(?:\w+::\w+(?:\(_\))? => \d+|\d+ => (?:Some\()?\w+::\w+\)?),$", f.body, re.M)) > 2:
            yield f"{f.place()}: numbers for kinds"


def twins():
    """2: two functions whose bodies are the same but for names of types, numbers and callees."""
    def shape(f):
        body = re.sub(r"//.*", "", f.body)
        return re.findall(r"\w+|[^\w\s]", body)

    library = [f for f in FUNCTIONS if not f.path.parts[-3].endswith("_tests")]
    found = [(f, shape(f)) for f in library if f.path.name not in ("laws.rt", "theorems.rt")]
    for i, (f, a) in enumerate(found):
        for g, b in found[i + 1 :]:
            if min(len(a), len(b)) < 12 or abs(len(a) - len(b)) > 8:
                continue
            matcher = difflib.SequenceMatcher(None, a, b, autojunk=False)
            if matcher.quick_ratio() > 0.82 and matcher.ratio() > 0.82:
                yield f"{f.place()} and {g.place()}"


def ranges():
    """A `for` over a range whose number stands in an index, in the body of the loop."""
    for path in SOURCES:
        text = path.read_text().splitlines()
        for number, line in enumerate(text):
            match = re.match(r"^( *)for (\w+) in [^{]*\.\.[^{]*\{$", line)
            if not match:
                continue
            body = []
            for other in text[number + 1 :]:
                if other == match.group(1) + "}":
                    break
                body.append(other)
            name = match.group(2)
            if re.search(rf"\[[^\]]*\b{name}\b[^\]]*\]|get\({name}\)|, {name}[,)]", "\n".join(body)):
                yield f"{path.relative_to(ROOT)}:{number + 1} a range that counts an index: {line.strip()}"


def loops():
    """3: an index that is counted by hand, and calls written out one by one."""
    yield from ranges()
    yield from lines(r"^\s*while (?!let)", "a condition")
    yield from lines(r"^\s*while let .*\(i\)", "a condition")
    for f in FUNCTIONS:
        calls = re.findall(r"^ *(?:let \w+ = |\+ |assert[^;]*; )?((?:self\.)?\w+)\(.*\)[;,]?$", f.body, re.M)
        for name, n in collections.Counter(calls).items():
            if n > 3 and not f.path.parts[-3].endswith("_tests"):
                yield f"{f.place()}: {n} calls of {name}"


def conversions():
    """4: equality, conversion and printing by hand."""
    yield from bodies(r"(\w+)\.(\w+) == (\w+)\.\2 && \1\.\w+ == \3\.\w+", "equality")
    yield from bodies(r"\w+\.aisle == 0 && \w+\.depth == 0", "equality")
    yield from bodies(r"\w+\.byte\(\) == \w+\.byte\(\)", "equality")
    yield from bodies(r"match \w+ \{\s*Some\(_\) => true,", "is_some")
    yield from lines(r"fn of\(\w+: u8\b|fn byte\(self\)|fn \w+_place\(|fn (?:class|passage|effect)_by\(|fn choice_\w+\(|fn place\(self\) -> usize", "a conversion")
    yield from lines(r"% 256|256 \* ", "bytes of a number")
    yield from lines(r"b'0' \+", "a number printed")
    for path in SOURCES:
        text = path.read_text()
        for match in re.finditer(r"#\[derive\(([^)]*)\)\]\npub enum (\w+)", text):
            if "PartialEq" not in match.group(1):
                line = text.count("\n", 0, match.start()) + 1
                yield f"{path.relative_to(ROOT)}:{line} enum {match.group(2)} without Debug and PartialEq"


def facts():
    """5: a fact in the requires of three functions or more, and parameters that travel together through three or more."""
    told = collections.defaultdict(list)
    together = collections.defaultdict(list)
    for f in FUNCTIONS:
        if f.path.parts[-3].endswith("_tests"):
            continue
        for clause in re.findall(r"requires(?: \w+)? \{(.*)\}$", f.head, re.M):
            for fact in clause.split("×"):
                told[fact.strip(" ()")].append(f)
        names = re.search(r"\((.*?)\)(?: ->|\n|$)", " ".join(f.head.split()) + "\n", re.S)
        pairs = re.findall(r"(\w+): ([^,()]+)", names.group(1)) if names else []
        kinds = [f"{n}: {t.strip()}" for n, t in pairs]
        for i, a in enumerate(kinds):
            for b in kinds[i + 1 :]:
                together[(str(f.path.parts[-3]), a, b)].append(f)
    for fact, where in told.items():
        if len(where) > 2:
            yield f"{len(where)} functions need {fact}: {', '.join(sorted(f.name for f in where))}"
    for (crate, a, b), where in together.items():
        if len(where) > 2 and "text: &mut String" not in (a, b):
            yield f"{crate}: {a} and {b} travel through {len(where)}: {', '.join(f.name for f in where)}"


def buffers():
    """6: an array with a length or a top beside it, parallel slices, arrays that are searched by hand."""
    yield from lines(r"^\s*(?:pub(?:\(crate\))? )?\w+: \[\w+; \w+\],", "an array in a struct")
    yield from lines(r"\blengths: &mut \[u32\].*came|^\s*lengths: &mut \[u32\],", "parallel slices")


def switches():
    """7: a switch that picks which function runs, each arm being a call."""
    for f in FUNCTIONS:
        arms = re.findall(r"^ *\w+::\w+(?:\(\w+\))? => (\w+)\(", f.body, re.M)
        if len(arms) > 1:
            yield f"{f.place()}: {', '.join(arms)}"
    yield from bodies(r"Step::\w+,\s*Step::\w+,\s*Step::\w+,", "steps handed over one by one")


def answers():
    """8: answer files, and answers that stand word for word in several of them."""
    seen = collections.defaultdict(list)
    for path in sorted(ROOT.glob("crates/*/proofs/**/Answers.antt")):
        yield f"{path.relative_to(ROOT)}: a file of answers"
        for name, term in re.findall(r"^(\S+) c = ?\n?((?:.+\n)+)", path.read_text(), re.M):
            seen[" ".join(term.split())].append(f"{path.parent.name}.{name}")
    for term, where in seen.items():
        if len(where) > 2 and not term.startswith("search"):
            yield f"{len(where)} answers are {term[:80]}: {', '.join(where)}"


POINTS = [results_by_hand, twins, loops, conversions, facts, buffers, switches, answers]

wanted = [int(a) for a in sys.argv[1:] if a.isdigit()] or range(1, 9)
for number in wanted:
    point = POINTS[number - 1]
    found = list(dict.fromkeys(point()))
    print(f"{point.__doc__.rstrip('.')}: {len(found)}")
    if "--count" not in sys.argv:
        print(*("    " + line for line in found), sep="\n")
