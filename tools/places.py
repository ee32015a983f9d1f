#!/usr/bin/env python3
"""Lists, in crates/*/src, the places where an older form may stand that today's language has a plainer one for.

    tools/places.py             how many places of each kind
    tools/places.py KIND..      the places of a kind, by file and line

A place is one to look at: docs/DESIGN-PASS.md says of each what became of it.
"""
import itertools
import pathlib
import re
import sys
from collections import defaultdict

SOURCES = sorted(pathlib.Path("crates").glob("*/src/*.rt"))
PROOFS = sorted(pathlib.Path("crates").glob("*/proofs/**/*.antt"))

# kind: what it is, and the pattern that one of its lines meets
LINES = {
    "1-enums": ("enums; one of the shape of Option or Result has a variant for success or nothing", r"^\s*(pub(\(\w+\))? )?enum \w+"),
    "1-arms": (
        "arms that hand an Option or a Result on, which a method does",
        r"^\s*(None|Ok\(\(\)\)) => (None|\{\}|0|Err\(|Ok\(|Held::at_rest)"
        r"|Err\(_\) => |Err\((\w+)\) => Err\(\3|Some\((\w+)\) => (\*|Some\()|Some\(_\) => Err|Some\(refusal\) => refusal\.",
    ),
    "1-numbers": ("numbers for kinds, and numbers of which 0 is none", r"^\s*(pub )?(trouble|error|mode|wanted|displayed): (u16|i8),"),
    "3-loops": ("loops", r"^\s*(while|loop|for)\b.*\{$"),
    "4-conversions": (
        "conversions, comparisons and texts by hand",
        r"fn (number|code|of|row|is_\w+|has|\w*digits?\w*|\w*name_of|\w+_name|wanted_state|stand_alike|weight_if|refusal_number)\b"
        r"|impl(<.*>)? (fmt::Display|From<.*>) for|\bas (u8|u16|u32|i8|i32|i64|usize)\b",
    ),
    "6-buffers": ("arrays, vectors and byte strings", r"^\s*(pub )?\w+: (\[.*;.*\]|Vec<|String|&'a \[)"),
    "7-switches": ("macros and enums that say which step to run", r"^macro_rules!|^(pub )?enum (Class|Verb|CallName|Operation)\b"),
}

FUNCTION = re.compile(r"\bfn (\w+)(?:<[^(]*>)?\s*\(([^)]*)\)")
CLAUSE = re.compile(r"^\s*(requires|ensures)\b")


def at(path, text, offset):
    return f"{path}:{text.count(chr(10), 0, offset) + 1}"


def lines_of(pattern):
    for path in SOURCES:
        for number, line in enumerate(path.read_text().split("\n"), 1):
            if not line.lstrip().startswith("//") and re.search(pattern, line):
                yield f"{path}:{number}", line.strip()


def body(text, start):
    """The body of the function whose parameters end at `start`: from the brace that opens at the left of a line, or ends one."""
    signature = re.compile(r"(?:\{\n|\n\s*\{|;\n|\{\}\n)")
    found = signature.search(text, start)
    if not found or ";" in found.group():
        return ""
    depth, begin = 0, text.index("{", found.start())
    for place in range(begin, len(text)):
        depth += {"{": 1, "}": -1}.get(text[place], 0)
        if depth == 0:
            return text[begin : place + 1]
    return ""


def shape(code):
    """The code with every name and number left out."""
    code = re.sub(r"//.*", "", code)
    words = re.findall(r"\w+|[^\w\s]", code)
    kept = {"match", "if", "else", "for", "in", "let", "mut", "return", "while", "loop", "self", "as"}
    return " ".join(word if word in kept or not re.match(r"\w", word) else "_" for word in words)


def twins():
    """Functions of one shape: the same code but for names, types and numbers."""
    groups = defaultdict(list)
    for path in SOURCES:
        text = path.read_text()
        for found in FUNCTION.finditer(text):
            code = shape(body(text, found.end()))
            if len(code.split()) >= 8:
                groups[code].append(f"{at(path, text, found.start())} {found.group(1)}")
    return [group for group in groups.values() if len(group) > 1]


def travellers():
    """Two or three parameters that stand together in four functions or more."""
    together = defaultdict(list)
    for path in SOURCES:
        for found in FUNCTION.finditer(path.read_text()):
            names = [parameter.split(":")[0].strip() for parameter in re.split(r",(?![^<]*>)", found.group(2))]
            names = [name for name in names if name and "self" not in name]
            for count in (2, 3):
                for some in itertools.combinations(names, count):
                    together[some].append(f"{path.parts[1]}:{found.group(1)}")
    return {some: places for some, places in together.items() if len(places) >= 4}


def facts():
    """What stands in the clauses of three functions or more: a function of a parameter's old, new or present value."""
    counted = defaultdict(set)
    for path in SOURCES:
        for number, line in enumerate(path.read_text().split("\n"), 1):
            if CLAUSE.match(line):
                for fact in re.findall(r"\b(standing \(B\.meanings|words_left|scale_in_range|\w+ < 8|B\.meanings|length records)", line):
                    counted[fact].add(f"{path}:{number}")
    return counted


def answers():
    for path in PROOFS:
        if path.name == "Answers.antt":
            for number, line in enumerate(path.read_text().split("\n"), 1):
                if re.match(r"pub \S+ : goal\.", line):
                    yield f"{path}:{number}", line


KINDS = {
    **{kind: (what, lambda pattern=pattern: list(lines_of(pattern))) for kind, (what, pattern) in LINES.items()},
    "2-twins": ("functions of one shape", lambda: [(" and ".join(group), "") for group in twins()]),
    "5-facts": ("facts in the clauses of three functions or more", lambda: [(f"{fact} ({len(places)} clauses)", "") for fact, places in facts().items() if len(places) >= 3]),
    "5-parameters": ("parameters that stand together in four functions or more", lambda: [(", ".join(some), " ".join(places)) for some, places in travellers().items()]),
    "8-answers": ("answers to goals", lambda: list(answers())),
}

for kind in sys.argv[1:] or sorted(KINDS):
    what, places = KINDS[kind]
    found = places()
    print(f"{kind}: {len(found)} ({what})")
    if len(sys.argv) > 1:
        for place, line in found:
            print(f"  {place}  {line}")
