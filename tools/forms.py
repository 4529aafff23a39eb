#!/usr/bin/env python3
"""Counts in crates/*/src the places that docs/DESIGN-PASS.md speaks of, and in crates/*/proofs what stands there by hand.

usage: tools/forms.py [--list] [COMMIT]     at the top of the repository; without COMMIT the files as they stand

1  enums of two cases of which one carries nothing (an Option's shape); enums with a refusal among other cases (a Result's); fields that are flags;
   cases that carry a refusal's number
2  groups of functions that are the same but for types, numbers and their own names, of two lines of code or more
3  loops: while and loop, and of them those that move a counter of their condition by hand
4  functions that compare or choose by hand, by their names; calls that print a piece by a file descriptor
5  facts that stand in the 'requires' of three functions or more; rows of three parameters or more that three functions or more have
6  structs with a length beside what is lent elsewhere: fields that end in _len
7  matches of which each arm is a call with the same arguments
8  answers and invariants by hand, and their lines

What is listed is where to look; docs/DESIGN-PASS.md says what each place is.
"""

import collections
import os
import re
import subprocess
import sys

ARGS = [a for a in sys.argv[1:] if a != "--list"]
LIST = "--list" in sys.argv[1:]
COMMIT = ARGS[0] if ARGS else None
REFUSALS = {"Refused", "Bad", "NoRoom", "Unreadable", "Shorter", "TooLarge", "TooLong", "NotHeld", "NotAllowed", "No", "Fails", "Differs", "Not", "Ended", "NoCall", "Unwritten", "Changed"}


def files(pattern):
    names = subprocess.run(["git", "ls-tree", "-r", "--name-only", COMMIT] if COMMIT else ["git", "ls-files"], capture_output=True, text=True, check=True).stdout.split("\n")
    for name in sorted(n for n in names if re.fullmatch(pattern, n)):
        if COMMIT:
            yield name, subprocess.run(["git", "show", f"{COMMIT}:{name}"], capture_output=True, text=True, check=True).stdout
        elif os.path.exists(name):
            with open(name, encoding="utf-8") as f:
                yield name, f.read()


def line_of(text, at):
    return text.count("\n", 0, at) + 1


def block(text, at):
    """The text between the brace at or behind `at` and the brace that closes it."""
    start = text.index("{", at)
    depth = 0
    for i in range(start, len(text)):
        depth += {"{": 1, "}": -1}.get(text[i], 0)
        if depth == 0:
            return text[start + 1:i]
    return text[start + 1:]


def without_comments(text):
    return re.sub(r"//[^\n]*", lambda m: " " * len(m.group()), text)


def functions(text):
    """Name, place, parameters, requires-facts and body of each function that has a body."""
    for m in re.finditer(r"^ *(?:pub(?:\(crate\))? )?(?:extern \"C\" )?fn (\w+)", text, re.M):
        depth = 0
        i = text.index("(", m.end())
        start = i
        while True:
            depth += {"(": 1, ")": -1}.get(text[i], 0)
            i += 1
            if depth == 0:
                break
        parameters = text[start + 1:i - 1]
        end = re.compile(r"\{").search(text, i)
        clauses = []
        at = i
        while True:
            c = re.compile(r"\s*(?:->[^{;]*?)?\s*\b(requires|ensures)\b( \w+)? \{").match(text, at) or re.compile(r"[^{;]*?\b(requires|ensures)\b( \w+)? \{").match(text, at)
            if not c:
                break
            inside = block(text, c.end() - 1)
            clauses.append((c.group(1), " ".join(inside.split())))
            at = c.end() + len(inside) + 1
        b = re.compile(r"[^{;]*\{").match(text, at)
        yield m.group(1), m.start(), " ".join(parameters.split()), clauses, block(text, b.end() - 1) if b else ""


KEYWORDS = {"let", "mut", "if", "else", "while", "loop", "for", "in", "match", "return", "as", "true", "false", "self", "break", "ref"}


def shape(fn, body):
    """A body with its types, numbers, variables and own name made alike: what is left is called functions, methods, fields and order."""
    names = {}

    def token(m):
        word = m.group()
        before = body[:m.start()].rstrip()[-1:]
        after = body[m.end():m.end() + 2]
        if word == fn:
            return "F"
        if re.fullmatch(r"\d.*", word):
            return "N"
        if re.fullmatch(r"f32|u8|u16|u32|u64|usize|i32|i64|[A-Z][A-Z_0-9]+", word):
            return "T"
        if word in KEYWORDS or before == ".":
            return word
        if after[:1] in "(!" or after == "::" or before == ":" and body[:m.start()].rstrip()[-2:] == "::":
            return re.sub(r"_(u8|u16|u32|u64|usize|f32)$", "", word)
        return names.setdefault(word, f"v{len(names)}")

    return " ".join(re.sub(r"\b\w+\b", token, body).split())


found = collections.defaultdict(list)
bodies = collections.defaultdict(list)
facts = collections.defaultdict(set)
rows = collections.defaultdict(set)

for name, raw in files(r"crates/[^/]+/src/.*\.rt"):
    text = without_comments(raw)
    where = name.replace("crates/", "").replace("/src", "")
    for m in re.finditer(r"^ *(?:pub(?:\(crate\))? )?enum (\w+)", text, re.M):
        cases = re.findall(r"^\s*([A-Z]\w*)\s*(\(|\{|,)", block(text, m.end()), re.M)
        place = f"{where}:{line_of(text, m.start())} {m.group(1)}"
        bare = [c for c, d in cases if d == ","]
        if len(cases) == 2 and len(bare) == 1:
            found["1 enums of an Option's shape"].append(place)
        elif {c for c, _ in cases} & REFUSALS:
            found["1 enums with a refusal among other cases"].append(place)
        else:
            found["1 other enums"].append(place)
        for c, payload in re.findall(r"^\s*(Refused|No)\((u32)\)", block(text, m.end()), re.M):
            found["1 cases with a refusal's number"].append(f"{place}::{c}")
    for m in re.finditer(r"^    (?:pub )?(\w+): bool,", text, re.M):
        head = text.rfind("\n}", 0, m.start())
        if re.search(r"struct \w+[^{]*\{[^}]*$", text[head + 1:m.start()]):
            found["1 fields that are flags"].append(f"{where}:{line_of(text, m.start())} {m.group(1)}")
    for m in re.finditer(r"^( *)(?:'\w+: )?(while [^\n]*|loop) \{", text, re.M):
        place = f"{where}:{line_of(text, m.start())} {m.group(2)}"
        body = block(text, m.end() - 1)
        condition = m.group(2)[6:] if m.group(2) != "loop" else ""
        moved = [v for v in re.findall(r"[a-z_]\w*", condition) if re.search(rf"(?<![\w.]){v} [+-]= ", body)]
        found["3 loops that move a counter of their condition" if moved else "3 other while and loop"].append(place)
    for m in re.finditer(r"^ *for ", text, re.M):
        found["3 for"].append(f"{where}:{line_of(text, m.start())}")
    found["4 pieces printed by a file descriptor"] += [f"{where}:{line_of(text, m.start())}" for m in re.finditer(r"\bio::(write_all|print_decimal|print_hex)\(", text)]
    found["6 fields that are a length"] += [f"{where}:{line_of(text, m.start())} {m.group(1)}" for m in re.finditer(r"^    (?:pub )?(\w+_len): usize,", text, re.M)]
    for fn, at, parameters, clauses, body in functions(text):
        place = f"{where}:{line_of(text, at)} {fn}"
        if re.fullmatch(r"same\w*|equal\w*|least|most|most_u64|within|both|payload_start|word|wide|low|high|is_same", fn):
            found["4 functions that compare, choose or convert by hand"].append(place)
        plain = shape(fn, body)
        if plain.count(";") + plain.count("{") >= 2 or len(plain) > 60:
            bodies[plain].append(place)
        for kind, clause in clauses:
            if kind == "requires":
                for fact in re.split(r" × ", clause.strip()):
                    facts[fact.strip().strip("()")].add(place)
        names = re.findall(r"(\w+): ", parameters)
        for length in range(3, len(names) + 1):
            for i in range(len(names) - length + 1):
                rows[tuple(names[i:i + length])].add(place)
        for m in re.finditer(r"match [^{]*\{", body):
            arms = re.findall(r"=> (\w[\w:]*)\(([^()]*)\),?$", block(body, m.start()), re.M)
            if len(arms) >= 3 and len({a for _, a in arms}) == 1 and len({f for f, _ in arms}) == len(arms):
                found["7 matches of calls with the same arguments"].append(place)

for places in bodies.values():
    if len(places) > 1:
        found["2 groups of functions that are the same but for types, numbers and names"].append(" = ".join(places))
for fact, places in facts.items():
    if len(places) >= 3:
        found["5 facts in three or more 'requires'"].append("\n        ".join([f"{len(places)} × {fact}", *sorted(places)]))
longest = {r: p for r, p in rows.items() if len(p) >= 3}
for r, p in longest.items():
    if not any(r != o and len(o) > len(r) and q == p and any(o[i:i + len(r)] == r for i in range(len(o))) for o, q in longest.items()):
        found["5 rows of parameters in three or more functions"].append("\n        ".join([f"{len(p)} × {', '.join(r)}", *sorted(p)]))
answers = lines = 0
for name, text in files(r"crates/[^/]+/proofs/.*(Answers|Invariants|Proof)\.antt"):
    answers += 1
    lines += text.count("\n")
for head in sorted(found):
    print(f"{head}: {len(found[head])}")
    if LIST:
        for place in found[head]:
            print(f"    {place}")
print(f"8 files of answers, invariants and proofs by hand: {answers}, lines: {lines}")
