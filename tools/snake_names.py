#!/usr/bin/env python3
"""Brings the definitions and lemmas of specs/ and proofs/ to snake case, as 'stepDue' and 'fill-keeps' to 'step_due' and 'fill_keeps'.

usage: tools/snake_names.py [--list]     at the top of the repository

What turns: each name that an .antt file below crates/ declares with a signature, be it a definition, a lemma, a constructor or a record's field, if it begins
with a small letter and has a hyphen or a capital. Types and modules keep their capitals, and so do the answers of a function's proof, whose names are made elsewhere.
Where: .antt files, clauses and 'ghost use' items of .rt files, and the texts of must-fail edits. Names of code, strings, comments of code stay.
A name that a file imports from a library stays in that file. It says where a new spelling meets a name that is there already.
--list writes nothing, and prints each name with its new one.
"""

import os
import re
import sys

ROOT = os.path.join(os.path.dirname(os.path.realpath(__file__)), "..")
WORD = r"[^\s(){}.;,@\"«»λ]+"
NAME = re.compile(r"[a-z][A-Za-z0-9₀-₉]*(?:[-_][A-Za-z0-9₀-₉]+)*'*$")
DECLARED = re.compile(rf"^( *)((?:pub |abbrev |unfoldable |private |instance )*)({WORD})(?: [({{][^=]*?[)}}])* :(?= |$)", re.M)
USE = re.compile(r"^ *(?:pub )?(?:ghost )?use ([^\s;{]+?)(?:\.\{([^}]*)\})?(?: as (\S+?))?;?$", re.M)
# What a law gets behind its name where a definition has the same name.
BEHIND = "_law"


def snake(name):
    parts = re.sub(r"(?<=[a-z0-9₀-₉])(?=[A-Z])", "_", name.replace("-", "_"))
    return parts.lower()


def files(ending):
    for folder, dirs, names in os.walk(os.path.join(ROOT, "crates")):
        dirs[:] = sorted(d for d in dirs if d not in ("out", ".git"))
        for n in sorted(names):
            if n.endswith(ending):
                yield os.path.join(folder, n)


def read(path):
    with open(path, encoding="utf-8") as f:
        return f.read()


def uncommented(text):
    return re.sub(r"(?m)--.*$", "", text)


def declared():
    found = {}
    for p in files(".antt"):
        text = uncommented(read(p))
        answers = os.path.basename(p) in ("Proof.antt", "Answers.antt", "Invariants.antt")
        for m in DECLARED.finditer(text):
            name = m[3]
            line = text[m.start() : text.find("\n", m.end()) if "\n" in text[m.end() :] else len(text)]
            if answers and re.search(r": (?:tie|goal|Tie|given)\.", line):
                continue
            if NAME.match(name):
                found.setdefault(name, set()).add(os.path.relpath(p, ROOT))
    return found


def spellings(found):
    """Each name with its new one. Of names that fall together the definition, which had a capital, keeps the plain one."""
    groups = {}
    for n in found:
        groups.setdefault(snake(n), []).append(n)
    table = {}
    for s, ns in groups.items():
        ns.sort(key=lambda n: (re.search("[A-Z]", n) is None or "-" in n, not any("/specs/" in p for p in found[n]), n))
        for k, n in enumerate(ns):
            new = s if k == 0 else s + BEHIND
            if k > 1:
                print(f"look: {', '.join(ns)} fall together as {s}")
            if n != new:
                table[n] = new
            if len(ns) > 1:
                print(f"look: {n} is {new}, of {' and '.join(ns)}: {', '.join(sorted(found[n])[:3])}")
    for n, s in table.items():
        if s in found and s not in table:
            print(f"look: {n} meets {s}")
    return table


def own(path):
    m = re.match(r"Rattle\.(\w+)", path)
    return bool(m) and os.path.isdir(os.path.join(ROOT, "crates", m[1]))


def of_libraries(text):
    """The names that a text imports from elsewhere."""
    out = set()
    for m in USE.finditer(text):
        if not own(m[1]) and m[2]:
            for it in m[2].split(","):
                out.add(it.split(" as ")[-1].strip())
    return out


TOKEN = re.compile(rf"(--[^\n]*)|(\"(?:[^\"\\]|\\.)*\")|({WORD})")


def turned(text, table, stay, fields, comments=True):
    """The text with its names turned. Behind a dot a name turns as a field, or behind a module's name."""

    def one(m):
        if m[1] is not None:
            return re.sub(r"`([^`]+)`", lambda q: "`" + TOKEN.sub(one, q[1]) + "`", m[1]) if comments else m[1]
        if m[2] is not None:
            return m[2]
        w = m[3]
        if w not in table or w in stay:
            return w
        if m.start() and m.string[m.start() - 1] == "." and (m.start() < 2 or not m.string[m.start() - 2].isspace()):
            head = re.search(r"([^\s(){};,@\"]+)\.$", m.string[: m.start()])
            if head and re.match(r"(?:[A-Z]\w*\.)*[A-Z]\w*$", head[1]):
                return table[w]
            return table[w] if w in fields else w
        return table[w]

    return TOKEN.sub(one, text)


CLAUSE = re.compile(r"(?:requires|ensures)\s*\*?\s*(?:\w+\s*)?\{|\bghost\s*(?:\w+\s*(?::\s*)?)?\{")


def closing(t, i):
    deep = 0
    for k in range(i, len(t)):
        deep += (t[k] == "{") - (t[k] == "}")
        if not deep:
            return k + 1
    return len(t)


def in_code(text, table, stay, fields):
    out, at = [], 0
    marks = sorted([(m.start(), closing(text, m.end() - 1)) for m in CLAUSE.finditer(text)] + [(m.start(), m.end()) for m in re.finditer(r"(?m)^\s*ghost use [^;]*;", text)])
    for a, b in marks:
        if a < at:
            continue
        out += [text[at:a], turned(text[a:b], table, stay, fields, comments=False)]
        at = b
    return "".join(out) + text[at:]


def in_edit(text, table, fields):
    """The texts of an edit of an .antt file, where projections are also written tight and primes as apostrophes."""
    out, antt = [], False
    for line in text.split("\n"):
        m = re.match(r"(old|new): (.*)$", line)
        if line.startswith("file:"):
            antt = line.strip().endswith(".antt")
        if m and antt:
            t = m[2].replace("′", "'")
            t = re.sub(r"(?<=[\w')₀-₉]) \.(?=[A-Za-z0-9])", ".", t)
            t = re.sub(r"\(([A-Za-z][\w'₀-₉]*(?:\.[\w-]+)+)\)", r"\1", t)
            t = re.sub(r"(?<![\w◌])_([^\s_{},()\w]+\w?)_(?!\w)", r"◌\1◌", t)
            line = f"{m[1]}: {turned(t, table, set(), fields)}"
        out.append(line)
    return "\n".join(out)


def record_fields():
    """Names that a record declares."""
    out = set()
    for p in files(".antt"):
        text = uncommented(read(p))
        for m in re.finditer(r"(?m)^( *)(?:pub )?(?:unfoldable |abbrev )*(?:pub )?(?:opaque )?record [^\n]*where[^\n]*\n((?:\1 +[^\n]*\n|\s*\n)+)", text):
            for f in DECLARED.finditer(m[2]):
                out.add(f[3])
        for m in re.finditer(r"record \{([^{}]*)\}", text):
            for f in re.finditer(rf"(?:^|;)\s*({WORD})\s*[:=]", m[1]):
                out.add(f[1])
    return out


def main():
    found = declared()
    table = spellings(found)
    fields = record_fields() & set(table)
    for p in [*files(".antt"), *files(".rt")]:
        text = read(p)
        words = set(re.findall(rf"(?<!\.)(?<![^\s(){{}};,@\"«»λ.]){WORD}", uncommented(text))) if p.endswith(".antt") else set(re.findall(r"\blet (?:mut )?(\w+)|(\w+): ", text)[0:0]) | {a or b for a, b in re.findall(r"\blet (?:mut )?(\w+)|\b(\w+)\s*:(?!:)", text)} | set(re.findall(WORD, text)) & set(table)
        for n in sorted(words & set(table)):
            if table[n] in words and table[n] not in table:
                print(f"look: {os.path.relpath(p, ROOT)} has both {n} and {table[n]}")
    if "--list" in sys.argv:
        for n in sorted(table):
            print(f"{n}\t{table[n]}\t{'field' if n in fields else ''}")
        return
    for p in files(".antt"):
        text = read(p)
        new = turned(text, table, of_libraries(text), fields)
        if new != text:
            open(p, "w", encoding="utf-8").write(new)
    for p in files(".edit"):
        text = read(p)
        new = in_edit(text, table, fields)
        if new != text:
            open(p, "w", encoding="utf-8").write(new)
    in_clauses = {n: s for n, s in table.items() if n != snake(n)}
    for p in files(".rt"):
        text = read(p)
        new = in_code(text, in_clauses, of_libraries(text), fields)
        if new != text:
            open(p, "w", encoding="utf-8").write(new)


main()
