"""Reads the numbers that docs/RECEIVER.md and docs/TAPE.md print and writes an equation for each row and sentence.

    papers.py equations ROOT MODULE PLACES    puts the equations behind MODULE, and each one's name and place in PLACES
    papers.py verdict PLACES LOG              what the prover said of them

oracle/papers.sh runs it. Exit status 0: written, or all equal. 1: some differ. 2: could not be run.
Every equation is of lists of numbers: the definition's on the left, the paper's on the right.
"""
import functools
import pathlib
import re
import struct
import sys

# how words stand in a list of numbers; the module's definitions of the same names agree
WORDS = {"none": 2**80, "empty": 2**81, "off": 2**82, "on": 2**83}
CARDINALS = {w: n for n, w in enumerate("zero one two three four five six seven eight nine ten".split())}
ORDINALS = {w: n for n, w in enumerate("first second third fourth fifth".split())}
RECEIVER, TAPE = "docs/RECEIVER.md", "docs/TAPE.md"


class CannotRun(Exception):
    pass


# ---- papers

class Paper:
    """The tables and the running text of a paper, by section."""

    def __init__(self, root, name):
        self.name = name
        self.tables = []
        self.text = {}
        section, table = "", None
        for line in (root / name).read_text(encoding="utf-8").splitlines():
            if line.startswith("#"):
                section, table = re.sub(r"\s*\[.*\]$", "", line.lstrip("#").strip()), None
            elif line.startswith("|"):
                cells = [c.strip() for c in line.strip().strip("|").split("|")]
                if table is None:
                    table = (section, cells, [])
                    self.tables.append(table)
                elif not all(re.fullmatch(r":?-+:?", c) for c in cells):
                    table[2].append(cells)
            else:
                table = None
                self.text[section] = self.text.get(section, "") + " " + line.strip()

    def table(self, section, header, least):
        """The rows of a table, each with its place; least is how many rows it must have."""
        shown = " | ".join(c for c in header if c)
        found = [t for t in self.tables if t[0] == section and t[1] == header]
        if len(found) != 1:
            raise CannotRun(f"{self.name}, section {section}: {len(found)} tables with the columns {shown}, not 1")
        rows = found[0][2]
        if len(rows) < least:
            raise CannotRun(f"{self.name}, table {shown}: {len(rows)} rows, and it must have at least {least}")
        for i, cells in enumerate(rows, 1):
            if len(cells) != len(header):
                raise CannotRun(f"{self.name}, table {shown}, row {i}: {len(cells)} cells, not {len(header)}")
        return [(f"{self.name}, table {shown}, row {i}" + (f" ({c[0]})" if c[0] else ""), c) for i, c in enumerate(rows, 1)]

    def sentence(self, section, pattern, what):
        """The groups of the one place in a section's text that has the pattern, and its place."""
        place = f"{self.name}, section {section}, {what}"
        found = list(re.finditer(pattern, re.sub(r"\s+", " ", self.text.get(section, ""))))
        if len(found) != 1:
            raise CannotRun(f"{place}: found {len(found)} times, not once")
        return place, found[0].groups()


def must_have(table, found, wanted):
    """Every row that is looked for must be there, by what names it."""
    for w in wanted:
        if list(found).count(w) != 1:
            raise CannotRun(f"{table}: the row '{w}' is there {list(found).count(w)} times, not once")


# ---- numbers

count = 0


def counted(place, text, pattern, read):
    global count
    if not re.fullmatch(pattern, text):
        raise CannotRun(f"{place}: '{text}' cannot be read")
    count += 1
    return read(text.replace(",", "").replace("−", "-"))


def whole(place, text):
    return counted(place, text.strip(), r"−?(\d{1,3}(,\d{3})+|\d+)", int)


def wholes(place, text):
    return [whole(place, t) for t in text.split(", ")]


def hexadecimal(place, text):
    return counted(place, text.strip().strip("`"), r"[0-9a-fA-F]+", lambda t: int(t, 16))


def bits(x):
    return struct.unpack(">I", struct.pack(">f", x))[0]


def float_bits(place, text):
    """The bits of a decimal number or infinity, of a float that holds it exactly."""
    if text.strip() == "infinity":
        return 0x7F800000
    return counted(place, text.strip(), r"−?\d+(\.\d+)?", lambda t: bits(float(t)))


def cardinal(place, text):
    return counted(place, text.lower(), "|".join(CARDINALS), CARDINALS.get)


def inside(place, text, pattern):
    """The groups of a pattern that a cell must have."""
    found = re.search(pattern, text)
    if not found:
        raise CannotRun(f"{place}: '{text}' has nothing like '{pattern}'")
    return found.groups()


def signed(n):
    return [1, -n] if n < 0 else [0, n]


class F(float):
    """A 32-bit float: each step rounds once (a step of a wider float rounds to it as the exact one does)."""

    def __new__(cls, x):
        return float.__new__(cls, struct.unpack(">f", struct.pack(">f", float(x)))[0])

    __add__ = lambda a, b: F(float(a) + float(b))
    __sub__ = lambda a, b: F(float(a) - float(b))
    __mul__ = lambda a, b: F(float(a) * float(b))
    __truediv__ = lambda a, b: F(float(a) / float(b))


def worked_out(place, text, number, names):
    """A formula of a paper, worked out: number makes a number of a decimal one, / is number's own."""
    text = text.replace("−", "-").replace("×", "*")
    parts = re.findall(r"\d+(?:\.\d+)?|[A-Za-z]+|[-+*/()<]|\S", text)
    if not all(re.fullmatch(r"\d+(\.\d+)?|[-+*/()<]", p) or p in names for p in parts):
        raise CannotRun(f"{place}: '{text}' cannot be worked out")
    program = " ".join(f"number('{p}')" if p[0].isdigit() else p for p in parts)
    if number is int:
        program = program.replace("/", "//")
    return eval(program, {"__builtins__": {}, "number": number}, dict(names))


# ---- equations

class Equations:
    def __init__(self):
        self.names = {}
        self.lines = []
        self.differing = []

    def add(self, name, place, left, right, opened="", form="numbers"):
        if name in self.names:
            raise CannotRun(f"{name}: two equations of one name")
        if min(right, default=0) < 0:
            self.differing.append(f"{place}: the definition has no number below 0, the paper {', '.join(map(str, right))[:300]}")
            return
        if re.search(r"(?<![\w.])-\d", left):
            raise CannotRun(f"{place}: it needs a number below 0, and there is none")
        self.names[name] = (form, place)
        self.lines += [f"{name} : {left} ≡ {listed(right)}", f"unfolding {OPENED}{opened}", f"{name} = refl", ""]


def listed(numbers):
    return "".join(f"{n} ∷ " for n in numbers) + "[]"


# what an equation opens: all that the module defines before the equations
OPENED = ("computes none' empty switch bit bits side signed floats or_none signed_or row_or timing_or depth_or length_or sized zs lent given start with_calls "
          "with_sizes with_incoming refusal numbers asks asked stream_code push_one pushed pushes plays after_plays each session little_endian_words chunk_of "
          "values_or completed timing_offset offsets counters counting told heard letters starts_line head_code word known body call_as calls_as read_as "
          "made_of written'")


def sizes(*six):
    return f"(sized {' '.join(map(str, six))})"


def receiver(q, paper, root):
    numbers_of_receiver(q, paper, root)
    sizes_and_memory(q, paper)
    starting_values(q, paper)
    questions(q, paper)
    datagrams(q, paper)
    sound(q, paper)
    rows(q, paper)
    picture(q, paper)
    clock(q, paper)
    edges(q, paper)
    program(q, paper)


def numbers_of_receiver(q, paper, root):
    known = re.findall(r"^abbrev pub (f0·\d+) : Float$", (root / "crates/model/specs/Floats.antt").read_text(encoding="utf-8"), re.M)
    named = set()
    for i, (place, (constant, pattern)) in enumerate(paper.table("Numbers", ["constant", "bits"], 10), 1):
        name = "f" + constant.replace(".", "·")
        named.add(name)
        b = hexadecimal(place, pattern)
        counted(place, constant, r"0\.\d+", str)
        digits = constant[2:]
        if name not in known:
            q.differing.append(f"{place}: Floats has no constant {name}")
            continue
        q.add(f"receiver_constants_row_{i}", place,
              f"floats (Floats.{name} ∷ (Floats.natf {int(digits)} /f Floats.natf {10 ** len(digits)}) ∷ [])", [b, b], form="hex")
    for name in known:
        if name not in named:
            q.differing.append(f"{paper.name}, table constant | bits: no row for {name} of Floats")

    table = paper.table("Numbers", ["what", "rule"], 6)
    must_have(f"{paper.name}, table what | rule", [c[0] for p, c in table], ["round(x)", "a float as a whole number", "printed"])
    for i, (place, (what, rule)) in enumerate(table, 1):
        name = f"receiver_rules_row_{i}"
        if what == "round(x)":
            pairs = re.findall(r"(−?[\d.]+) gives (−?[\d.]+)", rule)
            if len(pairs) < 2:
                raise CannotRun(f"{place}: fewer than 2 worked numbers")
            for x, y in pairs:
                if not re.fullmatch(r"−?\d+\.5", x):
                    q.differing.append(f"{place}: {x} is no half")
            q.add(name, place, "floats (map Floats.round_half_away (" + "".join(f"Floats.from_bits {float_bits(place, x)} ∷ " for x, y in pairs) + "[]))",
                  [float_bits(place, y) for x, y in pairs], form="hex")
        elif what == "a float as a whole number":
            n = whole(place, inside(place, rule, r"a NaN gives (\S+)$")[0])
            q.add(name, place, f"Floats.as_unsigned 64 (Floats.from_bits {0x7FC00000}) ∷ []", [n])
        elif what == "printed":
            digits, nan = inside(place, rule, r"in (\w+) hex digits, a NaN always as ([0-9a-f]+)")
            hexadecimal(place, nan)
            if len(nan) != cardinal(place, digits):
                q.differing.append(f"{place}: {nan} does not have {digits} digits")
            for k, (x, shown) in enumerate([(0x7F800001, nan), (0xFFFFFFFF, nan), (0xBF800000, "bf800000"), (1, "1".rjust(CARDINALS[digits], "0"))], 1):
                q.add(f"{name}_{k}", place, f"Replay.hex_bits (Floats.from_bits {x})", list(shown.encode()), form="text")


def sizes_and_memory(q, paper):
    order = ["packet", "target", "max", "bins", "width", "height"]
    table = paper.table("Sizes and memory", ["size", "from", "to", "what it is"], 6)
    if [c[0] for p, c in table] != order:
        raise CannotRun(f"{paper.name}, table size | from | to: its rows are not {', '.join(order)}")
    for i, (place, (size, low, high, what)) in enumerate(table, 1):
        # the sizes beside it, which let this one alone decide
        beside = {"packet": 3, "target": 5, "max": 7, "bins": 1, "width": 1, "height": 1}
        if low in order[:order.index(size)]:
            low = beside[low]
        else:
            low = whole(place, low)
        high = whole(place, high)
        tried, wanted = [], []
        for n, answer in ((low - 1, 0), (low, 1), (high, 1), (high + 1, 0)):
            if n < 0:
                continue
            z = dict(beside, **{size: n})
            if size == "packet":
                z.update(target=n, max=n)
            if size == "target":
                z.update(max=n)
            if size in ("bins", "width", "height"):
                z.update(packet=1, target=1, max=1)
            tried.append(sizes(*(z[s] for s in order)))
            wanted.append(answer)
        q.add(f"receiver_sizes_row_{i}", place, "bits (map Sizes.sizes_allowed (" + "".join(f"{z} ∷ " for z in tried) + "[]))", wanted)

    place, (formula,) = paper.sentence("Sizes and memory", r"rounded up: ([^.]*)\. ", "the formula of S")
    worked = [(3, 5, 10, 7, 2, 3), (4, 8, 8, 2, 5, 1), (480, 1920, 9600, 1024, 640, 200)]
    most = lambda z: worked_out(place, formula, int, dict(zip(order, z)))
    q.add("receiver_formula_of_waiting", place, "map Sizes.most_waiting (" + "".join(f"{sizes(*z)} ∷ " for z in worked) + "[])", [most(z) for z in worked])
    for i, (place, (area, parts, length)) in enumerate(paper.table("Sizes and memory", ["area", "one section, in this order", "length"], 2), 1):
        kind = {"floats": "float", "words": "word"}.get(area)
        if kind is None:
            raise CannotRun(f"{place}: neither floats nor words")
        wanted = []
        for z in worked:
            names = dict(zip(order, z), S=most(z))
            section = 0
            for part in parts.split(", "):
                formula_of_part = re.search(r"\b(S|" + "|".join(order) + r")\b.*$", part)
                if not formula_of_part:
                    raise CannotRun(f"{place}: '{part}' names no size")
                section += worked_out(place, formula_of_part.group(), int, names)
            wanted += [section, worked_out(place, length, int, dict(names, section=section))]
        q.add(f"receiver_areas_row_{i}", place, "".join(f"Sizes.{kind}_section {sizes(*z)} ∷ Sizes.{kind}_area {sizes(*z)} ∷ " for z in worked) + "[]", wanted)

    place, groups = paper.sentence(
        "Sizes and memory", r"With ([\d,]+), ([\d,]+), ([\d,]+) and ([\d,]+) bin, S is ([\d,]+), a section has ([\d,]+) floats, and the area ([\d,]+)\.",
        "the worked sizes")
    packet, target, most_buffered, bins, s, section, area = (whole(place, g) for g in groups)
    z = sizes(packet, target, most_buffered, bins, 1, 1)
    q.add("receiver_worked_sizes", place, f"Sizes.most_waiting {z} ∷ Sizes.float_section {z} ∷ Sizes.float_area {z} ∷ []", [s, section, area])


def starting_values(q, paper):
    both = lambda text: [text.replace("@", c) for c in ("channel_a", "channel_b")]
    counters = ["received", "inserted", "concealed", "late", "overflow", "invalid size", "resyncs", "filled"]
    where = {
        "the receiver": {"accepted calls": ["start.calls"], "incoming": ["start.incoming"]},
        "streams 1 and 2, each": {
            **{n: [f"start.counts.{s}.{n}" for s in ("audio", "waterfall")] for n in ("packets", "dropped", "late")},
            "last sequence": [f"or_none (start.counts.{s}.last)" for s in ("audio", "waterfall")]},
        "each channel's sound": {
            "waiting packets": both("length_or start.@.buffer.waiting"),
            "queue": both("length_or start.@.buffer.queue"),
            "next sequence": both("or_none start.@.buffer.next"),
            "run of fillers": both("start.@.buffer.run"),
            "largest buffered amount": both("start.@.buffer.largest"),
            **{n: both(f"start.@.buffer.counters.{n.replace(' ', '_')}") for n in counters}},
        "each channel's rows": {
            "open row": both("row_or start.@.row"),
            "spectrum": both("length_or start.@.spectrum"),
            "smoothing buffer": both("length_or start.@.smoothing"),
            "picture": None},
        "each channel's settings": {
            "adaptive": both("switch start.@.display.adaptive"),
            **{n: both(f"Floats.to_bits start.@.display.{n}") for n in ("top", "range", "zoom", "smoothing")}},
        "each channel's estimates": {n: None for n in ("top", "floor", "range")},
        "the clock": {
            "offset": ["timing_or (λ t. Clock.bits64 t.offset) start.clock.timing"],
            "round trip": ["timing_or (λ t. t.round_trip) start.clock.timing"],
            "least": ["timing_or (λ t. t.least) start.clock.timing"],
            "one-way": ["signed_or start.clock.one_way"],
            "depth": ["depth_or start.clock.depth"],
            **{n: [f"start.clock.counts.{n}"] for n in ("conceals", "late", "overflow", "resyncs")},
            "transmit peak": ["Floats.to_bits start.clock.transmit_peak"]},
    }
    of, seen = "", set()
    table = paper.table("What there is, and what it starts as", ["of", "number", "after setup"], 21)
    for i, (place, (group, labels, value)) in enumerate(table, 1):
        of = group or of
        name = f"receiver_start_row_{i}"
        for label in labels.split(", "):
            if label not in where.get(of, {}):
                raise CannotRun(f"{place}: '{of}: {label}' is not known")
            seen.add((of, label))
        if labels == "picture":
            n = whole(place, inside(place, value, r"^all (\S+)$")[0])
            q.add(name, place, "start.channel_a.picture ++ start.channel_b.picture", [n] * 12)
        elif of == "each channel's estimates":
            if value != "as setup gives them":
                raise CannotRun(f"{place}: '{value}' cannot be read")
            left = "".join(f"Floats.to_bits (start.{c}.display.{n}_estimate) ∷ " for c in ("channel_a", "channel_b") for n in labels.split(", "))
            q.add(name, place, left + "[]", [bits(float(3 * k + "top floor range".split().index(n) + 1)) for k in (0, 1) for n in labels.split(", ")])
        else:
            left = [e for label in labels.split(", ") for e in where[of][label]]
            word = value.split(":")[0]
            if word in WORDS:
                n = WORDS[word]
            elif left[0].startswith("Floats.to_bits"):
                n = float_bits(place, value)
            else:
                n = whole(place, value)
            q.add(name, place, "".join(f"{e} ∷ " for e in left) + "[]", [n] * len(left), form="hex" if left[0].startswith("Floats.to_bits") else "numbers")
    for of, labels in where.items():
        for label in labels:
            if (of, label) not in seen:
                raise CannotRun(f"{paper.name}, table of | number | after setup: no row for '{of}: {label}'")


def bytes_of_datagram(length):
    return f"({0x52} ∷ {0x53} ∷ 1 ∷ 5 ∷ replicate {length - 4} 0)" if length >= 4 else f"(replicate {length} 0)"


def refusals(cases):
    return "".join(f"refusal ({state}) ({call}) ∷ " for state, call in cases) + "[]"


def questions(q, paper):
    none = WORDS["none"]
    calls = [c[0] for p, c in paper.table("Calls", ["call", "gives", "answers"], 9)]
    order = ["setup", "datagram", "play", "reset", "set", "probe", "one-way", "depth", "transmit depth"]
    if calls != order:
        raise CannotRun(f"{paper.name}, table call | gives | answers: its rows are not {', '.join(order)}")
    magic = header_magic(paper)
    # how each question is known, by its text
    texts = {1: "six sizes", 2: "each area", 3: "hold this state", 4: "calls accepted", 5: "floats finite", 6: "has the datagram",
             7: "is its magic right", 8: "for stream", 9: "numbers in range"}
    number = {}
    for i, (place, (shown, question, by)) in enumerate(paper.table("Questions and refusals", ["number", "question", "asked by"], 9), 1):
        name = f"receiver_questions_row_{i}"
        which = [k for k, text in texts.items() if text in question]
        if len(which) != 1 or which[0] in number:
            raise CannotRun(f"{place}: '{question}' is not known")
        n = number[which[0]] = whole(place, shown)
        if by == "all":
            asking = order
        elif by.startswith("all but "):
            asking = [c for c in order if c not in by[len("all but "):].split(", ")]
        else:
            asking = by.split(", ")
        if not set(asking) <= set(order):
            raise CannotRun(f"{place}: '{by}' names no calls")
        q.add(f"{name}_asked", place, f"map (asks {n}) asked", [int(c in asking) for c in order])
        tried = []
        if which == [1]:
            tried = [("with_sizes (sized 0 5 10 7 2 3) start", "reset A", n), ("start", "reset A", none)]
        if which == [2]:
            tried = [("with_sizes (sized 3 5 10 8 2 3) start", "reset A", n)]
        if which == [3]:
            tried = [("with_incoming 1 start", "reset A", n)]
        if which == [4]:
            most = whole(place, inside(place, question, r"fewer than ([\d,]+) calls")[0])
            tried = [(f"with_calls {most - 1} start", "reset A", none), (f"with_calls {most} start", "reset A", n)]
        if which == [5]:
            for k in range(4):
                given = [0x7F800000 if k == j else 0 for j in range(4)]
                tried.append(("start", "set A (record { adaptive = true; top = %d; range = %d; zoom = %d; smoothing = %d })" % tuple(given), n))
        if which == [6]:
            low, high = (whole(place, g) for g in inside(place, question, r"([\d,]+) to ([\d,]+) bytes"))
            tried = [("start", f"datagram {bytes_of_datagram(k)}", a) for k, a in ((low - 1, n), (low, none), (high, none), (high + 1, n))]
        if which == [7]:
            low, high = (whole(place, g) for g in inside(place, question, r"version (\d+) or (\d+)"))
            for m, v, a in ((magic, low - 1, n), (magic, low, none), (magic, high, none), (magic, high + 1, n), (magic - 1, low, n), (magic + 1, low, n)):
                if v >= 0:
                    tried.append(("start", f"datagram ({m // 256} ∷ {m % 256} ∷ {v} ∷ 5 ∷ replicate 12 0)", a))
        if which == [8]:
            first, second, least = (whole(place, g) for g in inside(place, question, r"stream (\d) or (\d): has the payload under (\d+) bytes"))
            sent = lambda stream, payload: f"datagram ({0x52} ∷ {0x53} ∷ 1 ∷ {stream} ∷ replicate 12 0 ++ ({listed(payload)}))"
            # the receiver has 7 bins
            for stream in (1, 2, 3, 4):
                refused = n if stream in (first, second) else none
                over = [0, 1, 0, 8] + [0] * least
                tried += [("start", sent(stream, over[:least - 1]), none), ("start", sent(stream, over[:least]), refused),
                          ("start", sent(stream, [0, 1, 0, 7, 0, 0]), none)]
        if tried:
            q.add(name, place, refusals([t[:2] for t in tried]), [t[2] for t in tried])
    place, (of_setup, of_others) = paper.sentence("Questions and refusals", r"Setup asks ([^;]*); each other call (.*?) and then its own", "who asks what")
    of_setup = [whole(place, t) for t in re.split(r", | and ", of_setup)]
    of_others = [whole(place, t) for t in re.split(r", | and ", of_others)]
    q.add("receiver_questions_of_setup", place, "numbers (get_or asked 0 [])", of_setup)
    for k, call in enumerate(order[1:], 1):
        q.add(f"receiver_questions_of_call_{k}", place, f"take {len(of_others)} (numbers (get_or asked {k} []))", of_others)

    nine = number[9]
    table = paper.table("Questions and refusals", ["call", "its numbers are in range where"], 3)
    must_have(f"{paper.name}, table call | its numbers are in range where", [c[0] for p, c in table], ["play", "probe", "depth, transmit depth"])
    for i, (place, (shown, rule)) in enumerate(table, 1):
        name = f"receiver_question_9_row_{i}"
        if shown == "play":
            most = whole(place, inside(place, rule, r"samples are at most (\S+)$")[0])
            q.add(name, place, refusals([("start", f"play {c} {n}") for c in "AB" for n in (most, most + 1)]), [none, nine] * 2)
        elif shown == "probe":
            low, high = (whole(place, g) for g in inside(place, rule, r"the offset is from (\S+) to ([\d,]+\d), and the round trip is not above that"))
            tried = [f"probe 0 {high} {high} 0", f"probe 0 {high + 1} {high + 1} 0", f"probe {-low} 0 0 {-low}", f"probe {1 - low} 0 0 {1 - low}",
                     f"probe 0 0 0 {high}", f"probe 0 0 0 {high + 1}"]
            q.add(name, place, refusals([("start", t) for t in tried]), [none, nine] * 3)
            cut = whole(place, inside(place, rule, r"cut to (\d+) bits")[0])
            q.add(f"{name}_cut", place, "".join(f"Clock.bits64 (pos {n}) ∷ " for n in (2**cut - 1, 2**cut, 2**cut + 1)) + "[]", [2**cut - 1, 0, 1])
        elif shown == "depth, transmit depth":
            most = whole(place, inside(place, rule, r"samples are at most (\S+)$")[0])
            given = "(record { conceals = 1; late = 2; overflow = 3; resyncs = 4 })"
            q.add(name, place, refusals([("start", f"depth {n} {given}") for n in (most, most + 1)] + [("start", f"transmit_depth {n}") for n in (most, most + 1)]),
                  [none, nine] * 2)
        else:
            raise CannotRun(f"{place}: '{shown}' is not known")


def header_table(paper):
    return paper.table("A datagram", ["bytes", "what"], 5)


@functools.cache
def header_magic(paper):
    for place, (at, what) in header_table(paper):
        if what.startswith("magic"):
            return hexadecimal(place, inside(place, what, r"^magic, ([0-9a-f]+) in hex$")[0])
    raise CannotRun(f"{paper.name}, table bytes | what: no row of the magic")


def datagrams(q, paper):
    fields = {"magic": "magic", "version": "version", "stream type": "stream_type", "sequence": "sequence", "timestamp": "timestamp"}
    table = header_table(paper)
    must_have(f"{paper.name}, table bytes | what", [re.split(r"[,:]", c[1])[0] for p, c in table], fields)
    for i, (place, (at, what)) in enumerate(table, 1):
        ends = [whole(place, t) for t in re.split(r", | to ", at)]
        value = 0
        # the bytes tried are 1, 2, ..
        for k in range(ends[0], ends[-1] + 1):
            value = 256 * value + k + 1
        field = re.split(r"[,:]", what)[0]
        if field not in fields:
            raise CannotRun(f"{place}: '{field}' is not known")
        q.add(f"receiver_header_row_{i}", place, f"(Framing.header_fields (Picture.count_from 1 16)).{fields[field]} ∷ []", [value])
        if field == "magic":
            q.add(f"receiver_header_row_{i}_magic", place, "Framing.magic_number ∷ []", [header_magic(paper)])
        if field == "stream type":
            streams = re.findall(r"(\d+) (audio|waterfall) of ([AB])", what)
            if len(streams) != 4:
                raise CannotRun(f"{place}: {len(streams)} streams, not 4")
            q.add(f"receiver_header_row_{i}_streams", place,
                  f"map (λ n. stream_code (Framing.stream_of n)) ({listed([whole(place, n) for n, k, c in streams])})",
                  [(1 if k == "audio" else 2) * 10 + "AB".index(c) for n, k, c in streams])
    place, groups = paper.sentence(
        "A datagram", r"An audio payload begins at byte (\d+) in version (\d+) and at byte (\d+) in version (\d+); a datagram of version (\d+) with (\d+) to (\d+) "
        r"bytes has an empty one\. A waterfall payload begins at byte (\d+) in both", "where payloads begin")
    byte1, version1, byte2, version2, version, low, high, rows_begin = (whole(place, g) for g in groups)
    q.add("receiver_payloads", place,
          f"Framing.audio_start {version1} ∷ Framing.audio_start {version2} ∷ Framing.header_length ∷ Framing.header_length ∷ Framing.audio_start {version} ∷ "
          f"length (Samples.audio_payload {version} (replicate {low} 0)) ∷ length (Samples.audio_payload {version} (replicate {high} 0)) ∷ []",
          [byte1, byte2, low, rows_begin, high + 1, 0, 0])
    # versions that a datagram can have
    q.add("receiver_payloads_versions", place, refusals([("start", f"datagram ({0x52} ∷ {0x53} ∷ {v} ∷ 5 ∷ replicate 12 0)") for v in (version1, version2, version)]),
          [WORDS["none"]] * 3)
    place, (n,) = paper.sentence("A datagram", r"The first (\d+) bytes are a header", "the header's length")
    q.add("receiver_header_length", place, "Framing.header_length ∷ []", [whole(place, n)])

    table = paper.table("A datagram", ["last", "sequence", "e", "dropped grows by", "late grows by"], 7)
    for i, (place, (last, sequence, e, dropped, late)) in enumerate(table, 1):
        s = whole(place, sequence)
        wanted = [whole(place, dropped), whole(place, late)]
        if last == "none":
            left = f"Counts.dropped_by none {s} ∷ Counts.late_by none {s} ∷ []"
        else:
            l = whole(place, last)
            left = f"Counts.dropped_by (some {l}) {s} ∷ Counts.late_by (some {l}) {s} ∷ Framing.next_sequence {l} ∷ []"
            wanted.append(whole(place, e))
        q.add(f"receiver_sequences_row_{i}", place, left, wanted)


def sound(q, paper):
    table = paper.table("Sound", ["packet, target, max", "pushed", "plays", "taken", "dropped", "short", "then"], 6)
    for i, (place, (three, pushed, plays, taken, dropped, short, then)) in enumerate(table, 1):
        z = sizes(*wholes(place, three), 1, 1, 1)
        after = [t.rsplit(" ", 1) for t in then.split(", ")]
        if [t[0] for t in after] != ["inserted", "concealed", "resyncs", "filled", "largest"]:
            raise CannotRun(f"{place}: '{then}' cannot be read")
        pushes, played = listed(wholes(place, pushed)), listed(wholes(place, plays))
        q.add(f"receiver_plays_row_{i}", place, f"session {z} ({pushes}) ({played})",
              wholes(place, taken) + wholes(place, dropped) + wholes(place, short) + [whole(place, n) for _, n in after])
    place, groups = paper.sentence(
        "Sound", r"With (\d+), (\d+) and (\d+), the sequences ([\d, ]+) in turn: the second (\d+) replaces the first; with (\d+) the buffer starts at (\d+), plays (\d+) "
        r"and a filler for (\d+), and is full; (\d+) is late, and the second (\d+) overflows", "the worked pushes")
    three = [whole(place, g) for g in groups[:3]]
    sequences = wholes(place, groups[3])
    doubled, starting, begin, first, filler, late, over = (whole(place, g) for g in groups[4:])
    second = lambda s: sequences.index(s, sequences.index(s) + 1) if sequences.count(s) > 1 else -1
    if {doubled, starting, late, over} - set(sequences) or -1 in (second(doubled), second(over)):
        q.differing.append(f"{place}: it names a sequence that is not there")
        return
    wanted, inserted = [], 0
    for k, s in enumerate(sequences):
        on = k >= sequences.index(starting)
        was_late, was_over = k >= sequences.index(late), k >= second(over)
        inserted += k not in (second(doubled), sequences.index(late), second(over))
        # inserted, late, overflow, concealed; next; has room
        wanted += [inserted, int(was_late), int(was_over), int(on), filler + 1 if on else WORDS["none"], int(not on)]
    q.add("receiver_worked_pushes", place, f"pushes {sizes(*three, 1, 1, 1)} ({listed(sequences)}) Jitter.fresh_buffer", wanted)
    # the queue at the start: the samples of the first, then those of the filler
    packet = three[0]
    started = f"(pushed {sizes(*three, 1, 1, 1)} ({listed(sequences[:sequences.index(starting) + 1])}) Jitter.fresh_buffer).queue"
    q.add("receiver_worked_start", place, f"{started} ++ take {packet} {started}",
          [1000 * first + k for k in range(packet)] + [0] * packet + [1000 * begin + k for k in range(packet)])


def rows(q, paper):
    table = paper.table("Rows", ["total", "chunks (first bin: values), in turn", "completes"], 3)
    for i, (place, (total, chunks, completes)) in enumerate(table, 1):
        total = whole(place, total)
        given = []
        for chunk in re.split(r"; then | and again ", chunks):
            first, values = inside(place, chunk, r"^([\d,]+): (.*)$")
            given.append(f"chunk_of 7 {total} {whole(place, first)} ({listed([float_bits(place, v) for v in values.split(', ')])})")
        if " and again " in chunks and len(set(chunks.split(" and again "))) > 1:
            q.differing.append(f"{place}: '{chunks}' is not the same again")
        which, values = inside(place, completes, r"^at the (\w+): (.*)$")
        if which not in ORDINALS:
            raise CannotRun(f"{place}: '{which}' cannot be read")
        wanted = []
        for k in range(len(given)):
            values_of = [float_bits(place, v) for v in values.split(", ")] if k == ORDINALS[which] else None
            wanted += [WORDS["none"]] if values_of is None else [len(values_of)] + values_of
        q.add(f"receiver_rows_row_{i}", place, "completed (" + "".join(f"{g} ∷ " for g in given) + "[]) none", wanted)


def picture(q, paper):
    section = "What a completed row does"
    place, groups = paper.sentence(
        section, r"(\w+) bins with zoom (\d+) show bins (\d+) to (\d+) \(start (\d+), visible (\d+)\), and a width of (\d+) shows the bins ([\d, ]+)\.", "the worked zoom")
    bins = cardinal(place, groups[0])
    zoom, first, last, start, visible, width = (whole(place, g) for g in groups[1:7])
    shown = wholes(place, groups[7])
    z = f"{bins} (Floats.from_bits {bits(float(zoom))})"
    q.add("receiver_zoom", place, f"Picture.window_start {z} ∷ Picture.window_end {z} ∷ Picture.window_start {z} ∷ Picture.visible_bins {z} ∷ "
          f"map (Picture.bin_at {width} {z}) (Picture.count_from 0 {width})", [first, last + 1, start, visible] + shown)

    table = paper.table(section, ["x", "red", "green", "blue"], 4)
    levels = {i: ([], []) for i in range(1, len(table) + 1)}
    for level in range(256):
        x = F(F(level) / F(255))
        for i, (place, (where, *parts)) in enumerate(table, 1):
            if where == "else" or worked_out(place, where, F, {"x": x}):
                red, green, blue = (int(F(255) * F(worked_out(place, p, F, {"x": x}))) for p in parts)
                levels[i][0].append(level)
                levels[i][1].append(red * 65536 + green * 256 + blue)
                break
    for i, (place, cells) in enumerate(table, 1):
        for cell in cells:
            for n in re.findall(r"\d+(?:\.\d+)?", cell):
                float_bits(place, n)
        if not levels[i][0]:
            q.differing.append(f"{place}: no level is in it")
        q.add(f"receiver_colour_parts_row_{i}", place, f"map Picture.color_map ({listed(levels[i][0])})", levels[i][1], form="hex")
    for i, (place, (level, colour)) in enumerate(paper.table(section, ["level", "colour"], 6), 1):
        n = whole(place, level)
        if n > 255:
            q.differing.append(f"{place}: there is no level {n}")
        q.add(f"receiver_colours_row_{i}", place, f"Picture.color_map {n} ∷ []", [hexadecimal(place, colour)], form="hex")


def clock(q, paper):
    place, groups = paper.sentence("Clock", r"where it is not from (−?[\d,]+) to (−?[\d,]+), both ends in", "the range of one-way")
    low, high = (whole(place, g) for g in groups)
    q.add("receiver_one_way", place, "bits (map Clock.one_way_in_range (" + "".join(integer(n) + " ∷ " for n in (low - 1, low, high, high + 1)) + "[]))", [0, 1, 1, 0])
    for i, (place, (probes, offsets)) in enumerate(paper.table("Clock", ["probes (offset, round trip)", "offsets after each"], 3), 1):
        given = pairs_in(place, probes)
        q.add(f"receiver_probes_row_{i}", place, "offsets (" + "".join(integer(n) + " ∷ " for n in given) + "[]) none",
              [n for o in wholes(place, offsets) for n in signed(o)])
    for i, (place, cells) in enumerate(paper.table("Clock", ["t1", "t2", "t3", "t4", "offset", "round trip"], 2), 1):
        times = " ".join(str(whole(place, c)) for c in cells[:4])
        q.add(f"receiver_times_row_{i}", place, f"signed (Clock.probe_offset {times}) ++ signed (Clock.probe_round_trip {times})",
              [n for c in cells[4:] for n in signed(whole(place, c))])


def pairs_in(place, text):
    """Pairs of numbers in brackets, a comma apart."""
    pairs = re.findall(r"\((−?[\d,]*\d), (−?[\d,]*\d)\)", text)
    if ", ".join(f"({o}, {r})" for o, r in pairs) != text:
        raise CannotRun(f"{place}: '{text}' cannot be read")
    return [whole(place, n) for p in pairs for n in p]


def floats_in(place, text):
    return [float_bits(place, v) for v in text.split(", ")]


def of_bits(patterns):
    return "(" + "".join(f"Floats.from_bits {b} ∷ " for b in patterns) + "[])"


def edges(q, paper):
    """Worked examples beside rules that could be read in two ways."""
    table = paper.table("Sound", ["sequence", "samples", "invalid size", "late", "overflow"], 3)
    full = f"(pushed {sizes(2, 4, 4, 1, 1, 1)} (5 ∷ 6 ∷ []) Jitter.fresh_buffer)"
    paper.sentence("Sound", r"With 2, 4 and 4, after 5 and 6 the buffer is full and next is 7; then", "the pushes in a full buffer")
    for i, (place, cells) in enumerate(table, 1):
        sequence, samples, *wanted = (whole(place, c) for c in cells)
        k = f"(Jitter.push 0 {sizes(2, 4, 4, 1, 1, 1)} (record {{ sequence = {sequence}; samples = Picture.count_from 0 {samples} }}) {full}).counters"
        q.add(f"receiver_push_tests_row_{i}", place, f"{k}.invalid_size ∷ {k}.late ∷ {k}.overflow ∷ []", wanted)

    table = paper.table("Rows", ["chunks in turn: row number, total, first bin: values", "what each completes"], 2)
    for i, (place, (chunks, completes)) in enumerate(table, 1):
        given = []
        for chunk in chunks.split("; "):
            number, total, first, values = inside(place, chunk, r"^(\d+), (\d+), (\d+): (.*)$")
            values = [] if values == "none" else floats_in(place, values)
            given.append(f"chunk_of {number} {total} {first} ({listed(values)})")
        wanted = []
        for each in completes.split("; "):
            values = None if each == "none" else floats_in(place, each)
            wanted += [WORDS["none"]] if values is None else [len(values)] + values
        q.add(f"receiver_chunks_row_{i}", place, "completed (" + "".join(f"{g} ∷ " for g in given) + "[]) none", wanted)

    section = "What a completed row does"
    for i, (place, (row, floor, top)) in enumerate(paper.table(section, ["row", "floor", "top"], 2), 1):
        r = of_bits(floats_in(place, row))
        q.add(f"receiver_floor_top_row_{i}", place, f"Floats.to_bits (Scaling.row_floor {r}) ∷ Floats.to_bits (Scaling.row_top {r}) ∷ []",
              [float_bits(place, floor), float_bits(place, top)], form="hex")
    table = paper.table(section, ["row", "estimates of top, floor before", "top, floor, range after"], 1)
    for i, (place, (row, before, after)) in enumerate(table, 1):
        r = of_bits(floats_in(place, row))
        top, floor = floats_in(place, before)
        d = (f"(record {{ adaptive = true; top = Floats.f0; range = Floats.f0; zoom = Floats.f1; smoothing = Floats.f0; top_estimate = Floats.from_bits {top}; "
             f"floor_estimate = Floats.from_bits {floor}; range_estimate = Floats.f0 }})")
        e = f"(Scaling.display_after {r} {d})"
        q.add(f"receiver_estimates_row_{i}", place, f"Floats.to_bits ({e}.top_estimate) ∷ Floats.to_bits ({e}.floor_estimate) ∷ Floats.to_bits ({e}.range_estimate) ∷ []",
              floats_in(place, after), form="hex")
    for i, (place, (weight, old, row, after)) in enumerate(paper.table(section, ["smoothing", "buffer", "row", "buffer after"], 4), 1):
        q.add(f"receiver_smoothing_row_{i}", place,
              f"floats (Scaling.smoothing_after (Floats.from_bits {float_bits(place, weight)}) {of_bits([hexadecimal(place, row)])} {of_bits([hexadecimal(place, old)])})",
              [hexadecimal(place, after)], form="hex")
    for i, (place, (value, top, span, level)) in enumerate(paper.table(section, ["value in bits", "top", "range", "level"], 5), 1):
        q.add(f"receiver_levels_row_{i}", place,
              f"Picture.db_to_u8 (Floats.from_bits {hexadecimal(place, value)}) (Floats.from_bits {float_bits(place, top)}) (Floats.from_bits {float_bits(place, span)}) ∷ []",
              [whole(place, level)])

    for i, (place, (probes, *left)) in enumerate(paper.table("Clock", ["probes (offset, round trip), in turn", "offset", "round trip", "least"], 1), 1):
        given, t = pairs_in(place, probes), "none"
        for o, r in zip(given[::2], given[1::2]):
            t = f"(Clock.probed ({integer(o)}) ({integer(r)}) {t})"
        offset, trip, least = (whole(place, c) for c in left)
        q.add(f"receiver_timing_row_{i}", place, f"timing_offset {t} ++ (timing_or (λ k. k.round_trip) {t} ∷ timing_or (λ k. k.least) {t} ∷ [])", signed(offset) + [trip, least])
    for i, (place, (samples, *left)) in enumerate(paper.table("Clock", ["samples, in turn", "average", "peak", "transmit peak"], 3), 1):
        k, t = "Clock.fresh_clock", "Clock.fresh_clock"
        for n in wholes(place, samples):
            k = f"(Clock.record_depth {n} (record {{ conceals = 0; late = 0; overflow = 0; resyncs = 0 }}) {k})"
            t = f"(Clock.record_transmit {n} {t})"
        q.add(f"receiver_depths_row_{i}", place, f"Floats.to_bits (Clock.depth_ms {k}) ∷ Floats.to_bits (Clock.depth_peak_ms {k}) ∷ Floats.to_bits ({t}.transmit_peak) ∷ []",
              [hexadecimal(place, c) for c in left], form="hex")


def integer(n):
    return f"neg_ℤ (pos {-n})" if n < 0 else f"pos {n}"


def program(q, paper):
    place, groups = paper.sentence(
        "Replay", r"The program's areas have ([\d,]+) floats and ([\d,]+) words, and its tape at most ([\d,]+) bytes; a longer one is refused with `(X \d+ \d+)`",
        "the program's limits")
    floats, words, most = (whole(place, g) for g in groups[:3])
    for n in groups[3].split()[1:]:
        whole(place, n)
    q.add("receiver_program_areas", place, "Replay.replay_areas.floats ∷ Replay.replay_areas.words ∷ []", [floats, words])
    q.add("receiver_program_longer", place, f"Replay.replay (replicate {most + 1} 0)", list(groups[3].encode()) + [10], form="text")
    # the longest tape is read: one of zeros is refused at its first word
    q.add("receiver_program_longest", place, f"Replay.replay (replicate {most} 0)", list(b"X 11 0\n"), form="text")

    counters = dict(zip(["received", "inserted", "concealed", "late", "overflow", "invalid size", "resyncs", "filled"], range(11, 19)))
    streams = {f"{what} of {stream}": 20 + 10 * stream + k for stream in (1, 2) for k, what in enumerate(("packets", "dropped", "late"))}
    clocks = {"offset": -51, "round trip": 52, "one-way": 53}
    heard = {"taken": 61, "dropped": 62, "short": 63}
    seen = []
    for i, (place, (letters, words, when)) in enumerate(paper.table("Replay", ["line", "words behind the letter", "printed"], 6), 1):
        for letter in letters.split(", "):
            seen.append(letter)
            name = f"receiver_lines_row_{i}_{letter}"
            if letter in ("A", "B"):
                left = f"Replay.channel_line {letter} counters"
                shown = [counters.get(w) for w in words.split(", ")]
            elif letter == "I":
                left = "Replay.incoming_line counting"
                shown, what = [], ""
                for w in re.split(r"; |, ", words):
                    what = w.split(" of ")[0] if " of " in w and not w.startswith("of ") else what
                    stream = re.search(r"of (?:stream )?(\d+)$", w)
                    # 0 where there is no such stream
                    shown.append(10 if w == "incoming" else streams.get(f"{what} of {whole(place, stream.group(1))}", 0) if stream else None)
            elif letter == "C":
                left = "Replay.clock_line told"
                shown = [clocks.get(w) for w in words.replace(", in nanoseconds, each `-` where there is none", "").split(", ")]
                q.add(f"{name}_none", place, "Replay.clock_line start.clock", list(b"C" + b" -" * len(shown) + b"\n"), form="text")
            elif letter == "P":
                left = "Replay.play_line B heard"
                if not words.endswith(", then the bits of each sample"):
                    raise CannotRun(f"{place}: '{words}' cannot be read")
                shown = ["B" if w == "channel" else heard.get(w) for w in words.removesuffix(", then the bits of each sample").split(", ")] + ["3f800000", "bf800000"]
            elif letter == "W":
                left = "Replay.row_line B heard.samples"
                shown = ["B", "3f800000", "bf800000"] if words == "channel, then the bits of each value" else [None]
            elif letter == "X":
                left = "Replay.refused_line 9"
                shown = [9] if words == "the refusal's number" else [None]
            else:
                shown = [None]
            if None in shown:
                raise CannotRun(f"{place}: '{words}' cannot be read")
            q.add(name, place, left, list((" ".join(map(str, [letter] + shown)) + "\n").encode()), form="text")
    place, (last,) = paper.sentence("Replay", r"The four last lines come in the order ([A-Z, ]+)\.", "the last lines")
    q.add("receiver_last_lines", place, "letters (Replay.closing_lines start)", list(last.replace(", ", "").encode()), form="text")
    if sorted(seen) != sorted("PWXABIC"):
        raise CannotRun(f"{paper.name}, table line | words behind the letter | printed: its lines are not P, W, X, A, B, I, C")


# ---- the tape

HEADS = {
    "the end": (["end_word"], None),
    "a datagram of n bytes": (["call_word (datagram_head n)"], "datagram_head n"),
    "play n samples": (["call_word (play_head A n)", "call_word (play_head B n)"], "play_head A n"),
    "reset": (["call_word (reset_head A)", "call_word (reset_head B)"], "reset_head A"),
    "set": (["call_word (set_head A a)", "call_word (set_head B a)"], "set_head A a"),
    "probe": (["call_word probe_head"], "probe_head"),
    "one-way": (["call_word one_way_head"], "one_way_head"),
    "depth": (["call_word depth_head"], "depth_head"),
    "transmit depth": (["call_word transmit_head"], "transmit_head"),
    "the setup": (["setup_word"], None),
}


def tape(q, paper, receiver_paper):
    first_words(q, paper)
    bodies(q, paper)
    rules(q, paper)
    worked_tape(q, paper, header_magic(receiver_paper))


def first_words(q, paper):
    table = paper.table("First words", ["Kind", "First word", "Named bits", "What it is", "Words that follow"], 10)
    if sorted(re.sub(r", at place \d+ only$", "", c[3]) for p, c in table) != sorted(HEADS):
        raise CannotRun(f"{paper.name}, table Kind | First word: its rows are not {'; '.join(HEADS)}")
    # a bit that says which call it is: its value in each row that names it
    telling = {}
    for i, (place, (kind, shown, named, what, follow)) in enumerate(table, 1):
        place = place.replace(f"({kind})", f"({what})")
        only = re.search(r", at place (\d+) only$", what)
        if only:
            what = what[:only.start()]
            q.add(f"tape_first_words_row_{i}_place", place, f"get_or (Tape.setup_words given) {whole(place, only.group(1))} 0 ∷ []",
                  [int(shown.strip("`"), 16)], form="hex")
        kind = whole(place, kind)
        makers, head = HEADS[what]
        patterns = [t.strip("`") for t in shown.split(", ")]
        if len(patterns) != len(makers):
            raise CannotRun(f"{place}: {len(patterns)} words, not {len(makers)}")
        left, right, words = [], [], []
        for pattern, maker in zip(patterns, makers):
            counted(place, pattern, r"[0-9A-F]{8}|[0-9A-F]{4}nnnn|[0-9A-F]{7}a", str)
            for n in (0, 1, 20, 65535) if "n" in pattern else (0, 1) if "a" in pattern else (0,):
                word = int(pattern.replace("nnnn", f"{n:04X}").replace("a", str(n)), 16)
                made = f"word_of ({maker.replace(' n)', f' {n})').replace(' a)', ' true)' if n else ' false)')})"
                left += [made, f"{made} / 2 ^ 29"]
                right += [word, kind]
                words.append(word)
        q.add(f"tape_first_words_row_{i}", place, "".join(f"{e} ∷ " for e in left) + "[]", right)
        # a bit of a field can be 1, a bit that says which call it is has one value, and every other below the kind is 0
        free, fixed = set(), {}
        for text in [] if named == "none" else named.split("; "):
            field = re.fullmatch(r"(\d+)(?: to (\d+))?: (the channel|n, the number of (?:bytes|samples)|a, adaptive)", text)
            two = re.fullmatch(r"(\d+) and (\d+): (?:both (\d)|(\d) and (\d))", text)
            if field:
                high = whole(place, field.group(1))
                free |= set(range(whole(place, field.group(2)) if field.group(2) else high, high + 1))
            elif two:
                first, second = whole(place, two.group(1)), whole(place, two.group(2))
                values = [whole(place, g) for g in two.groups()[2:] if g]
                fixed[first], fixed[second] = values[0], values[-1]
                for b, value in fixed.items():
                    telling.setdefault(b, {})[place] = value
                q.add(f"tape_first_words_row_{i}_fixed", place,
                      "".join(f"word_of ({makers[0]}) / 2 ^ {b} % 2 ∷ " for b in (first, second)) + "[]", [values[0], values[-1]])
            else:
                raise CannotRun(f"{place}: '{text}' cannot be read")
        stray = [b for b in range(29) if b not in free and b not in fixed]
        tried = words + [words[0] + 2**b for b in sorted(free)] + [words[0] + 2**b for b in stray]
        q.add(f"tape_first_words_row_{i}_bits", place, f"map (λ w. known (word_in w)) ({listed(tried)})", [1] * (len(words) + len(free)) + [0] * len(stray))
        name = f"tape_first_words_row_{i}_follow"
        share = re.fullmatch(r"n / (\d+), rounded up", follow)
        if share and "n" in head.split():
            d = whole(place, share.group(1))
            q.add(name, place, "".join(f"body_length ({head.replace(' n', f' {n}')}) ∷ " for n in (0, 1, 2, 3, 4, 5, 65535)) + "[]",
                  [-(-n // d) for n in (0, 1, 2, 3, 4, 5, 65535)])
            continue
        n = whole(place, inside(place, follow, r"^(\d+)(, and the tape ends here)?$")[0])
        if what == "the end":
            q.add(name, place, f"body (find false (word_of end_word ∷ replicate {n} 0)) ++ body (find false (word_of end_word ∷ replicate {n + 1} 0))", [1, 2, 1])
        elif what == "the setup":
            q.add(name, place, "Tape.setup_length ∷ []", [n])
        else:
            q.add(name, place, f"body_length ({head.replace(' n', ' 20').replace(' a', ' true')}) ∷ []", [n])
    for b, values in telling.items():
        if set(values.values()) != {0, 1}:
            q.differing += [f"{place}: bit {b} tells no two calls apart" for place in values]


def bodies(q, paper):
    table = paper.table("The words behind a first word", ["After", "Words"], 7)
    known = {
        "setup": "Tape.setup_body (record { sizes = record { packet = @packet; target = @target; max = @max; bins = @bins; width = @width; height = @height }; "
                 "estimates_a = record { top = @top·A; floor = @floor·A; range = @range·A }; estimates_b = record { top = @top·B; floor = @floor·B; range = @range·B } })",
        "set": "Tape.body_of (set A (record { adaptive = true; top = @top; range = @range; zoom = @zoom; smoothing = @smoothing }))",
        "probe": "Tape.body_of (probe @t1 @t2 @t3 @t4)",
        "one-way": "Tape.body_of (one_way @receive @send)",
        "depth": "Tape.body_of (depth @samples (record { conceals = @conceals; late = @late; overflow = @overflow; resyncs = @resyncs }))",
        "transmit depth": "Tape.body_of (transmit_depth @samples)",
        "datagram": None,
    }
    if sorted(c[0] for p, c in table) != sorted(known):
        raise CannotRun(f"{paper.name}, table After | Words: its rows are not {', '.join(known)}")
    for i, (place, (after, words)) in enumerate(table, 1):
        left = known[after]
        if left is None:
            continue
        wanted, k = [], 0
        for group in re.split(r"; then ", words.replace(" (floats)", "")):
            suffix = re.search(r" of ([AB])$", group)
            for field in re.split(r", then |, | and ", re.sub(r" of [AB]$", "", group)):
                name, width = inside(place, field, r"^(\w+)(?: \((\d+)(?: words?)?\))?$")
                width = whole(place, width) if width else 1
                name = "@" + name + ("·" + suffix.group(1) if suffix else "")
                if not re.search(re.escape(name) + r"\b", left):
                    raise CannotRun(f"{place}: '{field}' cannot be read")
                k += 1
                # so wide that the words of another width differ
                value = 100 + k if width == 1 else k * 2**32 + 200 + k
                left = re.sub(re.escape(name) + r"\b(?!·)", str(value), left)
                wanted += [value // 2**(32 * j) % 2**32 for j in reversed(range(width))]
        if "@" in left:
            raise CannotRun(f"{place}: {', '.join(re.findall(r'@([^ ;)]+)', left))} missing")
        q.add(f"tape_bodies_row_{i}", place, left, wanted)


def rules(q, paper):
    section = "What is accepted, and the place of a refusal"
    place, (least,) = paper.sentence(section, r"Fewer than (\d+) words follow the setup's first word", "the setup's words")
    # a setup whose words are all 1, and the end: with a word more or less it is refused
    accepted = lambda n: (f"read_as (read (bytes_of (word_of setup_word ∷ replicate {n} 1 ++ (0 ∷ []))))", [1] * n)
    n = whole(place, least)
    q.add("tape_setup_words", place, *accepted(n))
    q.add("tape_setup_words_fewer", place, f"read_as (read (bytes_of (word_of setup_word ∷ replicate {n - 1} 1)))", [11, n])
    place, (first,) = paper.sentence(section, r"where a call or the end may begin, the first of which is (\d+)", "the first call's place")
    q.add("tape_first_call", place, *accepted(whole(place, first) - 1))
    place, groups = paper.sentence(
        "Writing", r"n of a datagram or a play is at most ([\d,]+); a size, and the samples of a depth or transmit depth, at most ([\d,]+)\. Times and counts have (\d+) bits",
        "the fields' bounds")
    n, samples, times = (whole(place, g) for g in groups)
    counts = lambda v: "(record { " + "; ".join(f"{f} = {v}" for f in ("conceals", "late", "overflow", "resyncs")) + " })"
    made = lambda v: f"(Tape.setup_of ({listed([v] * 12)}))"
    tried = [lambda v, c=c: c.replace("@", str(v)) for c in ("datagram (replicate @ 0)", "play A @")]
    left = [f"Tape.call_fits ({t(v)})" for t in tried for v in (n, n + 1)]
    left += [f"Tape.call_fits ({c})" for v in (samples, samples + 1) for c in (f"depth {v} {counts(0)}", f"transmit_depth {v}")]
    left += [f"Tape.setup_fits {made(v)}" for v in (samples, samples + 1)]
    left += [f"Tape.call_fits ({c})" for v in (2**times - 1, 2**times) for c in (f"probe {v} 0 0 0", f"one_way 0 {v}", f"depth 0 {counts(v)}")]
    q.add("tape_fields", place, "bits (" + "".join(f"{e} ∷ " for e in left) + "[])", [1, 0, 1, 0, 1, 1, 0, 0, 1, 0, 1, 1, 1, 0, 0, 0])
    place, (most,) = paper.sentence("Words", r"the limit of ([\d,]+) bytes is that of the program", "the program's limit")
    m = whole(place, most)
    q.add("tape_program_limit", place, f"Replay.replay (replicate {m} 0) ++ Replay.replay (replicate {m + 1} 0)",
          list(f"X 11 0\nX 11 {m // 4}\n".encode()), form="text")


def worked_tape(q, paper, magic):
    section = "A worked tape"
    place, groups = paper.sentence(
        section, r"A setup with packet (\d+), target (\d+), max (\d+) and (\w+) bin, a picture of (\w+) pixel, all estimates (\d+); a datagram of (\d+) bytes "
        r"\(version (\d+), stream (\d+), sequence (\d+), timestamp (\d+), the samples (−?\d+) and (−?\d+)\); play (\d+) samples of ([AB]); the end\. (\d+) words, (\d+) bytes",
        "what the tape is")
    packet, target, most = (whole(place, g) for g in groups[:3])
    bins, pixels = (cardinal(place, g) for g in groups[3:5])
    estimate, length, version, stream, sequence, timestamp, one, other, played = (whole(place, g) for g in groups[5:14])
    channel = "AB".index(groups[14])
    words_said, bytes_said = (whole(place, g) for g in groups[15:])
    if max(version, stream) > 255 or sequence >= 2**32 or timestamp >= 2**64 or not all(-2**15 <= n < 2**15 for n in (one, other)):
        raise CannotRun(f"{place}: no datagram has such numbers")
    data = list(struct.pack(">HBBIQ", magic, version, stream, sequence, timestamp) + struct.pack("<hh", one, other))
    setup = [packet, target, most, bins, pixels, 1] + [estimate] * 6
    q.lines += ["tape : Tape.Tape", f"tape = made_of ({listed(setup)}) (datagram ({listed(data)}) ∷ play {'AB'[channel]} {played} ∷ [])", "",
                "tape_words : List ℕ", "tape_words = words_of (written' (Tape.write tape))", ""]
    table = paper.table(section, ["Place", "Word", ""], 21)
    words = []
    fields = ["packet", "target", "max", "bins", "width", "height"] + [f"{c}: {n}" for c in "AB" for n in ("top", "floor", "range")]
    for i, (row_place, (at, word, note)) in enumerate(table):
        p, w = whole(row_place, at), hexadecimal(row_place, word)
        words.append(w)
        if p != i:
            q.differing.append(f"{row_place}: the place is {i}, not {p}")
        # what the definitions write of the tape that the text says
        q.add(f"tape_worked_row_{i + 1}", row_place, f"get_or tape_words {i} {WORDS['none']} ∷ []", [w], " tape tape_words", "hex")
        name = f"tape_worked_row_{i + 1}_note"
        kind = f"({w}) / 2 ^ 29 ∷ word (word_in {w})"
        if note in fields:
            k = fields.index(note)
            of = f".sizes.{note}" if k < 6 else f".estimates_{note[0].lower()}.{note[3:]}"
            q.add(name, row_place, f"(Tape.setup_of (Picture.count_from 1 12)){of} ∷ []", [p])
        elif re.fullmatch(r"kind \d+: the setup", note):
            q.add(name, row_place, kind, [whole(row_place, note[5:].split(":")[0]), 7])
        elif re.fullmatch(r"kind \d+: the end", note):
            q.add(name, row_place, kind, [whole(row_place, note[5:].split(":")[0]), 0])
        elif re.fullmatch(r"kind (\d+): a datagram of (\d+) bytes, so (\d+) words", note):
            k, n, follow = (whole(row_place, t) for t in re.findall(r"\d+", note))
            q.add(name, row_place, f"{kind} ++ (body_length (datagram_head {n}) ∷ [])", [k, 1, n, follow])
        elif re.fullmatch(r"kind (\d+), bit (\d+) is (\d): play (\d+) samples of ([AB])", note):
            k, bit, value, n = (whole(row_place, t) for t in re.findall(r"\d+", note))
            q.add(name, row_place, f"{kind} ++ ({w} / 2 ^ {bit} % 2 ∷ Tape.side_bit B ∷ [])", [k, 2, "AB".index(note[-1]), n, value, 2**bit])
        elif re.fullmatch(r"bytes( [0-9A-F]{2}){4}", note):
            q.add(name, row_place, f"bytes_of ({w} ∷ [])", [hexadecimal(row_place, t) for t in note.split()[1:]])
        elif note:
            raise CannotRun(f"{row_place}: '{note}' cannot be read")
    all_words = f"({listed(words)})"
    q.add("tape_worked", place, f"read_as (read (bytes_of {all_words}))", setup + [1, len(data)] + data + [2, channel, played])
    q.add("tape_worked_length", place,
          f"length tape_words ∷ length (bytes_of tape_words) ∷ length (words_of (bytes_of {all_words})) ∷ {len(data)} ∷ []",
          [words_said, bytes_said, words_said, length], " tape tape_words")

    place, (n,) = paper.sentence(section, r"With a word, or one byte, behind it the tape is refused at place (\d+)\.", "more behind the end")
    n = whole(place, n)
    q.add("tape_refused_behind", place, f"read_as (read (bytes_of {all_words} ++ replicate 4 0)) ++ read_as (read (bytes_of {all_words} ++ (0 ∷ [])))", [11, n, 11, n])
    place, groups = paper.sentence(section, r"Cut to (\d+) bytes it has (\d+) whole words, and is refused at place (\d+)\.", "the tape cut")
    cut, whole_words, n = (whole(place, g) for g in groups)
    q.add("tape_refused_cut", place, f"length (words_of (take {cut} (bytes_of {all_words}))) ∷ read_as (read (take {cut} (bytes_of {all_words})))", [whole_words, 11, n])
    place, groups = paper.sentence(
        section, r"With `([0-9A-F]+)` at place (\d+) the datagram has (\d+) bytes and takes (\d+) words, the last of which is `([0-9A-F]+)`: its bytes ([0-9A-F ]+) are padding, "
        r"so the tape is refused at place (\d+)\.", "the padding")
    w, last = hexadecimal(place, groups[0]), hexadecimal(place, groups[4])
    at, length, follow, n = (whole(place, groups[k]) for k in (1, 2, 3, 6))
    padding = [hexadecimal(place, t) for t in groups[5].split()]
    changed = f"({listed(words[:at] + [w] + words[at + 1:])})"
    q.add("tape_refused_padding", place,
          f"word (word_in {w}) ++ (body_length (datagram_head {length}) ∷ get_or {changed} {at + follow} 0 ∷ drop ({length} - 4 * ({follow} - 1)) (bytes_of ({last} ∷ [])) ++ "
          f"read_as (read (bytes_of {changed})))", [1, length, follow, last] + padding + [11, n])
    place, groups = paper.sentence(section, r"With `([0-9A-F]+)` at place (\d+) it is refused there\.", "the stray bit")
    w, at = hexadecimal(place, groups[0]), whole(place, groups[1])
    q.add("tape_refused_stray_bit", place, f"read_as (read (bytes_of ({listed(words[:at] + [w] + words[at + 1:])})))", [11, at])


# ---- running

def equations(root, module, places):
    q = Equations()
    papers = Paper(root, RECEIVER), Paper(root, TAPE)
    receiver(q, papers[0], root)
    tape(q, papers[1], papers[0])
    # the last equation does not hold: a run that does not say so has not looked at the others
    q.add("control", "the equation that must fail", "bit false ∷ []", [1])
    with open(module, "a", encoding="utf-8") as f:
        f.write("\n".join(q.lines))
    lines = [f"{name}\t{form}\t{place}" for name, (form, place) in q.names.items()] + [f"\tdiffers\t{d}" for d in q.differing] + [f"\tcount\t{count}"]
    pathlib.Path(places).write_text("\n".join(lines) + "\n", encoding="utf-8")


def in_words(text, form):
    """Numbers as the prover printed them, in their form and with the words that stand for some; it leaves out the middle of a long list."""
    if not re.fullmatch(r"[\d∷…\[\] ]*", re.sub(r"…\[\d+ bytes\]…", "…", text)):
        return None
    text = text.removesuffix("[]").strip(" ∷")
    if form == "text" and "…" not in text:
        return repr("".join(chr(int(n)) for n in text.split(" ∷ ") if n))
    back = {str(n): w for w, n in WORDS.items()}
    if form == "hex":
        back = {n: f"{int(n):08x}" for n in re.findall(r"\d+", text)}
    return re.sub(r"\d+", lambda m: back.get(m.group(), m.group()), text.replace(" ∷", ",")) or "nothing"


def sides(error, form):
    """What the definition and what the paper has; nothing where the sides are not numbers, and no text where they are too long to show."""
    if "not shown, because" in error and "but this has type" in error:
        return []
    computed = error.partition("computed as far as they go, ")[2]
    whole_lists = re.match(r"the two types are `Path \(List ℕ\) (\(.*?\)|\[\]) (\(.*?\)|\[\])`\s+\(expected\)", computed)
    parts = re.match(r"the two types differ only where one has `([^`]*)`\s+\(expected\)(?:, right after `[^`]*`)?\s+and the other has `([^`]*)`\s+\(found\)", computed)
    if whole_lists:
        found = [t.removeprefix("(").removesuffix(")") for t in whole_lists.groups()]
    elif parts:
        found = [parts.group(2), parts.group(1)]
    else:
        return None
    found = [in_words(t, form) for t in found]
    return None if None in found else found


def verdict(places, log):
    names, differing, compared = {}, [], None
    for line in pathlib.Path(places).read_text(encoding="utf-8").splitlines():
        name, form, text = line.split("\t")
        if form == "differs":
            differing.append(text)
        elif form == "count":
            compared = int(text)
        else:
            names[name] = form, text
    failed = {}
    said = pathlib.Path(log).read_text(encoding="utf-8")
    for error in re.split(r"^(?=\S+: error: )", said, flags=re.M)[1:]:
        name = re.match(r"\S+: error: `([^`]*)`", error)
        found = sides(error, names[name.group(1)][0]) if name and name.group(1) in names else None
        if found is None:
            raise CannotRun(error.strip()[:1000])
        failed[name.group(1)] = found
    if "control" not in failed:
        raise CannotRun("\n".join(said.splitlines()[-5:] + ["the equation that must fail did not"]))
    del failed["control"]
    for name, found in sorted(failed.items(), key=lambda x: list(names).index(x[0])):
        shown = [t if len(t) < 300 else t[:300] + " .." for t in found]
        differing.append(names[name][1] + (f": the definition has {shown[0]}, the paper {shown[1]}" if shown else ": the definition differs"))
    for text in dict.fromkeys(differing):
        print(text)
    if differing:
        print("not equal")
        return 1
    print(f"{compared} numbers of the papers equal, in {len(names) - 1} equations")
    return 0


def main(words):
    try:
        if words[0] == "equations":
            equations(pathlib.Path(words[1]), words[2], words[3])
            return 0
        return verdict(words[1], words[2])
    except CannotRun as e:
        print(e)
    except Exception as e:
        print(f"{type(e).__name__}: {e}")
    print("could not be run")
    return 2


if __name__ == "__main__":
    sys.exit(main(sys.argv[1:]))
