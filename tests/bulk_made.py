"""Made resources for tests/bulk: what `validate-all` tells of each has to be what `validate` prints of it alone, but for words behind it, and each
position what a reading of the text gives that stands here."""

import concurrent.futures
import json
import os
import random
import re
import subprocess
from itertools import zip_longest

from bulk_told import MARK, SECONDS, Telling, answer_of, rows, write

STATUSES = {0: "conforms", 1: "violates", 2: "open", 3: "fault"}
# The endings of the properties of a choice.
CHOICE_TYPES = ("String", "Boolean", "Part")
# What a row on a misfit ends in, before its words.
MISFIT = re.compile(r": I[1-7]$")
# The ways to tell of a run: the options in front of the words, and those behind them.
WAYS = [([], []), ([], ["--json"]), (["--only-bad"], []), (["--json"], ["--only-bad"])]

# ---- a reading of JSON that says where each value begins


class Value:
    """A JSON value, with where it begins: an object has `members`, an array `items`."""

    def __init__(self, start, members=None, items=None, plain=None):
        self.start, self.members, self.items, self.plain = start, members, items, plain


class Reader:
    """Reads a text that is JSON."""

    def __init__(self, text):
        self.text, self.at = text, 0

    def skip_blanks(self):
        while self.at < len(self.text) and self.text[self.at] in " \t\r\n":
            self.at += 1

    def passes(self, sign):
        self.skip_blanks()
        is_there = self.text.startswith(sign, self.at)
        self.at += len(sign) * is_there
        return is_there

    def plain(self):
        """A string, a number or a word."""
        plain, self.at = json.JSONDecoder().raw_decode(self.text, self.at)
        return plain

    def value(self):
        self.skip_blanks()
        start = self.at
        if self.passes("{"):
            return Value(start, members=self.members())
        if self.passes("["):
            return Value(start, items=self.items())
        return Value(start, plain=self.plain())

    def items(self):
        items = []
        while not self.passes("]"):
            items.append(self.value())
            self.passes(",")
        return items

    def members(self):
        members = {}
        while not self.passes("}"):
            self.skip_blanks()
            name = self.plain()
            assert self.passes(":")
            members[name] = self.value()
            self.passes(",")
        return members


def is_null(value):
    return value is None or (value.members is None and value.items is None and value.plain is None)


def step_of(part):
    """The name of an element in a part of a place, and the index of its item, if one is told."""
    name, _, index = part.removesuffix("]").partition("[")
    return (name, int(index)) if index.isdigit() else (part, None)


def best(values):
    """The first that is there and isn't null; else the first that is there, if one is."""
    there = [it for it in values if it is not None]
    return next((it for it in there if not is_null(it)), there[0] if there else None)


def named(members, name):
    """The values of the property of a name and of its companion, where one is there; else those of a choice of that name. Each may be none."""
    pairs = ((members.get(it), members.get("_" + it)) for it in [name, *(name + suffix for suffix in CHOICE_TYPES)])
    return next((pair for pair in pairs if pair != (None, None)), (None, None))


def item_at(value, index):
    """The item of an array at an index, if that is told; or none."""
    if index is None or value is None:
        return value
    return value.items[index] if value.items is not None and index < len(value.items) else None


def start_of(tree, place):
    """Where the item at a place begins, or else the nearest one above it: an item is a value, or its companion, or both. A property with dots or
    brackets in its name is the place's end."""
    own, beside, nearest = tree, None, tree.start
    parts = place.split(".")[1:]
    for number, part in enumerate(parts):
        holder = own if own and own.members is not None else beside
        if holder is None or holder.members is None:
            return nearest
        end = ".".join(parts[number:])
        if end in holder.members and ("." in end or "[" in end):
            return holder.members[end].start
        name, index = step_of(part)
        pair = named(holder.members, name)
        own, beside = (item_at(it, index) for it in pair)
        found = best([own, beside]) or best(pair)
        nearest = found.start if found else nearest
        if own is None and beside is None:
            return nearest
    return nearest


def position(text, start, line):
    """The line and the column of a place in a text that begins on a line."""
    front = text[:start].removeprefix(MARK)
    return [line + front.count("\n"), len(front) - (front.rfind("\n") + 1) + 1]


def positions(text, line, issues):
    """Those of issues: an issue without a place is where the resource begins."""
    tree = Reader(text.removeprefix(MARK)).value()
    shift = len(MARK) if text.startswith(MARK) else 0
    places = [issue.get("expression", [None])[0] for issue in issues]
    return [position(text, shift + (start_of(tree, place) if place else tree.start), line) for place in places]


# ---- made resources


def maybe(draw, chance, **members):
    return members if draw.random() < chance else {}


def text_of(draw):
    return draw.choice(["a", "ab", "abc", "abcd", "a long one", "é", "éééé", "\U0001f600", "𝒳", "a\"b", "a\\b", "x\ty", "\u007f", "1234567890"])


def extension_of(draw):
    return {**maybe(draw, 0.95, url="u"), **draw.choice([{}, {"valueString": "v"}, {"valueBoolean": True}, {"_valueString": {"id": "i"}}])}


def companion_of(draw):
    return {**maybe(draw, 0.3, id="i"), "extension": [extension_of(draw) for _ in range(draw.choice([1, 2]))]} if draw.random() < 0.8 else {"id": "c"}


def primitive_of(draw, name, value, chance=0.1):
    """A primitive with its companion, or one of the two."""
    kind = draw.random()
    return {**({name: value} if kind > chance / 2 else {}), **({"_" + name: companion_of(draw)} if kind < chance else {})}


def primitives_of(draw, name, count):
    """Those of an array, some of which are null."""
    if draw.random() < 0.7:
        return {name: [text_of(draw) for _ in range(count)]}
    pairs = [draw.choice([(text_of(draw), None), (text_of(draw), companion_of(draw)), (None, companion_of(draw))]) for _ in range(count)]
    own, beside = ([pair[side] for pair in pairs] for side in (0, 1))
    return {**({name: own} if any(own) else {}), **({"_" + name: beside} if any(beside) else {})}


def part_of(draw, depth):
    part = {**primitive_of(draw, "text", text_of(draw)), **primitives_of(draw, "label", draw.choice([1, 2, 3]))} if draw.random() < 0.8 else {"text": "t"}
    part.update(draw.choice([{}, primitive_of(draw, "valueString", text_of(draw)), {"valueBoolean": False}]))
    part.update(maybe(draw, 0.2, extension=[extension_of(draw)]))
    return {**part, **({"part": [part_of(draw, depth - 1) for _ in range(draw.choice([1, 2]))]} if depth and draw.random() < 0.3 else {})}


def card_of(draw, depth=2):
    card = {"resourceType": "Card", **maybe(draw, 0.2, id="i"), **(primitive_of(draw, "title", text_of(draw)) if draw.random() < 0.6 else {})}
    card.update(primitives_of(draw, "note", draw.choice([1, 2, 4])) if draw.random() < 0.5 else {})
    card.update(draw.choice([{}, primitive_of(draw, "valueString", text_of(draw), 0.5), {"valueBoolean": True}, {"valuePart": part_of(draw, 1)}]))
    card.update(maybe(draw, 0.9, part=[part_of(draw, 2) for _ in range(draw.choice([1, 2, 3]))]))
    card.update(maybe(draw, 0.2, contained=[card_of(draw, depth - 1)]) if depth else {})
    return card


def identifier_of(draw):
    system, value = draw.choice(["urn:nation:id"] * 3 + ["urn:insurance", "urn:other"]), draw.choice(["1", "123456789", "1234567890", "é"])
    return {**maybe(draw, 0.95, system=system), **maybe(draw, 0.9, value=value)}


def patient_of(draw, depth=2):
    patient = {"resourceType": "Patient", **maybe(draw, 0.2, id="i"), **maybe(draw, 0.9, identifier=[identifier_of(draw) for _ in range(draw.choice([1, 1, 2, 3]))])}
    patient.update(maybe(draw, 0.3, name=[{**maybe(draw, 0.8, family="M"), "given": ["A", "é"]} for _ in range(draw.choice([1, 2]))]))
    patient.update(maybe(draw, 0.95, gender=draw.choice(["female", "male", "other", "unknown", "none"])))
    patient.update(maybe(draw, 0.2, contained=[patient_of(draw, depth - 1) for _ in range(draw.choice([1, 2]))]) if depth else {})
    return patient


def objects_in(tree):
    """All objects of a tree."""
    if isinstance(tree, dict):
        yield tree
    for it in tree.values() if isinstance(tree, dict) else tree if isinstance(tree, list) else []:
        yield from objects_in(it)


# Names of properties that no type has: one that a choice has, and some with dots and brackets, which may be places of items.
STRANGE_NAMES = ["age", "value", "valueCode", "é", "_x", "\x1f", "", ".", "a.b", "part.text", "part[0]", "part[0].text", "[0]", "a[b.c]", "note[0", "x[\"]"]
# What breaks the form of a resource, at one of its objects and one of its members.
BREAKS = [
    lambda draw, it, name: it.update({draw.choice(STRANGE_NAMES): draw.choice([1, [2], {"a": 3}, None])}),
    lambda draw, it, name: it.update({draw.choice(["", "_"]) + name + draw.choice([".", ".text", "[0]", "[1].id", "[2"]): draw.choice([4, None])}),
    lambda draw, it, name: it.update({name: None}), lambda draw, it, name: it.update({name: []}), lambda draw, it, name: it.update({name: ""}),
    lambda draw, it, name: it.update({name: [it[name]]}), lambda draw, it, name: it.update({name: {"x": it[name]}}), lambda draw, it, name: it.update({name: 5}),
    lambda draw, it, name: it.update({"_" + name: draw.choice([5, [], {}, {"x": 1}, [None], {"id": "i"}])}), lambda draw, it, name: it.pop(name),
    lambda draw, it, name: it[name].append(draw.choice([None, 5, "", {}])) if isinstance(it[name], list) else None,
]


def broken(draw, tree):
    """The tree, which may be broken somewhere."""
    if draw.random() < 0.2:
        there = draw.choice([it for it in objects_in(tree) if it] or [{"x": 1}])
        draw.choice(BREAKS)(draw, there, draw.choice(list(there)))
    if draw.random() < 0.1:
        there = draw.choice([it for it in objects_in(tree) if it] or [{"x": 1}])
        members = list(there.items())
        draw.shuffle(members)
        there.clear()
        there.update(members)
    return tree


def spelled(draw, tree, blanks):
    """A text of a tree, with blanks between its parts."""
    def blank():
        return "".join(draw.choice(blanks) for _ in range(draw.choice([0, 0, 0, 0, 1, 2]))) if blanks else ""

    if isinstance(tree, dict):
        members = (blank() + json.dumps(name, ensure_ascii=draw.random() < 0.5) + blank() + ":" + spelled(draw, value, blanks) for name, value in tree.items())
        return blank() + "{" + (",".join(members) or blank()) + "}" + blank()
    if isinstance(tree, list):
        return blank() + "[" + (",".join(spelled(draw, it, blanks) for it in tree) or blank()) + "]" + blank()
    return blank() + json.dumps(tree, ensure_ascii=draw.random() < 0.5) + blank()


class Line:
    """A line or a document, and the place at which it stops being JSON, if it does."""

    def __init__(self, text, stops=None):
        self.text, self.stops = text, stops

    def is_blank(self):
        return self.text.strip(" \t\r\n") == ""


def line_of(draw, make, blanks):
    text = spelled(draw, broken(draw, make(draw)), blanks)
    kind = draw.random()
    if kind < 0.02:
        return Line(draw.choice(["", " ", "\t \r"]))
    if kind < 0.04:
        end = text.rindex("}")
        return Line(text[:end], end)
    if kind < 0.06:
        return Line(text + draw.choice(["x", "]", "{}", '"']), len(text))
    return Line(MARK + text) if kind < 0.08 else Line(text)


def judged(program, package, url, text, path):
    """The status of `validate` on a text, and what it prints."""
    with open(path, "wb") as file:
        file.write(text.encode())
    ran = subprocess.run([program, "validate", package, url, path], stdin=subprocess.DEVNULL, capture_output=True, timeout=SECONDS, check=False)
    return ran.returncode, ran.stdout.decode().rstrip("\n"), ran.stderr.decode()


def all_judged(program, package, url, texts):
    """What `validate` says of each."""
    with concurrent.futures.ThreadPoolExecutor(2 * (os.cpu_count() or 1)) as pool:
        jobs = [pool.submit(judged, program, package, url, text, f"alone/{number}") for number, text in enumerate(texts)]
        return [job.result() for job in jobs]


def telling_of(file, number, line, is_document, answer):
    """What is to be told of a line, by what `validate` answers."""
    if line.is_blank() and not is_document:
        return Telling(file, number, "empty")
    status, printed, err = answer
    issues = json.loads(printed)["issue"] if printed else []
    if status == 3:
        places = [position(line.text, len(line.text) if line.stops is None else line.stops, number)] * len(issues)
    else:
        places = positions(line.text, number, issues)
    word = STATUSES.get(status, f"status {status} {err}")
    return Telling(file, number, word, [(*place, issue) for place, issue in zip(places, issues)], printed)


def parted(wanted, lines):
    """What came, by the rows that must come: as many lines for each, and at the end what is over."""
    came = iter(lines)
    return ["".join(next(came, "") for _ in range(text.count("\n"))) for text in wanted] + ["".join(came)]


def is_row(wanted, came):
    """Whether a row is as it must be. Behind a misfit stand words, whatever they are."""
    return came.startswith(f"{wanted}: ") if MISFIT.search(wanted) else came == wanted


def are_rows(wanted, came):
    pairs = list(zip_longest(wanted.split("\n"), came.split("\n"), fillvalue=""))
    return all(is_row(*pair) for pair in pairs)


def compare(name, wanted, out):
    """How many rows are as they must be, and how many aren't."""
    pairs = list(zip([*wanted, ""], parted(wanted, out.splitlines(keepends=True))))
    bad = [pair for pair in pairs if not are_rows(*pair)]
    for one, other in bad[:5]:
        print(f"tests/bulk: {name}: not so:\n  wanted {one}  came   {other}"[:4_000])
    return len(pairs) - len(bad), len(bad)


def of_run(program, name, tellings, package, url, inputs):
    """Holds each way to tell of inputs to what must be told."""
    words = {it.word for it in tellings}
    worst = next((status for status in (1, 3, 2) if STATUSES[status] in words), 0)
    for front, behind in WAYS:
        status, out, err = answer_of(program, ["validate-all", *front, package, url, *inputs, *behind], {})
        is_so = (status, err) == (worst, "") or print(f"tests/bulk: {name} {front + behind}: wanted status {worst}, and came {status} {err}") or False
        yield int(is_so), int(not is_so)
        yield compare(f"{name} {front + behind}", rows(tellings, url, 0, front + behind), out)


def of_lines(program, draw, name, make, package, url, count):
    """Made lines, in one file."""
    lines = [line_of(draw, make, " \t\r") for _ in range(count)]
    write(f"{name}.ndjson", "".join(line.text + "\n" for line in lines))
    answers = all_judged(program, package, url, [line.text for line in lines])
    tellings = [telling_of(f"{name}.ndjson", number, line, False, answer) for number, (line, answer) in enumerate(zip(lines, answers), 1)]
    yield from of_run(program, name, tellings, package, url, [f"{name}.ndjson"])


def of_documents(program, draw, name, make, package, url, count):
    """Made documents, in a folder."""
    documents = [line_of(draw, make, " \t\r\n\n\n") for _ in range(count)]
    files = [f"{name}/{number:06}.json" for number in range(count)]
    for file, line in zip(files, documents):
        write(file, line.text)
    answers = all_judged(program, package, url, [line.text for line in documents])
    tellings = [telling_of(file, 1, line, True, answer) for file, line, answer in zip(files, documents, answers)]
    yield from of_run(program, name, tellings, package, url, [name])


def of_made(program, patients, cards, count, seed):
    """How many checks of made resources pass, and how many fail: of a package of patients, and of one of cards, each with two profiles."""
    draw = random.Random(seed)
    os.mkdir("alone")
    groups = [
        (of_lines, "made-patients", patient_of, patients, 0, 8), (of_lines, "made-guide-patients", patient_of, patients, 1, 3),
        (of_lines, "made-cards", card_of, cards, 0, 6), (of_lines, "made-hazy-cards", card_of, cards, 1, 1),
        (of_documents, "made-documents", patient_of, patients, 0, 1), (of_documents, "made-card-documents", card_of, cards, 0, 1),
    ]
    for of_kind, name, make, (package, *profiles), which, share in groups:
        yield from of_kind(program, draw, name, make, package, profiles[which], max(count * share // 20, 1))
