"""A model of FHIRPath N1 (http://hl7.org/fhirpath/N1) at items of FHIR R4: which texts are expressions that are read, and what each gives.

It is written from the sections of the standard that each part names, from FHIR R4's page on FHIRPath (http://hl7.org/fhir/R4/fhirpath.html), and from
docs/USAGE.md, docs/DECISIONS.md and docs/DEFINITIONS.md where these leave a choice. It shares nothing with the program.

`tree_of` reads an expression, `Types.resource` the JSON of a resource, and `answer` tells what a tree gives at an item: true, false, empty, several, fault.
A value of a collection is an `Item` of a resource, or a plain one: a bool, a Decimal or a str, as literals, `count()` and operators give them.
"""

import datetime
import decimal
import json
import re
import typing

NUMBER = decimal.Decimal


class Unread(Exception):
    """A text is no expression, or has what docs/USAGE.md doesn't list ("What is read of a profile")."""


class Fault(Exception):
    """An expression has no value: the evaluator signals an error."""


# ---- Grammar (section 12), Lexical Elements (section 8): the words of an expression


class Word(typing.NamedTuple):
    """A word: its kind, its text as it is written, and what it says."""

    kind: str
    text: str
    says: object = None


WORDS = re.compile(
    r"""(?P<blank> [ \t\r\n]+ | //[^\r\n]* | /\*(?s:.*?)\*/ )
      | (?P<number> [0-9]+(?:\.[0-9]+)? )
      | (?P<text> '(?:[^'\\]|\\(?s:.))*' )
      | (?P<quoted> `[^`]*` )
      | (?P<name> [A-Za-z_][A-Za-z0-9_]* )
      | (?P<variable> [$%][A-Za-z_][A-Za-z0-9_]* )
      | (?P<sign> \{\} | <= | >= | != | [.,()\[\]|<>=] )""",
    re.VERBOSE,
)
# 8.6: words of the grammar that are no identifiers. `as`, `contains`, `in` and `is` are both.
RESERVED = {"and", "or", "xor", "implies", "div", "mod", "true", "false"}
ESCAPES = {"'": "'", '"': '"', "`": "`", "\\": "\\", "/": "/", "f": "\f", "n": "\n", "r": "\r", "t": "\t"}


def words_of(text):
    """The words of a text, without blanks and comments, and a last one of the kind `end`."""
    words, place = [], 0
    while place < len(text):
        found = WORDS.match(text, place)
        if not found:
            raise Unread(f"no word begins with {text[place : place + 9]!r}")
        place = found.end()
        if found.lastgroup != "blank":
            words.append(word_of(found.lastgroup, found[0]))
    return [*words, Word("end", "")]


def word_of(kind, text):
    if kind == "number":
        return Word("literal", text, NUMBER(text))
    if kind == "text":
        return Word("literal", text, unescaped(text[1:-1]))
    if kind == "quoted":
        return Word("identifier", text, text[1:-1])
    if kind == "name" and text in ("true", "false"):
        return Word("literal", text, text == "true")
    if kind == "name":
        return Word("sign" if text in RESERVED else "identifier", text, text)
    if kind == "variable" and text not in ("$this", "%resource", "%context"):
        raise Unread(f"the variable {text}")
    return Word(kind, text)


def unescaped(text):
    """4.1.2: the text that stands between the quotes of a string, its escapes spelled out. Two surrogates are one character, and one alone is none."""

    def spelled(found):
        sign = found[0][1:]
        if sign in ESCAPES:
            return ESCAPES[sign]
        if not re.fullmatch("u[0-9a-fA-F]{4}", sign):
            raise Unread(f"the escape {found[0]}")
        return chr(int(sign[1:], 16))

    said = re.sub(r"\\(?:u[0-9a-fA-F]{4}|(?s:.))", spelled, text)
    try:
        return said.encode("utf-16-le", "surrogatepass").decode("utf-16-le")
    except UnicodeDecodeError as error:
        raise Unread("a surrogate alone") from error


# ---- Operator Precedence (6.8) and the grammar: the tree of an expression


class Tree(typing.NamedTuple):
    """A part of an expression: its form, what it names, and its own parts. The forms: literal, empty, variable, name, call, index, operator, is, as."""

    form: str
    says: object = None
    parts: tuple = ()


# From the loosest to the tightest. Those of one row are joined from the left. Behind `|` come `is` and `as`, and then `.` and `[]`.
ROWS = (("implies",), ("or", "xor"), ("and",), ("in", "contains"), ("=", "!="), ("<", "<=", ">", ">="), ("|",))
# The number of arguments that each function may have.
FUNCTIONS = {
    "where": (1,), "exists": (0, 1), "all": (1,), "empty": (0,), "count": (0,), "first": (0,), "children": (0,), "descendants": (0,), "hasValue": (0,),
    "not": (0,), "ofType": (1,), "intersect": (1,),
}  # fmt: skip
# Types are FHIR's, and these are names of FHIRPath's own (docs/DECISIONS.md, "FHIRPath").
OWN_TYPES = ("String", "Boolean", "Integer", "Decimal", "Date", "DateTime", "Time")


class Reader:
    """Reads the words of an expression from left to right."""

    def __init__(self, words):
        self.words, self.place = words, 0

    def next(self):
        return self.words[self.place]

    def take(self):
        self.place += 1
        return self.words[self.place - 1]

    def takes(self, *texts):
        """Takes the next word where it is one of these, and not a string or a name in backquotes."""
        word = self.next()
        return self.take() if word.text in texts and word.kind != "end" else None

    def need(self, text):
        if not self.takes(text):
            raise Unread(f"{text} was expected, and not {self.next().text}")

    def whole(self):
        tree = self.expression()
        if self.next().kind != "end":
            raise Unread(f"{self.next().text} goes on")
        return tree

    def expression(self, row=0):
        """An expression whose operators stand in this row or one below it."""
        if row == len(ROWS):
            return self.typed()
        tree = self.expression(row + 1)
        while word := self.takes(*ROWS[row]):
            tree = Tree("operator", word.text, (tree, self.expression(row + 1)))
        return tree

    def typed(self):
        tree = self.path()
        while word := self.takes("is", "as"):
            tree = Tree(word.text, self.type_name(), (tree,))
        return tree

    def path(self):
        tree = self.term()
        while word := self.takes(".", "["):
            if word.text == ".":
                tree = self.invocation(tree)
            else:
                tree = Tree("index", None, (tree, self.expression()))
                self.need("]")
        return tree

    def term(self):
        word = self.next()
        if word.kind == "identifier":
            return self.invocation(None)
        self.take()
        if word.kind == "literal":
            return Tree("literal", word.says)
        if word.kind == "variable":
            return Tree("variable", word.text)
        if word.text == "{}":
            return Tree("empty")
        if word.text != "(":
            raise Unread(f"no expression begins with {word.text}")
        tree = self.expression()
        self.need(")")
        return tree

    def identifier(self):
        word = self.take()
        if word.kind != "identifier":
            raise Unread(f"{word.text} is no name")
        return word.says

    def invocation(self, focus):
        """A name or a function, behind a dot or at the start of a path."""
        name, focus = self.identifier(), (focus,) if focus else ()
        if not self.takes("("):
            return Tree("name", name, focus)
        given = self.arguments(name)
        if len(given) not in FUNCTIONS.get(name, ()):
            raise Unread(f"the function {name} of {len(given)}")
        return Tree("call", (name, bool(focus)), (*focus, *given))

    def arguments(self, name):
        if self.takes(")"):
            return []
        given = [self.type_name() if name == "ofType" else self.expression()]
        while self.takes(","):
            given.append(self.expression())
        self.need(")")
        return given

    def type_name(self):
        name = self.identifier()
        if name == "FHIR" and self.takes("."):
            return self.identifier()
        if name in OWN_TYPES or self.next().text == ".":
            raise Unread(f"the type {name}")
        return name


def tree_of(expression):
    """The tree of an expression, or Unread."""
    return Reader(words_of(expression)).whole()


# ---- FHIR R4, json.html: the items of a resource


class Item:
    """A value of a resource: its type, its JSON where it is a primitive that has a value, the items below it by the names of elements, and its place."""

    def __init__(self, type_code, place, above):
        self.type, self.place, self.above = type_code, place, above
        self.value, self.children, self.is_primitive, self.is_resource = None, {}, False, False

    def all_children(self):
        return [it for items in self.children.values() for it in items]

    def descendants(self):
        """5.8.2: each child, and then its own descendants."""
        return [found for child in self.all_children() for found in (child, *child.descendants())]

    def resource(self):
        """The nearest resource at or around the item (docs/DECISIONS.md, "Conformance and validation")."""
        return self if self.is_resource else self.above.resource()


class Types:
    """The definitions of types, as a resource is read by them. The resource has to be one by them: nothing is checked."""

    def __init__(self, definitions):
        self.by_name = {it["type"]: it for it in definitions}
        self.elements = {}
        for it in definitions:
            for element in it["snapshot"]["element"]:
                above, _, name = element["id"].rpartition(".")
                self.elements.setdefault(above, []).append((name, element))

    def bases(self, name):
        """A type and those that it is a specialization of."""
        while name in self.by_name:
            yield name
            name = self.by_name[name].get("baseDefinition", "").rpartition("/")[2]

    def kind(self, name):
        return self.by_name[name]["kind"] if name in self.by_name else "system"

    def resource(self, text):
        return self.resource_item(json.loads(text, parse_int=NUMBER, parse_float=NUMBER), None, None)

    def resource_item(self, said, place, above):
        name = said["resourceType"]
        item = Item(name, place or name, above)
        item.is_resource = True
        self.fill(item, name, said)
        return item

    def fill(self, item, node, said):
        """The children that an object has by the elements below a node, in the order of the type."""
        for name, element in self.elements.get(node, []):
            codes = self.codes_of(element)
            for code in codes:
                property = name.replace("[x]", code[0].upper() + code[1:]) if name.endswith("[x]") else name
                for it in self.items_at(item, name.replace("[x]", ""), property, element, code, said):
                    item.children.setdefault(name.replace("[x]", ""), []).append(it)

    def codes_of(self, element):
        if "contentReference" in element:
            return self.codes_of(self.element_at(element["contentReference"][1:]))
        return [it["code"] for it in element["type"]]

    def element_at(self, id):
        above, _, name = id.rpartition(".")
        return dict(self.elements[above])[name]

    def items_at(self, above, name, property, element, code, said):
        values, companions = said.get(property), said.get(f"_{property}")
        is_list = element["max"] == "*"
        if not is_list:
            values, companions = (None if it is None else [it] for it in (values, companions))
        if self.kind(code) not in ("primitive-type", "system"):
            companions = None
        length = len(values or companions or [])
        for i, (value, companion) in enumerate(zip(values or [None] * length, companions or [None] * length)):
            place = f"{above.place}.{name}[{i}]" if is_list else f"{above.place}.{name}"
            yield self.item(value, companion, place, element, code, above)

    def item(self, value, companion, place, element, code, above):
        kind = self.kind(code)
        if kind == "resource":
            return self.resource_item(value, place, above)
        item = Item(code, place, above)
        if kind == "complex-type":
            id = element.get("contentReference", "#" + element["id"])[1:]
            self.fill(item, id if id in self.elements else code, value)
        else:
            item.value, item.is_primitive = value, True
            self.fill(item, "Element", companion or {})
        return item


# ---- what a value says (sections 3 and 5.5; FHIR R4, fhirpath.html, "Type Conversions")


class Moment(typing.NamedTuple):
    """A date or a moment as its parts: year, month, day, hour, minute and second, as far as they are given. One with a time is in UTC."""

    parts: tuple


class Hour(typing.NamedTuple):
    """A time of day as its parts: hour, minute, second."""

    parts: tuple


def plain(value):
    """What a value says: of an item of a primitive type its value, if it has one. An item of another type says nothing by itself."""
    if not isinstance(value, Item):
        return value
    if isinstance(value.value, str) and value.type in ("date", "dateTime", "instant"):
        return moment_of(value.value)
    if isinstance(value.value, str) and value.type == "time":
        return Hour(hour_parts(value.value))
    return value.value


def hour_parts(text):
    hour, minute, second = text.split(":")
    return int(hour), int(minute), NUMBER(second)


def moment_of(text):
    day, _, time = text.partition("T")
    parts = tuple(int(it) for it in day.split("-"))
    if not time:
        return Moment(parts)
    clock, sign, offset = re.fullmatch(r"([0-9:.]+)(Z|[+-])(.*)", time).groups()
    hour, minute, second = hour_parts(clock)
    minutes = hour * 60 + minute
    if sign != "Z":
        ahead = int(offset[:2]) * 60 + int(offset[3:])
        minutes += ahead if sign == "-" else -ahead
    return Moment((*day_after(parts, minutes // 1440), minutes % 1440 // 60, minutes % 60, second))


def day_after(parts, days):
    """The day that is so many days later. The years 0 and 10000 may come (docs/DECISIONS.md, "Values of primitive types")."""
    number = datetime.date(*parts).toordinal() + days
    if number < 1:
        return 0, 12, 31 + number
    if number > datetime.date.max.toordinal():
        return 10000, 1, number - datetime.date.max.toordinal()
    day = datetime.date.fromordinal(number)
    return day.year, day.month, day.day


# ---- Equality (6.1) of values and collections: true, false, or None where it is undecided


def all_of(truths):
    """6.5.1, over several: one that is false makes all false, else one that is undecided leaves them so."""
    truths = list(truths)
    return False if False in truths else None if None in truths else True


def first_difference(one, other):
    """6.2: the first part in which they differ decides. None where one of them has no such part."""
    for part, other_part in zip(one, other):
        if part != other_part:
            return -1 if part < other_part else 1
    return 0 if len(one) == len(other) else None


def alike(one, other):
    """Whether two values are equal: by what they say, or by their types and children where they say nothing."""
    said, other_said = plain(one), plain(other)
    if said is not None and other_said is not None:
        if isinstance(said, Moment) and isinstance(other_said, Moment):
            found = first_difference(said.parts, other_said.parts)
            return None if found is None else found == 0
        return type(said) is type(other_said) and said == other_said
    if said is not None or other_said is not None or one.type != other.type:
        return False
    names = {*one.children, *other.children}
    return all_of(in_turn(one.children.get(name, []), other.children.get(name, [])) for name in sorted(names))


def in_turn(left, right):
    """Whether two lists are as long, and equal one after another."""
    return len(left) == len(right) and all_of(map(alike, left, right))


def equal(left, right):
    return in_turn(left, right) if left and right else None


def is_among(value, values):
    return any(alike(value, it) is True for it in values)


def each_once(values):
    """5.4.1: each value once, where it stands first."""
    found = []
    for it in values:
        if not is_among(it, found):
            found.append(it)
    return found


# ---- the truth that a collection is (4.5), and operators on truths (6.5)


def truth(values):
    """4.5: of one value that is a boolean its value, and true of any other. None of nothing."""
    if len(values) > 1:
        raise Fault("several values for a truth")
    if not values:
        return None
    said = plain(values[0])
    return said if isinstance(said, bool) else True


def values_of(truth_value):
    """A truth as a collection."""
    return [] if truth_value is None else [truth_value]


def negation(one):
    return None if one is None else not one


def conjunction(one, other):
    return all_of((one, other))


def disjunction(one, other):
    return negation(conjunction(negation(one), negation(other)))


def exclusion(one, other):
    return None if one is None or other is None else one != other


def implication(one, other):
    return disjunction(negation(one), other)


LOGIC = {"and": conjunction, "or": disjunction, "xor": exclusion, "implies": implication}


# ---- a whole expression at an item


def answer(tree, item, types):
    """What an expression gives at an item, as a constraint tells it."""
    try:
        values = Evaluator(item, types).values(tree, item)
        return "several" if len(values) > 1 else {True: "true", False: "false", None: "empty"}[truth(values)]
    except Fault:
        return "fault"


def only(values):
    """The one value that is wanted, or nothing."""
    if len(values) > 1:
        raise Fault("several values where one is wanted")
    return values[0] if values else None


class Evaluator:
    """Evaluates expressions at one item, which is `%context`."""

    def __init__(self, context, types):
        self.context, self.types = context, types
        self.variables = {"%context": context, "%resource": context.resource()}

    def values(self, tree, this):
        """What a tree gives where `$this` is a value. Each part of it is evaluated, also where that changes nothing (docs/DECISIONS.md)."""
        return getattr(self, f"of_{tree.form}")(tree, this)

    def of_literal(self, tree, _):
        return [tree.says]

    def of_empty(self, _tree, _this):
        return []

    def of_variable(self, tree, this):
        return [this if tree.says == "$this" else self.variables[tree.says]]

    def of_name(self, tree, this):
        """3: children by their name. At the start of a path the name of the focus's type, or of a base of it, is the focus."""
        if tree.parts:
            return self.children(self.values(tree.parts[0], this), tree.says)
        if isinstance(this, Item) and tree.says in self.types.bases(this.type):
            return [this]
        return self.children([this], tree.says)

    def children(self, values, name):
        return [child for it in values if isinstance(it, Item) for child in it.children.get(name, [])]

    def of_index(self, tree, this):
        """5.3.1: the value at a place, counted from 0."""
        values, place = (self.values(it, this) for it in tree.parts)
        place = only(place)
        if place is None:
            return []
        said = plain(place)
        if not isinstance(said, NUMBER) or said != said.to_integral_value():
            raise Fault("an index that is no whole number")
        return [values[int(said)]] if 0 <= said < len(values) else []

    def is_of(self, value, name):
        """Whether a value is of a type, or of one that is a specialization of it. A plain value is of none of FHIR's."""
        return isinstance(value, Item) and name in self.types.bases(value.type)

    def of_is(self, tree, this):
        """6.3.1"""
        value = only(self.values(tree.parts[0], this))
        return [] if value is None else [self.is_of(value, tree.says)]

    def of_as(self, tree, this):
        """6.3.3"""
        value = only(self.values(tree.parts[0], this))
        return [value] if value is not None and self.is_of(value, tree.says) else []

    def of_operator(self, tree, this):
        left, right = (self.values(it, this) for it in tree.parts)
        if tree.says in LOGIC:
            return values_of(LOGIC[tree.says](truth(left), truth(right)))
        if tree.says == "=":
            return values_of(equal(left, right))
        if tree.says == "!=":
            return values_of(negation(equal(left, right)))
        if tree.says == "|":
            return each_once([*left, *right])
        if tree.says == "in":
            return membership(left, right)
        if tree.says == "contains":
            return membership(right, left)
        return values_of(self.comparison(tree.says, left, right))

    # -- Comparison (6.2)

    def comparison(self, sign, left, right):
        if not left or not right:
            return None
        found = self.order(only(left), only(right))
        return None if found is None else {"<": found < 0, "<=": found <= 0, ">": found > 0, ">=": found >= 0}[sign]

    def order(self, one, other):
        """-1, 0 or 1 where the one is before the other, equal or behind it. None where they have no order."""
        said, other_said = plain(one), plain(other)
        if self.is_of(one, "Quantity") and self.is_of(other, "Quantity"):
            return self.quantity_order(one, other)
        for kind in (NUMBER, str):
            if isinstance(said, kind) and isinstance(other_said, kind):
                return (said > other_said) - (said < other_said)
        if isinstance(said, (Moment, Hour)) and isinstance(other_said, (Moment, Hour)):
            return first_difference(said.parts, other_said.parts) if type(said) is type(other_said) else None
        raise Fault("an order of values of two kinds, or of one that has none")

    def quantity_order(self, one, other):
        """By `value`, where `system`, `code` and `unit` are equal or both absent (docs/DECISIONS.md). The comparator isn't looked at. A quantity without a
        value has no order: of this the documents say nothing, and the program was followed."""
        for name in ("system", "code", "unit"):
            if in_turn(one.children.get(name, []), other.children.get(name, [])) is not True:
                return None
        said = [plain(value) for it in (one, other) for value in it.children.get("value", [])]
        return first_difference(said[:1], said[1:]) if len(said) == 2 and None not in said else None

    # -- functions (5; FHIR R4, fhirpath.html)

    def of_call(self, tree, this):
        name, is_behind_dot = tree.says
        values = self.values(tree.parts[0], this) if is_behind_dot else [this]
        given = tree.parts[1:] if is_behind_dot else tree.parts
        if name in ("where", "all", "exists") and given:
            truths = [truth(self.values(given[0], it)) for it in values]
            return self.filtered(name, values, truths)
        if name == "ofType":
            return [it for it in values if self.is_of(it, given[0])]
        if name == "intersect":
            other = self.values(given[0], this)
            return each_once(it for it in values if is_among(it, other))
        return getattr(self, f"{name}_of")(values)

    def filtered(self, name, values, truths):
        """5.2.1, 5.1.3 and 5.1.2 with a criterion, which holds where it is true."""
        if name == "where":
            return [it for it, holds in zip(values, truths) if holds]
        return [all(truths) if name == "all" else any(truths)]

    def exists_of(self, values):
        return [bool(values)]

    def empty_of(self, values):
        return [not values]

    def count_of(self, values):
        return [NUMBER(len(values))]

    def first_of(self, values):
        return values[:1]

    def children_of(self, values):
        return [child for it in values if isinstance(it, Item) for child in it.all_children()]

    def descendants_of(self, values):
        return [found for it in values if isinstance(it, Item) for found in it.descendants()]

    def not_of(self, values):
        return values_of(negation(truth(values)))

    def hasValue_of(self, values):
        """FHIR R4: one item of a primitive type that has a value."""
        return [len(values) == 1 and isinstance(values[0], Item) and values[0].value is not None]


def membership(left, right):
    """6.4.2"""
    value = only(left)
    return [] if value is None else [is_among(value, right)]
