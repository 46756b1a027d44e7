"""Made expressions of FHIRPath for tests/evaluated: trees by a grammar that knows types, and how a tree is spelled.

The trees are those of tests/fhirpath_model.py. A tree is spelled with no more parentheses than the precedence of operators (FHIRPath N1, 6.8) asks for, so
that the model has to read the same tree again. Some expressions are spoilt: a word is left out, doubled or changed, or a part is put in that isn't read.
"""

import typing

import evaluated_resources
from fhirpath_model import NUMBER, RESERVED, ROWS, Tree

SYSTEM_TEXT = "http://hl7.org/fhirpath/System.String"
KINDS = {
    "truth": ("boolean", "#truth"),
    "number": ("integer", "unsignedInt", "positiveInt", "decimal", "#number"),
    "text": ("string", "markdown", "code", "id", "uri", "url", "canonical", "oid", "uuid", "base64Binary", SYSTEM_TEXT, "#text"),
    "moment": ("date", "dateTime", "instant"),
    "hour": ("time",),
    "quantity": ("Quantity", "Age"),
}
KIND_OF = {node: kind for kind, nodes in KINDS.items() for node in nodes}
NUMBERS = ["0", "1", "2", "3", "10", "1.0", "1.5", "0.1", "2.5", "12345678901234567890.1"]
# Names that no path goes on through: they are gone to one step deep, and seldom.
DULL = {"modifierExtension", "meta", "language", "id", "extension"}
OTHER_TYPES = ["string", "integer", "code", "Element", "Resource", "DomainResource", "Quantity", "Nope", "strng", "uri", "BackboneElement", "Thing", "FHIR"]
STEPS = 3


class Way(typing.NamedTuple):
    """A path from a node: its names, the nodes that it leads to, and whether there may be several items."""

    names: tuple
    nodes: tuple
    is_many: bool


class Made(typing.NamedTuple):
    """A tree, the nodes that its values are of, and whether it may give several."""

    tree: Tree
    nodes: tuple
    is_many: bool


# ---- trees


def literal(value):
    return Tree("literal", value)


def named(name, focus=None):
    return Tree("name", name, (focus,) if focus else ())


def call(name, focus, *given):
    return Tree("call", (name, bool(focus)), (focus, *given) if focus else given)


def at(focus, place):
    return Tree("index", None, (focus, place if isinstance(place, Tree) else literal(NUMBER(place))))


def joined(sign, left, right):
    return Tree("operator", sign, (left, right))


THIS = Tree("variable", "$this")


# ---- the nodes of the types


class Schema:
    """The nodes of the types: names of types, ids of elements with children of their own, and `#truth`, `#number` and `#text` for plain values."""

    def __init__(self, types):
        self.types, self.found = types, {}

    def nodes_of(self, element):
        if "contentReference" in element:
            return (element["contentReference"][1:],)
        codes = self.types.codes_of(element)
        if codes == ["BackboneElement"]:
            return (element["id"],)
        return ("Made", "Other") if codes == ["Resource"] else tuple(codes)

    def steps(self, node):
        return [(name.replace("[x]", ""), self.nodes_of(element), element["max"] == "*") for name, element in self.types.elements.get(node, [])]

    def type_of(self, node):
        """The name of a node's type."""
        return "BackboneElement" if "." in node and node != SYSTEM_TEXT else node

    def ways(self, nodes, goal, length):
        """The ways of a length from some nodes to a node, or to one of a kind; to any where there is no goal."""
        return [way for node in nodes for way in self.index(node).get((goal, length), [])]

    def index(self, node):
        if node not in self.found:
            found = self.found[node] = {}
            for way in self.ways_from(node, STEPS):
                for goal in {None, *way.nodes, *(KIND_OF.get(it) for it in way.nodes)}:
                    found.setdefault((goal, len(way.names)), []).append(way)
        return self.found[node]

    def ways_from(self, node, steps):
        for name, nodes, is_many in self.steps(node) if steps else []:
            yield Way((name,), nodes, is_many)
            seen = set()
            for further in nodes if name not in DULL else ():
                for way in self.ways_from(further, min(steps, 2) - 1 if name == "contained" else steps - 1):
                    if way.names not in seen:
                        seen.add(way.names)
                        yield Way((name, *way.names), way.nodes, is_many or way.is_many)


def is_of_kind(nodes, kind):
    return kind is None or any(KIND_OF.get(it) == kind for it in nodes)


# ---- the grammar


class Maker:
    """Makes expressions for items of some nodes, in resources of the type Made. `this` are the nodes of what `$this` is."""

    def __init__(self, draw, schema, focus):
        self.draw, self.schema, self.focus = draw, schema, focus
        self.sloppy = draw.choice((0.02, 0.06, 0.2))

    def happens(self, share):
        return self.draw.random() < share

    def one_of(self, weighted):
        """Calls one of the functions, which stand beside their weights."""
        functions, weights = zip(*((function, weight) for function, weight in weighted if weight))
        return self.draw.choices(functions, weights)[0]()

    def kind(self):
        return self.draw.choice(("truth", "number", "number", "text", "text", "moment", "moment", "hour", "quantity"))

    # -- what gives a truth

    def truth(self, this, depth):
        deep = 1 if depth > 0 else 0
        return self.one_of([
            (lambda: self.logic(this, depth), 3.2 * deep),
            (lambda: call("not", self.truth(this, depth - 1)), 0.8 * deep),
            (lambda: call(self.draw.choice(("exists", "empty")), self.some(this, depth)), 1),
            (lambda: self.asked_of_each(this, depth), 3 * deep),
            (lambda: self.chain(this), 2 * deep),
            (lambda: self.duel(this), 3),
            (lambda: self.comparison(this, depth), 3),
            (lambda: self.equality(this, depth), 2.5),
            (lambda: self.membership(this, depth), 1.8),
            (lambda: self.type_test(this, depth), 1.3),
            (lambda: call("hasValue", self.collection(self.kind(), this, depth - 1).tree), 0.7),
            (lambda: self.single("truth", this, depth).tree, 0.6),
            (lambda: literal(self.happens(0.5)), 0.3),
            (lambda: self.some(this, depth), 0.25),
            (lambda: self.single(None, this, depth).tree, 0.3),
            (lambda: Tree("empty"), 0.15),
            (lambda: self.of_the_focus(this), 0.4),
        ])  # fmt: skip

    def of_the_focus(self, this):
        """A function or a type at the start of a path."""
        node = self.own_type(this)
        functions = [call(it, None) for it in ("exists", "empty", "hasValue")] + [joined(">", call("count", call("children", None)), literal(NUMBER(1)))]
        start = self.draw.choice((None, None, THIS, Tree("variable", "%resource")))
        return self.draw.choice([*functions, *[call(self.draw.choice(("exists", "count")), named(self.draw.choice([node, "Element", "Resource"]), start))] * 3])

    def own_type(self, this):
        """The name of a type of the focus, for the start of a path."""
        return self.draw.choice([self.schema.type_of(it) for it in this if not it.startswith("#") and it != SYSTEM_TEXT] or ["Element"])

    def logic(self, this, depth):
        sign = self.draw.choice(("and", "or", "xor", "implies"))
        return joined(sign, self.truth(this, depth - 1), self.truth(this, depth - 1))

    def duel(self, this):
        """Two values of one kind that stand directly in the resource, held against each other."""
        kind = self.draw.choice(("moment", "moment", "hour", "text", "number", "quantity", "quantity", "truth", "part", "HumanName", "Coding", "Reference"))
        goals = ("Made.parts", "Made.others", "Made.part") if kind == "part" else (kind,)
        start = None if "Made" in this and self.happens(0.8) else Tree("variable", "%resource")
        ways = [way for goal in goals for way in self.schema.ways(("Made",), goal, 1)]
        one, other = (Made(named(self.draw.choice(ways).names[0], start), (), True) for _ in range(2))
        if self.happens(0.15):
            return joined("in", self.cut(one).tree, other.tree)
        signs = ("=", "=", "!=") if kind in ("part", "HumanName", "Coding", "Reference") else ("<", "<=", ">", ">=", "=", "!=")
        sides = [at(it.tree, self.draw.choice((0, 0, 1, 1, 2, 3))) if self.happens(0.9) else it.tree for it in (one, other)]
        if kind == "text" and self.happens(0.3):
            sides[0] = literal(self.draw.choice(evaluated_resources.TEXTS))
        return joined(self.draw.choice(signs), *sides)

    def chain(self, this):
        """Small truths, joined by operators of several rows."""
        tree = self.small(this)
        for _ in range(self.draw.choice((2, 3, 3, 4))):
            sides = [tree, self.small(this)]
            self.draw.shuffle(sides)
            tree = joined(self.draw.choice(("in", "contains", "=", "!=", *("and", "or", "xor", "implies") * 2)), *sides)
        return tree

    def small(self, this):
        """A truth that is short, and seldom empty."""
        one, other = (literal(NUMBER(self.draw.choice("0123"))) for _ in range(2))
        same = joined("|", one, one)
        return self.one_of([
            (lambda: literal(self.happens(0.5)), 2),
            (lambda: call(self.draw.choice(("exists", "empty")), self.path(None, this, 0).tree), 2),
            (lambda: joined(self.draw.choice(("<", "<=", ">", ">=")), *self.draw.choice(((same, other), (other, same), (one, other)))), 2),
            (lambda: joined("|", literal(False), Tree("is", self.type_name(this), (THIS,))), 0.7),
            (lambda: Tree("is", "boolean", (Tree("is", self.type_name(this), (THIS,)),)), 0.4),
            (lambda: Tree("empty"), 0.3),
        ])  # fmt: skip

    def asked_of_each(self, this, depth):
        made = self.collection(None, this, depth - 1)
        return call(self.draw.choice(("exists", "all", "all")), made.tree, self.truth(made.nodes, depth - 1))

    def comparison(self, this, depth):
        kind = self.kind()
        kind = "number" if kind == "truth" else kind
        other = self.kind() if self.happens(self.sloppy) else kind
        sides = self.single(kind, this, depth - 1).tree, self.single(other, this, depth - 1).tree
        return joined(self.draw.choice(("<", "<=", ">", ">=")), *sides)

    def equality(self, this, depth):
        kind = self.kind() if self.happens(0.75) else None
        left = self.collection(kind, this, depth - 1)
        if self.happens(0.5):
            left = self.cut(left)
        if kind is None:
            right = self.like(left, this, depth)
        else:
            right = self.single(kind, this, depth - 1) if self.happens(0.6) else self.collection(kind, this, depth - 1)
        return joined(self.draw.choice(("=", "=", "!=")), left.tree, right.tree)

    def like(self, made, this, depth):
        """Another collection with values of the same nodes, if there is one."""
        way = made.nodes and self.way(this, self.draw.choice(made.nodes))
        if not way:
            return self.collection(None, this, depth - 1)
        found = self.walk(way, this, 0)
        return found if made.is_many else self.cut(found)

    def membership(self, this, depth):
        kind = self.kind() if self.happens(0.8) else None
        many = self.collection(kind, this, depth - 1)
        one = self.single(kind, this, depth - 1) if kind else self.cut(self.like(many, this, depth))
        return joined("in", one.tree, many.tree) if self.happens(0.5) else joined("contains", many.tree, one.tree)

    def type_test(self, this, depth):
        made = self.single(None if self.happens(0.8) else self.draw.choice(("truth", "number", "text")), this, depth - 1)
        if made.tree.form == "literal" or "#number" in made.nodes:
            return Tree("is", self.draw.choice(("boolean", "integer", "decimal", "string")), (made.tree,))
        return Tree("is", self.type_name(made.nodes), (made.tree,))

    def type_name(self, nodes):
        """The name of a type of some node, or of a base of it, or another one."""
        known = [base for node in nodes for base in self.schema.types.bases(self.schema.type_of(node))]
        return self.draw.choice(known) if known and self.happens(0.75) else self.draw.choice(OTHER_TYPES)

    # -- what gives a collection

    def some(self, this, depth):
        return self.collection(None, this, depth - 1).tree

    def single(self, kind, this, depth):
        made = self.collection(kind, this, depth)
        return made if self.happens(self.sloppy) else self.cut(made)

    def cut(self, made):
        """At most one value of a collection."""
        if not made.is_many:
            return made
        place = self.draw.choice((0, 0, 1, 1, 2, 3))
        return Made(call("first", made.tree) if self.happens(0.4) else at(made.tree, place), made.nodes, False)

    def collection(self, kind, this, depth):
        deep, plain = (1 if depth > 0 else 0), (1 if kind in ("truth", "number", "text") else 0)
        return self.one_of([
            (lambda: self.path(kind, this, depth), 6),
            (lambda: self.whole_focus(kind, this, depth), 1.2),
            (lambda: self.of_variable(kind, depth), 1.3),
            (lambda: self.filtered(kind, this, depth), 1.6 * deep),
            (lambda: self.united(kind, this, depth), 1.1 * deep),
            (lambda: self.shared(kind, this, depth), 0.5 * deep),
            (lambda: self.narrowed(kind, this, depth), 0.9 * deep),
            (lambda: self.below(kind, this), 0.6),
            (lambda: self.indexed(kind, this, depth), 0.9 * deep),
            (lambda: self.literal(kind), 1.6 * plain),
            (lambda: self.counted(this, depth), 0.8 * deep * (kind == "number")),
            (lambda: Made(self.truth(this, depth - 1), ("#truth",), False), 0.8 * deep * (kind == "truth")),
            (lambda: Made(Tree("empty"), (), False), 0.08),
        ])  # fmt: skip

    def literal(self, kind):
        value = {"truth": self.happens(0.5), "number": NUMBER(self.draw.choice(NUMBERS)), "text": self.draw.choice(evaluated_resources.TEXTS[:7])}[kind]
        return Made(literal(value), (f"#{kind}",), False)

    def counted(self, this, depth):
        return Made(call("count", self.some(this, depth)), ("#number",), False)

    def path(self, kind, this, depth, start=None):
        way = self.way(this, kind)
        return self.fitted(self.walk(way, this, depth, start), kind) if way else self.away(kind, this, depth)

    def way(self, this, goal):
        """A way from some nodes to a goal, rather a short one, if there is any."""
        for length in self.draw.choices(((1, 2, 3), (2, 1, 3), (3, 2, 1)), (6, 4, 2))[0]:
            if ways := self.schema.ways(this, goal, length):
                return self.draw.choice(ways)
        return None

    def away(self, kind, this, depth):
        """What stands in for a path where no way leads from the focus."""
        if kind in ("truth", "number", "text") and self.happens(0.6):
            return self.literal(kind)
        return self.of_variable(kind, depth) if "Made" not in this else Made(Tree("empty"), (), False)

    def fitted(self, made, kind):
        """Of a choice often those values alone that are of the kind."""
        fitting = [it for it in made.nodes if KIND_OF.get(it) == kind]
        if kind is None or len(made.nodes) == len(fitting) or self.happens(0.35):
            return made
        node = self.draw.choice(fitting)
        if made.is_many or self.happens(0.5):
            return Made(call("ofType", made.tree, self.schema.type_of(node)), (node,), made.is_many)
        return Made(Tree("as", self.schema.type_of(node), (made.tree,)), (node,), False)

    def walk(self, way, this, depth, start=None):
        """The steps of a way, some of them cut or filtered."""
        if not start and self.happens(0.15):
            start = self.draw.choice((THIS, named(self.own_type(this))))
        tree, nodes, is_many = start, this, False
        for name in way.names:
            tree = named(name, tree)
            steps = [(step[1], step[2]) for node in nodes for step in self.schema.steps(node) if step[0] == name]
            nodes = tuple(dict.fromkeys(node for found, _ in steps for node in found))
            is_many = is_many or any(many for _, many in steps)
            if is_many and len(way.names) > 1 and self.happens(0.2):
                tree, nodes, is_many = self.cut(Made(tree, nodes, True))
            elif is_many and depth > 1 and self.happens(0.12):
                tree = call("where", tree, self.truth(nodes, depth - 2))
        return Made(tree, nodes, is_many)

    def whole_focus(self, kind, this, depth):
        if is_of_kind(this, kind):
            return self.fitted(Made(THIS, this, False), kind)
        return self.path(kind, this, depth)

    def of_variable(self, kind, depth):
        variable = Tree("variable", self.draw.choice(("%resource", "%context")))
        nodes = ("Made",) if variable.says == "%resource" else self.focus
        if is_of_kind(nodes, kind) and self.happens(0.4):
            return self.fitted(Made(variable, nodes, False), kind)
        if not self.way(nodes, kind):
            variable, nodes = Tree("variable", "%resource"), ("Made",)
        return self.path(kind, nodes, depth, variable)

    def filtered(self, kind, this, depth):
        made = self.collection(kind, this, depth - 1)
        return Made(call("where", made.tree, self.truth(made.nodes, depth - 1)), made.nodes, made.is_many)

    def united(self, kind, this, depth):
        left, right = (self.collection(kind, this, depth - 1) for _ in range(2))
        return Made(joined("|", left.tree, right.tree), (*left.nodes, *right.nodes), True)

    def shared(self, kind, this, depth):
        left, right = (self.collection(kind, this, depth - 1) for _ in range(2))
        return Made(call("intersect", left.tree, right.tree), left.nodes, True)

    def narrowed(self, kind, this, depth):
        made = self.collection(kind, this, depth - 1)
        nodes = [it for it in made.nodes if not it.startswith("#") and is_of_kind((it,), kind)]
        if not nodes:
            return made
        name = self.type_name([self.draw.choice(nodes)])
        if made.is_many or self.happens(0.5):
            return Made(call("ofType", made.tree, name), made.nodes, made.is_many)
        return Made(Tree("as", name, (made.tree,)), made.nodes, False)

    def below(self, kind, this):
        """Children or descendants of the focus, of one type where a kind is wanted."""
        tree = call(self.draw.choice(("children", "children", "descendants")), self.draw.choice((None, THIS, Tree("variable", "%context"))))
        nodes = KINDS[kind] if kind else ("string", "code", "Extension", "Made.parts", "Coding", "Quantity", "date", "HumanName")
        nodes = [it for it in nodes if not it.startswith("#") and it != SYSTEM_TEXT]
        if kind is None and self.happens(0.4):
            return Made(tree, tuple(nodes), True)
        node = self.draw.choice(nodes)
        return Made(call("ofType", tree, self.schema.type_of(node)), (node,), True)

    def indexed(self, kind, this, depth):
        """An index that is computed."""
        made = self.collection(kind, this, depth - 1)
        return Made(at(made.tree, self.single("number", this, depth - 2).tree), made.nodes, False)

    # -- expressions that ask what others give

    def for_pinned(self, this):
        """A collection of which much may be asked: children, what a collection shares with itself or another one, or any."""
        share = self.draw.random()
        if share < 0.12:
            return Made(call(self.draw.choice(("children", "children", "descendants")), THIS), (), True)
        kind = self.kind() if share < 0.6 else None
        if share > 0.25:
            return self.collection(kind, this, self.draw.choice((1, 2)))
        made = self.collection(kind, this, 1)
        other = made if self.happens(0.5) else self.like(made, this, 1)
        made = made if self.happens(0.6) else Made(call("children", made.tree), (), True)
        return Made(call("intersect", made.tree, other.tree), made.nodes, True)

    def pinned(self, made, values):
        """An expression that asks what a collection gives: how many values, or what one of them says, with an answer near what the model has."""
        tree, places = made, [i for i, it in enumerate(values) if isinstance(it, (bool, NUMBER, str))]
        self.draw.shuffle(places)
        forms = [joined("=", call("count", tree), literal(NUMBER(max(0, len(values) + self.draw.choice((0, 0, 0, 1, -1))))))]
        forms += [joined(self.draw.choice(("=", "in")), call("first", tree), tree), joined("=", call("where", tree, literal(True)), tree)]
        for i in places[:2]:
            signs = ("=", "!=") if isinstance(values[i], bool) else ("=", "!=", "<", "<=", ">", ">=")
            said = abs(values[i]) if isinstance(values[i], NUMBER) else values[i]
            forms += [joined(self.draw.choice(signs), at(tree, i), literal(said)), joined("contains", tree, literal(said))]
        return self.draw.choice(forms)


# ---- how a tree is spelled

TIGHTEST = len(ROWS) + 1


def row_of(tree):
    """The row of the table of precedence that a tree's own form is of."""
    if tree.form == "operator":
        return next(i for i, signs in enumerate(ROWS) if tree.says in signs)
    return len(ROWS) if tree.form in ("is", "as") else TIGHTEST


class Speller:
    """Writes trees: plainly, or with blanks, comments, parentheses and backquotes that change nothing."""

    def __init__(self, draw, is_plain):
        self.draw, self.is_plain = draw, is_plain

    def odd(self, share):
        return not self.is_plain and self.draw.random() < share

    def words(self, tree, row=0):
        """The words of a tree that stands where an expression of this row or a tighter one has to."""
        words = getattr(self, f"words_of_{tree.form}")(tree)
        is_loose = row_of(tree) < row
        return ["(", *words, ")"] if is_loose or self.odd(0.08) else words

    def words_of_literal(self, tree):
        if isinstance(tree.says, bool):
            return [str(tree.says).lower()]
        if isinstance(tree.says, str):
            return ["'" + "".join(map(self.character, tree.says)) + "'"]
        text = f"{tree.says:f}"
        return [("0" if self.odd(0.1) else "") + text + ("0" if "." in text and self.odd(0.2) else "")]

    def character(self, sign):
        if sign in "'\\" or self.odd(0.1):
            return "".join(f"\\u{unit:04x}" for unit in units_of(sign))
        return sign

    def words_of_empty(self, _):
        return ["{}"]

    def words_of_variable(self, tree):
        return [tree.says]

    def words_of_raw(self, tree):
        return tree.says

    def name(self, name):
        return f"`{name}`" if self.odd(0.08) or name in RESERVED or not name.isidentifier() or not name.isascii() else name

    def type_words(self, name):
        return ["FHIR", ".", self.name(name)] if self.odd(0.25) else [self.name(name)]

    def focus(self, tree):
        return [*self.words(tree, TIGHTEST), "."]

    def words_of_name(self, tree):
        return [*(self.focus(tree.parts[0]) if tree.parts else []), self.name(tree.says)]

    def words_of_call(self, tree):
        name, is_behind_dot = tree.says
        words = self.focus(tree.parts[0]) if is_behind_dot else []
        given = tree.parts[1:] if is_behind_dot else tree.parts
        words += [name, "("]
        for it in given:
            words += self.type_words(it) if name == "ofType" else self.words(it)
        return [*words, ")"]

    def words_of_index(self, tree):
        return [*self.words(tree.parts[0], TIGHTEST), "[", *self.words(tree.parts[1]), "]"]

    def words_of_operator(self, tree):
        row = row_of(tree)
        return [*self.words(tree.parts[0], row), tree.says, *self.words(tree.parts[1], row + 1)]

    def words_of_is(self, tree):
        return [*self.words(tree.parts[0], len(ROWS)), tree.form, *self.type_words(tree.says)]

    words_of_as = words_of_is

    def text(self, words):
        """The words as a text, with blanks between those that would be one."""
        text = ""
        for word in words:
            needs = text and is_wordy(text[-1]) and is_wordy(word[0])
            is_close = word in (".", "(", ")", "[", "]", ",") or text[-1:] in (".", "(", "[")
            blank = " " if needs or not (is_close or not text) else ""
            if self.odd(0.12):
                blank = self.draw.choice((" ", "  ", "\n", "\t", "\r\n", " /* ' */ ", "/**/", " // )\n", "// a\r"))
            elif self.odd(0.3) and not needs:
                blank = ""
            text += blank + word
        return text


def units_of(sign):
    """A character as UTF-16 has it."""
    data = sign.encode("utf-16-be")
    return [data[i] * 256 + data[i + 1] for i in range(0, len(data), 2)]


def is_wordy(sign):
    return sign.isalnum() or sign == "_"


# ---- expressions that are spoilt

UNREAD = (
    "{0}.last()", "{0}.tail().exists()", "{0}.matches('a')", "{0} ~ {0}", "iif({0}, true, false)", "{0}.select($this).exists()", "{0} & 'a' = 'a'",
    "{0}.count() + 1 > 0", "-1 < {0}.count()", "{0}.is(string)", "({0} as String).empty()", "{0} = @2020", "{0}.distinct().exists()", "{0}.exists(true, true)",
    "{0} is System.String", "{0} !~ 1", "{0}.$this", "%ucum = {0}", "{0}.startsWith('a')", "{0}.toString().exists()", "{0}.where()", "{0}.first(1)",
    "{0} = 5 'mg'", "{0} is string.code", "{0} = @T10:00", "$index = {0}", "{0}.single().exists()", "{0}.repeat($this).exists()", "{0} is String",
)  # fmt: skip
OTHER_WORDS = (
    "and", "or", "xor", "implies", "in", "contains", "=", "!=", "<", ">=", "|", "is", "as", ".", "(", ")", "[", "]", "{}", "$this", "%resource", "1", "0",
    "'a'", "true", "false", "word", "not", "+", "~", "string", "exists", ",", "FHIR", "div", "where",
)  # fmt: skip


def unread(draw, text):
    """An expression with a part that isn't read."""
    return draw.choice(UNREAD).format(f"({text})")


def spoilt(draw, words):
    """The words with one left out, doubled, changed or put elsewhere. Parentheses and brackets go on to match, as others stand around the expression."""
    for _ in range(20):
        changed, place = list(words), draw.randrange(len(words))
        kind = draw.randrange(4)
        if kind == 0:
            del changed[place]
        elif kind == 1:
            changed.insert(place, draw.choice(OTHER_WORDS))
        elif kind == 2:
            changed[place] = draw.choice(OTHER_WORDS)
        else:
            other = draw.randrange(len(words))
            changed[place], changed[other] = changed[other], changed[place]
        if changed and is_matched(changed):
            return changed
    return list(words)


def is_matched(words):
    opened = []
    for word in words:
        if word in ("(", "["):
            opened.append({"(": ")", "[": "]"}[word])
        elif word in (")", "]") and (not opened or opened.pop() != word):
            return False
    return not opened
