#!/usr/bin/env python3
"""A small, slow interpreter of the language, by its rules and not by the compiler's code.

Usage: tools/calculus.py FILE [TURNS [INPUT]]

It prints what the program in the file prints on the input in the file INPUT, or on none, and then, on standard error,
the line that its run ends with: an answer, a blame with its place, a trap, a refusal, or `spent steps` where it hasn't
ended after so many turns. Casts wait one by one, each wrapper is an object of its own, and nothing is composed. Forms
are taken to be well formed: of refusals it knows those of types and names, and a few of tokens.

Types are the words "Int", "Bool", "Unit" and "Dyn" and the tuples ("Fun", parameters, result), ("Tuple", parts),
("Ref", part) and ("Vect", part).
"""
import os
import re
import sys

# How many turns a run may take, if nothing is said.
TURNS = 10_000_000
# An expression is gone through by recursion, and a text may have 200 brackets open.
sys.setrecursionlimit(20_000)

LEAST, GREATEST = -(2**63), 2**63 - 1
RESERVED = set(
    "lambda let letrec if begin : and or repeat tuple tuple-proj box unbox box-set! make-vector vector-ref vector-set! "
    "vector-length + - * %/ %% < <= = >= > not print-int newline read-int define ->".split()
)
ARITHMETIC = {"+", "-", "*", "%/", "%%"}
COMPARISONS = {"<", "<=", "=", ">=", ">"}
TOKEN = re.compile(r"[ \t\r\n]+|;[^\n]*|(?P<bracket>[()\[\]])|(?P<atom>#?[A-Za-z0-9!$%&*/:<=>?^_~+\-.@]*)")


class Refused(Exception):
    """A text that isn't elaborated, by its kind and place."""

    def __init__(self, kind, place):
        super().__init__(f"refused {kind} {place[0]}:{place[1]}")


class Ended(Exception):
    """A run that has ended, by its line."""


class NoRoom(Exception):
    """A cell that no region has room for."""


# ---- texts to lists


class Datum:
    """An integer, a truth value, a symbol or a list, with its place."""

    __slots__ = ("place", "node")

    def __init__(self, place, node):
        self.place, self.node = place, node

    def is_list(self):
        return isinstance(self.node, list)

    def is_symbol(self, word=None):
        return isinstance(self.node, str) and (word is None or self.node == word)


def read(text):
    """The lists of a text whose brackets match."""
    top, open_lists, at, line, start = [], [], 0, 1, 0
    while at < len(text):
        found = TOKEN.match(text, at)
        if found is None or found.end() == at:
            raise Refused("bad-byte", (line, at - start + 1))
        token, place = found.group(), (line, at - start + 1)
        if found.group("bracket"):
            if token in "([":
                open_lists.append(Datum(place, []))
            else:
                done = open_lists.pop()
                (open_lists[-1].node if open_lists else top).append(done)
        elif found.group("atom"):
            (open_lists[-1].node if open_lists else top).append(Datum(place, atom(token, place)))
        line += token.count("\n")
        if "\n" in token:
            start = at + token.rindex("\n") + 1
        at = found.end()
    if open_lists:
        raise Refused("unclosed", open_lists[-1].place)
    return top


def atom(token, place):
    if token in ("#t", "#f"):
        return token == "#t"
    if re.fullmatch(r"[+-]?[0-9]+", token):
        number = int(token)
        if not LEAST <= number <= GREATEST:
            raise Refused("number-range", place)
        return number
    if token.startswith("#") or re.match(r"[0-9]|[+\-.][0-9]", token):
        raise Refused("not-in-profile", place)
    return token


# ---- types


def type_of(datum):
    """The type that a datum writes."""
    node = datum.node
    if node == [] or node == "Unit":
        return "Unit"
    if node in ("Int", "Bool", "Dyn"):
        return node
    if not isinstance(node, list):
        raise Refused("bad-form", datum.place)
    head = node[0].node
    if head == "Tuple":
        return ("Tuple", tuple(type_of(part) for part in node[1:]))
    if head in ("Ref", "Vect"):
        return (head, type_of(node[1]))
    if len(node) < 2 or not node[-2].is_symbol("->"):
        raise Refused("bad-form", datum.place)
    return ("Fun", tuple(type_of(part) for part in node[:-2]), type_of(node[-1]))


def parts_of(kind):
    """The parts of a type, from left to right."""
    if isinstance(kind, str):
        return ()
    if kind[0] == "Fun":
        return kind[1] + (kind[2],)
    return kind[1] if kind[0] == "Tuple" else (kind[1],)


def head_of(kind):
    """The outermost constructor of a type, with the number of its parts."""
    return (kind, 0) if isinstance(kind, str) else (kind[0], len(parts_of(kind)))


def nodes_of(kind):
    return 1 + sum(nodes_of(part) for part in parts_of(kind))


def consistent(a, b):
    if a == "Dyn" or b == "Dyn" or a == b:
        return True
    return head_of(a) == head_of(b) and all(map(consistent, parts_of(a), parts_of(b)))


def blend(a, b):
    if a == "Dyn" or b == "Dyn":
        return "Dyn"
    if isinstance(a, str):
        return a
    parts = tuple(map(blend, parts_of(a), parts_of(b)))
    if a[0] == "Fun":
        return ("Fun", parts[:-1], parts[-1])
    return ("Tuple", parts) if a[0] == "Tuple" else (a[0], parts[0])


# ---- forms: what is derived is written out as lists of the other forms, with fresh names


class Forms:
    """Elaborates the lists of a text to a term, in the order of the table of forms."""

    def __init__(self):
        self.fresh = 0
        self.casts = 0

    def name(self):
        """A name that no text can write."""
        self.fresh += 1
        return f" {self.fresh}"

    def program(self, forms):
        if not forms:
            raise Refused("empty", (1, 1))
        term, kind = self.expr(self.top(forms), {})
        return term, kind

    # -- derived forms

    def top(self, forms):
        """The top-level forms as one expression."""
        first, rest = forms[0], forms[1:]

        def behind(left):
            return self.top(left) if left else Datum(first.place, [])

        if self.is_function(first):
            count = 1
            while count < len(forms) and self.is_function(forms[count]):
                count += 1
            members = [self.member(form) for form in forms[:count]]
            return listed(first.place, "letrec", Datum(first.place, members), behind(forms[count:]))
        if is_form(first, "define"):
            binding = Datum(first.place, first.node[1:])
            return listed(first.place, "let", Datum(first.place, [binding]), behind(rest))
        return listed(first.place, "begin", first, self.top(rest)) if rest else first

    def is_function(self, form):
        return is_form(form, "define") and (form.node[1].is_list() or is_form(form.node[-1], "lambda"))

    def member(self, form):
        """A function definition as a binding of `letrec`."""
        if not form.node[1].is_list():
            return Datum(form.place, form.node[1:])
        name, params = form.node[1].node[0], form.node[1].node[1:]
        function = listed(form.place, "lambda", Datum(form.node[1].place, params), *form.node[2:])
        return Datum(form.place, [name, function])

    def chained(self, form, word):
        """`and` and `or`."""
        operands = form.node[1:]
        if not operands:
            return Datum(form.place, word == "and")
        if len(operands) == 1:
            return operands[0]
        rest = Datum(form.place, [form.node[0]] + operands[1:])
        ends = (rest, Datum(form.place, False)) if word == "and" else (Datum(form.place, True), rest)
        return listed(form.place, "if", operands[0], *ends)

    def repeated(self, form):
        """`repeat`, without an accumulator or with one."""
        place = form.place

        def word(text):
            return Datum(place, text)

        def plain(*items):
            return Datum(place, list(items))

        start, end, loop = word(self.name()), word(self.name()), word(self.name())
        index, low, high = form.node[1].node
        colon, integer = word(":"), word("Int")
        bindings = [plain(start, colon, integer, low), plain(end, colon, integer, high)]
        following = listed(place, "+", index, Datum(place, 1))
        test = listed(place, "<", index, end)
        if len(form.node) == 3:
            again = listed(place, "begin", form.node[2], plain(loop, following))
            body = listed(place, "if", test, again, plain())
            function = listed(place, "lambda", plain(plain(index, colon, integer)), colon, word("Unit"), body)
            call = plain(loop, start)
        else:
            holder = form.node[2].node
            sum_name, sum_type, first = holder[0], holder[2] if len(holder) == 4 else word("Dyn"), holder[-1]
            kept = word(self.name())
            bindings.append(plain(kept, colon, sum_type, first))
            body = listed(place, "if", test, plain(loop, following, form.node[3]), sum_name)
            params = plain(plain(index, colon, integer), plain(sum_name, colon, sum_type))
            function = listed(place, "lambda", params, colon, sum_type, body)
            call = plain(loop, start, kept)
        group = listed(place, "letrec", plain(plain(loop, function)), call)
        return listed(place, "let", Datum(place, bindings), group)

    # -- elaboration

    def cast(self, term, kind, wanted, place):
        """The term at the wanted type, in a cast where the types differ."""
        if kind == wanted:
            return term
        if not consistent(kind, wanted):
            raise Refused("not-consistent", place)
        self.casts += 1
        return ("cast", term, kind, wanted, place)

    def written(self, datum):
        kind = type_of(datum)
        if nodes_of(kind) > 1000:
            raise Refused("type-too-large", datum.place)
        return kind

    def expr(self, form, scope):
        """The term and the type of an expression."""
        term, kind = self.expr_of_any_size(form, scope)
        if nodes_of(kind) > 1000:
            raise Refused("type-too-large", form.place)
        return term, kind

    def expr_of_any_size(self, form, scope):
        node = form.node
        if isinstance(node, bool):
            return ("value", node), "Bool"
        if isinstance(node, int):
            return ("value", node), "Int"
        if node == []:
            return ("value", ()), "Unit"
        if isinstance(node, str):
            if node not in scope:
                raise Refused("unbound", form.place)
            kind, used, place = scope[node]
            if used is None:
                return ("name", node), kind
            self.casts += 1
            return ("cast", ("name", node), kind, used, place), used
        head = node[0].node
        if not isinstance(head, str) or head not in RESERVED:
            return self.call(form, scope)
        if head in ("and", "or"):
            return self.expr(self.chained(form, head), scope)
        if head == "repeat":
            return self.expr(self.repeated(form), scope)
        if head in ARITHMETIC or head in COMPARISONS or head in ("not", "print-int", "newline", "read-int"):
            return self.operator(head, node[1:], scope)
        return getattr(self, FORMS[head])(form, scope)

    def operator(self, word, operands, scope):
        wanted = "Bool" if word == "not" else "Int"
        terms = [self.cast(*self.expr(operand, scope), wanted, operand.place) for operand in operands]
        answer = "Unit" if word in ("print-int", "newline") else "Int" if word in {*ARITHMETIC, "read-int"} else "Bool"
        return ("prim", word, terms), answer

    def call(self, form, scope):
        function, kind = self.expr(form.node[0], scope)
        arguments = form.node[1:]
        if kind == "Dyn":
            done = [self.expr(argument, scope) for argument in arguments]
            wanted = ("Fun", tuple(found for _, found in done), "Dyn")
            function = self.cast(function, kind, wanted, form.node[0].place)
            return ("call", function, [term for term, _ in done]), "Dyn"
        if kind[0] != "Fun":
            raise Refused("not-function", form.node[0].place)
        if len(kind[1]) != len(arguments):
            raise Refused("wrong-count", form.place)
        terms = []
        for argument, wanted in zip(arguments, kind[1]):
            terms.append(self.cast(*self.expr(argument, scope), wanted, argument.place))
        return ("call", function, terms), kind[2]

    def body(self, forms, scope):
        """The sequence of a body, and the type of its last expression."""
        done = [self.expr(form, scope) for form in forms]
        return ("sequence", [term for term, _ in done]), done[-1][1]

    def ascribe(self, form, scope):
        term, kind = self.expr(form.node[1], scope)
        wanted = self.written(form.node[2])
        return self.cast(term, kind, wanted, form.place), wanted

    def params_of(self, form):
        """The parameters of a lambda with their types, its written result or none, and its body."""
        params = []
        for param in form.node[1].node:
            params.append((param.node[0].node, self.written(param.node[2])) if param.is_list() else (param.node, "Dyn"))
        if form.node[2].is_symbol(":"):
            return params, self.written(form.node[3]), form.node[4:]
        return params, None, form.node[2:]

    def function(self, form, scope):
        params, result, forms = self.params_of(form)
        inner = scope | {name: (kind, None, None) for name, kind in params}
        body, kind = self.body(forms, inner)
        if result is not None:
            body = self.cast(body, kind, result, forms[-1].place)
        whole = ("Fun", tuple(kind for _, kind in params), kind if result is None else result)
        return ("lambda", [name for name, _ in params], body), whole

    def let(self, form, scope):
        bound, inner = [], dict(scope)
        for binding in form.node[1].node:
            name, value = binding.node[0].node, binding.node[-1]
            term, kind = self.expr(value, scope)
            if len(binding.node) == 4:
                wanted = self.written(binding.node[2])
                term, kind = self.cast(term, kind, wanted, value.place), wanted
            bound.append((name, term))
            inner[name] = (kind, None, None)
        body, kind = self.body(form.node[2:], inner)
        return ("let", bound, body), kind

    def letrec(self, form, scope):
        inner, members = dict(scope), []
        for binding in form.node[1].node:
            name, function = binding.node[0].node, binding.node[-1]
            params, result, forms = self.params_of(function)
            result = "Dyn" if result is None else result
            own = ("Fun", tuple(kind for _, kind in params), result)
            used = self.written(binding.node[2]) if len(binding.node) == 4 else own
            if nodes_of(own) > 1000:
                raise Refused("type-too-large", function.place)
            if not consistent(used, own):
                raise Refused("not-consistent", function.place)
            inner[name] = (own, None if used == own else used, function.place)
            members.append((name, params, result, forms))
        group = []
        for name, params, result, forms in members:
            local = inner | {param: (kind, None, None) for param, kind in params}
            body, kind = self.body(forms, local)
            group.append((name, [param for param, _ in params], self.cast(body, kind, result, forms[-1].place)))
        body, kind = self.body(form.node[2:], inner)
        return ("group", group, body), kind

    def branch(self, form, scope):
        condition, on_true, on_false = form.node[1:]
        test = self.cast(*self.expr(condition, scope), "Bool", condition.place)
        first, first_kind = self.expr(on_true, scope)
        second, second_kind = self.expr(on_false, scope)
        if not consistent(first_kind, second_kind):
            raise Refused("not-consistent", form.place)
        kind = blend(first_kind, second_kind)
        first = self.cast(first, first_kind, kind, on_true.place)
        return ("if", test, first, self.cast(second, second_kind, kind, on_false.place)), kind

    def begin(self, form, scope):
        return self.body(form.node[1:], scope)

    def tuple(self, form, scope):
        parts = [self.expr(part, scope) for part in form.node[1:]]
        return ("tuple", [term for term, _ in parts]), ("Tuple", tuple(kind for _, kind in parts))

    def part(self, form, scope):
        of, number = form.node[1:]
        term, kind = self.expr(of, scope)
        if kind == "Dyn":
            return ("part of dyn", term, number.node, of.place), "Dyn"
        if kind[0] != "Tuple":
            raise Refused("not-tuple", of.place)
        if number.node >= len(kind[1]):
            raise Refused("no-such-part", number.place)
        return ("part", term, number.node), kind[1][number.node]

    def cell(self, form, scope, head, refusal):
        """The term of a box or a vector, and the type of its elements."""
        term, kind = self.expr(form, scope)
        if kind == "Dyn":
            return self.cast(term, kind, (head, "Dyn"), form.place), "Dyn"
        if kind[0] != head:
            raise Refused(refusal, form.place)
        return term, kind[1]

    def box(self, form, scope):
        term, kind = self.expr(form.node[1], scope)
        return ("prim", "box", [term]), ("Ref", kind)

    def unbox(self, form, scope):
        term, kind = self.cell(form.node[1], scope, "Ref", "not-ref")
        return ("prim", "unbox", [term]), kind

    def box_set(self, form, scope):
        term, kind = self.cell(form.node[1], scope, "Ref", "not-ref")
        value = self.cast(*self.expr(form.node[2], scope), kind, form.node[2].place)
        return ("prim", "box-set!", [term, value]), "Unit"

    def make_vector(self, form, scope):
        count = self.cast(*self.expr(form.node[1], scope), "Int", form.node[1].place)
        term, kind = self.expr(form.node[2], scope)
        return ("prim", "make-vector", [count, term]), ("Vect", kind)

    def vector_ref(self, form, scope):
        term, kind = self.cell(form.node[1], scope, "Vect", "not-vector")
        index = self.cast(*self.expr(form.node[2], scope), "Int", form.node[2].place)
        return ("prim", "vector-ref", [term, index]), kind

    def vector_set(self, form, scope):
        term, kind = self.cell(form.node[1], scope, "Vect", "not-vector")
        index = self.cast(*self.expr(form.node[2], scope), "Int", form.node[2].place)
        value = self.cast(*self.expr(form.node[3], scope), kind, form.node[3].place)
        return ("prim", "vector-set!", [term, index, value]), "Unit"

    def vector_length(self, form, scope):
        term, _ = self.cell(form.node[1], scope, "Vect", "not-vector")
        return ("prim", "vector-length", [term]), "Int"


FORMS = {
    ":": "ascribe",
    "lambda": "function",
    "let": "let",
    "letrec": "letrec",
    "if": "branch",
    "begin": "begin",
    "tuple": "tuple",
    "tuple-proj": "part",
    "box": "box",
    "unbox": "unbox",
    "box-set!": "box_set",
    "make-vector": "make_vector",
    "vector-ref": "vector_ref",
    "vector-set!": "vector_set",
    "vector-length": "vector_length",
}


def listed(place, word, *items):
    """A form with this head."""
    return Datum(place, [Datum(place, word), *items])


def is_form(datum, word):
    return datum.is_list() and bool(datum.node) and datum.node[0].is_symbol(word)


# ---- the calculus


class Function:
    """A function of a lambda or of a group, where the names around it stand for these values."""

    def __init__(self, params, body, scope):
        self.params, self.body, self.scope = params, body, scope


class Parts:
    """A tuple."""

    def __init__(self, values):
        self.values = values


class Cell:
    """A box or a vector."""

    def __init__(self, values, is_vector):
        self.values, self.is_vector = values, is_vector


class Wrap:
    """A value in one cast between two types with one head."""

    def __init__(self, value, source, label, target):
        self.value, self.source, self.label, self.target = value, source, label, target


class Inject:
    """A value in Dyn, with the type that it keeps."""

    def __init__(self, value, kind):
        self.value, self.kind = value, kind


def blamed(label):
    return Ended(f"blame {label[0]}:{label[1]}")


def cast_made(value, source, target, label):
    """What one cast makes of a value."""
    if target == "Dyn":
        return value if source == "Dyn" else Inject(value, source)
    if source == "Dyn":
        value, source = value.value, value.kind
    if head_of(source) != head_of(target):
        raise blamed(label)
    return value if isinstance(source, str) else Wrap(value, source, label, target)


def shown(value):
    """The text of an answer, which looks through injections and wrappers."""
    while isinstance(value, (Inject, Wrap)):
        value = value.value
    if isinstance(value, bool):
        return "#t" if value else "#f"
    if isinstance(value, int):
        return str(value)
    if value == ():
        return "()"
    if isinstance(value, Function):
        return "#<function>"
    if isinstance(value, Parts):
        return "#<tuple>"
    return "#<vector>" if value.is_vector else "#<box>"


def wrapped_to_64_bits(number):
    return (number - LEAST) % 2**64 + LEAST


def arithmetic(word, a, b):
    if word == "+":
        return wrapped_to_64_bits(a + b)
    if word == "-":
        return wrapped_to_64_bits(a - b)
    if word == "*":
        return wrapped_to_64_bits(a * b)
    if b == 0:
        raise Ended("trap zero-divisor")
    quotient = abs(a) // abs(b) * (1 if (a < 0) == (b < 0) else -1)
    return wrapped_to_64_bits(quotient if word == "%/" else a - b * quotient)


def compared(word, a, b):
    return {"<": a < b, "<=": a <= b, "=": a == b, ">=": a >= b, ">": a > b}[word]


class Run:
    """One run: the value or the term in focus, and the contexts around it, the innermost last."""

    def __init__(self, room=1 << 30, numbers=""):
        self.printed = []
        self.unread = numbers
        self.waiting = []
        self.room = room

    def go(self, term, limit):
        """The line that the run ends with, or None after so many turns."""
        try:
            value, scope = None, {}
            for _ in range(limit):
                if term is None:
                    if not self.waiting:
                        return f"answer {shown(value)}"
                    term, value, scope = self.give(value)
                else:
                    term, value, scope = self.enter(term, scope)
            return None
        except Ended as end:
            return str(end)

    # Each of these answers what is in focus next: a term with its scope, or None and a value.

    def enter(self, term, scope):
        kind = term[0]
        if kind == "value":
            return None, term[1], None
        if kind == "name":
            return None, scope[term[1]], None
        if kind == "lambda":
            return None, Function(term[1], term[2], scope), None
        if kind == "group":
            inner = dict(scope)
            for name, params, body in term[1]:
                inner[name] = Function(params, body, inner)
            return term[2], None, inner
        if kind == "let":
            return self.operands("let", term, [bound for _, bound in term[1]], scope)
        if kind == "call":
            return self.operands("call", term, [term[1]] + term[2], scope)
        if kind == "if":
            self.waiting.append(("if", term, scope))
            return term[1], None, scope
        if kind == "sequence":
            return self.sequence(term[1], 0, scope)
        if kind == "cast":
            self.waiting.append(("cast", term[2], term[3], term[4]))
            return term[1], None, scope
        if kind == "part":
            self.waiting.append(("part", term[2]))
            return term[1], None, scope
        if kind == "part of dyn":
            self.waiting.append(("part of dyn", term[2], term[3]))
            return term[1], None, scope
        if kind == "tuple":
            return self.operands("tuple", term, term[1], scope)
        return self.operands("prim", term, term[2], scope)

    def operands(self, kind, term, terms, scope):
        """Evaluates these terms from left to right."""
        if not terms:
            return self.operate(kind, term, [], scope)
        self.waiting.append((kind, term, terms, scope, []))
        return terms[0], None, scope

    def sequence(self, terms, place, scope):
        if place + 1 < len(terms):
            self.waiting.append(("sequence", terms, place, scope))
        return terms[place], None, scope

    def give(self, value):
        """Hands a value to the innermost context."""
        context = self.waiting.pop()
        kind = context[0]
        if kind in ("let", "call", "tuple", "prim"):
            _, term, terms, scope, done = context
            done = done + [value]
            if len(done) < len(terms):
                self.waiting.append((kind, term, terms, scope, done))
                return terms[len(done)], None, scope
            return self.operate(kind, term, done, scope)
        if kind == "if":
            _, term, scope = context
            return term[2 if value else 3], None, scope
        if kind == "sequence":
            _, terms, place, scope = context
            return self.sequence(terms, place + 1, scope)
        if kind == "cast":
            return None, cast_made(value, *context[1:]), None
        if kind == "part":
            return self.project(value, context[1])
        if kind == "part of dyn":
            return self.project_dyn(value, *context[1:])
        if kind == "write":
            _, cell, index, casts = context
            return self.write(cell, index, value, casts)
        raise AssertionError(kind)

    def operate(self, kind, term, values, scope):
        if kind == "tuple":
            return None, Parts(values), None
        if kind == "let":
            return term[2], None, scope | {name: value for (name, _), value in zip(term[1], values)}
        if kind == "call":
            return self.apply(values[0], values[1:])
        return self.operator(term[1], values)

    def apply(self, function, arguments):
        """Unwraps the function; then makes all casts of argument 1, of argument 2 and so on; then enters the body."""
        casts = []
        while isinstance(function, Wrap):
            casts.append((function.source, function.target, function.label))
            function = function.value
        for source, target, label in casts:
            self.waiting.append(("cast", source[2], target[2], label))
        made = []
        for place, value in enumerate(arguments):
            for source, target, label in casts:
                value = cast_made(value, target[1][place], source[1][place], label)
            made.append(value)
        return function.body, None, function.scope | dict(zip(function.params, made))

    def project(self, value, number):
        """A part of a tuple, cast by each wrapper, the innermost first."""
        while isinstance(value, Wrap):
            self.waiting.append(("cast", value.source[1][number], value.target[1][number], value.label))
            value = value.value
        return None, value.values[number], None

    def project_dyn(self, value, number, label):
        kind = value.kind
        if kind[0] != "Tuple" or number >= len(kind[1]):
            raise blamed(label)
        self.waiting.append(("cast", kind[1][number], "Dyn", label))
        return self.project(value.value, number)

    def operator(self, word, values):
        if word in ARITHMETIC:
            return None, arithmetic(word, *values), None
        if word in COMPARISONS:
            return None, compared(word, *values), None
        if word == "not":
            return None, not values[0], None
        if word == "print-int":
            self.printed.append(str(values[0]))
            return None, (), None
        if word == "newline":
            self.printed.append("\n")
            return None, (), None
        if word == "read-int":
            return None, self.number(), None
        if word == "box":
            return None, Cell([values[0]], False), None
        if word == "make-vector":
            return None, self.made(*values), None
        if word == "box-set!":
            return self.unwrap_and_write(values[0], 0, values[1])
        if word == "vector-set!":
            return self.unwrap_and_write(*values)
        return self.read(word, *values)

    def number(self):
        """The next number of the input, which is a run of bytes that aren't white."""
        self.unread = self.unread.lstrip(" \t\r\n")
        run = re.match(r"[^ \t\r\n]*", self.unread)[0]
        if not re.fullmatch(r"[+-]?[0-9]+", run) or not LEAST <= int(run) <= GREATEST:
            raise Ended("trap input")
        self.unread = self.unread[len(run):]
        return int(run)

    def made(self, count, value):
        if count < 0:
            raise Ended("trap length")
        if count > self.room:
            raise NoRoom
        return Cell([value] * count, True)

    def read(self, word, value, index=0):
        """Reads a cell, and casts what is read by each wrapper, the innermost first; a length has no casts."""
        while isinstance(value, Wrap):
            if word != "vector-length":
                self.waiting.append(("cast", value.source[1], value.target[1], value.label))
            value = value.value
        if word == "vector-length":
            return None, len(value.values), None
        if not 0 <= index < len(value.values):
            raise Ended("trap index")
        return None, value.values[index], None

    def unwrap_and_write(self, cell, index, value):
        """Tests the index, casts what is written by each wrapper, the outermost first, and then writes it."""
        casts = []
        while isinstance(cell, Wrap):
            casts.append((cell.target[1], cell.source[1], cell.label))
            cell = cell.value
        if not 0 <= index < len(cell.values):
            raise Ended("trap index")
        for source, target, label in casts:
            value = cast_made(value, source, target, label)
        cell.values[index] = value
        return None, (), None


def run_text(text, limit=TURNS, numbers=""):
    """What a text prints on an input, and its last line."""
    try:
        term, _ = Forms().program(read(text))
    except Refused as refusal:
        return "", str(refusal)
    run = Run(numbers=numbers)
    try:
        line = run.go(term, limit)
    except NoRoom:
        line = "exhausted region"
    return "".join(run.printed), "spent steps" if line is None else line


def main():
    if len(sys.argv) not in (2, 3, 4):
        sys.exit(__doc__)
    # Line feeds and carriage returns are bytes like others.
    text, numbers = [open(name, encoding="latin-1", newline="").read() for name in (sys.argv[1::2] + [os.devnull])[:2]]
    printed, line = run_text(text, int(sys.argv[2]) if len(sys.argv) > 2 else TURNS, numbers)
    print(printed, end="")
    print(line, file=sys.stderr)


if __name__ == "__main__":
    main()
