#!/usr/bin/env python3
"""Random programs of the whole language.

Usage: tools/random_programs.py [--piles] SEED

With --piles it is a program in which one function, one box and one vector go back and forth between types in loops, and
are used behind that.

A type here is written as in calculus.py. Each expression is made for two types: the static one, and a precise one below
it, which says what is expected inside of Dyn. So most casts go well, and a few are made to fail.
"""

import random
import sys

SIMPLE = ["Int", "Int", "Int", "Bool", "Unit"]


def written(kind):
    """The text of a type."""
    if isinstance(kind, str):
        return kind
    if kind[0] == "Fun":
        return "(" + " ".join([written(part) for part in kind[1]] + ["->", written(kind[2])]) + ")"
    if kind[0] == "Tuple":
        return "(Tuple " + " ".join(map(written, kind[1])) + ")"
    return f"({kind[0]} {written(kind[1])})"


class Programs:
    """The programs of a seed, one after the other."""

    def __init__(self, seed, reading=0.0):
        self.random = random.Random(seed)
        self.reading = reading
        self.names = 0
        self.size = 0
        self.mischief = self.random.choice([0.0, 0.005, 0.02, 0.08])
        self.blurring = self.random.choice([0.1, 0.3, 0.5])

    def chance(self, p):
        return self.random.random() < p

    def name(self, letter="v"):
        self.names += 1
        return f"{letter}{self.names}"

    # -- types

    def precise(self, depth):
        """A type without Dyn."""
        if depth == 0 or self.chance(0.35):
            return self.random.choice(SIMPLE)
        head = self.random.randrange(8)
        if head < 3:
            count = self.random.choice([0, 1, 1, 1, 2, 2, 3, 6])
            return ("Fun", tuple(self.precise(depth - 1) for _ in range(count)), self.precise(depth - 1))
        if head < 5:
            return ("Tuple", tuple(self.precise(depth - 1) for _ in range(self.random.choice([1, 2, 2, 3, 8]))))
        return (self.random.choice(["Ref", "Vect"]), self.precise(depth - 1))

    def blurred(self, kind, much=None):
        """A type with Dyn in place of some parts."""
        much = self.blurring if much is None else much
        if kind == "Dyn" or self.chance(much):
            return "Dyn"
        if isinstance(kind, str):
            return kind
        if kind[0] == "Fun":
            return ("Fun", tuple(self.blurred(part, much) for part in kind[1]), self.blurred(kind[2], much))
        if kind[0] == "Tuple":
            return ("Tuple", tuple(self.blurred(part, much) for part in kind[1]))
        return (kind[0], self.blurred(kind[1], much))

    def changed(self, kind):
        """A precise type that differs somewhere."""
        if isinstance(kind, str) or self.chance(0.3):
            return self.precise(1)
        if kind[0] == "Fun":
            place = self.random.randrange(len(kind[1]) + 2)
            if place == len(kind[1]) + 1:
                return ("Fun", kind[1][:-1] if kind[1] else (self.precise(0),), kind[2])
            if place == len(kind[1]):
                return ("Fun", kind[1], self.changed(kind[2]))
            return ("Fun", kind[1][:place] + (self.changed(kind[1][place]),) + kind[1][place + 1 :], kind[2])
        if kind[0] == "Tuple":
            if self.chance(0.2):
                return ("Tuple", kind[1][:-1] if len(kind[1]) > 1 else kind[1] + ("Int",))
            place = self.random.randrange(len(kind[1]))
            return ("Tuple", kind[1][:place] + (self.changed(kind[1][place]),) + kind[1][place + 1 :])
        if self.chance(0.2):
            return ("Vect" if kind[0] == "Ref" else "Ref", kind[1])
        return (kind[0], self.changed(kind[1]))

    # -- expressions

    def loose(self, inside, scope, depth):
        """An expression of any static type that is expected to have this inside."""
        return self.exact(self.blurred(inside), inside, scope, depth)

    def integer(self):
        some = self.random.randrange(-99, 99)
        return str(self.random.choice([0, 1, 2, 3, 7, -1, -5, 42, 1000, 2**62, -(2**63), 2**63 - 1, some]))

    def known(self, kind, inside, scope):
        names = [name for name, static, precise in scope if static == kind and precise == inside]
        return self.random.choice(names) if names else None

    def exact(self, kind, inside, scope, depth):
        """An expression of this static type."""
        self.size += 1
        if self.chance(self.mischief) and kind == "Dyn":
            inside = self.changed(inside)
        name = self.known(kind, inside, scope)
        if name and (depth <= 0 or self.chance(0.3)):
            return name
        if depth <= 0 or self.size > 250:
            return self.plain(kind, inside, scope, 0)
        way = self.random.randrange(22)
        if way < 6:
            return self.plain(kind, inside, scope, depth)
        if way < 9:
            return f"(: {self.loose(inside, scope, depth - 1)} {written(kind)})"
        if way == 9:
            test = self.loose("Bool", scope, depth - 2)
            if kind == "Dyn" and self.chance(0.5):
                ends = self.loose(inside, scope, depth - 1), self.exact("Dyn", inside, scope, depth - 1)
                return f"(if {test} {' '.join(self.random.sample(ends, 2))})"
            ends = self.exact(kind, inside, scope, depth - 1), self.exact(kind, inside, scope, depth - 1)
            return f"(if {test} {' '.join(ends)})"
        if way < 12:
            return self.let(kind, inside, scope, depth)
        if way == 12:
            return f"(begin {self.effect(scope, depth - 1)} {self.exact(kind, inside, scope, depth - 1)})"
        if way < 16:
            return self.called(kind, inside, scope, depth)
        if way == 16:
            return self.projected(kind, inside, scope, depth)
        if way == 17:
            return self.unboxed(kind, inside, scope, depth)
        if way == 18:
            return self.element(kind, inside, scope, depth)
        if way == 19:
            return self.accumulated(kind, inside, scope, depth)
        if way == 20:
            return self.wrapped_deep(kind, inside, scope, depth)
        return self.looping(kind, inside, scope, depth)

    def plain(self, kind, inside, scope, depth):
        """A literal, an operator, or what makes a value of this type."""
        if kind == "Dyn":
            static = self.blurred(inside)
            if static == "Dyn":
                static = inside
            return f"(: {self.exact(static, inside, scope, depth - 1)} Dyn)"
        if kind == "Int":
            if self.reading and self.chance(self.reading):
                return "(read-int)"
            if depth > 0 and self.chance(0.5):
                word = self.random.choice(["+", "-", "*", "%/", "%%", "+", "-"])
                right = self.loose("Int", scope, depth - 1)
                if word in ("%/", "%%") and self.chance(0.9):
                    right = self.random.choice(["1", "2", "3", "-1", "-7"])
                return f"({word} {self.loose('Int', scope, depth - 1)} {right})"
            if depth > 0 and self.chance(0.1):
                return f"(vector-length {self.loose(('Vect', self.precise(1)), scope, depth - 1)})"
            return self.integer()
        if kind == "Bool":
            if depth > 0 and self.chance(0.6):
                return self.truth(scope, depth)
            return self.random.choice(["#t", "#f"])
        if kind == "Unit":
            return self.effect(scope, depth) if depth > 0 else "()"
        if kind[0] == "Fun":
            return self.function(kind, inside, scope, depth)
        if kind[0] == "Tuple":
            parts = [self.exact(s, p, scope, depth - 1) for s, p in zip(kind[1], inside[1])]
            return f"(tuple {' '.join(parts)})"
        value = self.exact(kind[1], inside[1], scope, depth - 1)
        if kind[0] == "Ref":
            return f"(box {value})"
        return f"(make-vector {self.random.choice('12234')} {value})"

    def truth(self, scope, depth):
        way = self.random.randrange(4)
        if way == 0:
            return f"(not {self.loose('Bool', scope, depth - 1)})"
        if way == 1:
            word = self.random.choice(["and", "or"])
            operands = [self.exact("Bool", "Bool", scope, depth - 1) for _ in range(self.random.randrange(4))]
            return f"({' '.join([word] + operands)})"
        word = self.random.choice(["<", "<=", "=", ">=", ">"])
        return f"({word} {self.loose('Int', scope, depth - 1)} {self.loose('Int', scope, depth - 1)})"

    def function(self, kind, inside, scope, depth):
        names = [self.name("p") for _ in kind[1]]
        inner = scope + list(zip(names, kind[1], inside[1]))
        params = [
            name if static == "Dyn" and self.chance(0.5) else f"[{name} : {written(static)}]"
            for name, static in zip(names, kind[1])
        ]
        if self.chance(0.6):
            body = f": {written(kind[2])} {self.loose(inside[2], inner, depth - 1)}"
        else:
            body = self.exact(kind[2], inside[2], inner, depth - 1)
        return f"(lambda ({' '.join(params)}) {body})"

    def effect(self, scope, depth):
        """An expression of type Unit."""
        way = self.random.randrange(8)
        if depth <= 0 or way < 4:
            return f"(print-int {self.loose('Int', scope, depth - 1)})"
        if way == 4:
            return "(newline)"
        cells = [(name, s, p) for name, s, p in scope if p != "Int" and p[0] in ("Ref", "Vect")]
        if cells and way < 7:
            name, _, inside = self.random.choice(cells)
            value = self.loose(inside[1], scope, depth - 1)
            if self.chance(self.mischief):
                value = self.exact("Dyn", self.changed(inside[1]), scope, depth - 1)
            if inside[0] == "Ref":
                return f"(box-set! (: {name} (Ref Dyn)) {value})" if self.chance(0.4) else f"(box-set! {name} {value})"
            index = self.random.choice(["0", "0", "0", "1", "1"])
            of = f"(: {name} (Vect Dyn))" if self.chance(0.4) else name
            return f"(vector-set! {of} {index} {value})"
        name = self.name("i")
        inner = scope + [(name, "Int", "Int")]
        return f"(repeat ({name} 0 {self.random.randrange(4)}) {self.effect(inner, depth - 1)})"

    def let(self, kind, inside, scope, depth):
        bindings, inner = [], list(scope)
        for _ in range(self.random.choice([1, 1, 1, 2])):
            name = self.name()
            if scope and self.chance(0.4):
                # the same value at another type
                other, _, precise = self.random.choice(scope)
                static = self.blurred(precise)
                bindings.append(f"[{name} : {written(static)} {other}]")
            else:
                precise = self.precise(2)
                static = self.blurred(precise)
                if self.chance(0.5):
                    bindings.append(f"[{name} : {written(static)} {self.loose(precise, scope, depth - 1)}]")
                else:
                    bindings.append(f"[{name} {self.exact(static, precise, scope, depth - 1)}]")
            inner.append((name, static, precise))
        body = self.exact(kind, inside, inner, depth - 1)
        if self.chance(0.5):
            body = f"{self.effect(inner, depth - 1)} {body}"
        return f"(let ({' '.join(bindings)}) {body})"

    def called(self, kind, inside, scope, depth):
        known = [(n, s, p) for n, s, p in scope if p != "Int" and p[0] == "Fun" and p[2] == inside]
        known = [(n, s, p) for n, s, p in known if (s == "Dyn" and kind == "Dyn") or (s != "Dyn" and s[2] == kind)]
        if known and self.chance(0.7):
            name, _, precise = self.random.choice(known)
            function = name
        else:
            params = tuple(self.precise(1) for _ in range(self.random.choice([0, 1, 1, 2, 3, 5, 6])))
            precise = ("Fun", params, inside)
            static = ("Fun", tuple(self.blurred(param) for param in params), kind)
            if kind == "Dyn" and self.chance(0.4):
                static = "Dyn"
            function = self.exact(static, precise, scope, depth - 1)
        arguments = [self.loose(param, scope, depth - 2) for param in precise[1]]
        if self.chance(self.mischief):
            arguments = [self.exact("Dyn", self.changed(param), scope, depth - 2) for param in precise[1]]
        return f"({' '.join([function] + arguments)})"

    def projected(self, kind, inside, scope, depth):
        parts = [self.precise(1) for _ in range(self.random.choice([1, 2, 3, 8]))]
        place = self.random.randrange(len(parts))
        parts[place] = inside
        precise = ("Tuple", tuple(parts))
        if kind == "Dyn" and self.chance(0.5):
            static = "Dyn"
            if self.chance(self.mischief):
                place = self.random.choice([place, 7, 8, 9, 2**40, 2**63 - 1])
        else:
            static = [self.blurred(part) for part in parts]
            static[place] = kind
            static = ("Tuple", tuple(static))
        return f"(tuple-proj {self.exact(static, precise, scope, depth - 1)} {place})"

    def unboxed(self, kind, inside, scope, depth):
        static = "Dyn" if kind == "Dyn" and self.chance(0.4) else ("Ref", kind)
        return f"(unbox {self.exact(static, ('Ref', inside), scope, depth - 1)})"

    def element(self, kind, inside, scope, depth):
        static = "Dyn" if kind == "Dyn" and self.chance(0.4) else ("Vect", kind)
        index = self.random.choice(["0", "0", "0", "0", "1", "(: 0 Dyn)"])
        if self.chance(self.mischief):
            index = self.random.choice(["-1", "2", "3", "9223372036854775807", "(: #t Dyn)"])
        return f"(vector-ref {self.exact(static, ('Vect', inside), scope, depth - 1)} {index})"

    def accumulated(self, kind, inside, scope, depth):
        index, holder = self.name("i"), self.name("s")
        inner = scope + [(index, "Int", "Int"), (holder, kind, inside)]
        start, body = self.loose(inside, scope, depth - 1), self.loose(inside, inner, depth - 1)
        held = holder if kind == "Dyn" and self.chance(0.5) else f"{holder} : {written(kind)}"
        return f"(repeat ({index} 0 {self.random.randrange(4)}) ({held} {start}) {body})"

    def wrapped_deep(self, kind, inside, scope, depth):
        """A value that goes back and forth between types in a loop of tail calls."""
        start = self.loose(inside, scope, depth - 1)
        return self.cast_in_a_loop(kind, inside, start, self.random.choice([0, 1, 2, 5, 40]))

    def cast_in_a_loop(self, kind, inside, start, turns):
        """What a value comes to that goes back and forth between types in a loop of tail calls."""
        loop, count, value = self.name("f"), self.name("n"), self.name("w")
        through = value
        for _ in range(self.random.choice([1, 1, 2, 3])):
            through = f"(: {through} {written(self.blurred(inside))})"
        again = f"({loop} (- {count} 1) {through})"
        result = written(self.blurred(inside) if self.chance(0.3) else kind)
        function = (
            f"(lambda ([{count} : Int] [{value} : {written(kind)}]) : {result} (if (= {count} 0) {value} {again}))"
        )
        return f"(: (letrec ([{loop} {function}]) ({loop} {turns} {start})) {written(kind)})"

    def looping(self, kind, inside, scope, depth):
        """Two functions that call each other in tail position, through types of their own."""
        one, two = self.name("f"), self.name("g")
        count = self.name("n")
        kinds = [self.blurred(("Fun", ("Int",), inside)) for _ in range(2)]
        bindings = []
        for name, other, own in ((one, two, kinds[0]), (two, one, kinds[1])):
            inner = scope + [(count, "Int", "Int")]
            end = self.loose(inside, inner, depth - 1)
            call = f"({other} (- {count} 1))"
            result = f": {written(self.blurred(inside))} " if self.chance(0.5) else ""
            function = f"(lambda ([{count} : Int]) {result}(if (<= {count} 0) {end} {call}))"
            if self.chance(0.5):
                bindings.append(f"[{name} : {written(own)} {function}]")
            else:
                bindings.append(f"[{name} {function}]")
        return f"(: (letrec ({' '.join(bindings)}) ({one} {self.random.randrange(5)})) {written(kind)})"

    # -- piles of casts

    def piled(self, inside, scope, lines):
        """Defines a value that a loop casts, and gives it another time at another type, beside the first."""
        base, piled, kind = self.name("b"), self.name("d"), self.blurred(inside)
        self.size = 0
        lines.append(f"(define {base} {self.plain(inside, inside, scope, 2)})")
        looped = self.cast_in_a_loop(kind, inside, base, self.random.choice([1, 2, 3, 10, 100, 300]))
        lines.append(f"(define {piled} : {written(kind)} {looped})")
        scope += [(base, inside, inside), (piled, kind, inside)]
        return base, piled

    def used_function(self, name, inside, scope):
        """A call of a function, what it answers being printed where it is expected to be an integer."""
        arguments = [self.loose(param, scope, 1) for param in inside[1]]
        if self.chance(self.mischief):
            arguments = [self.exact("Dyn", self.changed(param), scope, 1) for param in inside[1]]
        call = f"({' '.join([name] + arguments)})"
        return f"(print-int {call})" if inside[2] == "Int" else call

    def used_cell(self, name, inside, scope):
        """A write to a box or a vector, and a read of it."""
        value = self.loose(inside[1], scope, 1)
        if self.chance(self.mischief):
            value = self.exact("Dyn", self.changed(inside[1]), scope, 1)
        if inside[0] == "Ref":
            write, read = f"(box-set! {name} {value})", f"(unbox {name})"
        else:
            index = self.random.choice(["0", "0", "0", "1"])
            write, read = f"(vector-set! {name} {index} {value})", f"(vector-ref {name} {index})"
        return f"{write}\n(print-int {read})" if inside[1] == "Int" else f"{write}\n{read}"

    def piles(self):
        """The text of a program whose loops cast a function, a box and a vector, each used at both its names."""
        scope, lines = [], []
        params = tuple(self.precise(1) for _ in range(self.random.choice([1, 1, 2, 3])))
        function = ("Fun", params, self.random.choice(["Int", self.precise(1)]))
        shapes = [function, ("Ref", self.random.choice(["Int", function])), ("Vect", self.precise(1))]
        self.random.shuffle(shapes)
        for inside in shapes:
            use = self.used_function if inside[0] == "Fun" else self.used_cell
            for name in self.piled(inside, scope, lines):
                self.size = 0
                lines.append(use(name, inside, scope))
        self.size = 0
        lines.append(self.loose("Int", scope, 3))
        return "\n".join(lines) + "\n"

    # -- inputs

    def numbers(self):
        """The text of an input: integers between white space, and at times something else."""
        words = [self.random.choice(["", "", "+", "00"]) + str(self.random.randrange(10)) for _ in range(60)]
        words += [str(self.random.choice([-1, 2**63 - 1, -(2**63)])) for _ in range(4)]
        if self.chance(0.2):
            words.append(self.random.choice(["x", "-", "5x", str(2**63), "; 1"]))
        self.random.shuffle(words)
        return "".join(word + self.random.choice([" ", "\n", "\t", " \r\n"]) for word in words)

    # -- programs

    def program(self):
        """The text of a program: a few definitions, expressions that print, and an answer."""
        scope, lines = [], []
        for _ in range(self.random.randrange(1, 5)):
            self.size = 0
            way = self.random.randrange(4)
            if way == 0:
                precise = ("Fun", tuple(self.precise(1) for _ in range(self.random.randrange(4))), self.precise(1))
                static = self.blurred(precise)
                if static == "Dyn":
                    static = ("Fun", tuple("Dyn" for _ in precise[1]), "Dyn")
                names = [self.name("p") for _ in precise[1]]
                inner = scope + list(zip(names, static[1], precise[1]))
                params = " ".join(
                    f" {n}" if s == "Dyn" and self.chance(0.6) else f" [{n} : {written(s)}]"
                    for n, s in zip(names, static[1])
                )
                name = self.name("h")
                result = "" if static[2] == "Dyn" and self.chance(0.5) else f" : {written(static[2])}"
                lines.append(f"(define ({name}{params}){result} {self.loose(precise[2], inner, 3)})")
                scope.append((name, static, precise))
            elif way < 3:
                precise = self.precise(3)
                static = self.blurred(precise)
                name = self.name("d")
                if self.chance(0.5):
                    lines.append(f"(define {name} : {written(static)} {self.loose(precise, scope, 3)})")
                else:
                    lines.append(f"(define {name} {self.exact(static, precise, scope, 3)})")
                scope.append((name, static, precise))
            else:
                lines.append(self.effect(scope, 4))
        self.size = 0
        lines.append(self.loose(self.precise(2) if self.chance(0.5) else "Int", scope, 5))
        return "\n".join(lines) + "\n"


def main():
    words = sys.argv[1:]
    has_piles = words[:1] == ["--piles"]
    if len(words) != 1 + has_piles:
        sys.exit(__doc__)
    programs = Programs(int(words[-1]))
    print(programs.piles() if has_piles else programs.program(), end="")


if __name__ == "__main__":
    main()
