#!/usr/bin/env python3
"""Writes heavy lawful sources, for bench/measure: `bench/sources.py FOLDER` writes `KIND-PART.pan` for each kind and each part.

A whole program is at the limits of the check: it weighs 262,144, a function of it 16,384 at most, and it has 4,096 functions at
most. PART is 4, 2 or 1: a quarter, a half or the whole of it, in functions of the same weight, so that growth is seen.

Each piece of text is built with its weight by the rules of docs/LANGUAGE.md; bench/measure compares the sum with what `panc check`
prints.
"""

import pathlib
import sys

HEAVIEST_FUNCTION = 16384
HEAVIEST_PROGRAM = 262144
MOST_FUNCTIONS = 4096
MAIN = 64
PARTS = (4, 2, 1)


class Text:
    """Pieces of source with what they weigh together."""

    def __init__(self):
        self.pieces, self.weight = [], 0

    def add(self, piece, weight):
        self.pieces.append(piece)
        self.weight += weight
        return self

    def fill(self, piece, weight, limit):
        """The same piece as often as it fits below the limit."""
        times = max(0, (limit - self.weight) // weight)
        self.pieces.append(piece * times)
        self.weight += times * weight
        return self

    def pad(self, limit):
        """Statements up to exactly this weight, which is 18 or more away."""
        left = limit - self.weight
        assignments = next(n for n in range(4) if (left - 7 * n) % 4 == 0)
        return self.add("x = 0;\n" * assignments + "skip;\n" * ((left - 7 * assignments) // 4), left)

    def __str__(self):
        return "".join(self.pieces)


# What expressions weigh: a word that is named or a number 2, an operator of a chain 2 besides its operand.
def chain(operators):
    """The weight of a chain of words with so many operators."""
    return 2 + 4 * operators


ENDING = "return x;\n}\n"
ENDING_WEIGHT = 4 + 2


def function(name, body, limit):
    """A function of one parameter a and a variable x that weighs exactly the limit, around what the body adds."""
    text = Text().add(f"fun {name}(1 a) {{\n", 4 + 1 + 1).add("var x = a;\n", 4 + 2 + 1)
    body(text, limit - ENDING_WEIGHT - 64)
    text.pad(limit - ENDING_WEIGHT).add(ENDING, ENDING_WEIGHT)
    assert text.weight == limit
    return text


def main_of(call, call_weight):
    """A main of weight MAIN that begins with this call, whose result is x."""
    text = Text().add("fun main() {\n", 4 + 1).add(f"var x = {call};\n", 4 + call_weight + 1 + 1)
    return text.pad(MAIN - ENDING_WEIGHT).add(ENDING, ENDING_WEIGHT)


def heaviest(body, part):
    """Functions of the greatest weight, by this body; the last one leaves the weight of main."""
    count = HEAVIEST_PROGRAM // HEAVIEST_FUNCTION // part
    limits = [HEAVIEST_FUNCTION] * (count - 1) + [HEAVIEST_FUNCTION - MAIN]
    return [function(f"f{i}", body, limit) for i, limit in enumerate(limits)] + [main_of("f0(1)", 2)]


def mixed(text, limit):
    """Statements of all kinds, as a driver has them."""
    block = (
        ("while x <+ 100 {\n", 4 + 2 + 2 + 2),
        ("y = !ld32 0x40000004;\n", 4 + 2 + 1),
        ("if y & 1 { x = x + y; } else { x = (x ^ y) >>> 3; }\n", 4 + chain(1) + (4 + chain(1) + 1) + (4 + chain(1) + 2 + 1)),
        ("st @base + 8, x * 2;\n", 4 + chain(1) + chain(1)),
        ("!st8 0x40000000, x;\n", 4 + 2 + 2),
        ("y = f0(x - y);\n", 4 + chain(1) + 1 + 1),
        ("stb @base + (x & 7), ldb (@base + y);\n", 4 + (2 + 2 + chain(1)) + (2 + chain(1))),
        ("@send(@base, 8, @base + 8, x);\n", 4 + 2 + 2 + chain(1) + 2),
        ("}\n", 0),
    )
    text.add("var y = 0;\n", 4 + 2 + 1)
    text.fill("".join(piece for piece, _ in block), sum(weight for _, weight in block), limit)


def operators(text, limit):
    """One chain of operators as long as it may be."""
    count = (limit - text.weight - 4 - 2 - 1) // 12
    text.add("x = a" + " + x - 7 + a" * count + ";\n", 4 + chain(3 * count) + 1)


def levels(text, limit):
    """One chain of products, sums and bits, in parentheses to a depth of eight."""
    inner, weight = "a", 2
    for sign in ("*", "+", "^", "&", "|", "-", "+", "*"):
        inner, weight = f"(x {sign} {inner})", weight + 2 + 2
    count = (limit - text.weight - 4 - 2 - 1) // (2 + weight)
    text.add("x = a" + f" + {inner}" * count + ";\n", 4 + 2 + count * (2 + weight) + 1)


def test(text, limit):
    """A chain in the test of a loop."""
    count = (limit - text.weight - 4 - 2 - 4) // 12
    text.add("while a" + " + x - 7 + a" * count + " { break; }\n", 4 + chain(3 * count) + 4)


def branches(text, limit):
    """Ifs in one another, a hundred deep."""
    test_weight = 4 + 2 + 2 + 2
    depth = 100
    nest = "".join(f"if x <+ {i} {{ x = x + {i};\n" for i in range(depth)) + "} else { x = a; }\n" * depth
    text.fill(nest, depth * (test_weight + (4 + chain(1) + 1) + (4 + 2 + 1)), limit)


def structs(text, limit):
    """Structs in structs, 60 deep, whose parts are taken and put back."""
    value, weight = "<x, 1>", 1 + 2 + 2 + 2
    words = 2
    for _ in range(58):
        value, words = f"<a, {value} >", words + 1
        weight += 2 + 1 + words
    text.add(f"var s = {value};\n", 4 + weight + words)
    field = 1 + 1 + (1 + words)
    tail = f"s{'.1' * 59}"
    statements = (
        (f"x = {tail};\n", 4 + field + 1),
        (f"s = {value};\n", 4 + weight + words),
        ("s = <x, s.1>;\n", 4 + (1 + words + 2 + (1 + (words - 1) + 1 + words)) + words),
    )
    text.fill("".join(piece for piece, _ in statements), sum(weight for _, weight in statements), limit)


def wide(text, limit):
    """Loads and stores of 64 words, and copies of such structs."""
    text.add("var s = lds 64 @base;\n", 4 + (1 + 64 + 2) + 64)
    text.add("var t = s;\n", 4 + (1 + 64) + 64)
    statements = (
        ("s = lds 64 (@base + x);\n", 4 + (1 + 64 + chain(1)) + 64),
        ("st @base + a, t;\n", 4 + chain(1) + (1 + 64)),
        ("t = s;\n", 4 + (1 + 64) + 64),
        ("x = t.63;\n", 4 + (1 + 1 + (1 + 64)) + 1),
    )
    text.fill("".join(piece for piece, _ in statements), sum(weight for _, weight in statements), limit)


def variables(text, limit):
    """Variables that all live at once, and are added at the end."""
    count = (limit - text.weight - 11) // ((4 + chain(1) + 1) + 4)
    text.add("".join(f"var v{k} = x + {k};\n" for k in range(count)), count * (4 + chain(1) + 1))
    text.add("x = x" + "".join(f" + v{k}" for k in range(count)) + ";\n", 4 + chain(count) + 1)


def small(part):
    """Functions of weight 64, each of which calls the next one."""
    count = MOST_FUNCTIONS // part
    texts = []
    for i in range(count - 1):
        text = Text().add(f"fun f{i}(1 a, 1 b, 1 c) {{\n", 4 + 3 + 1).add("var x = a + b;\n", 4 + chain(1) + 1)
        text.add("if x <+ 9 { x = x - 1; } else { skip; }\n", 4 + (2 + 2 + 2) + (4 + chain(1) + 1) + 4)
        text.add(f"x = f{(i + 1) % (count - 1)}(x, b, c);\n", 4 + 2 + 2 + 2 + 1 + 1)
        texts.append(text.add("return ldb x;\n}\n", 4 + 2 + 2))
    texts.append(main_of("f0(1, 2, 3)", 6))
    return texts


KINDS = {
    "small": small,
    "mixed": lambda part: heaviest(mixed, part),
    "operators": lambda part: heaviest(operators, part),
    "levels": lambda part: heaviest(levels, part),
    "test": lambda part: heaviest(test, part),
    "branches": lambda part: heaviest(branches, part),
    "structs": lambda part: heaviest(structs, part),
    "wide": lambda part: heaviest(wide, part),
    "variables": lambda part: heaviest(variables, part),
}


def write_all(folder, kinds=KINDS, parts=PARTS):
    """Writes the sources, and gives for each its kind, its part, its file and its weight."""
    written = []
    for kind in kinds:
        for part in parts:
            texts = KINDS[kind](part)
            file = pathlib.Path(folder) / f"{kind}-{part}.pan"
            file.write_text("".join(map(str, texts)))
            written.append((kind, part, file, sum(text.weight for text in texts)))
    return written


def main():
    if len(sys.argv) != 2:
        sys.exit("usage: bench/sources.py FOLDER")
    for kind, part, file, weight in write_all(sys.argv[1]):
        print(f"{file.name}: {file.stat().st_size} bytes, weight {weight}")


if __name__ == "__main__":
    main()
