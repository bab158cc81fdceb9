#!/usr/bin/env python3
"""Compares what the crate color_values says of texts with by_rules.py, which reads them in exact fractions.

    python3 checks/colors/compare.py [--random N] [--near N] [--changed N] [--seed N]   three comparisons
    python3 checks/colors/compare.py --times                                            time on short and on large texts

1. Random colors by their parts and by hexadecimal digits, with numbers of few and of many digits.
2. Colors by hue, saturation and lightness of which a component lies a little before or after half a millionth more than a whole number of them.
3. The same with characters changed.

It needs `rt` on the path. The program that reads the texts is made in a temporary folder, from a copy of crates/ and
program.txt. For the comparisons `rt try` runs it unproved; for the times `rt run` proves it and LLVM builds it.
"""

import fractions
import pathlib
import random
import sys

sys.path.append(str(pathlib.Path(__file__).resolve().parent.parent / "shared"))

import by_rules
import scratch

PROGRAM = "color_lines"

LENGTHS = [0, 1, 2, 5, 8, 9, 10, 16, 17, 18, 20, 27, 28, 36, 60, 120]


def decimal(value, places):
    """The number with `places` digits after the point, rounded down."""
    units = value.numerator * 10**places // value.denominator
    digits = str(abs(units)).rjust(places + 1, "0")
    text = digits[: len(digits) - places] + ("." + digits[len(digits) - places :] if places else "")
    return "-" + text if units < 0 else text


def number(rng, least, most):
    places = rng.choice(LENGTHS)
    return decimal(fractions.Fraction(rng.randrange(least * 10**places, most * 10**places + 1), 10**places), places)


def spaced(rng, parts):
    blank = lambda: " " * rng.choice([0, 0, 0, 1, 2])
    return ",".join(blank() + part + blank() for part in parts)


def alpha(rng):
    return rng.choice([[], [], [number(rng, -1, 2)], [number(rng, -10, 110) + "%"]])


def random_color(rng):
    kind = rng.randrange(4)
    if kind == 0:
        return "#" + "".join(rng.choice("0123456789abcdefABCDEF") for _ in range(rng.choice([3, 4, 6, 8])))
    if kind == 1:
        parts = [number(rng, -20, 300) for _ in range(3)]
    elif kind == 2:
        parts = [number(rng, -10, 120) + "%" for _ in range(3)]
    else:
        parts = [number(rng, -800, 800) + rng.choice(["", "", "deg", "DEG"]), number(rng, -10, 110) + "%", number(rng, -10, 110) + "%"]
    name = rng.choice(["hsl", "hsla", "HSL"] if kind == 3 else ["rgb", "rgba", "Rgb"])
    return f"{name}({spaced(rng, parts + alpha(rng))})"


def near_color(rng):
    """A lightness of many digits beside the one that makes a component half a millionth more than a whole number of them."""
    while True:
        hue, saturation = number(rng, 0, 359), number(rng, 0, 99)
        k = (rng.choice([0, 8, 4]) + fractions.Fraction(hue) / 30) % 12
        slope = fractions.Fraction(saturation) / 100 * max(-1, min(k - 3, 9 - k, 1))
        part = fractions.Fraction(2 * rng.randrange(255 * 10**6) + 1, 510 * 10**6)
        lightness = part / (1 - slope)
        if lightness >= fractions.Fraction(1, 2):
            lightness = (part + slope) / (1 + slope)
            if not fractions.Fraction(1, 2) <= lightness <= 1:
                continue
        places = rng.choice([12, 18, 27, 40, 90])
        text = decimal(lightness * 100 + fractions.Fraction(rng.choice([0, 1]), 10**places), places)
        return f"hsl({hue},{saturation}%,{text}%)"


def changed(rng, text):
    """The text with a character left out, put in or replaced."""
    at = rng.randrange(len(text) + 1)
    new = rng.choice(["", *" ,.%()+-#0159abdeghlrsx", "\u212a", "\t"])
    return text[:at] + new + text[at + rng.choice([0, 1]) :]


def line_by_rules(text):
    color = by_rules.color_of(text)
    return "none" if color is None else " ".join(map(str, color))


def compare_with_rules(what, texts, lines):
    differ = 0
    for text, line in zip(texts, lines, strict=True):
        wanted = line_by_rules(text)
        if line != wanted:
            differ += 1
            print(f"{what}: {text!r}: reader {line}, rules {wanted}")
    colors = sum(line != "none" for line in lines)
    print(f"{what}: {len(texts)} texts, {colors} colors, {differ} differ")
    return differ


def made_program(folder):
    return scratch.make_program(folder, PROGRAM, "colors/program.txt", ["color_values", "fixed_num"])


def compare(folder, options):
    """All comparisons; gives how many texts differ."""
    program = made_program(folder)
    rng = random.Random(options.seed)
    made = {
        "random": [random_color(rng) for _ in range(options.random)],
        "near": [near_color(rng) for _ in range(options.near)],
    }
    made["changed"] = [changed(rng, rng.choice(made["random"] + made["near"])) for _ in range(options.changed)]
    texts = folder / "texts"
    texts.write_text("".join(text + "\n" for all_texts in made.values() for text in all_texts))
    lines = scratch.run(program, "rt", "try", "--seconds", "600", "--", "lines", texts).decode().split("\n")
    differ = 0
    for what, all_texts in made.items():
        differ += compare_with_rules(what, all_texts, lines[: len(all_texts)])
        lines = lines[len(all_texts) :]
    return differ


def measure(folder):
    rng = random.Random(1)
    digits = lambda count: "".join(rng.choice("0123456789") for _ in range(count))
    most = 4 * 1024 * 1024 - 40
    cases = [
        (1_000_000, ["hsl(205, 56%, 73%)", "hsl(212.30769230769232, 54.16666666666667%, 52.94117647058823%)", "rgb(1,2,3)", "#12345678", "lightgoldenrodyellow"]),
        (1000, [f"hsl(100.{digits(1000)},50.{digits(1000)}%,30.{digits(1000)}%)"]),
        (1, [f"hsl(100.{digits(1000)},50.{digits(1000)}%,70.{digits(most - 2000)}%)", f"hsl(100,50%,30.{digits(most)}%)", f"rgb(1.{digits(most)},2,3)"]),
    ]
    program = made_program(folder)
    texts = folder / "texts"
    texts.write_text("red\n")
    built = scratch.build(program, "times", texts, 1)
    for count, all_texts in cases:
        texts.write_text("".join(text + "\n" for text in all_texts))
        print(scratch.run(program, built, "times", texts, count).decode(), end="")


if __name__ == "__main__":
    counts = {"random": (1000, "random colors"), "near": (500, "colors near a half"), "changed": (1000, "changed texts")}
    sys.exit(scratch.status_of(__doc__.split("\n")[0], counts, compare, measure))
