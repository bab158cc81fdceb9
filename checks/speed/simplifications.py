"""Measures `simplify`: the least milliseconds of the whole process and of the processor, of ten runs, and the most memory in MB.

    python3 checks/speed/simplifications.py [PROGRAM]

PROGRAM is the program as LLVM built it.
"""

import json

import rules

RUNS = 10


def foldable(number):
    """A layer whose filter and values each have something to fold: constants, a false condition, a binding, a condition of a group."""
    radius = ["case", ["==", 1, 2], ["get", "r"], ["+", ["number", ["get", "r"]], ["*", 2, 3]]]
    return json.dumps(
        {
            "id": f"layer-{number:05}",
            "type": "circle",
            "source": "t",
            "source-layer": "p",
            "filter": ["all", ["!", ["!", True]], ["==", ["get", "k"], f"v{number}"], ["any", ["has", "a"], False]],
            "paint": {
                "circle-radius": radius,
                "circle-color": ["match", ["get", "c"], "a", "red", ["b", "d"], "#00ff00", "blue"],
                "circle-opacity": ["interpolate", ["linear"], ["zoom"], 0, ["/", 1, 2], 10, ["min", 1, ["number", ["get", "o"], 1]]],
                "circle-blur": ["let", "x", ["+", 1, 1], ["*", ["var", "x"], ["number", ["get", "b"], 0]]],
            },
        },
        separators=(",", ":"),
    )


def main():
    rules.print_measures(rules.given_program(), "simplify", foldable, (1_900, 3_800, 7_600), RUNS)


if __name__ == "__main__":
    main()
