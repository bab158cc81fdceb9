"""Measures `migrate`: the least milliseconds of the whole process and of the processor, of twenty runs, and the most memory in MB.

    python3 checks/speed/migrations.py [PROGRAM]

PROGRAM is the program as LLVM built it.
"""

import json

import rules

RUNS = 20


def half(number):
    """A layer of which about half are legacy functions: of the zoom, of a property, and of both."""
    stops = [[zoom, (zoom * 7 + number) % 20 + 0.5] for zoom in range(4, 16)]
    both = [[{"zoom": zoom, "value": value}, value + 1] for zoom in (8, 12) for value in (0, 5, 10)]
    return json.dumps(
        {
            "id": f"layer-{number:05}",
            "type": "line",
            "source": "t",
            "source-layer": f"roads-{number % 9}",
            "minzoom": number % 12,
            "metadata": {"map:group": f"14448493{number:05}", "map:texts": ["a text of some length"] * 12},
            "filter": ["all", ["==", ["geometry-type"], "LineString"], ["match", ["get", "class"], ["motorway", "trunk"], True, False]],
            "layout": {"line-cap": "round", "line-join": "round"},
            "paint": {
                "line-color": {"property": "class", "type": "categorical", "stops": [["motorway", "#fea"], ["trunk", "#fd8"]], "default": "#fff"},
                "line-width": {"base": 1.2, "stops": stops},
                "line-opacity": {"property": "rank", "stops": [[0, 0.5], [10, 1]]},
                "line-offset": {"property": "lanes", "stops": both},
            },
        },
        separators=(",", ":"),
    )


def main():
    rules.print_measures(rules.given_program(), "migrate", half, (900, 1_850, 3_700), RUNS)


if __name__ == "__main__":
    main()
