"""What `eval` and `replay` print of a style without findings, by the manual's chapters on the listing and on scripts."""

import dataclasses
import functools
import pathlib
import sys

sys.path.append(str(pathlib.Path(__file__).resolve().parents[1] / "shared"))

import expressions
import legacy
import loading
import meaning
import millionths
import rules
import trees
import values
from millionths import ONE, Fault
from properties import ROWS, UNREAD_TYPES

tiles_by_rules = loading.module("tiles/by_rules.py")

FEATURE_TYPES = ("fill", "line", "symbol", "circle", "heatmap", "fill-extrusion")


@dataclasses.dataclass
class Feature:
    """A feature of a tile; numbers are millionths."""

    number: int
    identifier: int | None
    shape: str
    properties: dict


@dataclasses.dataclass
class Session:
    """What a listing sees besides the style: tiles by source, the zoom, states, images and the global state. Beside these, what earlier listings
    evaluated and no line made stale since, by the place of the layer, the item and the number of the feature, and how many the last one evaluated."""

    tiles: dict
    zoom: int
    defaults: dict
    states: dict = dataclasses.field(default_factory=dict)
    images: set = dataclasses.field(default_factory=set)
    globals: dict = dataclasses.field(default_factory=dict)
    kept: set = dataclasses.field(default_factory=set)
    last: int = 0

    def world(self, zoom, layer, feature):
        """What an expression of a layer sees, of one feature or of none."""
        made = meaning.World(zoom=zoom, globals={**self.defaults, **self.globals}, images=frozenset(self.images))
        if feature:
            made.properties, made.identifier, made.shape = feature.properties, feature.identifier, feature.shape
            place = (trees.member(layer, "source"), trees.member(layer, "source-layer"), feature.identifier)
            made.state = self.states.get(place, {}) if feature.identifier is not None else {}
        return made


def session(style, tiles, zoom):
    """The beginning: tiles are pairs of a source and bytes."""
    by_source = {}
    for source, data in tiles:
        by_source.setdefault(source, []).append(tiles_by_rules.read_tile(data))
    state = trees.member(style, "state") or ()
    return Session(by_source, zoom, {name: trees.value(trees.member(member, "default")) for name, member in state})


def features(session, layer):
    """The features of a layer, of all tiles of its source."""
    if trees.member(layer, "type") not in FEATURE_TYPES:
        return []
    made = []
    for tile in session.tiles.get(trees.member(layer, "source"), []):
        for name, *found in tile:
            if name == trees.member(layer, "source-layer"):
                made += [feature(len(made) + place, one) for place, one in enumerate(found)]
    return made


def feature(number, found):
    identifier, shape, *pairs = found
    given = {key: value if isinstance(value, (bool, str)) else value * ONE for key, value in zip(pairs[::2], pairs[1::2])}
    return Feature(number, None if identifier is None else identifier * ONE, shape, given)


def listing(style, session):
    """The lines of a listing."""
    layers = [Layer(layer, session) for layer in trees.member(style, "layers")]
    asked = {(place, *one) for place, layer in enumerate(layers) for one in layer.asked()}
    session.last = len(asked - session.kept)
    session.kept |= asked
    lines = [f"zoom {millionths.written(session.zoom)}"]
    for layer in layers:
        lines += layer.lines()
    return lines + ["end"]


class Layer:
    """A layer, with its checked values in the order of the table."""

    def __init__(self, layer, session):
        self.layer = layer
        self.session = session
        self.type = trees.member(layer, "type")
        self.filter = rules.checked_filter(trees.member(layer, "filter")) if trees.has_member(layer, "filter") else None
        places = {place: trees.member(layer, place) for place in ("layout", "paint")}
        self.places = {place: tree if trees.is_object(tree) else () for place, tree in places.items()}
        self.values = [
            (row, rules.checked_value(row, trees.member(self.places[row.place], row.name)))
            for row in ROWS.values()
            if row.layer == self.type and row.name != "visibility" and trees.has_member(self.places[row.place], row.name)
        ]

    def lines(self):
        line = f"layer {trees.written(trees.member(self.layer, 'id'))} {self.type}"
        if self.is_hidden():
            return [line + " hidden"]
        if self.type in UNREAD_TYPES:
            return [line + " unread"]
        own = [f"  {row.name} {self.printed(row, checked, None)}" for row, checked in self.values if not reads_feature(checked)]
        if self.filter and self.filter.is_outside and self.type in FEATURE_TYPES:
            return [line + " ?", *own]
        return [line, *own] + [text for one in self.shown() for text in self.feature_lines(one)]

    def asked(self):
        """What a listing evaluates of the layer where nothing is kept: items, each with the number of a feature, or None for the layer."""
        if self.is_hidden() or self.type in UNREAD_TYPES:
            return set()
        own = {(row.name, None) for row, checked in self.values if is_evaluated(checked) and not reads_feature(checked)}
        if self.type not in FEATURE_TYPES or (self.filter and self.filter.is_outside):
            return own
        of_features = {(row.name, one.number) for one in self.shown() for row, checked in self.values if reads_feature(checked)}
        return own | self.asked_of_filter() | of_features

    def asked_of_filter(self):
        if self.filter is None or isinstance(trees.member(self.layer, "filter"), bool):
            return set()
        return {("filter", one.number) for one in self.found} if reads_feature(self.filter) else {("filter", None)}

    @functools.cached_property
    def found(self):
        return features(self.session, self.layer)

    def is_of(self, number, source, source_layer, identifier):
        """Whether the feature of this number has this identifier in this source layer."""
        place = (trees.member(self.layer, "source"), trees.member(self.layer, "source-layer"), self.found[number].identifier)
        return place == (source, source_layer, trees.number(identifier))

    def item(self, name):
        """Where an item is set, and the operators of its expression. A filter sees the zoom as a value of `layout` does."""
        if name == "filter":
            return "layout", operators(self.filter)
        return next((row.place, operators(checked)) for row, checked in self.values if row.name == name)

    def is_hidden(self):
        zoom = self.session.zoom
        least, most = (trees.number(trees.member(self.layer, name)) for name in ("minzoom", "maxzoom"))
        is_none = trees.member(self.places["layout"], "visibility") == "none"
        return is_none or (least is not None and zoom < least) or (most is not None and zoom >= most)

    def world(self, place, feature):
        zoom = self.session.zoom
        return self.session.world(zoom if place == "paint" else millionths.floor(zoom), self.layer, feature)

    def shown(self):
        """The features that are listed, in their order."""
        passed = [one for one in self.found if self.passes(one)]
        for row, checked in self.values:
            if row.name == f"{self.type}-sort-key" and reads_feature(checked):
                return sorted(passed, key=lambda one: self.sort_key(row, checked, one))
        return passed

    def sort_key(self, row, checked, feature):
        """A key that fails comes before all others."""
        try:
            return (1, self.value(row, checked, feature))
        except Fault:
            return (0, 0)

    def passes(self, feature):
        if self.filter is None:
            return True
        form, meant = self.filter.meant
        world = self.world("layout", feature)
        if form == "legacy":
            return legacy.passes(meant, world)
        try:
            return meaning.evaluated(meant, values.BOOLEAN, world)
        except Fault:
            return False

    def feature_lines(self, feature):
        identifier = "" if feature.identifier is None else f" id {millionths.written(feature.identifier)}"
        lines = [f"  feature {feature.number} {feature.shape}{identifier}"]
        return lines + [f"    {row.name} {self.printed(row, checked, feature)}" for row, checked in self.values if reads_feature(checked)]

    def value(self, row, checked, feature):
        form, meant = checked.meant
        world = self.world(row.place, feature)
        if form == "expression":
            return meaning.evaluated(meant, row.wanted(), world)
        if form == "function":
            return meant[0].value(world)
        if form == "tokens":
            return legacy.token_text(meant, world)
        return values.fitted(trees.value(meant), row.wanted())

    def printed(self, row, checked, feature):
        if checked.is_outside:
            return "?"
        try:
            return values.printed(self.value(row, checked, feature))
        except Fault as fault:
            return f"{values.printed(row.default_value())}!{fault}"


def reads_feature(checked):
    """Whether a value reads the feature or its state; what is outside counts as reading neither."""
    form, meant = checked.meant or (None, None)
    if form == "function":
        return expressions.mentions_feature(meant[1])
    if form == "legacy":
        return legacy.reads_feature(meant)
    return form == "tokens" or (form == "expression" and expressions.mentions_feature(meant))


def is_evaluated(checked):
    """Whether a value takes evaluations: it is neither a literal nor outside."""
    return not checked.is_outside and checked.meant[0] != "literal"


def operators(checked):
    """The operators of the expression of a value or filter; of a legacy filter and a token text none but those that read the feature."""
    form, meant = checked.meant
    node = {"expression": lambda: meant, "function": lambda: meant[1]}.get(form, lambda: None)()
    return {one.operator for one in expressions.nodes(node)} if node else set()


def replayed(style, session, script):
    """The lines of the answers to a script, whose lines are all accepted."""
    lines = []
    for number, line in enumerate(script, 1):
        if line[0] == "list":
            lines += listing(style, session)
        elif line[0] == "stats":
            lines.append(f"stats {session.last}")
        else:
            zoom = session.zoom
            COMMANDS[line[0]](session, *line[1:])
            drop(style, session, line, zoom)
            lines.append(f"ok {number}")
    return lines


def drop(style, session, line, zoom):
    """What the line made stale is not kept any more; the zoom is that before the line."""
    layers = [Layer(layer, session) for layer in trees.member(style, "layers")]
    session.kept = {(place, *one) for place, *one in session.kept if not is_stale(layers[place], *one, line, zoom)}


def is_stale(layer, name, number, line, zoom):
    """Whether a line makes an item of a layer stale, for the feature of a number or for the layer."""
    place, asked = layer.item(name)
    if line[0] == "set-zoom":
        seen = (lambda one: one) if place == "paint" else millionths.floor
        return "zoom" in asked and seen(zoom) != seen(layer.session.zoom)
    if line[0] in ("set-state", "remove-state"):
        return "feature-state" in asked and layer.is_of(number, *line[1:4])
    if line[0] in ("add-image", "remove-image"):
        return "image" in asked
    return line[0] == "set-global" and "global-state" in asked


def set_zoom(session, zoom):
    session.zoom = trees.number(zoom)


def set_state(session, source, source_layer, identifier, members):
    state = session.states.setdefault((source, source_layer, trees.number(identifier)), {})
    state.update(trees.value(members))


def remove_state(session, source, source_layer, identifier, key):
    state = session.states.get((source, source_layer, trees.number(identifier)), {})
    if key is None:
        state.clear()
    else:
        state.pop(key, None)


def set_global(session, name, value):
    if value is None:
        session.globals.pop(name, None)
    else:
        session.globals[name] = trees.value(value)


COMMANDS = {
    "set-zoom": set_zoom,
    "set-state": set_state,
    "remove-state": remove_state,
    "add-image": lambda session, name: session.images.add(name),
    "remove-image": lambda session, name: session.images.discard(name),
    "set-global": set_global,
}
