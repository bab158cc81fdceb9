"""Runs the program with a stack of 1 MiB on the deepest inputs that its limits allow: each has to end as it does with a large one.

Bindings that ask for one another, in turn or crosswise, are among them: more than four are evaluated in turn, so that no evaluation of one
is inside of that of another.
"""

import itertools
import resource

from memory import least
from running import LONGEST_WORD, Folder, Given, given_rows

KB = 1024
STACK = 1024 * KB
LARGE = 1 << 30
# The least stack that is looked at, and the steps in which it grows.
LOWEST = 64 * KB
STEP = 4 * KB
DEPTH = 64
ENDS = range(5)
TILE = bytes.fromhex("1a2978020a01701208080712020000180112080807120200011801120218011a01722202280322030a0178")
# What stands in itself at X, and what is innermost: nodes of each operator that are well typed, and then what is no node.
FORMS = [
    ('["-",X]', "1"), ('["+",1,X]', "1"), ('["*",X,1]', "1"), ('["/",X,1]', "1"), ('["%",1,X]', "3"), ('["min",1,X]', "1"), ('["max",X]', "1"),
    ('["abs",X]', "1"), ('["ceil",X]', "1"), ('["floor",X]', "1"), ('["round",X]', "1"), ('["!",X]', "true"), ('["==",X,true]', "true"),
    ('["!=",true,X]', "true"), ('["to-number",["<",X,1]]', "1"), ('["to-number",[">=",1,X]]', "1"), ('["all",X]', "true"), ('["any",X,true]', "true"),
    ('["case",X,true,false]', "true"), ('["case",true,X,2]', "1"), ('["case",false,1,X]', "1"), ('["coalesce",X,1]', "1"),
    ('["match",X,1,2,3]', "1"), ('["match",1,1,X,3]', "1"), ('["match",1,[2,3],4,X]', "1"), ('["step",X,0,1,2]', "1"), ('["step",0,X,1,2]', "1"),
    ('["step",2,0,1,X]', "1"), ('["interpolate",["linear"],X,0,1,10,2]', "1"), ('["interpolate",["linear"],5,0,1,10,X]', "1"),
    ('["interpolate",["exponential",2],X,0,1,10,2]', "1"), ('["let","a",X,["var","a"]]', "1"), ('["let","a",1,X]', '["var","a"]'),
    ('["number",X]', "1"), ('["number","x",X]', "1"), ('["string",X]', '"a"'), ('["boolean",X]', "true"), ('["object",X]', '["literal",{}]'),
    ('["array",X]', '["literal",[1]]'), ('["array","number",1,X]', '["literal",[1]]'), ('["to-number","x",X]', "1"), ('["to-string",X]', "1"),
    ('["to-boolean",X]', "1"), ('["to-color",["to-string",X]]', '"red"'), ('["typeof",X]', "1"), ('["concat","a",X]', "1"),
    ('["length",["to-string",X]]', "1"), ('["at",X,["literal",[0,0]]]', "1"), ('["in","a",["to-string",X]]', "1"),
    ('["index-of","a",["to-string",X]]', "1"), ('["index-of","a","ba",X]', "0"), ('["slice",X,0]', '"a"'), ('["slice","a",["length",X]]', '"a"'),
    ('["get",X]', '"a"'), ('["get","a",["object",X]]', '["literal",{}]'), ('["has",["to-string",X]]', "1"), ('["feature-state",X]', '"a"'),
    ('["image",["to-string",X]]', '"a"'), ('["is-supported-script",["to-string",X]]', "1"), ('["length",["to-rgba",["rgb",X,0,0]]]', "1"),
    ('["to-rgba",["to-color",["to-string",X]]]', "1"), ('["sqrt",X]', "1"), ('["upcase",X]', "1"), ('["number-format",X,{}]', "1"),
    ('["<",X,1]', "1"), ('["all",X]', "1"), ('["length",X]', "1"), ('["foo",X]', "1"), ("[X]", "1"), ('{"a":X}', "1"), ('["literal",X]', "1"),
]
PLAIN = ("[X]", '{"a":X}')


def depth_of(text):
    """How many arrays and objects are open at once. No text here has brackets within quotation marks."""
    depth = most = 0
    for char in text:
        depth += (char in "[{") - (char in "]}")
        most = max(most, depth)
    return most


def nested(form, depth, inner="1"):
    """The form in itself as often as there are at most `depth` arrays and objects open at once."""
    front, back = form.split("X")
    for levels in range(depth, 0, -1):
        text = front * levels + inner + back * levels
        if depth_of(text) <= depth:
            return text
    return inner


def bindings(form, inner, asked='["var","a"]'):
    """A `let` in 62 others, each binding of which is as deep as it may be and asks for that of the `let` around."""
    text = '["var","a"]'
    for level in range(DEPTH - 1, 0, -1):
        text = '["let","a",%s,%s]' % (nested(form, DEPTH - level, asked if level > 1 else inner), text)
    return text


def crosswise(levels, length):
    """A `let` in others: its body asks for the innermost binding, and each binding is such a node again, one level less high, that asks
    at its end for the binding of the `let` around. Where a binding is evaluated inside of what asks for it, nearly all are open at once,
    though the text is less than 64 deep."""
    count = itertools.count()

    def made(height, asked):
        if height == 1:
            return nested('["-",X]', length, asked)
        front = ""
        for rest in range(height - 1, 0, -1):
            name = f"a{next(count)}"
            front, asked = front + f'["let","{name}",{made(rest, asked)},', f'["var","{name}"]'
        return front + asked + "]" * (height - 1)

    return made(levels, "1")


def groups(word, levels):
    """A legacy filter of groups in one another."""
    return f'["{word}",' * levels + '["==","r",3]' + "]" * levels


def layer(kind, members, name="c"):
    return '{"id":"%s","type":"%s","source":"t","source-layer":"p"%s}' % (name, kind, members)


def style(layers, more=""):
    return '{"version":8,%s"sources":{"t":{"type":"vector"}},"layers":[%s]}' % (more, layers)


def radius(value):
    return layer("circle", ',"paint":{"circle-radius":%s}' % value)


def text_field(value, name="c"):
    return layer("symbol", ',"layout":{"text-field":%s}' % value, name)


def filtered(value):
    return layer("circle", ',"filter":%s' % value)


def styles():
    """Names and texts of styles that are as deep as they may be at some place, of good form and of none."""
    for form, inner in FORMS:
        yield f"a radius of {form}", style(radius(nested(form, DEPTH - 4, inner)))
        yield f"a text of {form}", style(text_field(nested(form, DEPTH - 4, inner)))
        yield f"a section of {form}", style(text_field('["format","a",{"font-scale":%s}]' % nested(form, DEPTH - 6, inner)))
        yield f"a filter of {form}", style(filtered(nested(form, DEPTH - 3, inner)))
    for word in ("all", "any", "none"):
        for levels in (24, 25, DEPTH - 4):  # 24 are allowed
            yield f"{levels} times {word}", style(filtered(groups(word, levels)))
    for form in PLAIN:
        yield f"metadata of {form}", style("", '"metadata":%s,' % nested(form, DEPTH - 1))
        yield f"metadata of a layer of {form}", style(layer("circle", ',"metadata":%s' % nested(form, DEPTH - 3)))
        yield f"a global value of {form}", style(text_field('["to-string",["global-state","k"]]'), '"state":{"k":{"default":%s}},' % nested(form, DEPTH - 3))
        stops = '{"property":"r","type":"categorical","stops":[["x",%s]],"default":%s}'
        yield f"a result of a function of {form}", style(radius(stops % (nested(form, DEPTH - 7), "1")))
        yield f"a default of a function of {form}", style(radius(stops % ("1", nested(form, DEPTH - 5))))
    yield "65 arrays", nested("[X]", DEPTH + 1)


def script_lines():
    """Lines of a script that are as deep as they may be."""
    for form, inner in FORMS:
        yield '["set-paint","c","circle-radius",%s]' % nested(form, DEPTH - 1, inner)
        yield '["set-filter","c",%s]' % nested(form, DEPTH - 1, inner)
        yield '["set-layout","e","text-field",%s]' % nested(form, DEPTH - 1, inner)
        yield '["add-layer",%s]' % layer("circle", ',"paint":{"circle-radius":%s}' % nested(form, DEPTH - 3, inner), "d")
        yield '["add-layer",%s]' % layer("circle", ',"filter":%s' % nested(form, DEPTH - 2, inner), "d")
    yield '["set-filter","c",%s]' % groups("all", 24)
    for form in PLAIN:
        yield '["set-state","t","p",7,{"o":%s}]' % nested(form, DEPTH - 2)
        yield '["set-global","k",%s]' % nested(form, DEPTH - 1)
        yield '["add-layer",%s]' % nested(form, DEPTH - 1)


def deepest():
    """Runs of each command on the deepest inputs."""
    for form, inner in FORMS:
        yield Given(f"value of {form}", ["value", nested(form, DEPTH, inner)], {})
        yield Given(f"value of {form} in bindings", ["value", bindings(form, inner, inner)], {})
    for form in PLAIN:
        literal = '["literal",%s]' % nested(form, DEPTH - 3)
        for whole in ('["to-string",X]', '["in",X,["literal",[1]]]', '["in",X,["literal",[Y]]]', '["coalesce",X]', '["at",0,["literal",[Y]]]'):
            text = whole.replace("X", literal).replace("Y", nested(form, DEPTH - 3))
            yield Given(f"value of {whole} with {form}", ["value", text], {})
    for name, text in styles():
        for command in ("validate", "migrate", "simplify"):
            yield Given(f"{command} of {name}", [command, "s"], {"s": text.encode()})
        yield Given(f"eval of {name}", ["eval", "s", "1", "t=a"], {"s": text.encode(), "a": TILE})
    opacity = '["length",["to-string",["feature-state","o"]]]'
    label = layer("symbol", ',"layout":{"text-field":["to-string",["global-state","k"]]},"paint":{"text-opacity":%s}' % opacity, "e")
    shown = style(radius("1") + "," + label)
    for line in script_lines():
        script = f'{line}\n["list"]\n["remove-layer","e"]\n'
        yield Given(f"replay of {line[:60]}", ["replay", "s", "e", "1", "t=a"], {"s": shown.encode(), "e": script.encode(), "a": TILE})
        script = f'["open-view","v",1]\n{line}\n["view","v",["list"]]\n'
        yield Given(f"desk of {line[:60]}", ["desk", "s", "e", "t=a"], {"s": shown.encode(), "e": script.encode(), "a": TILE})
    yield Given("no words", [], {})
    yield Given("tile", ["tile", "a"], {"a": TILE})
    yield Given("generate 1000", ["generate", "1000"], {})


def asking_bindings():
    """Runs in which bindings ask for one another."""
    for form, inner in FORMS:
        yield Given(f"value of {form} in bindings that ask in turn", ["value", bindings(form, inner)], {})
    yield from given_rows(lambda name: name.startswith("a tower of 63 let"))


def crosswise_bindings():
    """Runs in which bindings ask for one another crosswise."""
    for levels, length in ((3, 20), (5, 50), (10, 50), (14, 1)):
        text = crosswise(levels, length)
        files = {"s": style(radius(text)).encode(), "a": TILE, "e": b'["list"]\n', "d": b'["open-view","v",1]\n["view","v",["list"]]\n'}
        name = f"{levels} levels of bindings that ask crosswise"
        yield Given(f"eval of {name}", ["eval", "s", "0", "t=a"], files)
        yield Given(f"replay of {name}", ["replay", "s", "e", "0", "t=a"], files)
        yield Given(f"desk of {name}", ["desk", "s", "d", "t=a"], files)
        yield Given(f"simplify of {name}", ["simplify", "s"], files)
        if len(text) <= LONGEST_WORD:
            yield Given(f"value of {name}", ["value", text], {})


def run_deep(program, short, times, is_wanted):
    """Runs the deepest inputs, and without --short all rows, and gives how many ended wrong; `times` prints the greatest stack that one of
    each command needs."""
    failed, runs, needs = 0, 0, {}
    cases = [(given, "") for given in deepest()]
    cases += [(given, " with bindings that ask") for given in itertools.chain(asking_bindings(), crosswise_bindings())]
    if not short:
        cases += [(given, "") for given in given_rows(lambda name: not name.startswith("a tower of 63 let"))]
    for given, of_bindings in cases:
        if not is_wanted("stack: " + given.name):
            continue
        with Folder(given) as folder:
            plain = folder.run(program, [(resource.RLIMIT_STACK, LARGE)])
            got = folder.run(program, [(resource.RLIMIT_STACK, STACK)])
            runs += 1
            if plain[0] not in ENDS or got != plain:
                failed += 1
                print(f"hostile: stack: {given.name}: status {got[0]} with {STACK // KB} kB, {plain[0]} else")
            elif times:
                kind = (given.words or ["no words"])[0] + of_bindings
                low, _ = needs.setdefault(kind, (LOWEST, "all"))
                if folder.run(program, [(resource.RLIMIT_STACK, low)]) != plain:
                    need = least(resource.RLIMIT_STACK, lambda limits: folder.run(program, limits) == plain, low, STACK, STEP)
                    needs[kind] = need, given.name
    for kind, (need, name) in sorted(needs.items()):
        print(f"hostile: stack: {kind} ends right with {need // KB} kB: {name}")
    if runs:
        print(f"hostile: stack: {runs} runs")
    return failed
