"""The crates and what each stands on, from crates.txt."""

from pathlib import Path

from drawing import BLUE, GREEN, GREY, NORMAL, ORANGE, Drawing

LIST = Path(__file__).resolve().parents[2] / "crates.txt"
BOX, ROW, MARGIN, WIDTH = (112, 26), 58, 24, 1000
GAP = 14
PROGRAMS = ("softlines", "trials")
ARCHIVE = "softdemap"


def listed():
    """The crates of crates.txt, each with those that it uses; libraries of the toolchain are left out."""
    lines = (line.partition("#")[0] for line in LIST.read_text(encoding="utf-8").splitlines())
    uses = {name.strip(): set(rest.split()) for name, colon, rest in (line.partition(":") for line in lines) if colon}
    return {name: rest & uses.keys() for name, rest in uses.items()}


def direct(uses):
    """The same without what a crate reaches through another that it uses."""
    below = {}
    for name in sorted(uses, key=lambda crate: len(reached(uses, crate))):
        below[name] = {crate for crate in uses[name] if not any(crate in reached(uses, other) for other in uses[name])}
    return below


def reached(uses, name):
    """All that a crate stands on."""
    found = set()
    for crate in uses[name]:
        found |= {crate} | reached(uses, crate)
    return found


def heights(below):
    """The row of each crate, from 0: one above the highest crate that it stands on."""
    height = {}
    while len(height) < len(below):
        for name, under in below.items():
            if name not in height and all(crate in height for crate in under):
                height[name] = 1 + max((height[crate] for crate in under), default=-1)
    return height


def paths(below, height):
    """Each line from a crate down to one that it stands on: the two, and between them a passage in every row that it crosses."""
    return [
        [name, *((name, crate, row) for row in range(height[name] - 1, height[crate], -1)), crate]
        for name, under in below.items()
        for crate in sorted(under)
    ]


def places(below):
    """Centres of boxes and passages; each stands as near as it can above the middle of what it stands on and below what stands on it."""
    height = heights(below)
    lines = paths(below, height)
    under = {node: [] for line in lines for node in line}
    over = {node: [] for node in under}
    for line in lines:
        for upper, lower in zip(line, line[1:]):
            under[upper].append(lower)
            over[lower].append(upper)
    row_of = {node: node[2] if isinstance(node, tuple) else height[node] for node in under}
    layers = [[node for node in under if row_of[node] == row] for row in range(1 + max(height.values()))]
    across = {node: WIDTH * (column + 0.5) / len(layer) for layer in layers for column, node in enumerate(layer)}
    for turn in range(48):
        upwards = turn % 2 == 0
        for layer in layers if upwards else layers[::-1]:
            near = {node: [across[other] for other in (under if upwards else over)[node]] or [across[node]] for node in layer}
            layer.sort(key=lambda node: sum(near[node]) / len(near[node]))
            spread(layer, across, near)
    top = MARGIN + BOX[1] / 2
    return lines, {node: (across[node], top + (len(layers) - 1 - row_of[node]) * ROW) for node in under}


def half(node):
    """Half the room that a box or a passage takes in its row."""
    return GAP / 2 if isinstance(node, tuple) else (BOX[0] + GAP) / 2


def spread(layer, across, near):
    """Puts a row's boxes and passages near where they belong, without overlap."""
    least = [half(a) + half(b) for a, b in zip(layer, layer[1:])]
    left = [MARGIN + half(layer[0]) + sum(least[:i]) for i in range(len(layer))]
    right = [WIDTH - MARGIN - half(layer[-1]) - sum(least[i:]) for i in range(len(layer))]
    wanted = [sum(near[node]) / len(near[node]) for node in layer]
    for _ in range(60):
        for i, room in enumerate(least):
            lacking = room - (wanted[i + 1] - wanted[i])
            if lacking > 0:
                wanted[i] -= lacking / 2
                wanted[i + 1] += lacking / 2
        wanted = [min(max(x, low), high) for x, low, high in zip(wanted, left, right)]
    across.update(zip(layer, wanted))


def colour(name):
    """The filling of a crate's box: programs and the library for C stand out."""
    if name in PROGRAMS:
        return ORANGE
    return GREEN if name == ARCHIVE else "#ffffff"


def ends(node, centre):
    """The points of a line at a box or a passage: in at the top and out at the bottom."""
    x, y = centre[node]
    return (x, y - BOX[1] / 2), (x, y + BOX[1] / 2)


def graph():
    """Boxes with lines down to what each crate stands on directly."""
    lines, centre = places(direct(listed()))
    height = max(y for _, y in centre.values()) + BOX[1] / 2 + MARGIN
    drawing = Drawing(height, "The crates, one above the other", WIDTH)
    for line in lines:
        for upper, lower in zip(line, line[1:]):
            drawing.line(ends(upper, centre)[1], ends(lower, centre)[0], GREY, 1.2)
        for passage in line[1:-1]:
            drawing.line(*ends(passage, centre), GREY, 1.2)
    for name, (x, y) in centre.items():
        if not isinstance(name, tuple):
            drawing.rectangle((x - BOX[0] / 2, y - BOX[1] / 2), BOX, colour(name), BLUE)
            drawing.text((x, y + 5), name, NORMAL)
    return drawing
