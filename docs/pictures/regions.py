"""The decision regions of 8-PSK, as the library decides."""

import math

from drawing import BLACK, BLUE, GREEN, GREY, ORANGE, PURPLE, RED, SKY, SMALL, TITLE, Drawing
from softdemap import MAX_SYMBOLS, Psk, demap_frame, points

# Samples on a circle, as many a degree.
SAMPLE_RADIUS, STEPS = 1000000, 20
FILLS = (SKY, ORANGE, GREEN, PURPLE, BLUE, RED, "#999999", "#f0e442")


def angles():
    """The angles of the samples, in degrees: between the steps, so that none of them is a tie."""
    return [(2 * step + 1) / (2 * STEPS) for step in range(360 * STEPS)]


def decisions(modulation):
    """For each angle the hard bits of a sample there."""
    bits = modulation.bits_per_symbol
    found = []
    listed = angles()
    for start in range(0, len(listed), MAX_SYMBOLS):
        part = [math.radians(angle) for angle in listed[start : start + MAX_SYMBOLS]]
        yi = [round(SAMPLE_RADIUS * math.cos(angle)) for angle in part]
        yq = [round(SAMPLE_RADIUS * math.sin(angle)) for angle in part]
        hard = demap_frame(modulation, [1] * len(part), yi, yq).hard
        found += [tuple(hard[at : at + bits]) for at in range(0, len(hard), bits)]
    return found


def runs(values):
    """Stretches of equal values: (value, first angle, last angle)."""
    found, edge = [], 0
    for place in range(1, len(values) + 1):
        if place == len(values) or values[place] != values[edge]:
            found.append((values[edge], edge / STEPS, place / STEPS))
            edge = place
    return found


def on_circle(centre, radius, angle):
    turn = math.radians(angle)
    return centre[0] + radius * math.cos(turn), centre[1] - radius * math.sin(turn)


def wedge(drawing, centre, radius, start, end, fill, title):
    """A part of a disc between two angles in degrees."""
    count = math.ceil((end - start) / 3)
    arc = [on_circle(centre, radius, start + (end - start) * step / count) for step in range(count + 1)]
    drawing.path([centre] + arc, "#ffffff", 1.5, fill=fill, title=title, opacity=0.55)


def bit_disc(drawing, centre, decided, bit):
    """Where one bit is decided as 1."""
    for value, start, end in runs([label[bit] for label in decided]):
        if value:
            wedge(drawing, centre, 62, start, end, BLUE, f"bit {bit} is 1 from {start:g} to {end:g} degrees")
    drawing.circle(centre, 62, "none", GREY)
    drawing.text((centre[0], centre[1] + 82), f"bit {bit}", SMALL + 1)


def psk8():
    drawing = Drawing(570, "Decision regions of 8-PSK")
    drawing.text((400, 28), "8-PSK: what a sample is decided as, by its direction", TITLE, bold=True)
    centre, radius = (280, 306), 205
    decided = decisions(Psk(3))
    colours = {point.label: FILLS[point.index[0]] for point in points(Psk(3))}
    for label, start, end in runs(decided):
        text = "".join(map(str, label))
        wedge(drawing, centre, radius, start, end, colours[label], f"{text} from {start:g} to {end:g} degrees")
        drawing.text(on_circle((centre[0], centre[1] + 6), 122, (start + end) / 2), text, TITLE, bold=True)
        drawing.text(on_circle((centre[0], centre[1] + 5), radius + 22, start), f"{start:g}\u00b0", SMALL, fill=GREY)
    for point in points(Psk(3)):
        drawing.circle((centre[0] + radius * 0.8 * point.i / 16384, centre[1] - radius * 0.8 * point.q / 16384), 5, BLACK)
    drawing.text((centre[0] + radius + 44, centre[1] + 5), "yI", fill=GREY)
    drawing.text((centre[0], centre[1] - radius - 32), "yQ", fill=GREY)
    drawing.text((670, 66), "filled: decided as 1", SMALL + 1)
    for bit in range(3):
        bit_disc(drawing, (670, 142 + 160 * bit), decided, bit)
    return drawing
