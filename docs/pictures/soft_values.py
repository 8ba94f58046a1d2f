"""Soft values against the sample, as the library gives them."""

from drawing import BLUE, DASHED, GREEN, GREY, NORMAL, PURPLE, RED, SMALL, SOLID, TITLE, Axes, Drawing, signed
from softdemap import MAX_SYMBOLS, Pam, Qam, demap_frame, points, sizes

STYLES = ((BLUE, SOLID), (RED, DASHED), (GREEN, "3 3"))
LIMIT = 127


def soft_values(modulation, gain, samples, scale):
    """For each bit of the label its soft values at samples of PAM, or at samples that are alike on both axes."""
    bits = modulation.bits_per_symbol
    found = [[] for _ in range(bits)]
    for start in range(0, len(samples), MAX_SYMBOLS):
        part = samples[start : start + MAX_SYMBOLS]
        quadrature = part[: sizes(modulation, len(part) * bits).quadrature]
        reading = demap_frame(modulation, [gain] * len(part), part, quadrature, **scale)
        for bit, values in enumerate(found):
            values += zip(part, reading.soft[bit::bits])
    return found


def limits(axes):
    axes.level(LIMIT, f"limit T = {LIMIT}", at_end=True)
    axes.level(-LIMIT, f"\u2212T = {signed(-LIMIT)}", at_end=False)


def leaning(axes):
    """Words beside the scale that say what the sign means."""
    x = axes.left + axes.width
    for y, words in ((80, "leans to 0"), (-80, "leans to 1")):
        axes.drawing.text((x + 18, axes.at(0, y)[1]), words, SMALL, fill=GREY, turned=True)


def labels_above(axes, found):
    """Above the box the points where they are received without noise: (place, label)."""
    for place, label in found:
        x = axes.at(place, 0)[0]
        axes.drawing.line((x, axes.top - 7), (x, axes.top), GREY, 1.5)
        axes.drawing.text((x, axes.top - 12), label, SMALL + 1, bold=True)


def pam8():
    """The three bits of 8-PAM, and the worked case of the requirements in them."""
    drawing = Drawing(500, "Soft values of the three bits of 8-PAM against the sample")
    drawing.text((410, 26), "8-PAM, gain 10, weight 1, shift 3, limit 127", TITLE, bold=True)
    axes = Axes(drawing, (80, 76, 650, 340), (-95, 95), (-160, 160))
    axes.frame(range(-90, 91, 20), (-100, -50, 0, 50, 100), "sample yI, in the gain's units", "soft value")
    limits(axes)
    leaning(axes)
    labels_above(axes, [(10 * point.i, "".join(map(str, point.label))) for point in points(Pam(3))])
    scale = {"weight": 1, "shift": 3, "limit": LIMIT}
    curves = soft_values(Pam(3), 10, range(-95, 96), scale)
    drawing.line(axes.at(-33, -160), axes.at(-33, 160), PURPLE, 1.5)
    for curve, (colour, dash) in zip(curves, STYLES):
        axes.curve(curve, colour, dash)
    worked = [dict(curve)[-33] for curve in curves]
    axes.dots([(-33, value) for value in worked], PURPLE, 5)
    drawing.text((axes.at(-33, 0)[0] - 7, axes.top + axes.height - 8), f"yI = \u221233: {', '.join(map(signed, worked))}", SMALL, "end", PURPLE)
    drawing.legend((190, 482), [("bit 0", *STYLES[0])])
    drawing.legend((350, 482), [("bit 1", *STYLES[1])])
    drawing.legend((510, 482), [("bit 2", *STYLES[2])])
    return drawing


def qam_axis(drawing, box, curves, names, axis):
    """The two bits of one axis of 16-QAM."""
    axes = Axes(drawing, box, (-210, 210), (-160, 160))
    axes.frame((-150, -50, 50, 150), (-100, -50, 0, 50, 100), f"sample {axis}, in the gain's units", "soft value")
    limits(axes)
    levels = {point.index[0]: point for point in points(Qam(2, 2))}
    labels_above(axes, [(50 * point.i, "".join(map(str, point.label[:2]))) for point in levels.values()])
    for place, (curve, name, style) in enumerate(zip(curves, names, STYLES)):
        axes.curve(curve, *style)
        drawing.legend((box[0] + 50 + 130 * place, box[1] + box[3] + 64), [(name, *style)])
    return axes


def qam16():
    """The four bits of 16-QAM, two on each axis."""
    drawing = Drawing(450, "Soft values of the four bits of 16-QAM against the samples")
    drawing.text((410, 26), "16-QAM, gain 50, weight 1, shift 8, limit 127", TITLE, bold=True)
    curves = soft_values(Qam(2, 2), 50, range(-210, 211), {"weight": 1, "shift": 8, "limit": LIMIT})
    qam_axis(drawing, (75, 94, 295, 280), curves[:2], ("bit 0", "bit 1"), "yI")
    leaning(qam_axis(drawing, (465, 94, 295, 280), curves[2:], ("bit 2", "bit 3"), "yQ"))
    drawing.text((75 + 295 / 2, 58), "in phase", NORMAL)
    drawing.text((465 + 295 / 2, 58), "in quadrature", NORMAL)
    return drawing
