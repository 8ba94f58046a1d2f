"""The constellations with labels and indices, as the library maps them."""

from drawing import BLUE, GREY, NORMAL, PALE, SMALL, TITLE, Axes, Drawing, signed
from softdemap import Cellular, Pam, Psk, Qam, points


def label_text(point):
    return "".join(map(str, point.label))


def index_text(point):
    return ", ".join(map(str, point.index))


def pam_strip(drawing, box):
    """8-PAM: points on one axis, labels above and indices below."""
    axes = Axes(drawing, box, (-8.4, 8.4), (-1, 1))
    drawing.line(axes.at(-8.4, 0), axes.at(8.4, 0), GREY)
    for point in points(Pam(3)):
        x, y = axes.at(point.i, 0)
        drawing.circle((x, y), 6, BLUE)
        drawing.text((x, y - 15), label_text(point), NORMAL, bold=True)
        drawing.text((x, y + 24), f"k = {index_text(point)}", SMALL, fill=GREY)
        drawing.text((x, y + 44), signed(point.i), SMALL + 1)
    drawing.text((box[0] + box[2] / 2, box[1] + box[3] / 2 + 66), "level")


def qam_grid(drawing, box, modulation, name):
    """A QAM grid: labels above the points, the pair of indices below."""
    left, top, width, height = box
    drawing.text((left + width / 2, top - 14), name, TITLE, bold=True)
    listed = points(modulation)
    reach = max(max(point.i, point.q) for point in listed) + 1.1
    axes = Axes(drawing, box, (-reach, reach), (-reach, reach))
    axes.frame(sorted({point.i for point in listed}), sorted({point.q for point in listed}), "level in phase", "level in quadrature")
    for point in listed:
        x, y = axes.at(point.i, point.q)
        drawing.circle((x, y), 5.5, BLUE)
        drawing.text((x, y - 12), label_text(point), NORMAL, bold=True, halo=True)
        drawing.text((x, y + 22), f"({index_text(point)})", SMALL, fill=GREY, halo=True)


def pam_and_qam():
    drawing = Drawing(606, "Labels and indices of 8-PAM, 16-QAM and 4 by 2 QAM")
    drawing.text((400, 30), "8-PAM", TITLE, bold=True)
    pam_strip(drawing, (40, 36, 720, 100))
    qam_grid(drawing, (70, 214, 316, 316), Qam(2, 2), "16-QAM: Qam(2, 2)")
    qam_grid(drawing, (470, 214, 316, 316), Qam(2, 1), "4 by 2 QAM: Qam(2, 1)")
    note = "bold: label bits in the order sent, those of the in-phase axis first; in brackets: index in phase, in quadrature"
    drawing.text((400, 596), note, SMALL, fill=GREY)
    return drawing


def cellular():
    drawing = Drawing(1090, "Labels and indices of QPSK, 16QAM and 64QAM with cellular labels")
    qam_grid(drawing, (70, 50, 316, 316), Cellular(1), "QPSK: Cellular(1)")
    qam_grid(drawing, (470, 50, 316, 316), Cellular(2), "16QAM: Cellular(2)")
    qam_grid(drawing, (70, 474, 716, 540), Cellular(3), "64QAM: Cellular(3)")
    note = "bold: label bits in the order sent, in phase and in quadrature by turns; in brackets: the two indices"
    drawing.text((400, 1080), note, SMALL, fill=GREY)
    return drawing


def psk_circle(drawing, centre, modulation, name):
    """A PSK circle: labels outside, indices inside, and a spoke to each point."""
    radius = 120
    x0, y0 = centre
    drawing.text((x0, y0 - radius - 74), name, TITLE, bold=True)
    for start, end in (((x0 - 140, y0), (x0 + 168, y0)), ((x0, y0 - 140), (x0, y0 + 155))):
        drawing.line(start, end, PALE, 1.5)
    drawing.text((x0 + 174, y0 + 5), "yI", SMALL + 1, "start", GREY)
    drawing.text((x0, y0 - 158), "yQ", SMALL + 1, fill=GREY)
    drawing.circle(centre, radius, "none", GREY, dash="3 4")
    for point in points(modulation):
        u, v = point.i / 16384, -point.q / 16384
        drawing.circle((x0 + radius * u, y0 + radius * v), 5.5, BLUE)
        drawing.text((x0 + (radius + 34) * u, y0 + (radius + 22) * v + 5), label_text(point), bold=True)
        drawing.text((x0 + (radius - 21) * u, y0 + (radius - 21) * v + 5), index_text(point), SMALL + 1, fill=GREY)


def psk():
    drawing = Drawing(440, "Labels and indices of 8-PSK and 16-PSK")
    psk_circle(drawing, (195, 222), Psk(3), "8-PSK")
    psk_circle(drawing, (595, 222), Psk(4), "16-PSK")
    note = "bold: label bits in the order sent; grey: index k, at (2k + 1) \u00b7 180 / M degrees for M points"
    drawing.text((400, 425), note, SMALL, fill=GREY)
    return drawing
