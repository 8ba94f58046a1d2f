"""Mistakes of the requirements' list beside what the library gives. The right values come from the library; the mistaken ones are computed here."""

import math
from dataclasses import dataclass

from drawing import BLUE, DASHED, GREY, PURPLE, RED, SKY, SMALL, SOLID, TITLE, Axes, Drawing, signed
from softdemap import Pam, Psk, demap_frame, points

RIGHT, MISTAKEN = BLUE, RED


def rounded(number, power):
    """A number over 2^power to the nearest whole number, halves away from zero."""
    size = (2 * abs(number) + 2**power) // 2 ** (power + 1)
    return size if number >= 0 else -size


# The rival of PSK bit 0


def psk_costs(sample):
    """The costs of all points of 8-PSK at gain 1, by index, times 2^14."""
    ordered = sorted(points(Psk(3)), key=lambda point: point.index)
    return [-2 * (sample[0] * point.i + sample[1] * point.q) for point in ordered]


def bit0_by_pam_rival(nearest, sample):
    """Bit 0's soft value with the rival index of PAM: 4 for the indices below 4, else 3."""
    costs = psk_costs(sample)
    if nearest < 4:
        return rounded(costs[4] - costs[nearest], 14)
    return rounded(costs[nearest] - costs[3], 14)


def psk_bit0():
    drawing = Drawing(490, "Soft value of bit 0 of 8-PSK by angle, right and with the rival index of PAM")
    drawing.text((400, 26), "8-PSK, bit 0: the rival index of PAM taken for PSK", TITLE, bold=True)
    drawing.text((430, 52), "samples of size 1,000; gain 1, weight 1, shift 0, limit 32,767", SMALL + 1, fill=GREY)
    axes = Axes(drawing, (90, 66, 680, 320), (0, 360), (-4400, 4400))
    axes.frame(range(0, 361, 45), range(-4000, 4001, 1000), "angle of the sample, in degrees", "soft value of bit 0")
    right, mistaken = [], []
    for step in range(360):
        turn = math.radians(step)
        sample = round(1000 * math.cos(turn)), round(1000 * math.sin(turn))
        reading = demap_frame(Psk(3), [1], [sample[0]], [sample[1]])
        right.append((step, reading.soft[0]))
        mistaken.append((step, bit0_by_pam_rival(reading.probe_index[0], sample)))
    axes.curve(mistaken, MISTAKEN, DASHED)
    axes.curve(right, RIGHT)
    drawing.legend((130, 448), [("right: the nearest point with the other bit, across 0\u00b0 or across 180\u00b0", RIGHT, SOLID)])
    drawing.legend((130, 470), [("mistaken: always across 180\u00b0, index 4 or 3; right only from 90\u00b0 to 270\u00b0", MISTAKEN, DASHED)])
    return drawing


# Deciding 16-PSK by a tangent


def band(axes, low, high, edge, name, colour):
    """A band that is index 0 up to an edge and index 1 behind it."""
    drawing = axes.drawing
    left, top = axes.at(axes.x[0], high)
    middle, bottom = axes.at(edge, low)
    right = axes.left + axes.width
    drawing.rectangle((left, top), (middle - left, bottom - top), "#ffffff", colour)
    drawing.rectangle((middle, top), (right - middle, bottom - top), colour, colour)
    drawing.text(((left + middle) / 2, (top + bottom) / 2 + 5), f"{name}: index 0", SMALL + 1)
    drawing.text(((middle + right) / 2, (top + bottom) / 2 + 5), "index 1", SMALL + 1, fill="#ffffff", bold=True)


def tangent():
    drawing = Drawing(496, "16-PSK near 22.5 degrees: the library's decision and that by the tangent")
    drawing.text((400, 26), "16-PSK at yI = 100,000: decided by the tangent of 22.5\u00b0", TITLE, bold=True)
    low, high = 41405, 41432
    axes = Axes(drawing, (90, 66, 680, 350), (low, high), (-150, 230))
    drawing.text((430, 52), "gain 10, weight 1, shift 0, limit 32,767", SMALL + 1, fill=GREY)
    axes.frame(range(low + 1, high, 4), (-100, -50, 0, 50), "sample yQ", "soft value of bit 3")
    samples = list(range(low, high + 1))
    reading = demap_frame(Psk(4), [10] * len(samples), [100000] * len(samples), samples)
    values = list(zip(samples, reading.soft[3::4]))
    decided = reading.hard[3::4]
    edge = samples[decided.tolist().index(1)] - 0.5
    slope = 100000 * math.tan(math.radians(22.5))
    band(axes, 165, 210, edge, "the library", RIGHT)
    band(axes, 105, 150, slope, "mistaken, tan 22.5\u00b0", MISTAKEN)
    axes.drawing.line(axes.at(low, 0), axes.at(high, 0), GREY, 1.5)
    axes.curve(values, RIGHT, width=1.5)
    axes.dots(values, RIGHT)
    marked = dict(values)[41418]
    drawing.line(axes.at(41418, -150), axes.at(41418, 230), PURPLE, 1.5, "5 4")
    axes.dots([(41418, marked)], PURPLE, 6)
    x, y = axes.at(41418, -120)
    drawing.text((x - 8, y), f"yQ = 41,418: soft value {signed(marked)}, bit 1, index 1", SMALL + 1, "end", PURPLE)
    drawing.text((400, 482), "the points are rounded to 1/16384, so the edge is where their costs are equal, yQ / yI = 2446 / 5906", SMALL, fill=GREY)
    return drawing


# Rounding


@dataclass(frozen=True)
class Rounding:
    """Soft values of 2-PAM at weight 1 over some numbers, right and mistaken, with the words of the picture."""

    title: str
    heading: str
    x_name: str
    x_ticks: tuple
    x: list
    right: list
    mistaken: list
    right_words: str
    mistaken_words: str

    def drawn(self):
        """Dots, and a line between the two where they differ."""
        drawing = Drawing(470, self.title)
        drawing.text((400, 26), self.heading, TITLE, bold=True)
        step, most = self.x[1] - self.x[0], max(map(abs, self.right + self.mistaken))
        axes = Axes(drawing, (80, 46, 690, 320), (self.x[0] - step, self.x[-1] + step), (-most - 0.6, most + 0.6))
        axes.frame(self.x_ticks, range(-most, most + 1), self.x_name, "soft value")
        axes.steps(list(zip(self.x, self.right)), SKY, width=1.5)
        apart = [place for place, (a, b) in enumerate(zip(self.right, self.mistaken)) if a != b]
        for place in apart:
            drawing.line(*(axes.at(self.x[place], values[place]) for values in (self.right, self.mistaken)), GREY)
        axes.dots(list(zip(self.x, self.right)), RIGHT)
        axes.dots([(self.x[place], self.mistaken[place]) for place in apart], MISTAKEN)
        drawing.legend((110, 428), [(f"right: {self.right_words}", RIGHT, None)])
        words = f"mistaken: {self.mistaken_words}; shown where it differs, {len(apart)} of {len(self.x)}"
        drawing.legend((110, 450), [(words, MISTAKEN, None)])
        return drawing


def pam2(gain, samples, shift):
    """The soft values of 2-PAM at weight 1."""
    return demap_frame(Pam(1), [gain] * len(samples), samples, shift=shift).soft.tolist()


def negative_shift():
    samples = range(40, -41, -1)
    differences = [-4 * y for y in samples]
    return Rounding(
        title="Soft values by the difference N, rounded and shifted",
        heading="2-PAM, gain 1, weight 1, shift 6: a negative N shifted",
        x_name="difference N of the costs",
        x_ticks=range(-160, 161, 32),
        x=differences,
        right=pam2(1, samples, 6),
        mistaken=[rounded(number, 6) if number >= 0 else number >> 6 for number in differences],
        right_words="N / 64 to the nearest whole number, halves away from zero",
        mistaken_words="N >> 6 for N below 0, towards minus infinity",
    ).drawn()


def costs_rounded():
    gain, samples = 3, list(range(-20, 21))
    return Rounding(
        title="Soft values by the sample, the difference rounded and each cost rounded",
        heading="2-PAM, gain 3, weight 1, shift 5: each cost rounded before subtracting",
        x_name="sample yI, in the gain's units",
        x_ticks=range(-20, 21, 5),
        x=samples,
        right=pam2(gain, samples, 5),
        mistaken=[rounded((y - gain) ** 2, 5) - rounded((y + gain) ** 2, 5) for y in samples],
        right_words="the difference of the costs over 32, rounded once",
        mistaken_words="each cost over 32 rounded, then subtracted",
    ).drawn()
