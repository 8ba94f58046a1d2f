"""SVG by hand: a drawing of elements, and axes that turn data into places of a drawing.

Lengths are pixels of a drawing 800 wide. Colours are those of Okabe and Ito, which readers with any colour vision can tell apart; curves
differ in their dashes too.
"""

from xml.sax.saxutils import escape, quoteattr

BLACK, GREY, PALE = "#000000", "#666666", "#d9d9d9"
BLUE, RED, GREEN, PURPLE = "#0072b2", "#d55e00", "#009e73", "#aa4a86"
SKY, ORANGE = "#56b4e9", "#e69f00"
SOLID, DASHED, DOTTED = "", "9 5", "2 4"
TITLE, NORMAL, SMALL = 17, 14, 12


def shown(number):
    """A length with at most two digits behind the point."""
    text = f"{number:.2f}".rstrip("0").rstrip(".")
    return "0" if text == "-0" else text


def signed(number):
    """A whole number for readers, with a true minus sign and thousands apart."""
    return f"{number:,}".replace("-", "\u2212")


class Drawing:
    """An SVG file in the making; later elements cover earlier ones."""

    def __init__(self, height, title, width=800):
        self.parts = [
            f'<svg xmlns="http://www.w3.org/2000/svg" viewBox="0 0 {width} {height}" width="{width}" height="{height}"'
            ' font-family="DejaVu Sans, Verdana, Helvetica, Arial, sans-serif" role="img">',
            f"<title>{escape(title)}</title>",
            f'<rect width="{width}" height="{height}" fill="#ffffff"/>',
        ]

    def add(self, name, content=None, **attributes):
        """An element; in the names of attributes _ stands for -, and those without a value are left out."""
        pairs = ((key.replace("_", "-"), value if isinstance(value, str) else shown(value)) for key, value in attributes.items())
        opened = "".join(f" {key}={quoteattr(value)}" for key, value in pairs if value)
        self.parts.append(f"<{name}{opened}/>" if content is None else f"<{name}{opened}>{content}</{name}>")

    def line(self, start, end, stroke=BLACK, width=1.0, dash=SOLID):
        (x1, y1), (x2, y2) = start, end
        places = {"x1": shown(x1), "y1": shown(y1), "x2": shown(x2), "y2": shown(y2)}
        self.add("line", **places, stroke=stroke, stroke_width=width, stroke_dasharray=dash)

    def path(self, places, stroke="none", width=1.0, dash=SOLID, fill="none", title=None, opacity=1.0):
        """A line through places, closed where it is filled; the opacity is that of the filling."""
        text = "M" + "L".join(f"{shown(x)} {shown(y)}" for x, y in places) + ("" if fill == "none" else "Z")
        content = None if title is None else f"<title>{escape(title)}</title>"
        filling = {"fill": fill, "fill_opacity": "" if opacity == 1 else shown(opacity)}
        self.add("path", content, d=text, **filling, stroke=stroke, stroke_width=width, stroke_dasharray=dash, stroke_linejoin="round")

    def rectangle(self, corner, size, fill, stroke="none"):
        self.add("rect", x=shown(corner[0]), y=shown(corner[1]), width=size[0], height=size[1], fill=fill, stroke=stroke)

    def circle(self, centre, radius, fill=BLACK, stroke="none", width=1.0, dash=SOLID):
        x, y = map(shown, centre)
        self.add("circle", cx=x, cy=y, r=radius, fill=fill, stroke=stroke, stroke_width=width, stroke_dasharray=dash)

    def text(self, place, words, size=NORMAL, anchor="middle", fill=BLACK, bold=False, turned=False, halo=False):
        """Words whose base line is at a place; turned ones are read from below, and a halo keeps lines off them."""
        x, y = map(shown, place)
        style = {"font_weight": "bold" if bold else "", "transform": f"rotate(-90 {x} {y})" if turned else ""}
        if halo:
            style.update(stroke="#ffffff", stroke_width=4, paint_order="stroke")
        self.add("text", escape(words), x=x, y=y, font_size=size, text_anchor=anchor, fill=fill, **style)

    def legend(self, place, entries, step=20):
        """Rows of a short line or dot and its words: (words, colour, dash), where a dash of None makes a dot."""
        x, y = place
        for row, (words, colour, dash) in enumerate(entries):
            middle = y + row * step
            if dash is None:
                self.circle((x + 17, middle), 4.5, colour)
            else:
                self.line((x, middle), (x + 34, middle), colour, 2.5, dash)
            self.text((x + 42, middle + 5), words, SMALL + 1, "start")

    def finished(self):
        return "\n".join(self.parts) + "\n</svg>\n"


class Axes:
    """A box of a drawing with a horizontal and a vertical scale; `box` is left, top, width, height, and the scales are (low, high)."""

    def __init__(self, drawing, box, x, y):
        self.drawing, self.x, self.y = drawing, x, y
        self.left, self.top, self.width, self.height = box

    def at(self, x, y):
        """The place of a pair of numbers."""
        across = (x - self.x[0]) / (self.x[1] - self.x[0])
        up = (y - self.y[0]) / (self.y[1] - self.y[0])
        return self.left + across * self.width, self.top + (1 - up) * self.height

    def frame(self, x_ticks, y_ticks, x_name, y_name):
        """The box, pale lines at the ticks with their numbers, and the names of both scales, clear of the numbers."""
        below, right = self.top + self.height, self.left + self.width
        for tick in x_ticks:
            place = self.at(tick, self.y[0])[0]
            self.drawing.line((place, self.top), (place, below), PALE)
            self.drawing.text((place, below + 18), signed(tick), SMALL + 1)
        for tick in y_ticks:
            place = self.at(self.x[0], tick)[1]
            self.drawing.line((self.left, place), (right, place), PALE)
            self.drawing.text((self.left - 8, place + 5), signed(tick), SMALL + 1, "end")
        self.drawing.rectangle((self.left, self.top), (self.width, self.height), "none", GREY)
        self.drawing.text((self.left + self.width / 2, below + 40), x_name)
        longest = max(len(signed(tick)) for tick in y_ticks)
        self.drawing.text((self.left - 22 - 8 * longest, self.top + self.height / 2), y_name, turned=True)

    def level(self, y, words, at_end):
        """A dotted line across at a height, with words above its start or its end."""
        self.drawing.line(self.at(self.x[0], y), self.at(self.x[1], y), GREY, 1.5, DOTTED)
        x, place = self.at(self.x[at_end], y)
        self.drawing.text((x - 6 if at_end else x + 6, place - 5), words, SMALL, "end" if at_end else "start", GREY)

    def curve(self, points, colour, dash=SOLID, width=2.5):
        self.drawing.path([self.at(*point) for point in points], colour, width, dash)

    def steps(self, points, colour, dash=SOLID, width=2.0):
        """A staircase whose treads are half a step to either side of each point."""
        half = (points[1][0] - points[0][0]) / 2
        self.curve([corner for x, y in points for corner in ((x - half, y), (x + half, y))], colour, dash, width)

    def dots(self, points, colour, radius=4.0):
        for point in points:
            self.drawing.circle(self.at(*point), radius, colour, "#ffffff")
