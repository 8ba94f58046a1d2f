"""Line calls for the tests of the hosts: (line, room, the answer number it is meant to get, or None)."""

import softlines_input
from constellations import CELLULAR, KINDS, MODULATIONS, PAM, PSK, QAM
from draws import fault_sets
from frame_draws import FrameDraws, Weights
from headers import FIELDS, WEIGHTED
from lines import LONGEST_LINE, answer_length, symbol_digits
from softlines_refused import ORDER, WEIGHTED_ORDER, faulted
from written import PLAIN_FRAMES, QAM_FRAME, SAMPLE, filled, with_symbol, with_weight, written

# What may be damaged in a line; "weight" is that of the header, "own" that of a symbol.
FAULTS = (*FIELDS, "gain", "own", "sample", "symbols", "character", "length", "room")


class LineFaults(FrameDraws):
    def room(self, fields):
        return self.enough(answer_length(fields))

    def digits(self, count):
        return bytes(b"0123456789ABCDEF"[self.between(0, 15)] for _ in range(count))

    def damaged_fields(self, fields, fault):
        """Fields with one thing changed; most new values break a limit, the others stand at its inner end."""
        values = {
            "kind": (*KINDS, max(KINDS) + 1, *(WEIGHTED + kind for kind in KINDS), WEIGHTED + max(KINDS) + 1, 255, fields.kind ^ WEIGHTED),
            "bits_i": (0, 1, 4, 5, 6, 7, 255),
            "bits_q": (0, 1, 6, 7, 255),
            "payload": (0, fields.payload + 1, max(1, fields.payload) - 1, 3072, 3073, 65535),
            "weight": (0, 1, 4095, 4096, 32768, 65535),
            "shift": (0, 40, 41, 64, 255),
            "limit": (0, 1, 32767, 32768, 65535),
            "symbols": (fields.symbols[:-1], fields.symbols * 2, ()),
        }
        if fault in values:
            return fields._replace(**{fault: self.one_of(values[fault])})
        if fields.symbols and fault in ("gain", "sample"):
            place = self.between(0, len(fields.symbols) - 1)
            symbol = list(fields.symbols[place])
            at = 0 if fault == "gain" else self.between(1, 2)
            symbol[at] = self.one_of((4095, 4096, 65535) if at == 0 else (SAMPLE, -SAMPLE, SAMPLE + 1, -SAMPLE - 1, 2**31 - 1, -(2**31)))
            fields = with_symbol(fields, place, tuple(symbol))
        if fields.weights and fault == "own":
            fields = with_weight(fields, self.between(0, len(fields.weights) - 1), self.one_of((0, 1, 4095, 4096, 32768, 65535)))
        return fields

    def damaged_text(self, line, fault):
        if fault == "character" and line:
            place = self.between(0, len(line) - 1)
            return line[:place] + bytes([self.one_of(b"/:@G`afg \n\r\0\xb0\xc1\xff")]) + line[place + 1 :]
        if fault == "length":
            length = self.one_of((0, len(line) - 1, len(line) + 1, len(line) + 2, self.between(0, 19), LONGEST_LINE + 2))
            return (line + self.digits(max(0, length - len(line))))[: max(0, length)]
        return line


class WeightedFaults(Weights, LineFaults):
    """The same of lines whose symbols have weights."""


def of_softlines(draws):
    """The lines that softlines is run on."""
    for line, number in softlines_input.all_cases():
        yield line, draws.between(12294, 12400), number


def valid(draws):
    """Every modulation many times; every number of symbols."""
    for modulation in MODULATIONS:
        for _ in range(30):
            fields = draws.few(modulation)
            yield written(fields), draws.room(fields), 0
    for count in range(1, 257):
        fields = draws.fields(((PAM, 1, 0), (QAM, 1, 1), (PSK, 2, 0), (CELLULAR, 1, 1))[count % 4], count)
        yield written(fields), draws.room(fields), 0


def every_soft_value(draws):
    """2-PAM at gain 1, weight 1 and shift 2 has the soft value -y, here from -32768, which the limit holds, to 32767."""
    for start in range(-32767, 32769, 256):
        symbols = [(1, sample, 0) for sample in range(start, start + 256)]
        fields = draws.own(filled((PAM, 1, 0), symbols, 1, 2, 32767))
        yield written(fields), draws.room(fields), 0


def every_weight(draws):
    """2-PAM at gain 1, y = -1 and shift 2 has each symbol's weight as its soft value."""
    for start in range(1, 4096, 256):
        weights = range(start, min(4096, start + 256))
        fields = filled((PAM, 1, 0), [(1, -1, 0)] * len(weights), 0, 2, 32767)._replace(kind=PAM + WEIGHTED, weights=tuple(weights))
        yield written(fields), draws.room(fields), 0


def numbers(digits):
    """Every number of two digits; of more, powers of two and their neighbours, and their negatives."""
    if digits == 2:
        return range(256)
    powers = {2**power + by for power in range(4 * digits) for by in (-1, 0, 1)}
    return sorted({number % 16**digits for power in powers for number in (power, -power)})


def every_field(draws):
    """A line of one symbol of each kind with each field of the header and of the symbol set to many numbers."""
    for frame in PLAIN_FRAMES:
        fields = draws.fields(frame.modulation, 1)
        line = written(fields)
        symbol = [20, 24, 28, 36, 44] if fields.weighted else [20, 24, 32, 40]
        ends = [0, 2, 4, 6, 10, 14, 16] + [end for end in symbol if end <= 20 + symbol_digits(fields)]
        for start, end in zip(ends, ends[1:]):
            for number in numbers(end - start):
                yield line[:start] + b"%0*X" % (end - start, number) + line[end:], 100, None


def rooms(draws):
    """Every room from none to more than enough, short lines; about the need, every modulation."""
    for frame in PLAIN_FRAMES:
        frame = draws.own(frame)
        for room in range(answer_length(frame) + 6):
            yield written(frame), room, 15 if room < answer_length(frame) else 0
    for modulation in MODULATIONS:
        fields = draws.few(modulation)
        need = answer_length(fields)
        for room in (0, 1, 6, need - 4, need - 1, need):
            yield written(fields), room, 15 if room < need else 0


def in_order(draws):
    """Each rule broken alone, with each later one, and with all later ones, refusal 15 among them."""
    frame = draws.own(QAM_FRAME)
    order = WEIGHTED_ORDER if frame.weighted else ORDER
    before = order.index(10)
    for first, sets in fault_sets((*order[:before], 15, *order[before:])):
        for faults in sets:
            for way in (0, 1):
                need = answer_length(frame)
                yield faulted(frame, faults - {15}, way), (need - 1, 0)[way] if 15 in faults else need, first


def lengths(draws):
    """Short lines of every length, and lines about the longest, of digits and cut or continued from a line without fault."""
    for length in [*range(71), *range(5140 - 8, 5140 + 9), *range(LONGEST_LINE - 8, LONGEST_LINE + 9)]:
        line = written(draws.few())
        yield (line + draws.digits(max(0, length - len(line))))[:length], draws.between(0, 200), None
        yield draws.digits(length), draws.between(0, 200), None


def damaged(draws):
    """Every fault and every pair of faults many times."""
    for place, first in enumerate(FAULTS):
        for second in FAULTS[place:]:
            for _ in range(25):
                whole = fields = draws.few()
                for fault in sorted({first, second}):
                    fields = draws.damaged_fields(fields, fault)
                line = written(fields)
                for fault in sorted({first, second}):
                    line = draws.damaged_text(line, fault)
                room = draws.room(whole)
                if "room" in (first, second):
                    room = draws.one_of((0, 1, 5, 6, answer_length(whole) - 1, answer_length(fields) - 1, answer_length(fields)))
                yield line, room, None


def all_cases():
    yield from of_softlines(LineFaults(300))
    for seed, group in enumerate((valid, every_soft_value, every_field, rooms, in_order, lengths, damaged)):
        yield from group(LineFaults(301 + seed))
        yield from group(WeightedFaults(321 + seed))
    yield from every_weight(LineFaults(340))
