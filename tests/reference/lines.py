"""The line call, and what `softlines` prints (REQUIREMENTS, "Lines"); lines and answers are bytes, answers as in `frames`."""

from constellations import KINDS, probes_per_symbol
from frames import soft_values, weighed
from headers import Header, first_refused, header_refusal, symbols_for

DIGITS = frozenset(b"0123456789ABCDEF")
HEADER_DIGITS = 20
LONGEST_LINE = 6164
FIELD_DIGITS = (2, 2, 2, 4, 4, 2, 4)


def number(digits):
    """An unsigned field, most significant digit first."""
    return int(digits.decode("ascii"), 16)


def signed(digits):
    """A field in two's complement."""
    value, span = number(digits), 16 ** len(digits)
    return value - span if 2 * value >= span else value


def read_header(line):
    """The fields of a line's first 20 digits."""
    ends = [sum(FIELD_DIGITS[:place]) for place in range(len(FIELD_DIGITS) + 1)]
    return Header(*(number(line[start:end]) for start, end in zip(ends, ends[1:])))


def symbol_digits(header):
    """The digits of a symbol: gain, weight where each symbol has one, yI, and yQ where the kind has it."""
    return 4 + 4 * header.weighted + 8 + 8 * KINDS[header.modulation[0]].has_quadrature


def read_symbols(line, header):
    """Each symbol as (gain, yI, yQ), with yQ 0 where none is sent; and the weights, none for plain kinds."""
    size = symbol_digits(header)
    texts = [line[start : start + size] for start in range(HEADER_DIGITS, len(line), size)]
    weights = [number(text[4:8]) for text in texts] if header.weighted else []
    samples = [text[8:] if header.weighted else text[4:] for text in texts]
    return [(number(text[:4]), signed(y[:8]), signed(y[8:]) if y[8:] else 0) for text, y in zip(texts, samples)], weights


def line_length(header):
    """The length that a header without fault calls for."""
    return HEADER_DIGITS + symbol_digits(header) * symbols_for(header.modulation, header.payload)


def answer_length(header):
    """The length of an accepted line's answer."""
    return 6 + 4 * header.payload


def text_refusal(line):
    """Refusals 1 and 2, which need no field; 0 for neither."""
    if len(line) % 2 == 1 or not HEADER_DIGITS <= len(line) <= LONGEST_LINE:
        return 1
    return 0 if DIGITS.issuperset(line) else 2


def line_refusal(line, room=None):
    """Refusals 1, 2, those of the header, 3, 15, then symbol by symbol 10, 7 and 11; None for none."""
    refusal = text_refusal(line)
    if refusal:
        return refusal, 0
    header = read_header(line)
    refusal = header_refusal(header)
    if refusal:
        return refusal, 0
    if len(line) != line_length(header):
        return 3, 0
    if room is not None and room < answer_length(header):
        return 15, 0
    return first_refused(header.modulation, *read_symbols(line, header))


def answer_line(line, room=None):
    """The answer to one line."""
    refusal = line_refusal(line, room)
    if refusal:
        return None, refusal
    header = read_header(line)
    symbols = weighed(header, *read_symbols(line, header))
    values = [value for symbol, weight in symbols for value in soft_values(header, symbol, weight)[1]]
    texts = ["%04X" % (value & 0xFFFF) for value in values[: header.payload]]
    probes = len(symbols) * probes_per_symbol(header.modulation)
    return ("00%04X" % probes + "".join(texts)).encode("ascii"), None


def split_lines(data):
    """The lines of an input; the last counts without a newline if it has a character."""
    lines = data.split(b"\n")
    return lines[:-1] if lines[-1] == b"" else lines


def printed(line):
    """What `softlines` prints for a line, without the newline."""
    answer, refusal = answer_line(line)
    return answer if answer else b"%02X" % refusal[0]


def answers(data):
    """What `softlines` prints for an input."""
    return b"".join(printed(line) + b"\n" for line in split_lines(data))
