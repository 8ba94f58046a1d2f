"""Lines of softlines' input of many lengths, with other characters and line endings; cases as in softlines_refused."""

from itertools import zip_longest

from constellations import QAM, bits_per_symbol
from lines import LONGEST_LINE, symbol_digits
from written import KIND_FRAMES, WORKED, LineDraws, has_quadrature, symbol_text, written


def lengths():
    """Lengths about both ends and about that of the longest plain line, each followed by a line that is accepted."""
    draws = LineDraws(5140)
    plain = draws.frame((QAM, 4, 4), 256)
    about_longest = [LONGEST_LINE + by for by in (-2, -1, 0, 1, 2)]
    # 65576 is 40, the length of the worked line, in 16 bits.
    of_plain = (0, 1, 2, 18, 19, 20, 21, 22, 5138, 5139, 5140, 5141, 5142, 5160, *about_longest, 2 * LONGEST_LINE, 20000, 65576)
    of_weighted = (20, 5140, 5142, LONGEST_LINE - 24, *about_longest, LONGEST_LINE + 24)
    cases = []
    for frame, lengths_tried in ((plain, of_plain), (draws.weighted(plain), of_weighted)):
        line = written(frame)
        full = line + b"0" * 70000
        for length in lengths_tried:
            wanted = 1 if length % 2 or length < 20 or length > LONGEST_LINE else 3
            cases += [(full[:length], 0 if length == len(line) else wanted), (written(WORKED), 0)]
        cases.append((line[:-1] + b"G", 2))
        cases.append((full[: LONGEST_LINE - 1] + b"G", 2))
        cases.append((full[:LONGEST_LINE] + b"GG", 1))
    cases.append((b"G" * LONGEST_LINE, 2))
    cases.append((b"G" * (LONGEST_LINE + 2), 1))
    return cases


def misfits():
    """Lengths that the header does not call for; each follows its true line."""
    cases = []
    for frame in KIND_FRAMES:
        line = written(frame)
        one = symbol_digits(frame)
        wrong = [line + line[-one:], line[:-one], line[:20]]
        wrong += [line + b"00", line[:-2], line + b"0000", line[:-4]]
        pairs = list(zip_longest(frame.symbols, frame.weights))
        other = "".join(symbol_text(symbol, weight, not has_quadrature(frame.kind)) for symbol, weight in pairs)
        wrong.append(line[:20] + other.encode("ascii"))
        other = "".join(symbol_text(symbol, 7 if weight is None else None, has_quadrature(frame.kind)) for symbol, weight in pairs)
        wrong.append(line[:20] + other.encode("ascii"))
        bits = bits_per_symbol(frame.modulation)
        wrong.append(written(frame._replace(payload=2 * bits + 1)))
        wrong.append(written(frame._replace(payload=bits)))
        cases.append((line, 0))
        cases += [(text, 3) for text in wrong]
    return cases


def characters():
    """Each neighbour of the digits at four places; every byte above 127 once."""
    line = written(WORKED)
    cases = []
    for byte in b"/:@G`afg \x00":
        for place in (0, 13, 23, 39):
            cases.append((line[:place] + bytes([byte]) + line[place + 1 :], 2))
    for byte in [*b"\t\r\x0b\x0c+-_xX.\x7f", *range(128, 256)]:
        place = 7 * byte % len(line)
        cases.append((line[:place] + bytes([byte]) + line[place + 1 :], 2))
    cases.append((line.lower(), 2))
    for place in (line.index(b"F"), line.rindex(b"C")):
        cases.append((line[:place] + line[place : place + 1].lower() + line[place + 1 :], 2))
    full = written(LineDraws(1).frame((QAM, 1, 1), 256))
    cases.append((full[:-1] + b"f", 2))
    cases.append((b" " + full[1:], 2))
    return cases


def line_endings():
    """Carriage returns, blanks and marks count as characters of the line."""
    line = written(WORKED)
    full = written(LineDraws(2).frame((QAM, 2, 2), 256))
    odd = [line + b"\r", b"\r", line[:18] + b"\r", full + b"\r", line + b"\x00"]
    odd += [line + b" ", b"\xef\xbb\xbf" + line, line + b"\x0b" + line]
    even = [line[:-1] + b"\r", line + b"\r\r", line[:19] + b"\r", full[:-1] + b"\r"]
    even += [b"\r" * 20, line + b"\x00\x00", b" " + line + b" ", b"0x" + line]
    even += [b"\xef\xbb\xbf" + line[1:] + b"\r\r", line + b"\xc2\x85" + line]
    cases = [(text, 1) for text in odd] + [(text, 2) for text in even]
    cases += [(b"", 1), (b"", 1), (line, 0)]
    # The worked line broken by a newline: ten digits, then PAM with mQ 2.
    cases += [(line[:10], 1), (line[10:], 5), (line, 0)]
    return cases
