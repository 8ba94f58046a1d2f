"""What a header calls for (REQUIREMENTS, "Frames"): symbols, quadrature samples, probes, and the characters of its line and of the answer."""

from constellations import KINDS, MODULATIONS, bits_per_symbol
from frames import needed
from headers import MOST_SYMBOLS, WEIGHTED, Header, header_refusal, symbols_for
from lines import answer_length, line_length


def header_sizes(header):
    number = header_refusal(header)
    if number:
        return None, (number, 0)
    symbols = symbols_for(header.modulation, header.payload)
    in_quadrature = symbols if KINDS[header.modulation[0]].has_quadrature else 0
    return (symbols, in_quadrature, needed(header)[2], line_length(header), answer_length(header)), None


def edges():
    """Headers of every modulation, plain and with weights, with payloads at the ends of symbols and of frames."""
    for modulation in MODULATIONS:
        bits = bits_per_symbol(modulation)
        payloads = [max(0, symbols * bits + more) for symbols in (0, 1, 2, MOST_SYMBOLS - 1, MOST_SYMBOLS) for more in (-1, 0, 1)]
        for payload in (*payloads, 65535):
            plain = Header(*modulation, payload, 1, 0, 1)
            yield plain
            yield plain._replace(kind=plain.kind + WEIGHTED, weight=0)
