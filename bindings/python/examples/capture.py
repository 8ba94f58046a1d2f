"""From a capture to soft values for a decoder: reads a file of binary32 numbers, in-phase and quadrature by turns, as one frame of 16-QAM,
and prints its soft values in binary32, as examples/c/capture.c does. With numpy the whole way goes through its arrays, else through those
of the standard library. With the variable WITHOUT_NUMPY set, numpy is left aside.
"""

import os
import sys
from array import array
from pathlib import Path

from softdemap import Qam, Refused, demap_frame, samples_i32, softs_f32

try:
    import numpy
except ImportError:
    numpy = None

MODULATION = Qam(2, 2)

# The numbers of the capture, of about 1 in size, become whole numbers at 1 / 2^12. A noise-free coordinate is -3, -1, 1 or 3 times the
# channel's gain, 0.2, so the gain is 0.2 * 2^12 = 819 in those units.
SCALE, GAIN = 12, 819

# Soft values are cost differences times WEIGHT / 2^SHIFT, held within -LIMIT to LIMIT, and handed out in steps of 1 / 2^SOFT_SCALE.
WEIGHT, SHIFT, LIMIT, SOFT_SCALE = 3, 13, 2047, 4


def read_capture(name):
    """The numbers of a file, in the machine's byte order."""
    if numpy and not os.environ.get("WITHOUT_NUMPY"):
        return numpy.fromfile(name, numpy.float32)
    return array("f", Path(name).read_bytes())


def read_frame(capture):
    """The hard bits, and the soft values in binary32."""
    yi, yq = samples_i32(MODULATION, SCALE, capture)
    reading = demap_frame(MODULATION, [GAIN] * len(yi), yi, yq, weight=WEIGHT, shift=SHIFT, limit=LIMIT)
    return reading.hard, softs_f32(SOFT_SCALE, reading.soft)


def main(name):
    capture = read_capture(name)
    hard, soft = read_frame(capture)
    bits = MODULATION.bits_per_symbol
    print("symbol  in phase  quadrature   hard   soft values: above 0 leans to the bit 0, below 0 to the bit 1")
    for symbol in range(len(capture) // 2):
        part = slice(symbol * bits, (symbol + 1) * bits)
        decided = "".join(str(bit) for bit in hard[part])
        values = "".join(f" {value:9.4f}" for value in soft[part])
        print(f"{symbol:6} {capture[2 * symbol]:9.4f} {capture[2 * symbol + 1]:11.4f}   {decided}  {values}")

    capture[-1] = float("nan")
    try:
        read_frame(capture)
    except Refused as refused:
        print(f"\nwith a NaN as the last number: the capture is refused by {refused.refusal:d} at {refused.place} {refused.symbol}")


if __name__ == "__main__":
    if len(sys.argv) != 2:
        sys.exit("usage: capture.py FILE, where FILE has 2 to 512 binary32 numbers")
    main(sys.argv[1])
