"""A proved soft demapper for Gray-labelled PAM, QAM and PSK: calls over the shared object libsoftdemap.so.

There is one function for each call of the C header, and what it gives is the answer of that call:

    sizes                                    what a frame of a modulation calls for
    demap_frame                              samples to hard bits, soft values and probes
    map_bits                                 bits to samples without noise
    answer_line                              a frame written as a line of hexadecimal to its answer
    sample_i32, quadrature_i32, samples_i32  binary32 numbers to samples
    soft_f32, softs_f32                      soft values to binary32 numbers

`points` lists a constellation by way of `map_bits` and `demap_frame`.

Modulations
    Pam(bits)            bits 1 to 6                    2^bits levels on one axis
    Qam(bits_i, bits_q)  bits_i 1 to 6, bits_q 1 to 6   2^bits_i levels in phase, 2^bits_q in quadrature
    Psk(bits)            bits 1 to 4                    2^bits phases
    Cellular(bits)       bits 1 to 3, on each axis      QAM with the labels of 3GPP TS 36.211: QPSK, 16QAM and 64QAM
A symbol carries b = bits_i + bits_q bits. Index k of an axis with m bits has the level 2k - (2^m - 1); phase k of PSK with m bits stands at
(2k + 1) * 180 / 2^m degrees. Labels are binary-reflected Gray labels of the index, the most significant bit first; QAM sends the in-phase
label, then the quadrature label. Cellular labels of an axis have every bit turned round, so that those of 3 bits are 111, 110, 100, 101, 001,
000, 010, 011 from the level -7 upward, and the axes take turns: bit 2i of a symbol is bit i of the in-phase label, bit 2i + 1 that of the
quadrature label. What is said of QAM elsewhere holds for cellular too.

Weights
    A frame has one weight for all its symbols or, as where some carriers of a link are noisier than others, a weight for each. Its kind is then a
    weighted one, with 80 hexadecimal added in the library's calls and in lines, and the weight in its header is 0. `demap_frame` adds it where
    weights are handed to it, and takes a kind as it is that has it already.

Units
    gain g      0 to 4095; a noise-free PAM or QAM coordinate is g times the level
    sample      -1048576 to 1048576 in the gain's units
    cost        PAM and each QAM axis: (sample - g * level)^2. PSK: -2 g (yi u + yq v), where (u, v) is the point in units of 1/16384
    bit         0 or 1
    weight      1 to 4095, of all symbols or of each, whose cost it multiplies
    soft value  N * weight / 2^(shift + e), rounded to the nearest whole number, halves away from zero, then held within -limit to limit;
                N is the least cost over the points with the bit 1 less that over the points with the bit 0, and e is 14 for PSK, else 0.
                PLUS LEANS TO THE BIT 0, MINUS TO THE BIT 1.

Sequences
    In: numpy arrays, objects with the buffer protocol (array.array, bytes, memoryview), or any iterable of numbers. Buffers whose entries
    have the type that the library reads, and which are contiguous, are lent to it without a copy, but for read-only ones outside numpy.
    Those types are uint16 for gains and weights, int32 for samples, uint8 for bits, int16 for soft values and float32 for captures. Other integers are
    converted one by one, and other floats only where no number of their type would change.
    Out: numpy arrays where an input is one, else array.array, as long as the library's call for sizes has it. numpy is neither needed nor
    imported here.

Errors
    Refused          the library refuses the input: which Refusal it is, and at which symbol
    OverflowError    a number does not fit the type that the library reads, such as a payload of 70000; no call is made
    TypeError        not an integer, or not a sequence of them, or a numpy array with a mask; no call is made
No error keeps an input lent: while it is handled, an array.array or a bytearray may grow.
"""

from __future__ import annotations

import ctypes
import ctypes.util
import enum
import operator
import os
import struct
import sys
from array import array
from dataclasses import astuple, dataclass
from functools import wraps
from itertools import product
from pathlib import Path
from typing import Any, Callable, Dict, Iterable, List, NamedTuple, Optional, SupportsFloat, SupportsIndex, Tuple, Type, TypeVar, Union, cast

__all__ = [
    "Cellular",
    "MAX_ANSWER",
    "MAX_LINE",
    "MAX_SYMBOLS",
    "Modulation",
    "Pam",
    "Point",
    "Psk",
    "Qam",
    "Reading",
    "Refusal",
    "Refused",
    "Sizes",
    "answer_line",
    "demap_frame",
    "map_bits",
    "points",
    "quadrature_i32",
    "sample_i32",
    "samples_i32",
    "sizes",
    "soft_f32",
    "softs_f32",
]

MAX_SYMBOLS = 256
"""The most symbols of a frame."""

MAX_LINE = 6164
"""The characters of the longest line, of 256 symbols of QAM or PSK with a weight each."""

MAX_ANSWER = 12294
"""The characters of the longest answer, to 256 symbols of QAM with 12 bits each."""

# What the functions take. Arrays of numpy are among these, as are lists, bytes, arrays and views.
Integers = Iterable[SupportsIndex]
Floats = Iterable[SupportsFloat]

# What they give: a numpy array where an input is one, else an array.array. A type checker is told neither.
Numbers = Any

_FILE = "libsoftdemap.so"
_VARIABLE = "SOFTDEMAP_LIBRARY"


# The library


def _find_library() -> Optional[str]:
    """Where the shared object is: the variable, beside this file, in the repository, or where the loader looks."""
    if _VARIABLE in os.environ:
        return os.environ[_VARIABLE]
    here = Path(__file__).resolve().parent
    for folder in (here, (here / "../../../target/host").resolve()):
        if (folder / _FILE).is_file():
            return str(folder / _FILE)
    return ctypes.util.find_library("softdemap")


def _load_library() -> ctypes.CDLL:
    """The shared object with the types of its calls; a buffer is a pointer and the number of its entries."""
    path = _find_library()
    if path is None:
        raise ImportError(f"there is no {_FILE}: run scripts/shared in the repository, or set {_VARIABLE} to the file")
    try:
        library = ctypes.CDLL(path)
        byte, half, buffer = ctypes.c_uint8, ctypes.c_uint16, (ctypes.c_void_p, ctypes.c_size_t)
        header = (byte, byte, byte, half, half, byte, half)
        for name, result, arguments in (
            ("sizes", ctypes.c_uint32, header + 5 * (ctypes.c_void_p,)),
            ("frame", ctypes.c_uint64, header + 7 * buffer),
            ("frame_weighted", ctypes.c_uint64, header + 8 * buffer),
            ("line", ctypes.c_uint32, 2 * buffer),
            ("map", ctypes.c_uint32, (byte, byte, byte, half) + 3 * buffer),
            ("sample_i32", ctypes.c_uint32, (byte, ctypes.c_float, ctypes.c_void_p)),
            ("quadrature_i32", ctypes.c_uint32, (byte, ctypes.c_float, ctypes.c_float, ctypes.c_void_p, ctypes.c_void_p)),
            ("samples_i32", ctypes.c_uint64, (byte, byte) + 3 * buffer),
            ("soft_f32", ctypes.c_uint32, (byte, ctypes.c_int16, ctypes.c_void_p)),
            ("softs_f32", ctypes.c_uint32, (byte,) + 2 * buffer),
        ):
            call = getattr(library, "softdemap_" + name)
            call.restype, call.argtypes = result, arguments
    except (OSError, AttributeError) as error:
        message = f"{path} is not the softdemap library ({error}): run scripts/shared in the repository, or set {_VARIABLE} to the file"
        raise ImportError(message) from error
    return library


_library = _load_library()


# Refusals


class Refusal(enum.IntEnum):
    """Why the library refuses a call: its number, and as `text` what that means, in the words of softdemap.h.

    OUTPUT_TOO_SHORT is not raised: the functions here make their outputs themselves.
    """

    LINE_LENGTH = 1, "a line of odd length, below 20 or above 6164 characters"
    LINE_CHARACTER = 2, "a line with a character other than 0 to 9 and A to F"
    LINE_LENGTH_FOR_HEADER = 3, "a line of another length than its header calls for"
    KIND = 4, "kind above 3"
    BITS_PER_SYMBOL = 5, "bits_i or bits_q out of range: PAM and QAM 1 to 6, PSK 1 to 4, cellular 1 to 3; bits_q 0 for PAM and PSK, bits_i for cellular"
    PAYLOAD = 6, "no payload, or more than 256 symbols"
    WEIGHT = 7, "weight outside 1 to 4095"
    SHIFT = 8, "shift above 40"
    LIMIT = 9, "limit outside 1 to 32767"
    GAIN = 10, "gain above 4095"
    SAMPLE = 11, "sample outside -1048576 to 1048576"
    NOT_FINITE = 12, "a binary32 number that is infinite or not a number"
    ROUNDS_OUT_OF_RANGE = 13, "a binary32 number that rounds out of the range of samples"
    SCALE = 14, "a binary32 scale above 20, for soft values above 14"
    OUTPUT_TOO_SHORT = 15, "an output buffer shorter than the answer"
    INPUT_LENGTH = 16, "gains, weights, yi or yq not of the length that the frame needs; a capture that ends within a pair"
    BIT_BYTE = 17, "a bit byte neither 0 nor 1"
    HEADER_WEIGHT = 18, "a header weight other than 0 of a weighted kind"

    text: str

    # The default is for type checkers, which take Refusal(10), that finds one of these, for a call of this.
    def __new__(cls, number: int, text: str = "") -> Refusal:
        refusal = int.__new__(cls, number)
        refusal._value_ = number
        refusal.text = text
        return refusal


class Refused(Exception):
    """The library refuses a call: the first check, in the order that stands at each function, that the input fails.

    refusal  which Refusal it is
    symbol   the number, from 0, of the symbol at fault, or of the sample of a capture; None where the call does not name one
    place    what that number counts, "symbol" or "sample"; empty where there is none
    """

    def __init__(self, refusal: Refusal, symbol: Optional[int] = None, place: str = "") -> None:
        super().__init__(refusal, symbol, place)
        self.refusal = refusal
        self.symbol = symbol
        self.place = place

    def __str__(self) -> str:
        where = "" if self.symbol is None else f" at {self.place} {self.symbol}"
        return f"refusal {self.refusal:d}{where}: {self.refusal.text}"


# What a call numbers in a refusal.
_NOTHING: Dict[Refusal, str] = {}
_SYMBOLS = {Refusal.GAIN: "symbol", Refusal.SAMPLE: "symbol"}
_WEIGHTED_SYMBOLS = {**_SYMBOLS, Refusal.WEIGHT: "symbol"}
_SAMPLES = {Refusal.NOT_FINITE: "sample", Refusal.ROUNDS_OUT_OF_RANGE: "sample"}


def _check(answer: int, places: Dict[Refusal, str] = _NOTHING) -> None:
    """Raises the refusal with which the library answers: in the lowest 8 bits its number, 0 for none, above them that of the symbol."""
    if answer & 255:
        refusal = Refusal(answer & 255)
        place = places.get(refusal, "")
        raise Refused(refusal, answer >> 8 if place else None, place)


_Function = TypeVar("_Function", bound=Callable[..., Any])


def _releasing(function: _Function) -> _Function:
    """Of a function that lends its inputs makes one whose refusal keeps none of them lent. It raises the refusal anew when the function is
    done: a traceback through that would keep what it lent.
    """

    @wraps(function)
    def releasing(*arguments: Any, **named: Any) -> Any:
        try:
            return function(*arguments, **named)
        except Refused as refused:
            raise refused.with_traceback(None)

    return cast(_Function, releasing)


# Numbers and buffers


class _Entry(NamedTuple):
    """The type of a buffer's entries: for ctypes, for array and memoryview, for numpy, and the range of whole numbers."""

    ctype: Type[Any]
    code: str
    dtype: str
    low: int = 0
    high: int = 0

    @property
    def whole(self) -> bool:
        return self.code != "f"


_U8 = _Entry(ctypes.c_uint8, "B", "uint8", 0, 2**8 - 1)
_U16 = _Entry(ctypes.c_uint16, "H", "uint16", 0, 2**16 - 1)
_I16 = _Entry(ctypes.c_int16, "h", "int16", -(2**15), 2**15 - 1)
_I32 = _Entry(ctypes.c_int32, "i", "int32", -(2**31), 2**31 - 1)
_I64 = _Entry(ctypes.c_int64, "q", "int64", -(2**63), 2**63 - 1)
_F32 = _Entry(ctypes.c_float, "f", "float32")

# What memoryview may write before a format that is the machine's own.
_NATIVE = "@=" + ("<" if sys.byteorder == "little" else ">")


class _Lent(NamedTuple):
    """A buffer as the library takes it, and the object that owns its memory."""

    pointer: Any
    length: int
    owner: Any

    @property
    def arguments(self) -> Tuple[Any, int]:
        return self.pointer, self.length


def _whole(name: str, value: SupportsIndex, entry: _Entry) -> int:
    """A whole number that fits the type, or an error that names the argument."""
    try:
        number = operator.index(value)
    except TypeError:
        raise TypeError(f"{name} is {value!r}, not an integer") from None
    if not entry.low <= number <= entry.high:
        raise OverflowError(f"{name} is {number}, outside {entry.low} to {entry.high}")
    return number


def _binary32(name: str, value: SupportsFloat) -> float:
    """The binary32 number nearest to a number, or an error where it is finite and beyond their range."""
    try:
        rounded: float = struct.unpack("=f", struct.pack("=f", value))[0]
    except (struct.error, OverflowError):
        if isinstance(value, (int, float)):
            raise OverflowError(f"{name} is {value!r}, beyond the range of binary32") from None
        raise TypeError(f"{name} is {value!r}, not a number") from None
    return rounded


def _is_ndarray(values: object) -> bool:
    """Whether this is a numpy array; where numpy was never imported, it is not."""
    return isinstance(values, getattr(sys.modules.get("numpy"), "ndarray", ()))


def _is_masked(values: object) -> bool:
    """Whether this is a numpy array with a mask, of which the library would not know."""
    return isinstance(values, getattr(sys.modules.get("numpy.ma"), "MaskedArray", ()))


def _lend(name: str, values: Any, entry: _Entry) -> _Lent:
    """Lends an input: its own memory where the entries have the type, else a checked copy."""
    if _is_ndarray(values):
        fitting = _fitting_ndarray(name, values, entry)
        return _Lent(fitting.ctypes.data, len(fitting), fitting)
    return _lend_buffer(_fitting_buffer(name, values, entry), entry)


def _lend_buffer(owner: Any, entry: _Entry) -> _Lent:
    """Lends a buffer of such entries that can be written to."""
    return _Lent(ctypes.byref(entry.ctype.from_buffer(owner)) if len(owner) else None, len(owner), owner)


def _fitting_ndarray(name: str, values: Any, entry: _Entry) -> Any:
    """A numpy array with the type, in one piece and aligned; the one given where it is so already."""
    numpy = sys.modules["numpy"]
    if _is_masked(values):
        raise TypeError(f"{name} is a masked array, and its mask would be lost")
    if values.ndim != 1:
        raise TypeError(f"{name} has {values.ndim} dimensions, not 1")
    if values.dtype != entry.dtype:
        keeps = values.dtype.kind in "iub" if entry.whole else numpy.can_cast(values.dtype, entry.dtype, "safe")
        if not keeps:
            raise TypeError(f"{name} has entries of type {values.dtype}, not {entry.dtype}")
        if entry.whole and values.size and not entry.low <= int(values.min()) <= int(values.max()) <= entry.high:
            _check_entries(name, values.tolist(), entry)
    return numpy.require(values, entry.dtype, "CA")


def _fitting_buffer(name: str, values: Any, entry: _Entry) -> Union[memoryview, array[Any]]:
    """A buffer with the type that can be written to; the one given where it is so already."""
    try:
        view = memoryview(values)
    except TypeError:
        return _array_of(name, values, entry)
    try:
        return _fitting_view(name, view, entry)
    except (TypeError, OverflowError):
        view.release()  # which the error's traceback keeps
        raise


def _fitting_view(name: str, view: memoryview, entry: _Entry) -> Union[memoryview, array[Any]]:
    """The view itself where it has the type and can be lent, else an array of its numbers."""
    if view.ndim != 1:
        raise TypeError(f"{name} has {view.ndim} dimensions, not 1")
    if view.format.lstrip(_NATIVE) == entry.code:
        return view if _is_lendable(view, entry) else array(entry.code, view.tobytes())
    if not entry.whole:
        raise TypeError(f"{name} has entries of format {view.format!r}, not {entry.code!r}, which is binary32")
    return _array_of(name, view, entry)


def _is_lendable(view: memoryview, entry: _Entry) -> bool:
    """Whether a view of such entries is in one piece, at an address that suits their type, and can be written to."""
    if not view.contiguous or view.readonly:
        return False
    return len(view) == 0 or ctypes.addressof(entry.ctype.from_buffer(view)) % ctypes.alignment(entry.ctype) == 0


def _array_of(name: str, values: Iterable[Any], entry: _Entry) -> array[Any]:
    """The array of an iterable's numbers, each checked."""
    try:
        listed = list(values)
    except (TypeError, NotImplementedError):
        raise TypeError(f"{name} is {values!r}, not a sequence of numbers") from None
    try:
        return array(entry.code, listed if entry.whole else struct.pack(f"={len(listed)}f", *listed))
    except (TypeError, OverflowError, struct.error):
        _check_entries(name, listed, entry)
        raise


def _check_entries(name: str, listed: List[Any], entry: _Entry) -> None:
    """Raises the error of the first entry that has one."""
    for place, value in enumerate(listed):
        if entry.whole:
            _whole(f"{name}[{place}]", value, entry)
        else:
            _binary32(f"{name}[{place}]", value)


def _output(length: int, entry: _Entry, *inputs: object) -> _Lent:
    """A buffer of zeros for an answer: a numpy array where an input is one."""
    if any(map(_is_ndarray, inputs)):
        return _lend_buffer(sys.modules["numpy"].zeros(length, entry.dtype), entry)
    return _lend_buffer(array(entry.code, bytes(length * ctypes.sizeof(entry.ctype))), entry)


# Modulations


@dataclass(frozen=True, eq=False)
class Modulation:
    """A modulation by its numbers, of which any may be written here: the library refuses those outside the ranges. There is a class below for
    each kind. Modulations with the same numbers are equal: Modulation(0, 3) == Pam(3).

    kind    the number of the kind; a weighted one, with 80 hexadecimal added, may be written too, but `demap_frame` and `sizes` make it themselves
    bits_i  bits of a symbol, where it has two axes those of the in-phase one
    bits_q  bits of the quadrature axis, else 0
    """

    kind: int
    bits_i: int
    bits_q: int = 0

    def __eq__(self, other: object) -> bool:
        return isinstance(other, Modulation) and astuple(self) == astuple(other)

    def __hash__(self) -> int:
        return hash(astuple(self))

    @property
    def bits_per_symbol(self) -> int:
        """b: the bits that a symbol carries."""
        return operator.index(self.bits_i) + operator.index(self.bits_q)


class Pam(Modulation):
    """PAM, kind 0: 2^bits levels on one axis, bits 1 to 6."""

    def __init__(self, bits: int) -> None:
        super().__init__(0, bits)

    def __repr__(self) -> str:
        return f"Pam({self.bits_i})"


class Qam(Modulation):
    """QAM, kind 1: 2^bits_i levels in phase and 2^bits_q in quadrature, 1 to 6 bits each."""

    def __init__(self, bits_i: int, bits_q: int) -> None:
        super().__init__(1, bits_i, bits_q)

    def __repr__(self) -> str:
        return f"Qam({self.bits_i}, {self.bits_q})"


class Psk(Modulation):
    """PSK, kind 2: 2^bits phases, bits 1 to 4."""

    def __init__(self, bits: int) -> None:
        super().__init__(2, bits)

    def __repr__(self) -> str:
        return f"Psk({self.bits_i})"


class Cellular(Modulation):
    """QAM with the labels of 3GPP TS 36.211, kind 3: 2^bits levels on each axis, bits 1 to 3."""

    def __init__(self, bits: int) -> None:
        super().__init__(3, bits, bits)

    def __repr__(self) -> str:
        return f"Cellular({self.bits_i})"


def _numbers(modulation: Modulation) -> Tuple[int, ...]:
    """Kind and bit counts, checked to fit a byte each."""
    if not isinstance(modulation, Modulation):
        raise TypeError(f"modulation is {modulation!r}, not a Modulation such as Qam(2, 2)")
    return tuple(_whole(name, getattr(modulation, name), _U8) for name in ("kind", "bits_i", "bits_q"))


# What is added to a kind where each symbol has a weight of its own.
_WEIGHTED = 0x80


def _weighted(numbers: Tuple[int, ...]) -> Tuple[int, ...]:
    """The same numbers of a weighted kind."""
    return (numbers[0] | _WEIGHTED, *numbers[1:])


# The call for sizes


class Sizes(NamedTuple):
    """What a frame calls for.

    symbols     n = ceil(payload / b): the entries of gains and yi, and of weights where each symbol has one
    quadrature  the entries of yq: n, for PAM 0
    probes      the entries of probe_index and probe_cost
    line        the characters of the frame written as a line
    answer      the characters of the answer to that line
    """

    symbols: int
    quadrature: int
    probes: int
    line: int
    answer: int


def _scale(weighted: bool, weight: Optional[SupportsIndex], shift: SupportsIndex, limit: SupportsIndex) -> Tuple[int, int, int]:
    """The numbers that make soft values of cost differences, checked to fit their types; a weight that is not given is 1, of a weighted kind 0."""
    factor = int(not weighted) if weight is None else _whole("weight", weight, _U16)
    return factor, _whole("shift", shift, _U8), _whole("limit", limit, _U16)


def _sizes(numbers: Tuple[int, ...], payload: int, scale: Tuple[int, int, int] = (1, 0, 1)) -> Tuple[int, Sizes]:
    """The library's answer for numbers that fit their types, and the sizes; where it refuses, they are zeros."""
    found = [ctypes.c_uint32() for _ in Sizes._fields]
    answer = _library.softdemap_sizes(*numbers, payload, *scale, *map(ctypes.byref, found))
    return answer, Sizes(*(size.value for size in found))


def sizes(
    modulation: Modulation,
    payload: SupportsIndex,
    *,
    weighted: bool = False,
    weight: Optional[SupportsIndex] = None,
    shift: SupportsIndex = 0,
    limit: SupportsIndex = 32767,
) -> Sizes:
    """The Sizes of a frame with so many bits of payload, by the numbers of `demap_frame`; with weighted, of one with a weight for each symbol, whose
    line is longer.

    Order of refusals: 4, 5, 6, 7 or with weighted 18, 8, 9.

    >>> sizes(Qam(2, 2), 5)
    Sizes(symbols=2, quadrature=2, probes=12, line=60, answer=26)
    >>> sizes(Qam(2, 2), 5, weighted=True).line
    68
    """
    plain = _numbers(modulation)
    numbers = _weighted(plain) if weighted else plain
    answer, found = _sizes(numbers, _whole("payload", payload, _U16), _scale(weighted, weight, shift, limit))
    _check(answer)
    return found


# The frame call


class Reading(NamedTuple):
    """A frame as it is read.

    hard         the payload's bits as decided, 0 or 1, in the order sent (uint8)
    soft         their soft values: plus leans to the bit 0, minus to the bit 1 (int16)
    probe_index  for each symbol, for QAM each axis, the nearest index, and then for each of its bits the best index whose label has the
                 other value of that bit (uint8)
    probe_cost   the costs of these indices (int64)
    probes       how many probes there are
    """

    hard: Numbers
    soft: Numbers
    probe_index: Numbers
    probe_cost: Numbers
    probes: int


@_releasing
def demap_frame(
    modulation: Modulation,
    gains: Integers,
    yi: Integers,
    yq: Integers = (),
    *,
    weights: Optional[Integers] = None,
    payload: Optional[SupportsIndex] = None,
    weight: Optional[SupportsIndex] = None,
    shift: SupportsIndex = 0,
    limit: SupportsIndex = 32767,
) -> Reading:
    """Reads a frame of n = ceil(payload / b) symbols, and gives a Reading.

    gains    n numbers, one a symbol, each 0 to 4095
    yi       n in-phase samples, each -1048576 to 1048576
    yq       n quadrature samples; none for PAM
    payload  bits of the frame, in 1 to 256 symbols; where it is not given, all bits of as many symbols as there are gains
    weight   1 to 4095, the factor of cost differences; 1 where it is not given
    weights  in place of it a factor for each symbol: n numbers, each 1 to 4095. The costs of probes have no factor. The kind may have 80
             hexadecimal added or not; without weights it must not, and is refused by 16, or by 18 where the weight is not 0
    shift    0 to 40: cost differences are divided by 2^shift, for PSK by 2^14 besides
    limit    1 to 32767: soft values are held within -limit to limit

    Padding bits of the last symbol are not handed out; their probes are.
    Order of refusals: 4, 5, 6, 7, 8, 9, 16, then for each symbol 10, 11, with the symbol's number. With weights 4, 5, 6, 18 where a weight other
    than 0 is given too, 8, 9, 16, then for each symbol 10, 7, 11.

    >>> demap_frame(Qam(2, 2), [5], [3], [-20], payload=3, shift=2).soft
    array('h', [-15, -35, 150])
    >>> demap_frame(Qam(2, 2), [5, 5], [3, 3], [-20, -20], weights=[3, 7], payload=6, shift=2).soft
    array('h', [-45, -105, 450, 150, -105, -245])
    """
    numbers = _numbers(modulation)
    given = None if payload is None else _whole("payload", payload, _U16)
    scale = _scale(weights is not None, weight, shift, limit)
    inputs = [_lend("gains", gains, _U16), _lend("yi", yi, _I32), _lend("yq", yq, _I32)]
    call, places = _library.softdemap_frame, _SYMBOLS
    if weights is not None:
        numbers = _weighted(numbers)
        inputs.insert(1, _lend("weights", weights, _U16))
        call, places = _library.softdemap_frame_weighted, _WEIGHTED_SYMBOLS
    # More than the type holds is refused like the most that it holds: by 4, 5 or 6.
    bits = min(inputs[0].length * modulation.bits_per_symbol, _U16.high) if given is None else given
    probes = _sizes(numbers, bits, scale)[1].probes
    entries = (bits, _U8), (bits, _I16), (probes, _U8), (probes, _I64)
    outputs = [_output(length, entry, gains, weights, yi, yq) for length, entry in entries]
    buffers = [argument for buffer in inputs + outputs for argument in buffer.arguments]
    answer = call(*numbers, bits, *scale, *buffers)
    _check(answer, places)
    hard, soft, probe_index, probe_cost = (buffer.owner for buffer in outputs)
    return Reading(hard, soft, probe_index, probe_cost, answer >> 32)


# The mapping call


@_releasing
def map_bits(modulation: Modulation, gain: SupportsIndex, bits: Integers) -> Tuple[Numbers, Numbers]:
    """Maps bits to n = ceil(len(bits) / b) symbols without noise, and gives (yi, yq) of n samples each; for PAM yq is empty.

    gain  0 to 4095
    bits  the payload's bits, 0 or 1, in the order sent; 1 or more, in at most 256 symbols. The last symbol is filled up with bits 0

    A sample is the gain times the level, for PSK the point itself in units of 1/16384, which the gain does not scale.
    Order of refusals: 4, 5, 6, 10, 17.

    >>> map_bits(Qam(2, 2), 100, [1, 1, 0, 1, 0])
    (array('i', [100, -300]), array('i', [-100, -300]))
    """
    numbers = _numbers(modulation)
    factor = _whole("gain", gain, _U16)
    lent = _lend("bits", bits, _U8)
    _, needed = _sizes(numbers, min(lent.length, _U16.high))  # more than the type holds is refused like the most that it holds
    yi, yq = _output(needed.symbols, _I32, bits), _output(needed.quadrature, _I32, bits)
    _check(_library.softdemap_map(*numbers, factor, *lent.arguments, *yi.arguments, *yq.arguments))
    return yi.owner, yq.owner


class Point(NamedTuple):
    """A point of a constellation.

    label  its bits in the order sent
    index  its index on each axis, one for PAM and PSK
    i, q   its coordinates: levels, q being 0 for PAM; for PSK in units of 1/16384
    """

    label: Tuple[int, ...]
    index: Tuple[int, ...]  # type: ignore[assignment]  # not the method of tuples
    i: int
    q: int


def points(modulation: Modulation) -> List[Point]:
    """The constellation as a list of Points in the order of their labels, as the library maps and reads them at gain 1.

    Order of refusals: 4, 5.

    >>> points(Pam(2))[2]
    Point(label=(1, 0), index=(3,), i=3, q=0)
    """
    step = sizes(modulation, 1).probes  # of a symbol: for each axis the nearest index, and then one for each of its bits
    bits = modulation.bits_per_symbol
    places = (0, modulation.bits_i + 1)[: step - bits]
    labels = list(product((0, 1), repeat=bits))
    listed = []
    for start in range(0, len(labels), MAX_SYMBOLS):
        part = labels[start : start + MAX_SYMBOLS]
        yi, yq = map_bits(modulation, 1, [bit for label in part for bit in label])
        probe_index = demap_frame(modulation, [1] * len(part), yi, yq).probe_index
        for symbol, label in enumerate(part):
            index = tuple(probe_index[symbol * step + place] for place in places)
            listed.append(Point(label, index, yi[symbol], yq[symbol] if yq else 0))
    return listed


# The line call


@_releasing
def answer_line(line: Union[str, Integers]) -> str:
    """Reads a frame written as a line of hexadecimal, and gives its answer as a str.

    line  str or bytes without a newline, digits 0 to 9 and A to F, the most significant of a field first. The header, 20 digits: kind (2),
          bits_i (2), bits_q (2), payload (4), weight (4), shift (2), limit (4). Then for each symbol its gain (4), for weighted kinds its weight
          (4), yi (8, two's complement) and, except for PAM, yq (8, two's complement)

    The answer is 00, the number of probes (4 digits), and each soft value of the payload (4 digits, two's complement).
    Order of refusals: 1, 2, 4, 5, 6, 7 or for weighted kinds 18, 8, 9, 3, then for each symbol 10, for weighted kinds 7, and 11, with the symbol's
    number.

    >>> answer_line("01020200030001027FFF000500000003FFFFFFEC")
    '000006FFF1FFDD0096'
    """
    lent = _lend("line", line.encode("ascii", "replace") if isinstance(line, str) else line, _U8)
    text = ctypes.create_string_buffer(MAX_ANSWER + 1)  # of zeros, of which one ends the text that is written before it
    weighted = lent.length > 0 and lent.owner[0] >= ord("8")
    _check(_library.softdemap_line(*lent.arguments, text, MAX_ANSWER), _WEIGHTED_SYMBOLS if weighted else _SYMBOLS)
    return text.value.decode("ascii")


# The binary32 calls


def sample_i32(scale: SupportsIndex, x: SupportsFloat) -> int:
    """Converts a sample of PAM at the scale F, 0 to 20: the whole number nearest to x * 2^F, halves to the even one.

    x is taken as the binary32 number nearest to it.
    Order of refusals: 14, 12, 13.

    >>> sample_i32(0, 2.5)
    2
    """
    y = ctypes.c_int32()
    _check(_library.softdemap_sample_i32(_whole("scale", scale, _U8), _binary32("x", x), ctypes.byref(y)))
    return y.value


def quadrature_i32(scale: SupportsIndex, in_phase: SupportsFloat, quadrature: SupportsFloat) -> Tuple[int, int]:
    """Converts a quadrature sample at the scale F, 0 to 20, and gives (yi, yq); each number as `sample_i32` does.

    Order of refusals: 14, then 12 and 13 for in_phase, then 12 and 13 for quadrature.

    >>> quadrature_i32(12, 0.25, -1.0)
    (1024, -4096)
    """
    yi, yq = ctypes.c_int32(), ctypes.c_int32()
    pair = _binary32("in_phase", in_phase), _binary32("quadrature", quadrature)
    _check(_library.softdemap_quadrature_i32(_whole("scale", scale, _U8), *pair, ctypes.byref(yi), ctypes.byref(yq)))
    return yi.value, yq.value


@_releasing
def samples_i32(modulation: Modulation, scale: SupportsIndex, capture: Floats) -> Tuple[Numbers, Numbers]:
    """Converts a capture of n samples at the scale F, 0 to 20, and gives (yi, yq) for `demap_frame`; for PAM yq is empty.

    capture  for PAM n numbers; else 2n: in-phase, quadrature, in-phase, and so on. Any length, also none. Python's floats are taken as the
             binary32 numbers nearest to them; an array of another type than binary32 is not taken, since it might lose digits

    Each number becomes the whole number nearest to it times 2^F, halves to the even one. Of the modulation the kind alone matters.
    Order of refusals: 14, 4, 16, then for each sample 12 and 13, in-phase first, with the sample's number.

    >>> samples_i32(Qam(2, 2), 4, [1.0, -1.0, 0.5, 3.0])
    (array('i', [16, 8]), array('i', [-16, 48]))
    """
    numbers = _numbers(modulation)[0], _whole("scale", scale, _U8)
    lent = _lend("capture", capture, _F32)
    pairs = lent.length // 2
    for lengths in ((pairs, pairs), (lent.length, 0)):  # where the first are too short, the kind takes single numbers
        yi, yq = (_output(length, _I32, capture) for length in lengths)
        answer = _library.softdemap_samples_i32(*numbers, *lent.arguments, *yi.arguments, *yq.arguments)
        if answer != Refusal.OUTPUT_TOO_SHORT:
            break
    _check(answer, _SAMPLES)
    return yi.owner, yq.owner


def soft_f32(scale: SupportsIndex, soft: SupportsIndex) -> float:
    """Converts a soft value, any of 16 bits, at the scale f, 0 to 14: soft * 2^(-f), exactly; 0 becomes plus zero.

    The refusal is 14.

    >>> soft_f32(4, -40)
    -2.5
    """
    x = ctypes.c_float()
    _check(_library.softdemap_soft_f32(_whole("scale", scale, _U8), _whole("soft", soft, _I16), ctypes.byref(x)))
    return x.value


@_releasing
def softs_f32(scale: SupportsIndex, soft: Integers) -> Numbers:
    """Converts soft values at the scale f, 0 to 14, each as `soft_f32` does.

    The refusal is 14.

    >>> softs_f32(1, [-15, 150])
    array('f', [-7.5, 75.0])
    """
    number = _whole("scale", scale, _U8)
    lent = _lend("soft", soft, _I16)
    x = _output(lent.length, _F32, soft)
    _check(_library.softdemap_softs_f32(number, *lent.arguments, *x.arguments))
    return x.owner
