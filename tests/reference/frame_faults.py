"""Faults for frames: one named rule broken, or something damaged at random."""

from constellations import KINDS
from frame_draws import FrameDraws, Weights
from frames import needed
from headers import WEIGHTED, header_refusal, most_bits
from softlines_refused import with_header_faults
from written import SAMPLE, frame_of

# The orders for plain frames, and for those whose symbols have weights.
ORDER = (4, 5, 6, 7, 8, 9, 16, 15, 10, 11)
WEIGHTED_ORDER = (4, 5, 6, 18, 8, 9, 16, 15, 10, 7, 11)

# What may be damaged in a frame; "length" is that of an input, "room" that of an output.
FAULTS = ("kind", "bits_i", "bits_q", "payload", "weight", "shift", "limit", "gains", "weights", "yi", "yq", "length", "room")

BAD_WEIGHTS = (0, 4096, 32768, 65535)


def broken(frame, faults, way):
    """The frame, of two symbols with yQ, with each rule broken that is named, and its rooms; `way` is 0 to 3."""
    rooms = list(needed(frame.header))
    if 10 in faults:
        frame.gains[0] = (4096, 4097, 32768, 65535)[way]
    if 7 in faults and frame.weighted:
        frame.weights[0] = BAD_WEIGHTS[way]
    if 11 in faults:
        (frame.yi, frame.yq)[way % 2][0] = (SAMPLE + 1, -SAMPLE - 1, -(2**31), 2**31 - 1)[way]
    if 15 in faults:
        rooms[way] -= 1
    if 16 in faults:
        name = ("gains", "yi", "yq", "weights")[way]
        entries = getattr(frame, name)
        frame = frame._replace(**{name: entries + [1, 1] if way == 3 else entries[:1]})
    return with_header_faults(frame, faults, way % 2), rooms


class FrameFaults(FrameDraws):
    """Random frames as the arguments of a call, damaged or not."""

    def frame(self, modulation, count, padding=0):
        return frame_of(self.fields(modulation, count, padding))

    def few_symbols(self, modulation=None):
        return frame_of(self.few(modulation))

    def of_fields(self, fields):
        """The frame of a line, as such draws have it."""
        return frame_of(self.own(fields))

    def rooms(self, frame):
        """Rooms long enough; any where the frame is refused before they matter."""
        if header_refusal(frame.header):
            return [self.between(0, 40) for _ in range(4)]
        return [self.enough(need) for need in needed(frame.header)]

    def short_rooms(self, frame, rooms):
        """One room by one too short, or empty."""
        place = self.between(0, 3)
        need = rooms[place] if header_refusal(frame.header) else needed(frame.header)[place]
        return [*rooms[:place], 0 if self.once_in(3) else max(0, need - 1), *rooms[place + 1 :]]

    def damaged(self, frame, fault):
        """The frame with one thing changed; most new values break a limit, the others stand at its inner end."""
        if fault == "length":
            return self.with_other_length(frame, self.one_of(("gains", "weights", "yi", "yq")))
        if fault in ("gains", "weights", "yi", "yq"):
            return self.with_other_entry(frame, fault)
        full = min(most_bits(frame.modulation), 65000)
        values = {
            "kind": (max(KINDS), max(KINDS) + 1, WEIGHTED, WEIGHTED + max(KINDS), WEIGHTED + max(KINDS) + 1, 255, frame.kind ^ WEIGHTED),
            "bits_i": (0, 1, 4, 5, 6, 7, 255),
            "bits_q": (0, 1, 6, 7, 255),
            "payload": (0, full, full + 1, 65535),
            "weight": (0, 1, 4095, 4096, 32768, 65535),
            "shift": (0, 40, 41, 64, 255),
            "limit": (0, 1, 32767, 32768, 65535),
        }
        return frame._replace(**{fault: self.one_of(values[fault])})

    def with_other_entry(self, frame, name):
        entries = list(getattr(frame, name))
        if entries:
            values = {"gains": (4095, 4096, 32768, 65535), "weights": (1, 4095, *BAD_WEIGHTS)}
            ends = (SAMPLE, -SAMPLE, SAMPLE + 1, -SAMPLE - 1, 2**31 - 1, -(2**31))
            entries[self.between(0, len(entries) - 1)] = self.one_of(values.get(name, ends))
        return frame._replace(**{name: entries})

    def with_other_length(self, frame, name):
        entries = getattr(frame, name)
        return frame._replace(**{name: self.one_of(([], entries[:-1], entries + [0], entries + [0] * 256))})


class WeightedFaults(Weights, FrameFaults):
    """The same of frames whose symbols have weights."""
