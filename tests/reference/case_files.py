"""The files of cases that the tests in C replay; README.md says their form."""

from collections import Counter
from functools import lru_cache

import capture_cases
import frame_cases
import line_cases
import message_cases
from capture_draws import CaptureDraws
from captures import read_capture, read_sample, write_softs
from constellations import MODULATIONS
from frames import read_frame
from lines import answer_line, read_header
from messages import map_bits
from sizes import edges, header_sizes

PLACES = {modulation: place for place, modulation in enumerate(MODULATIONS)}


class CaseFile:
    """A file of cases. They fall into groups, from 0, each of which must have a case that is accepted."""

    def __init__(self, groups):
        self.groups, self.counts, self.lines = groups, Counter(), [str(groups)]

    def add(self, group, numbers, inputs, rooms, answer, wanted, probes=0):
        """Adds a case: the call's numbers, input lists and rooms, and its answer, which is meant to have the number wanted."""
        outputs, refusal = answer
        number, symbol = refusal or (0, 0)
        if wanted not in (None, number):
            raise AssertionError(f"{numbers}, {inputs} is answered by {number}, and is meant to be by {wanted}")
        self.counts[number] += 1
        fields = [group if number == 0 else -1, *numbers]
        for entries in inputs:
            fields += [len(entries), *entries]
        fields += [*rooms, number, symbol, probes]
        for entries in outputs or ():
            fields += [len(entries), *entries]
        self.lines.append(" ".join(map(str, fields)))


@lru_cache(maxsize=None)
def frame_calls():
    return list(frame_cases.all_cases())


def frames(with_weights):
    """Frames with a list of weights, or without one; the groups are the modulations."""
    file = CaseFile(len(MODULATIONS))
    for frame, rooms, wanted in frame_calls():
        if (len(frame.weights) > 0) == with_weights:
            answer = read_frame(frame, rooms)
            probes = len(answer[0][2]) if answer[0] else 0
            inputs = (frame.gains, frame.weights, frame.yi, frame.yq) if with_weights else (frame.gains, frame.yi, frame.yq)
            file.add(PLACES.get(frame.modulation), frame.header, inputs, rooms, answer, wanted, probes)
    return file


def group_of(header):
    """The modulation's place; where symbols have weights, behind all those of plain kinds."""
    return PLACES[header.modulation] + len(MODULATIONS) * header.weighted


def sizes():
    """The headers of the frames, and more at the ends of payloads; the groups are the modulations, plain and with weights."""
    file = CaseFile(2 * len(MODULATIONS))
    headers = dict.fromkeys([frame.header for frame, _, _ in frame_calls()] + list(edges()))
    for header in headers:
        found, refusal = header_sizes(header)
        file.add(group_of(header) if found else -1, header, (), [1] * 5, (found and [[size] for size in found], refusal), None)
    return file


def messages():
    file = CaseFile(len(MODULATIONS))
    for modulation, gain, bits, rooms, wanted in message_cases.all_cases():
        file.add(PLACES.get(modulation), (*modulation, gain), (bits,), rooms, map_bits(modulation, gain, bits, rooms), wanted)
    return file


def lines():
    """The groups are the modulations, plain and with weights."""
    file = CaseFile(2 * len(MODULATIONS))
    for line, room, wanted in line_cases.all_cases():
        text, refusal = answer_line(line, room)
        file.add(group_of(read_header(line)) if text else -1, (), (line,), (room,), (text and (text,), refusal), wanted)
    return file


def one_sample(cases):
    """Samples of one number or of a pair; the groups are the scales."""
    file = CaseFile(len(capture_cases.SCALES))
    for scale, patterns, wanted in cases:
        found, refusal = read_sample(scale, patterns)
        file.add(scale, (scale, *patterns), (), [1] * len(patterns), (found and [[whole] for whole in found], refusal), wanted)
    return file


def captures():
    """The groups are the scales of each kind, plain and with what is added for weights."""
    kinds = capture_cases.KINDS
    file = CaseFile(len(kinds) * len(capture_cases.SCALES))
    for kind, scale, patterns, rooms, wanted in capture_cases.captures(CaptureDraws(402)):
        group = kinds.index(kind) * len(capture_cases.SCALES) + scale if kind in kinds else -1
        file.add(group, (kind, scale), (patterns,), rooms, read_capture(kind, scale, patterns, rooms), wanted)
    return file


def soft_values(cases, single):
    """Soft values, alone or in buffers; the groups are the scales."""
    file = CaseFile(len(capture_cases.SOFT_SCALES))
    for scale, values, room, wanted in cases:
        found, refusal = write_softs(scale, values, room)
        numbers, inputs = ((scale, *values), ()) if single else ((scale,), (values,))
        file.add(scale, numbers, inputs, (room,), (None if refusal else (found,), refusal), wanted)
    return file


FILES = {
    "sizes": sizes,
    "frames": lambda: frames(False),
    "weighted_frames": lambda: frames(True),
    "messages": messages,
    "lines": lines,
    "samples": lambda: one_sample(capture_cases.single_samples(CaptureDraws(400))),
    "quadratures": lambda: one_sample(capture_cases.quadrature_samples(CaptureDraws(401))),
    "captures": captures,
    "soft_values": lambda: soft_values(capture_cases.single_softs(CaptureDraws(403)), True),
    "soft_buffers": lambda: soft_values(capture_cases.soft_buffers(CaptureDraws(404)), False),
}
