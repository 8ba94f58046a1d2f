"""The input of softlines, in groups."""

import softlines_accepted as accepted
import softlines_refused as refused
import softlines_texts as texts
import softlines_weighted as weighted

GROUPS = (
    accepted.worked_cases,
    refused.refusal_order,
    refused.link_limits,
    refused.kinds_and_bits,
    refused.payloads,
    refused.gains,
    refused.samples,
    refused.later_symbols,
    texts.lengths,
    texts.misfits,
    texts.characters,
    texts.line_endings,
    accepted.each_modulation,
    accepted.each_padding,
    accepted.full_frames,
    accepted.far_corners,
    accepted.each_shift,
    accepted.zero_gains,
    accepted.level_ties,
    accepted.angle_ties,
    accepted.tangent_edges,
    accepted.halves,
    accepted.limits_met,
    accepted.any_frames,
    weighted.worked_cases,
    weighted.each_modulation,
    weighted.each_padding,
    weighted.full_frames,
    weighted.one_for_all,
    weighted.one_symbol_weighted,
    weighted.halves,
    weighted.far_corners,
    weighted.each_shift,
    weighted.refusal_order,
    weighted.header_weights,
    weighted.symbol_weights,
    weighted.kinds_and_bits,
    weighted.later_symbols,
    accepted.last_line,
)


def all_cases():
    """Every case in the order of the input."""
    return [case for group in GROUPS for case in group()]
