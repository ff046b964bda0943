#!/usr/bin/env python3
"""Gives the repository's own definitions and lemmas the spelling that today's Rattle has: words in snake case, types in camel case.

usage: python3 tools/respell.py [TOP]      rewrites the .antt files of TOP/crates, and the ghost parts of its .rt files

A name changes only where it stands whole. Names of functions of src/, strings and comments outside proofs stay as they are.
Where the plain spelling would be a function's name too, the definition has a name of its own.
"""

import os
import re
import sys

NAMES = """
    Nearest-is-one NearestIsOne
    No-value NoValue
    Some-below SomeBelow
    Stand-ins StandIns
    Takes-value TakesValue
    Units-exact UnitsExact
    a-digit a_digit
    absent-past absent_past
    absent-there absent_there
    after-quote after_quote
    at-bottom at_bottom
    at-start at_start
    before-block before_block
    before-end before_end
    before-name before_name
    before-range before_range
    before-shape before_shape
    below-bound below_bound
    below-own below_own
    below-scaled below_scaled
    bitsOf literal_bits_of
    blocksAfter blocks_after_of
    blocksOf blocks_of
    bool-infinity bool_infinity
    bool-nan bool_nan
    bool-none bool_none
    boolName bool_name
    breakIf break_if
    bringsAll brings_all
    by-id by_id
    by-role by_role
    byteText byte_text
    byteText-some byte_text_some
    bytesOf-numberOf bytes_of_number_of
    callNames call_names
    callUses call_uses
    choose-high choose_high
    choose-infinity choose_infinity
    choose-low choose_low
    clear-clean clear_clean
    clear-more clear_more
    closeE close_e
    closed-push closed_push
    closes-are closes_are
    closes-one closes_one
    closesIt closes_it
    closest-rounds closest_rounds
    closing-of closing_of
    count-within count_within
    counts-more counts_more
    counts-none counts_none
    cut-exact cut_exact
    cut-items cut_items
    cut-kept cut_kept
    cut-new cut_new
    decimal-same decimal_same
    depthAt depth_at
    digit-pushed digit_pushed
    double-is double_is
    doubles-eightsBy doubles_eights_by
    doubles-more doubles_more
    doublings-lt doublings_lt
    drop-pos drop_pos
    drop-up-to drop_up_to
    dueShaped due_shaped
    eight-at eight_at
    eight-bytes eight_bytes
    eightsBy eights_by
    eightsBy-joined eights_by_joined
    emitsPast emits_past
    empty-not-ill empty_not_ill
    encodes-valid encodes_valid
    ends-quote ends_quote
    entriesOf entries_of
    entryLimit entry_limit
    escape-first escape_first
    escape-value escape_value
    even-pattern even_pattern
    f-small f_small
    f16-largest f16_largest
    f16-minus-zero f16_minus_zero
    f16-past f16_past
    f16-past-tie f16_past_tie
    f16-tie f16_tie
    fails-before fails_before
    field-pos field_pos
    finite-below finite_below
    first-here first_here
    first-name first_name
    first-shape first_shape
    flatBlocks flat_blocks
    flatStmt flat_stmt
    flatStmts flat_stmts
    float-none float_none
    floatName float_name
    front-again front_again
    front-and-tail front_and_tail
    front-count front_count
    front-more front_more
    front-needs front_needs
    front-short front_short
    front-whole front_whole
    frontOf front_length_of
    givenBy given_by
    global-whole global_whole
    globalBelow global_below
    globalRange global_range
    globalShape global_shape
    grown-covered grown_covered
    grown-least grown_least
    here-holds here_holds
    high-div high_div
    high-mod high_mod
    high-split high_split
    holds-here holds_here
    holds-map holds_map
    howMany how_many
    i16-least i16_least
    i16-past i16_past
    ill-is-none ill_is_none
    in-limits in_limits
    infinity-lt infinity_lt
    initNotBelow init_not_below
    inner-append inner_append
    inner-more inner_more
    is-h is_h
    is-high is_high
    is-l is_l
    is-low is_low
    is-one-block is_one_block
    isEmit is_emit
    isGlobal is_global
    isLoop is_loop
    joined-before joined_before
    joined-eightsBy joined_eights_by
    joined-found joined_found
    joined-here joined_here
    joined-more joined_more
    joined-pieces joined_pieces
    kept-fits kept_fits
    kept-leads kept_leads
    keys-more keys_more
    kindName kind_name
    least-join least_join
    least-none least_none
    least-of-both least_of_both
    least-or least_or
    left-more left_more
    length-below length_below
    length-bytesOf length_bytes_of
    length-eightsBy length_eights_by
    length-joined length_joined
    length-keys length_keys
    length-pieces length_pieces
    lengths-more lengths_more
    lengths-pieces lengths_pieces
    less-place less_place
    lesserOf lesser_of
    limited-none limited_none
    limited-some limited_some
    local-whole local_whole
    localBelow local_below
    localRange local_range
    localShape local_shape
    looking-end looking_end
    looking-more looking_more
    looking-next looking_next
    looking-start looking_start
    lost-is lost_is
    low-is low_is
    lt-values lt_values
    ltb-scaled ltb_scaled
    made-nearest made_nearest
    magnitude-high magnitude_high
    magnitude-is magnitude_is
    magnitude-le magnitude_le
    magnitude-low magnitude_low
    magnitude-lt magnitude_lt
    magnitude-next magnitude_next
    magnitude-of magnitude_of
    magnitude-up magnitude_up
    middle-is middle_is
    more-found more_found
    more-missed more_missed
    more-reaches more_reaches
    nameOutside name_outside
    nearest-is-one nearest_is_one
    nearest-of nearest_of
    needed-either needed_either
    needed-front needed_front
    needed-slot needed_at_slot
    neededSlot needed_slot
    needs-either needs_either
    needs-run needs_run
    never-some never_some
    no-count no_count
    noSize no_size
    node-read node_read
    nodeWith node_with
    nodes-kept nodes_kept
    nodes-pushed nodes_pushed
    nodesOf nodes_of
    none-applies none_applies
    none-reached none_reached
    not-above not_above
    not-below not_below
    not-cut not_cut
    not-here not_here
    notOneDeep not_one_deep
    nth-map nth_map
    nth-take nth_take
    number-8 number_8
    numberOf-bytesOf number_of_bytes_of
    numberOf-lt number_of_lt
    of-value of_value
    one-fails one_fails
    openE open_e
    opened-at opened_at
    opened-by opened_by
    opened-push opened_push
    opens-are opens_are
    operandLimit operand_limit
    operandTotal operand_total
    operands-read operands_read
    operandsOf operands_of
    operandsThat operands_that
    out-before out_before
    outOfRange out_of_range_of
    over-is over_is
    own-found own_found
    own-length own_length
    own-missed own_missed
    owners-past owners_past
    owners-push owners_push
    part-read part_read
    past-half past_half
    piece-at piece_at
    piece-fits piece_fits
    piece-here piece_here
    pieces-joined pieces_joined
    pieces-take pieces_take
    place-below place_below
    plain-decimal plain_decimal
    preEmit pre_emit
    quote-not-plain quote_not_plain
    quoted-all quoted_all
    quoted-more quoted_more
    read-ge read_ge
    readOn-ge read_on_ge
    reads-back reads_back
    record-at record_at
    recordOperands record_operands
    refused-one refused_one
    rest-above rest_above
    rest-small rest_small
    rest-tie rest_tie
    resultSlot result_slot
    roleBy role_by
    roleOf role_given_to
    rounded-lt rounded_lt
    rounds-one rounds_one
    rounds-to rounds_to
    rounds-to-zero rounds_to_zero
    row-needs row_needs
    row-says row_says
    run-append run_append
    run-block run_block
    run-blocks run_blocks
    run-finish run_finish
    run-needs run_needs
    run-pairs run_pairs
    run-read run_read
    run-stmt run_stmt
    run-stmts run_stmts
    run-whole run_whole
    runs-through runs_through
    same-local same_local
    scalarName scalar_name
    short-all short_all
    short-at short_at
    short-fits short_fits
    short-pieces short_pieces
    shown-first shown_first
    shownByte shown_byte
    sign-is sign_is
    signBit sign_bit_of
    significand-high significand_high
    significand-low significand_low
    significand-lt significand_lt
    sint-none sint_none
    sintName sint_name
    sizesOf sizes_of
    slot-past slot_past
    slot-there slot_there
    slots-none slots_none
    slots-some slots_some
    slotsFor slots_for
    some-scaled some_scaled
    step-grows step_grows
    step-more step_more
    take-suc take_suc
    take-up-to take_up_to
    taken-same taken_same
    takes-by-id takes_by_id
    takes-by-name takes_by_name
    the-count the_count
    the-lengths the_lengths
    thenShaped then_shaped
    tiled-pushed tiled_pushed
    toldAs told_as
    total-append total_append
    total-pushed total_pushed
    trunc-is trunc_is
    trunc-value trunc_value
    truth-other truth_other
    truth-zero truth_zero
    twoDeep two_deep
    u32-minus-half u32_minus_half
    u32-past u32_past
    uint-none uint_none
    uintName uint_name
    under-is under_is
    units-is units_is
    unitsOf units_of
    usedAfter used_after
    usedInside used_inside
    v-small v_small
    valid-settings valid_settings
    value-more value_more
    values-back values_back
    values-more values_more
    w-small w_small
    weight-pos weight_pos
    whole-one whole_one
    withTwo with_two
    within-push within_push
    within-pushed within_pushed
    writeWords write_words
    wrong-cut wrong_cut
    wrongCount wrong_count
    zero-there zero_there
"""

PAIRS = dict(line.split() for line in NAMES.strip().splitlines())
# A name that two crates have for two things.
OWN = {"settings": {"bitsOf": "value_bits_of"}}
WORD = re.compile(r"(?<![\w'′-])[^\W\d](?:[\w'′]|-(?=[\w]))*")
CALL = re.compile(r"(?<![\w'′-])c\.$")


def turned(text, own):
    """The text with each name of PAIRS respelled; what follows `c.` names a step of the code, and stays."""
    out, at = [], 0
    for m in WORD.finditer(text):
        new = own.get(m.group(), PAIRS.get(m.group()))
        if new and not CALL.search(text[: m.start()][-8:]):
            out += [text[at : m.start()], new]
            at = m.end()
    return "".join(out) + text[at:]


def source(text, own):
    """A .rt file: only the ghost items and the clauses hold such names, and they are the only names in camel case or with a prime there."""
    lines = []
    for line in text.split("\n"):
        code = line.strip()
        ghost = code.startswith(("ghost ", "requires", "ensures")) or "{ λ" in code
        lines.append(turned(line, own) if ghost else line)
    return "\n".join(lines)


def main(top):
    changed = 0
    for folder, dirs, files in os.walk(os.path.join(top, "crates")):
        dirs[:] = sorted(d for d in dirs if d != "out")
        for name in sorted(files):
            if not name.endswith((".antt", ".rt")):
                continue
            path = os.path.join(folder, name)
            with open(path, encoding="utf-8") as f:
                old = f.read()
            own = OWN.get(os.path.relpath(path, top).split(os.sep)[1], {})
            new = turned(old, own) if name.endswith(".antt") else source(old, own)
            if new != old:
                with open(path, "w", encoding="utf-8") as f:
                    f.write(new)
                changed += 1
    print(f"{changed} files respelled")


if __name__ == "__main__":
    main(sys.argv[1] if len(sys.argv) > 1 else os.path.join(os.path.dirname(os.path.abspath(__file__)), ".."))
