#!/usr/bin/env python3
"""Brings the names of this repository's definitions and lemmas to snake case.

Run once at the top, after the toolchain's port.py. The table below has each old
name with its new one: a definition, a constructor or a field has underscores
only, and in a lemma's name a dash joins two names. Generated names, strings and
the identifiers of the code stay as they are.
"""
import re
import subprocess

TABLE = """
above-least above_least
absent-full absent_full
absent-room absent_room
add-refused add_refused
add-taken add_taken
addAnswer add_answer
addLeaves add_leaves
added-enters added_enters
added-evicts added_evicts
added-lawful added_lawful
added-leaves added_leaves
added-lowers added_lowers
added-moves added_moves
added-raises added_raises
added-stays added_stays
adds-inside adds_inside
after-at after_at
after-falls after_falls
after-shorter after_shorter
afterLine after_line
afterWord after_word
allHeld-without all_held_without
answer-taken answer_taken
answered-by answered_by
anyEmpty any_empty
anyEmpty-found any_empty_found
anyEmpty-lowered any_empty-lowered
anyEmpty-more any_empty_more
anyEmpty-push any_empty-push
apart-at apart_at
apart-from-back apart_from_back
apart-same apart_same
atLeast-at at_least_at
atLeast-entryOf at_least-entry_of
atLeast-from at_least_from
atLeast-less at_least-less
atLeast-next at_least_next
atLeast-placed at_least-placed
atLeast-replaced at_least-replaced
atLeast-rest at_least-rest
atLeast-test at_least_test
atLeast-without at_least-without
atLeast-zero at_least_zero
begun-plan begun_plan
begun-tracks begun_tracks
behindLast behind_last
below-unit below_unit
between-above between_above
between-behind between_behind
between-blocks between_blocks
between-few between_few
between-gap between_gap
between-raise between_raise
between-zero between_zero
block-some block_some
blocks-few blocks_few
both-parts both_parts
by-step by_step
call-holds call_holds
call-right call_right
callLeaves call_leaves
callSaid call_said
cells-front cells_front
code-entryOf code_entry_of
code-start code_start
cost-is cost_is
count-done count_done
count-length count_length
count-line count_line
count-more count_more
count-passes count_passes
countOf-above count_of_above
countOf-emptied count_of-emptied
countOf-empty count_of_empty
countOf-entered count_of-entered
countOf-entered-other count_of-entered_other
countOf-found count_of_found
countOf-lowered count_of-lowered
countOf-missing count_of_missing
countOf-raised count_of-raised
countOf-raised-other count_of-raised_other
countOf-within count_of_within
counted-empty counted_empty
counted-tracks counted_tracks
day-right day_right
day-runs day_runs
dayLeaves day_leaves
daySaid day_said
deduction-within deduction_within
distinct-placed distinct_placed
distinct-replaced distinct_replaced
distinct-rest distinct_rest
empty-told empty_told
end-above end_above
end-last end_last
enter-line enter_line
enter-passes enter_passes
entered-found entered_found
entered-full entered_full
enters-line enters_line
enters-passes enters_passes
entryOf-absent entry_of_absent
entryOf-at entry_of_at
entryOf-found entry_of_found
entryOf-held entry_of_held
entryOf-placed entry_of-placed
entryOf-placed-other entry_of-placed_other
entryOf-replaced entry_of-replaced
entryOf-replaced-other entry_of-replaced_other
entryOf-rest entry_of-rest
entryOf-without entry_of-without
estimate-full estimate_full
estimate-high estimate_high
estimate-is estimate_is
estimate-keeps estimate_keeps
estimate-low estimate_low
estimate-right estimate_right
estimate-room estimate_room
estimate-within estimate_within
estimateAnswer estimate_answer
estimateFor estimate_for
estimateIn estimate_in
estimateSaid estimate_said
estimates-are estimates_are
every-without every_without
evict-line evict_line
evict-passes evict_passes
evicts-line evicts_line
evicts-passes evicts_passes
few-at few_at
few-marks few_marks
few-passes few_passes
first-A first_a
first-B first_b
first-C first_c
first-at first_at
first-deduction first_deduction
first-refused first_refused
firstAnswer first_answer
firstGroup first_group
flow-new flow_new
flow-old flow_old
flow-past flow_past
flowEstimate flow_estimate
flows-at flows_at
flows-distinct flows_distinct
flows-every flows_every
flows-few flows_few
flows-once flows_once
flows-sum flows_sum
flushedFrame flushed_frame
from-append from_append
from-marked from_marked
from-other from_other
from-own from_own
from-push from_push
front-end front_end
front-is front_is
front-le front_le
front-more front_more
front-stop front_stop
full-bound full_bound
greatest-is greatest_is
group-bound group_bound
group-raised group_raised
grown-length grown_length
grown-line grown_line
grown-more grown_more
grown-passes grown_passes
hasGroup has_group
hasPlace has_place
heavy-carry heavy_carry
heavy-marked heavy_marked
heavy-sum heavy_sum
held-counts held_counts
held-heavy held_heavy
held-lawful held_lawful
holds-found holds_found
holds-placed-other holds-placed_other
holds-without-other holds-without_other
inLine in_line
is-sound is_sound
isSpace is_space
kept-other kept_other
kept-own kept_own
kept-rise kept_rise
kept-sum kept_sum
keys-tell keys_tell
lawful-placed lawful_placed
least-within least_within
leastScratch least_scratch
leave-goes leave_goes
leave-stays leave_stays
leave-worded leave_worded
leaves-push leaves_push
light-behind light_behind
line-end line_end
line-more line_more
list-few list_few
list-high list_high
list-keeps list_keeps
list-less list_less
list-low list_low
list-old list_old
list-taken list_taken
listAnswer list_answer
listFor list_for
listIn list_in
listSaid list_said
listTo list_to
listed-heavy listed_heavy
listed-none listed_none
listed-some listed_some
listing-every listing_every
listing-few listing_few
mark-not mark_not
mark-put mark_put
marks-few marks_few
marks-fewer marks_fewer
marks-more marks_more
marksFrom marks_from
marksOf marks_of
more-grown more_grown
more-sound more_sound
most-unit most_unit
mostMarks most_marks
mostPackets most_packets
mostPlaces most_places
mostStep most_step
mostWeight most_weight
mostWindow most_window
moves-at moves_at
moves-passes moves_passes
new-holds new_holds
new-sound new_sound
newer-few newer_few
newer-rise newer_rise
newer-shift newer_shift
newer-turn newer_turn
next-frame next_frame
nextOffset next_offset
no-group no_group
none-up-to none_up_to
older-gone older_gone
older-rise older_rise
older-shift older_shift
older-turn older_turn
only-first only_first
open-taken open_taken
openAnswer open_answer
openLeaves open_leaves
opened-fresh opened_fresh
opens-carry opens_carry
opens-inside opens_inside
orderly-test orderly_test
other-added other_added
other-enters other_enters
other-evicts other_evicts
other-moves other_moves
other-rise other_rise
other-stays other_stays
others-enters others_enters
others-evicts others_evicts
others-held others_held
others-rise others_rise
out-length out_length
own-added own_added
own-placed own_placed
own-replaced own_replaced
own-rise own_rise
packet-holds packet_holds
packet-keeps packet_keeps
packet-leaves packet_left_block
packetAnswer packet_answer
packetFor packet_for
packetLeaves packet_leaves
packetSaid packet_said
packetVerdict packet_verdict
packets-is packets_is
part-le part_le
passes-are passes_are
passes-few passes_few
passes-short passes_short
peakedMeaning peaked_meaning
placed-behind placed_behind
placed-last placed_last
places-emptied places_emptied
places-few places_few
places-held places_held
plan-alike plan_alike
plan-holds plan_holds
plan-is plan_is
plan-judged plan_judged
plan-keeps plan_keeps
plan-refused plan_refused
plan-taken plan_taken
planAnswer plan_answer
planFor plan_for
planLeaves plan_leaves
planSaid plan_said
planVerdict plan_verdict
planned-by planned_by
previous-high previous_high
previous-low previous_low
quotient-high quotient_high
quotient-low quotient_low
quotient-step quotient_step
raised-found raised_found
raised-missing raised_missing
recordsOf records_of
refused-not refused_not
replaced-at replaced_at
rest-lawful rest_lawful
rest-shorter rest_shorter
restart-holds restart_holds
restart-keeps restart_keeps
restart-taken restart_taken
restartAnswer restart_answer
restartFor restart_for
restartLeaves restart_leaves
restartSaid restart_said
restartVerdict restart_verdict
rise-is rise_is
rise-some rise_some
rises-marked rises_marked
rises-push rises_push
rises-up rises_up
rising-others rising_others
rising-placed rising_placed
rising-replaced rising_replaced
rising-rest rising_rest
rising-without rising_without
roll-is roll_is
same-account same_account
same-apart same_apart
same-frame same_frame
same-port same_port
same-prefix same_prefix
same-sym same_sym
saysEstimate says_estimate
saysList says_list
saysPlanned says_planned
saysRefused says_refused
saysRestarted says_restarted
saysTook says_took
scratchLeaves scratch_leaves
second-A second_a
second-A-left second_a_left
second-B second_b
second-C second_c
second-E-out second_e_out
second-deduction second_deduction
second-passes second_passes
semi-adds semi_adds
semi-heavy semi_heavy
semiFirst semi_first
semiMeaning semi_meaning
semiMore semi_more
semiOpened semi_opened
semiSecond semi_second
semiThird semi_third
sharedFirst shared_first
sharedMeaning shared_meaning
sharedMore shared_more
sharedOpened shared_opened
sharedSecond shared_second
sharedWayOf shared_way_of
shown-emptied shown_emptied
shown-heavy shown_heavy
since-ends since_ends
since-late since_late
since-new since_new
since-own since_own
since-rise since_rise
slack-more slack_more
small-entryOf small-entry_of
small-held small_held
sofar-more sofar_more
sofar-next sofar_next
some-from some_from
someUpTo some_up_to
split-next split_next
start-at start_at
start-enters start_enters
start-evicts start_evicts
stays-passes stays_passes
still-few still_few
still-order still_order
stretch-none stretch_none
sum-held sum_held
sum-shown sum_shown
sum-without sum_without
sum-worth sum_worth
tableLeaves table_leaves
take-shift take_shift
tallied-at tallied_at
tallied-found tallied_found
tallied-new tallied_new
tallied-pushed tallied_pushed
ten-digits ten_digits
third-C third_c
third-line third_line
third-passes third_passes
tidy-empty tidy_empty
times-of times_of
toldList told_list
total-fits total_fits
total-le total_le
tracks-fair tracks_fair
trueVolume true_volume
turn-counts turn_counts
turn-none turn_none
turn-pass turn_pass
turn-skips turn_skips
unit-is unit_is
unit-small unit_small
unit-some unit_some
volume-append volume_append
volume-is volume_is
volume-less volume_less
volume-marked volume_marked
volume-more volume_more
volume-none volume_none
volumeIn volume_in
window-parts window_parts
without-apart without_apart
worth-within worth_within
write-none write_none
write-some write_some
written-more written_more
zero-wrapped zero_wrapped
"""

NAMES = dict(line.split() for line in TABLE.split("\n") if line)
TOKEN = re.compile(r"[^\W\d][\w'-]*")
INDEX = re.compile(r"--   (\S+)  +(\S.*)$")


def respell(text, dashes=True):
    """The text with each whole word of the table replaced; in prose a word with a dash stays."""
    def word(match):
        name = match.group(0)
        return NAMES.get(name, name) if dashes or "-" not in name else name
    return TOKEN.sub(word, text)


def realign(lines):
    """Index lines with their second column below one another again."""
    out, block = [], []

    def flush():
        width = max((len(name) for name, _ in block), default=0) + 3
        out.extend("--   " + name.ljust(width) + text for name, text in block)
        block.clear()

    for line in lines:
        match = INDEX.match(line)
        if match:
            block.append(match.groups())
        else:
            flush()
            out.append(line)
    flush()
    return out


def antt(text):
    lines = []
    for line in text.split("\n"):
        code, mark, comment = line.partition("--")
        match = INDEX.match(line)
        if match:
            words = [respell(word) for word in match.group(1).split(",")]
            line = line.replace(match.group(1), ",".join(words), 1)
            head = line[: line.index(match.group(2))]
            lines.append(head + respell(match.group(2), dashes=False))
        else:
            lines.append(respell(code) + mark + respell(comment, dashes=False))
    return "\n".join(realign(lines))


def code(text):
    """Clauses and ghost items are respelled; strings and comments of the code stay."""
    lines = []
    for line in text.split("\n"):
        if line.lstrip().startswith("//") or '"' in line:
            lines.append(line)
        else:
            body, mark, comment = line.partition(" //")
            lines.append(respell(body) + mark + comment)
    return "\n".join(lines)


def main():
    files = subprocess.run(
        ["git", "ls-files", "-co", "--exclude-standard", "crates"],
        capture_output=True, text=True, check=True,
    ).stdout.split()
    for name in files:
        turn = antt if name.endswith(".antt") else code if name.endswith(".rt") else None
        try:
            with open(name, encoding="utf-8") as file:
                old = file.read()
        except FileNotFoundError:
            continue
        if turn and turn(old) != old:
            with open(name, "w", encoding="utf-8") as file:
                file.write(turn(old))


main()
