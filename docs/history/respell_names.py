#!/usr/bin/env python3
"""Gives the definitions and lemmas of an older checkout the present spelling of names.

Run once at the top of that checkout, after the kit's own upgrade script. Facts become types
(`StandsFor`), all else is in snake case (`round_of`); functions of src/, strings, inputs and
outputs keep their names. What was changed is printed by file.
"""

import pathlib
import re

NAMES = dict(line.split() for line in """
All-apart AllApart
All-in-range AllInRange
All-sound AllSound
Blank-from BlankFrom
Choice-lawful IsLawfulChoice
Closes-circle ClosesCircle
Contents-tell ContentsTell
First-change FirstChange
Greatest-common-divisor GreatestCommonDivisor
Greatest-from GreatestFrom
Greatest-offset GreatestOffset
In-order InOrder
In-order-to InOrderTo
In-range IsInRange
Least-common-multiple LeastCommonMultiple
Least-round LeastRound
May-join MayJoin
May-seat MaySeat
Multiple-from MultipleFrom
Neighbours-in-order NeighboursInOrder
No-circle NoCircle
One-answer OneAnswer
One-offset OneOffset
One-period OnePeriod
Ranking-lawful IsLawfulRanking
Says-core SaysCore
Says-handler SaysHandler
Says-join SaysJoin
Smaller-ahead SmallerAhead
Stands-for StandsFor
Timed-apart TimedApart
accepted-count accepted_count
accepted-is accepted_is
accepted-push accepted_push
accepts-one accepts_one
after-length after_length
ahead-or-level ahead_or_level
all-wide all_wide
apart-at apart_at
apart-exchanged apart_exchanged
apart-flips apart_flips
apart-shuffled apart_shuffled
at-is at_is
began-a began_a
began-b began_b
blank-row blank_row
both-known both_known
both-timed both_timed
burst-from burst_from
by-distance by_distance
by-period by_period
byRank by_rank
chain-cases chain_cases
chain-join chain_join
circle-from-leads circle_from_leads
closed-chain closed_chain
closed-full closed_full
closed-has closed_has
closed-sound closed_sound
closed-step closed_step
closes-from closes_from
codeOn code_on
collects-more collects_more
cons-cases cons_cases
contents-tell contents_tell
core-from core_from
core-to core_to
core-unsaid core_unsaid
count-after count_after
distance-again distance_again
drop-further drop_further
facts-from facts_from
field-tests field_tests
field-unique field_unique
fields-pass fields_pass
folded-set folded_set
front-le front_le
gcd-enough gcd_enough
gcd-is gcd_is
gcd-some gcd_some
gcd-turn gcd_turn
gcd-within gcd_within
gcd-within-is gcd_within_is
got-push got_push
got-push-at got_push_at
got-skip got_skip
got-skip-at got_skip_at
greatest-common-divisor greatest_common_divisor
grow-blanks grow_blanks
grow-field grow_field
grow-inside grow_inside
grow-offsets grow_offsets
grow-periods grow_periods
grow-ranges grow_ranges
grow-round grow_round
grow-rows grow_rows
grow-settling grow_settling
grown-fresh grown_fresh
grown-none grown_none
grown-push grown_push
grown-skip grown_skip
handler-or-core handler_or_core
handler-or-join handler_or_join
handler-unsaid handler_unsaid
has-cases has_cases
has-from has_from
has-places has_places
has-without has_without
join-contents join_contents
join-facts join_facts
join-or-core join_or_core
join-tests join_tests
join-unsaid join_unsaid
kept-skip kept_skip
keyText key_text
known-a known_a
known-b known_b
lacks-from lacks_from
lcm-every lcm_every
lcm-is lcm_is
lcm-left lcm_left
lcm-none lcm_none
lcm-some lcm_some
leads-join leads_join
leads-more leads_more
leads-step leads_step
leaves-one leaves_one
link-field link_field
link-inside link_inside
link-is link_is
link-number link_number
link-offsets link_offsets
link-only link_only
link-periods link_periods
link-straight link_straight
link-wide link_wide
longest-round longest_round
may-join-to may_join_to
may-seat-to may_seat_to
neighbours-broken neighbours_broken
neighbours-whole neighbours_whole
never-accepted never_accepted
new-contents new_contents
new-facts new_facts
next-distance next_distance
next-unique next_unique
no-burst no_burst
no-chain no_chain
no-circle no_circle
none-joined none_joined
not-joined not_joined
once-fits once_fits
once-push once_push
one-answer-each one_answer_each
order-broken order_broken
overfull-from overfull_from
places-length places_length
ranksBy ranks_by
refusalNumber refusal_number
refused-too refused_too
register-cases register_cases
register-contents register_contents
register-facts register_facts
register-one register_one
register-tests register_tests
registers-one registers_one
reseat-one reseat_one
reseat-tests reseat_tests
rest-is rest_is
rest-one rest_one
round-from round_from
round-least round_least
round-multiple round_multiple
round-of round_of
round-test round_test
rows-length rows_length
seat-contents seat_contents
seat-facts seat_facts
seat-field seat_field
seat-round seat_round
seat-rows seat_rows
seat-settling seat_settling
set-blanks set_blanks
set-ranges set_ranges
settling-from settling_from
settling-greatest settling_greatest
settling-greatest-from settling_greatest_from
settling-of settling_of
sideAt side_at
split-two split_two
stops-from stops_from
sunk-rests sunk_rests
sunk-steps sunk_steps
take-set-in take_set_in
takes-from takes_from
takes-to takes_to
texts-none texts_none
texts-some texts_some
until-deadline until_deadline
walk-all walk_all
walk-full walk_full
walk-table walk_table
whole-a whole_a
whole-b whole_b
with-join with_join
with-joined with_joined
without-length without_length
""".split("\n") if line)

# A word with its dashes and dots in the middle, so that no part of a longer name is taken.
WORD = re.compile(r"[^\W\d][\w'·\-]*")


def respelled(text):
    """The text with each name of the table in its new spelling, and how many there were."""
    count = 0

    def new(match):
        nonlocal count
        name = NAMES.get(match[0])
        count += name is not None
        return name or match[0]

    return WORD.sub(new, text), count


def main():
    for path in sorted(pathlib.Path("crates").rglob("*")):
        if path.suffix not in (".antt", ".rt", ".edit") or "out" in path.parts:
            continue
        text, count = respelled(path.read_text())
        if count:
            path.write_text(text)
            print(f"{count:5} {path}")


if __name__ == "__main__":
    main()
