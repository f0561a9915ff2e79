#!/usr/bin/env python3
"""Respells the definitions and lemmas of this repository: words in snake case, types in camel case.

    python3 tools/respell.py [FOLDER]      FOLDER is a checkout, this one if none is named

It was run once, after the kit's own script, when the repository came to the kit that README names. It turns
whole words alone: in .antt files everywhere but in quoted text, in .rt files everywhere but in quoted text
(code has no such words), in pages between backquotes. In comments only words with capitals turn, since a
hyphen may be English there. Run `rt fmt` in each crate afterwards.
"""

import os
import re
import sys

# Two names that would fall together get different ones: bid-text and bidText, came-to and cameTo, game-lines
# and gameLines, imp-count and impCount, is-bid and isBid, of-suit and ofSuit, with-card and withCard.
NAMES = dict(row.split() for row in """
Adds-up AddsUp
At-most-319 AtMost319
At-most-371 AtMost371
Doubled-by-opponents DoubledByOpponents
Each-card-once EachCardOnce
Highest-wins HighestWins
Lawful-card LawfulCard
Named-only NamedOnly
One-to-each-trick OneToEachTrick
Pass-is-lawful PassIsLawful
Played-from-hand PlayedFromHand
Reads-back ReadsBack
Suit-followed SuitFollowed
Way-on WayOn
actRuling act_ruling
action-more action_more
adds-up adds_up
against-append against_append
against-more against_more
against-none against_none
ahead-like ahead_like
ahead-place ahead_place
ahead-push ahead_push
all-counted all_counted
all-higher all_higher
all-tens all_tens
among-at among_at
and-all and_all
areBelow are_below
asked-and asked_and
asked-not asked_not
askedFor asked_for
at-dot at_dot
at-end at_end
at-most-319 at_most_319
at-most-371 at_most_371
at-rank at_rank
at-space at_space
auctionLines auction_lines
auctionOf auction_of
beginsLF begins_lf
behind-is behind_is
behind-mark behind_mark
behind-none behind_none
behindWord behind_word
below-it below_it
bid-parts bid_parts
bid-text bid_by_text
bid-told bid_told
bidNamed bid_named
bidOf bid_of
bidPoints bid_points
bidText bid_text
bidden-more bidden_more
bit-back bit_back
bit-small bit_small
boardAs board_as
boardNumber board_number
boardOf board_of
both-assoc both_assoc
by-denomination by_denomination
by-doubling by_doubling
by-fields by_fields
by-hands by_hands
by-suits by_suits
by-tricks by_tricks
byOpponent by_opponent
callNamed call_named
callRuling call_ruling
callText call_text
came-by came_by
came-none came_none
came-to came_as
cameTo came_to
card-is-lawful card_is_lawful
card-laid card_laid
card-more card_more
cardAt card_at
cardBy card_by
cardNamed card_named
cardOf card_of
cardRuling card_ruling
cardText card_text
cardsFrom cards_from
cardsPlaced cards_placed
chairCode chair_code
chairLetter chair_letter
chairNamed chair_named
code-back code_back
code-next code_next
code-small code_small
column-all column_all
column-front column_front
columnTo column_to
contractBy contract_by
contractOf contract_of
deal-judged deal_judged
deal-short deal_short
dealIn deal_in
dealRead deal_read
dealText deal_text
dealerNamed dealer_named
dealt-more dealt_more
dealt-past dealt_past
dealt-there dealt_there
decimal-short decimal_short
declarerBy declarer_by
declarerOf declarer_of
declarerOn declarer_on
denomination-small denomination_small
denomination-told denomination_told
denominationAt denomination_at
denominationCode denomination_code
denominationIn denomination_in
denominationNamed denomination_named
denominationOf denomination_of
denominationText denomination_text
denominationWithCode denomination_with_code
digitsFrom digits_from
doubled-by doubled_by
doubled-by-opponents doubled_by_opponents
doubledDown doubled_down
doubling-small doubling_small
doublingAt doubling_at
doublingBy doubling_by
doublingText doubling_text
each-card-once each_card_once
endOfWord end_of_word
ends-all ends_all
ends-row ends_row
fault-lines fault_lines
fault-replied fault_replied
fault-short fault_short
faultLine fault_line
faultText fault_text
few-passes few_passes
fileChecked file_checked
fileRead file_read
first-here first_here
first-later first_later
first-named first_named
firstPoints first_points
firstToName first_to_name
followed-more followed_more
follows-now follows_now
follows-suit follows_suit
full-byte full_byte
game-lines game_lines_read
game-replied game_replied
gameLines game_lines
gamePremium game_premium
hand-by hand_by
hand-short hand_short
handBefore hand_before
handIn hand_in
handText hand_text
handToAct hand_to_act
hands-by hands_by
hands-of hands_of
handsFrom hands_from
handsIn hands_in
hasAllCards has_all_cards
held-dealt held_dealt
held-some held_some
held-without held_without
highest-wins highest_wins
holds-bit holds_bit
holds-past holds_past
imp-count imp_count_is
impCount imp_count
in-deal in_deal
in-suit in_suit
inFour in_four
inRows in_rows
is-bid is_bid_call
is-led is_led
isAmong is_among
isAuctionOver is_auction_over
isBid is_bid
isDealer is_dealer
isDigit is_digit
isDouble is_double
isFinished is_finished
isInk is_ink
isNameByte is_name_byte
isNumbered is_numbered
isPair is_pair
isPass is_pass
isPlainByte is_plain_byte
isPlayedOut is_played_out
isRedouble is_redouble
isSpace is_space
isTrump is_trump
isVoid is_void
isVulnerability is_vulnerability
isVulnerable is_vulnerable
judged-as judged_as
kept-both kept_both
laid-first laid_first
laidAs laid_as
last-here last_here
last-later last_later
lastAction last_action
lastBid last_bid
lastCall last_call
lawful-card lawful_card
lawful-so lawful_so
leadTo lead_to
leader-kept leader_kept
leader-next leader_next
leaderAt leader_at
leaderOn leader_on
left-first left_first
left-some left_some
left-within left_within
levelOf level_of
lineChecked line_checked
lineFrom line_from
lineLength line_length
lineSize line_size
lines-first lines_first
lines-put lines_put
linesChecked lines_checked
listed-all listed_all
lowest-found lowest_found
lowest-here lowest_here
lowest-later lowest_later
lowest-none lowest_none
lowestFrom lowest_from
lowestLegal lowest_legal
lowestOf lowest_of
madePoints made_points
meetings-few meetings_few
minus-said minus_said
more-lines more_lines
more-tricks more_tricks
named-later named_later
named-only named_only
names-itself names_itself
newly-dealt newly_dealt
next-bid next_bid
next-board next_board
next-higher next_higher
no-opponent no_opponent
none-bits none_bits
none-later none_later
none-there none_there
noneFrom none_from
nowhere-more nowhere_more
numberFrom number_from
numberRead number_read
of-all of_all
of-suit is_of_suit
of-suit-led of_suit_led
of-trumps of_trumps
ofSuit of_suit
on-lower on_lower
on-page on_page
one-more-pass one_more_pass
one-of-five one_of_five
one-to-each-trick one_to_each_trick
open-bid open_bid
open-unbid open_unbid
openingLeader opening_leader
or-told or_told
other-side other_side
outcomeLines outcome_lines
pairsFit pairs_fit
pass-is-lawful pass_is_lawful
passed-out passed_out
passes-more passes_more
passes-question passes_question
place-ahead place_ahead
place-small place_small
playLines play_lines
played-from-hand played_from_hand
playedRows played_rows
player-in player_in
player-kept player_kept
product-fits product_fits
rankLetter rank_letter
rankNamed rank_named
ranks-more ranks_more
ranks-short ranks_short
ranksBelow ranks_below
reached-all reached_all
reached-more reached_more
reads-back reads_back
recordLines record_lines
recordText record_text
redoubled-by redoubled_by
remaining-more remaining_more
replyLines reply_lines
replyTo reply_to
result-is result_is
result-split result_split
room-more room_more
rows-text rows_text
rulingOn ruling_on
sameDenomination same_denomination
sameSide same_side
sameSuit same_suit
score-small score_small
scoreAt score_at
scoreOf score_of
scoreFits score_fits
scoreText score_text
scored-as scored_as
scoredNS scored_ns
seatsOn seats_on
share-is share_is
size-more size_more
slamPremium slam_premium
so-after so_after
some-there some_there
stands-along stands_along
stands-more stands_more
still-bid still_bid
suit-done suit_done
suit-followed suit_followed
suit-short suit_short
suit-small suit_small
suit-there suit_there
suitCode suit_code
suitIn suit_in
suitOf suit_of
suitText suit_text
suitWithCode suit_with_code
suitsFrom suits_from
tag-length tag_length
tag-parts tag_parts
tag-put tag_put
tagLine tag_line
tagLines tag_lines
tags-short tags_short
tagsChecked tags_checked
tagsRead tags_read
take-both take_both
termsOf terms_of
termsText terms_text
text-both text_both
thirteenEach thirteen_each
times-add times_add
times-few times_few
to-ns-small to_ns_small
toNS to_ns
trick-kept trick_kept
trickColumns trick_columns
trickPoints trick_points
trickRows trick_rows
tricksIn tricks_in
tricksOn tricks_on
trump-suit trump_suit
trump-too trump_too
trumpsOn trumps_on
turnOn turn_on
two-passes two_passes
unbid-more unbid_more
undealt-cards undealt_cards
undealt-is undealt_is
valuesRead values_read
vulnerabilityCode vulnerability_code
vulnerabilityNamed vulnerability_named
vulnerabilityWord vulnerability_word
wellFormed well_formed
winner-split winner_split
winnerFrom winner_from
wins-from wins_from
with-bid with_bid
with-card with_one_card
with-denomination with_denomination
withCall with_call
withCard with_card
without-card without_card
without-held without_held
without-none without_none
won-kept won_kept
won-next won_next
word-short word_short
""".strip().splitlines())

# Names that the kit's script has turned in code, and not in pages.
TURNED = dict(row.split() for row in """
allBelow all_below
andThen and_then
callAt call_at
isOf is_of
isOver is_over
lineAt line_at
numberIn number_in
placedAt placed_at
rankOf rank_of
resultOf result_of
rowAt row_at
same-code same_code
sumOf sum_of
sumTo sum_to
tagOf tag_of
upFrom up_from
withCode with_code
wordIn word_in
""".strip().splitlines())

QUOTED = re.compile(r'"(?:[^"\\\n]|\\.)*"')
ANTT_COMMENT = re.compile(r'(?<![^\s(){}.;,@"«»])--[^\n]*')
ANTT_WORD = re.compile(r'[^\s(){}.;,@"«»]+')
PLAIN_WORD = re.compile(r"[A-Za-z][\w-]*")
SPAN = re.compile(r"`[^`\n]+`")
ROW = re.compile(r"^--     (\S.*?\S|\S)( {2,})(\S.*)$")


def has_capital(word):
    return any(c.isupper() for c in word)


def turned(word):
    return NAMES.get(word, word)


def in_comment(text, names=NAMES):
    return PLAIN_WORD.sub(lambda m: names.get(m[0], m[0]) if has_capital(m[0]) else m[0], text)


def outside(pattern, text, change, inside=lambda t: t):
    """The text with `change` made between the matches of pattern, and `inside` in them."""
    parts, at = [], 0
    for m in pattern.finditer(text):
        parts += [change(text[at : m.start()]), inside(m[0])]
        at = m.end()
    return "".join(parts + [change(text[at:])])


def antt(text):
    def code(t):
        return ANTT_WORD.sub(lambda m: turned(m[0]), t)

    def commented(t):
        return outside(ANTT_COMMENT, t, code, in_comment)

    return aligned("\n".join(outside(QUOTED, line, commented) if not line.startswith("--") else in_comment(line) for line in text.split("\n")))


def aligned(text):
    """The rows at the head of a file, each a name and what it means, in the column that most of them have."""
    lines = text.split("\n")
    rows = {i: m for i, line in enumerate(lines) if (m := ROW.match(line))}
    columns = [m.start(3) for m in rows.values()]
    if not columns:
        return text
    column = max(sorted(set(columns)), key=columns.count)
    for i, m in rows.items():
        lines[i] = ("--     " + m[1]).ljust(column - 2) + "  " + m[3]
    return "\n".join(lines)


def rt(text):
    return outside(QUOTED, text, in_comment)


def page(text):
    return SPAN.sub(lambda m: PLAIN_WORD.sub(lambda w: (NAMES | TURNED).get(w[0], w[0]) if has_capital(w[0]) else w[0], m[0]), text)


def main(root):
    for folder, dirs, files in os.walk(root):
        dirs[:] = sorted(d for d in dirs if d not in (".git", "out", "target", "tools"))
        for name in sorted(files):
            change = {".antt": antt, ".rt": rt, ".md": page}.get(os.path.splitext(name)[1])
            if change is None or name.startswith("PORT"):
                continue
            path = os.path.join(folder, name)
            with open(path, encoding="utf-8") as f:
                old = f.read()
            new = change(old)
            if new != old:
                with open(path, "w", encoding="utf-8") as f:
                    f.write(new)
                print(os.path.relpath(path, root))


main(sys.argv[1] if len(sys.argv) > 1 else os.path.dirname(os.path.dirname(os.path.abspath(__file__))))
