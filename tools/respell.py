#!/usr/bin/env python3
"""Brings this repository's own definitions and lemmas to one spelling: words in snake case, facts and types in camel case.

usage: python3 tools/respell.py, once, at the top of a tree that has the older spelling.

It goes over the clauses and code of src/, over specs/, proofs/ and must-fail/, and over what README.md and docs/ write in
backticks. What stands between double quotes in a .rt file keeps its spelling. docs/PORT.md is left alone.
"""

import os
import re

TABLE = """
All-both AllBoth
Bytes-tell-list BytesTellList
Ends-well EndsWell
Folds-apart FoldsApart
Folds-below FoldsBelow
Folds-onto FoldsOnto
Folds-up FoldsUp
Groups-apart GroupsApart
Groups-shortest GroupsShortest
Letters-apart LettersApart
List-shows-end ListShowsEnd
Merging-settles MergingSettles
Others-longer OthersLonger
Samples-settle SamplesSettle
Shortest-ends-well ShortestEndsWell
Six-each SixEach
Six-groups SixGroups
Spelling-shows-end SpellingShowsEnd
Unwritten-idle UnwrittenIdle
Writable-decided WritableDecided
add-lacks add_lacks
add-verdict add_verdict_lem
addVerdict add_verdict
afterBackslash after_backslash
all-lie-more all_lie-more
all-lie-proper all_lie-proper
all-lie-stop all_lie-stop
allGroups all_groups
allItems all_items
allLie all_lie
always-mono always_mono
amountOf amount_of
answerOn answer_on
askOn ask_on
bad-no-slash bad-no_slash
badByteOr bad_byte_or
beginsWith begins_with
begunAt begun_at
begunCell begun_cell
begunIn begun_in
behindDigits behind_digits
behindLength behind_length
behindPoint behind_point
blank-is-space blank-is_space
blank-no-slash blank-no_slash
blankByte blank_byte
bothMetrics both_metrics
bothSides both_sides
box-small box_small
box-told box_told
boxNumbers box_numbers
byClass by_class
byControl by_control
byLexeme by_lexeme
byToken by_token
bytes-tell-list bytes-tell_list
bytesIn bytes_in
bytesOfBox bytes_of_box
bytesRead bytes_read
cases-lt-zero cases-lt_zero
cellWord cell_word
class-in-range class_in_range
class-reads class_reads
columnAt column_at
columnOf column_of
columnsIn columns_in
columnsOver columns_over
controlWord control_word
decides-box decides_box
decides-boxes decides_boxes
decides-counted decides_counted
decides-escapable decides_escapable
decides-frame decides_frame
decides-kind decides_kind
decides-leb decides_leb
decides-letter decides_letter
decides-open decides_open
decides-part decides_part
decides-shut decides_shut
decides-sized decides_sized
decides-space decides_space
decides-special decides_special
decides-store decides_store
decides-within decides_within
decoded-push decoded_push
decodedEntries decoded_entries
decodedItems decoded_items
decodedLines decoded_lines
digitByte digit_byte
dimenOf dimen_of
drop-none drop_none
edgesFault edges_fault
entriesIn entries_in
entryWide entry_wide
err-is err_is
escapable-in-range escapable-in_range
escapable-not-letter escapable-not_letter
escaped-is escaped_is
escaped-within escaped_within
faultAt fault_at
faultIn fault_in
fetchAnswer fetch_answer
fil-longest fil_longest
firstNot first_not
firstSpelled first_spelled
folded-small folded_small
folds-apart folds_apart
folds-below folds_below
folds-onto folds_onto
folds-up folds_up
foreignCell foreign_cell
found-later found_later
found-weaker found_weaker
fractionOf fraction_of
frameNumbers frame_numbers
freshAt fresh_at
freshCell fresh_cell
freshIn fresh_in
full-parted full_parted
full-u full_u
full-v full_v
gapFits gap_fits
gapTaken gap_taken
gapVerdict gap_verdict
gapsIn gaps_in
gapsMade gaps_made
gapsOf gaps_of
givesUp gives_up
glueAt glue_at
glueOk glue_ok
glueParts glue_parts
glueRow glue_row
goesOn goes_on
goodBox good_box
goodBoxes good_boxes
goodFrame good_frame
goodHead good_head
goodKind good_kind
goodPart good_part
groupSum group_sum
groups-apart groups_apart
groups-before groups_before
groups-last groups_last
groups-more groups_more
groups-shortest groups_shortest
groups-some groups_some
groups-spell groups_spell
groupsBy groups_by
grow-done grow_done
grow-fit grow_fit
grow-held grow_held
grow-items grow_items
handBy hand_by
handIn hand_in
has-le has_le
hasCharacter has_character
hasColumn has_column
hash-first hash_first
hash-second hash_second
headNumbers head_numbers
heldBy held_by
inBlank in_blank
inItsStead in_its_stead
inLetters in_letters
inPoints in_points
inRanges in_ranges
isBad is_bad
isOpen is_open
isWord is_word
itemFault item_fault
itemsNow items_now
join-above-left join-above_left
join-above-right join-above_right
joined-take-more joined-take_more
kernTaken kern_taken
kindNumber kind_number
laidDown laid_down
laidEntries laid_entries
laidIn laid_in
laidLines laid_lines
lay-ledger lay_ledger
lay-no lay_no
lay-sound lay_sound
lay-spans lay_spans
lay-yes lay_yes
layVerdict lay_verdict
layerNumber layer_number
layerOf layer_of
leading-all leading_all
leading-longest leading_longest
leading-passes leading_passes
leading-some leading_some
leading-stops leading_stops
ledgerBy ledger_by
ledgerIn ledger_in
ledgerOf ledger_of
length-at-is length_at-is
length-bytes-list length-bytes_list
length-groups-last length-groups_last
length-groups-le length-groups_le
length-groups-more length-groups_more
length-joined-front length-joined_front
length-joined-more length-joined_more
lengthOk length_ok
lengthRow length_row
lengthsIn lengths_in
letter-in-range letter-in_range
letter-not-special letter-not_special
letterByte letter_byte
lettersEnd letters_end
lettersOf letters_of
linesKept lines_kept
list-shows-end list-shows_end
listNumbers list_numbers
listedStore listed_store
max-less max_less
measureOf measure_of
measuredBy measured_by
mergeFault merge_fault
merged-is-formula merged-is_formula
merging-settles merging_settles
missingAt missing_at
monoBlank mono_blank
monoMade mono_made
monoMeaning mono_meaning
monoMetrics mono_metrics
moreU more_u
moreV more_v
movedOn moved_on
nameByte name_byte
namedPart named_part
namedText named_text
names-end names_end
names-letter names_letter
names-spelled names_spelled
naturalBy natural_by
naturalFits natural_fits
naturalIn natural_in
newLedger new_ledger
nextIn next_in
nextVerdict next_verdict
no-debt no_debt
no-dimen no_dimen
no-letter no_letter
noColumn no_column
noGap no_gap
not-backslash not_backslash
not-two not_two
ofOrder of_order
ok-err ok_err
ok-is ok_is
omitVerdict omit_verdict
omittedIn omitted_in
onOpen on_open
onSide on_side
oneU one_u
oneV one_v
onlyOfWords only_of_words
orRefused or_refused
orderFrom order_from
orderNumber order_number
others-longer others_longer
outOfRange out_of_range
outZ out_z
owe-is owe_is
owedOf owed_of
partIn part_in
partNumbers part_numbers
passed-more passed_more
passes-from passes_from
passes-less passes_less
passes-more passes_more
plainBy plain_by
plainNum plain_num
point-part point_part
point-stops point_stops
points-longest points_longest
points-read points_read
points-spelled points_spelled
preambleBy preamble_by
preambleOf preamble_of
put-done put_done
put-items put_items
put-ledger put_ledger
put-lines put_lines
put-owed put_owed
put-sound put_sound
put-verdict put_verdict_lem
putMid-over put_mid_over
putVerdict put_verdict
range-not-space range_not_space
rangeByte range_byte
readFrom read_from
readIn read_in
refusedOr refused_or
roomIn room_in
roomMade room_made
roomOf room_of
rowFault row_fault
ruleVerdict rule_verdict
ruledBy ruled_by
s0-length s0_length
set-over set_over
settleFault settle_fault
shortest-ends-well shortest_ends_well
shortest-is shortest_is
shows-end shows_end
shutByte shut_byte
since-entries since_entries
since-items since_items
since-text since_text
six-each six_each
six-groups six_groups
sizedAs sized_as
small-u small_u
small-v small_v
spaceByte space_byte
spacesBehind spaces_behind
spacesEnd spaces_end
spanFault span_fault
spanVerdict span_verdict
specialByte special_byte
spelling-shows-end spelling-shows_end
spelt-by spelt_by
spelt-last spelt_last
spelt-more spelt_more
startVerdict start_verdict
storeNumber store_number
storeText store_text
storedBy stored_by
stretchAt stretch_at
stretchFits stretch_fits
stretchPlaced stretch_placed
tab-done tab_done
tab-items tab_items
tab-ledger tab_ledger
tab-owed tab_owed
tab-sound tab_sound
tabVerdict tab_verdict
tableFault table_fault
tableFull table_full
tabled-none tabled_none
tabled-push tabled_push
take-over-below take-over_below
takeVerdict take_verdict
tame-entries tame_entries
template-at template_at_lem
template-cut template_cut
template-is template_is
template-whole template_whole
templateAt template_at
templateIn template_in
templateOf template_of
templateWord template_word
templatesIn templates_in
templatesMade templates_made
templatesOf templates_of
ten-pos ten_pos
textMade text_made
textPart text_part
tokenAt token_at
tokenOf token_of
turn-cond turn_cond
turnFault turn_fault
twinMeaning twin_meaning
twinNum twin_num
two-set two_set
uIn u_in
uNatural u_natural
uPieces u_pieces
uStored u_stored
unitText unit_text
unlessUnfit unless_unfit
unmarked-ended unmarked_ended
unmarked-parted unmarked_parted
unwritten-idle unwritten_idle
usedEntries used_entries
usedItems used_items
usedLines used_lines
usedText used_text
vIn v_in
vNatural v_natural
vOf v_of
vOwed v_owed
vPieces v_pieces
vStored v_stored
wideBy wide_by
wideIn wide_in
widthsOf widths_of
withColumn with_column
withFraction with_fraction
withMeasure with_measure
withPiece with_piece
withStart with_start
withUnit with_unit
word-in-range word-in_range
word-no-slash word-no_slash
wordBy word_by
wordByte word_byte
wordLong word_long
wordTaken word_taken
writeAnswer write_answer
writtenOver written_over
"""

NEW = dict(line.split() for line in TABLE.split("\n") if line)
WORD = re.compile(r"[A-Za-z_][\w'\-]*", re.ASCII)
QUOTED = re.compile(r'"(?:[^"\\]|\\.)*"')
TICKED = re.compile(r"`[^`\n]+`")


def respelled(text):
    return WORD.sub(lambda m: NEW.get(m.group(0), m.group(0)), text)


def outside(pattern, text):
    """The text respelled outside what the pattern finds."""
    parts, at = [], 0
    for m in pattern.finditer(text):
        parts += [respelled(text[at:m.start()]), m.group(0)]
        at = m.end()
    return "".join(parts) + respelled(text[at:])


def turned(path, text):
    if path.endswith(".rt"):
        return "\n".join(outside(QUOTED, line) for line in text.split("\n"))
    if path.endswith(".md"):
        return TICKED.sub(lambda m: respelled(m.group(0)), text)
    return respelled(text)


def files():
    for top in ("crates", "docs"):
        for folder, dirs, names in os.walk(top):
            dirs[:] = sorted(d for d in dirs if d not in ("out", "data"))
            for name in sorted(names):
                if name.endswith((".rt", ".antt", ".edit", ".md")) and name != "PORT.md":
                    yield os.path.join(folder, name)
    yield "README.md"


def main():
    changed = 0
    for path in files():
        with open(path, encoding="utf-8") as f:
            old = f.read()
        new = turned(path, old)
        if new != old:
            changed += 1
            with open(path, "w", encoding="utf-8") as f:
                f.write(new)
    print(f"respell: {changed} files changed")


if __name__ == "__main__":
    main()
