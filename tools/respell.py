#!/usr/bin/env python3
"""Respells the repository's own definitions and lemmas: words in snake case, as Rattle's own are.

usage: python3 tools/respell.py [FOLDER]    once, at the top of a checkout (or of FOLDER), after the kit's port.py

Names of specs/ and proofs/ are respelled in .antt files, in .rt files, where only clauses and ghost items have such
names, and between the back quotes of README.md and docs/. Inputs, outputs and must-fail edits stay as they are.
"""

import pathlib
import re
import sys

NAMES = """
above-byte above_byte
all-below all_below_lem
all-bytes all_bytes
all-free all_free
allLawful all_lawful
allZero all_zero
andThen-at and_then_at
answer-holds answer_holds
argument-bytes argument_bytes
argument-fits argument_fits
argumentLawful argument_lawful
argumentRange argument_range
ascent-at ascent_at
ascent-ends ascent_ends
ascent-goes-on ascent_goes_on
ascent-short ascent_short
at-fourth at_fourth
at-header at_header
at-record at_record
at-short at_short
at-third at_third
before-free before_free
byte-0 byte_0
byte-1 byte_1
byte-read byte_read
byte-spelt byte_spelt
bytes-of-u16 bytes_of_u16
bytes-of-u32 bytes_of_u32
bytes-spelt bytes_spelt
cases-option cases_option
checked-rest checked_rest
commonDimension common_dimension
cond-at cond_at
count-append full_count-append
count-drops count_drops
count-pass full_count-pass
count-stays count_stays
count-within count_within
countByte count_byte
countText count_text
countsOf counts_of
cut-free cut_free
cut-marked cut_marked
decimalFrom decimal_from
decimalMore decimal_more
decimalNumber decimal_number
difference-held difference_held
differentDimensions different_dimensions
digit-read digit_read
digit-reads digit_reads
digit-spelt digit_spelt
digits-free digits_free
digits-read digits_read
digits-reads digits_reads
dimensionMeaning dimension_meaning
dimensionOf dimension_of
dimensionWord dimension_word
divisor-some divisor_some
divisorZero divisor_zero
empty-count empty_count
empty-view empty_view
eqZ eq_z
every-fault-is-found every_fault_is_found
every-spelling-is-read every_spelling_is_read
exact-missing exact_missing
exact-there exact_there
exponent-bounds exponent_bounds
exponent-fits exponent_fits
exponentOf exponent_of
fault-if-refused fault_if_refused
faultNumber fault_number
faultText fault_text
few-full few_full
fieldsBytes fields_bytes
firstUnlawful first_unlawful
fits-between fits_between
found-is found_is
four-fields four_fields
four-of four_of
four-zeros four_zeros
front-breaks front_breaks
front-more front_more
frontFull front_full
fullCount full_count
glyph-high glyph_high
header-spelt header_spelt
headerOf header_of
held-length held_length
held-set held_set
held-turned held_turned
hex-free hex_free
hexByte hex_byte
hexBytes hex_bytes
hexDigit hex_digit
hexOf hex_of
hexRecord hex_record
i32At i32_at
i32Bytes i32_bytes
ifGranted if_granted
in-part in_part
in-range-kept in_range_kept
is-the-verdict is_the_verdict
isExponent is_exponent
isRear is_rear
isSimple is_simple
items-are items_are
justFront just_front
laid-lines laid_lines
last-newline last_newline
lawful-by-parts lawful_by_parts
lawful-so-far lawful_so_far
lawful-tested lawful_tested
lawfulAt lawful_at
leaves-place-1-full leaves_place_1_full
length-hexOf length-hex_of
line-alone line_alone
lines-laid lines_laid
lines-open lines_open
lines-stand lines_stand
literalToPlace1 literal_to_place_1
long-record long_record
lowWhole low_whole
marks-on marks_on
marksAfter marks_after
nearest-kept nearest_kept
nearest-tested nearest_tested
nearest-within nearest_within
nearestPower nearest_power
next-within next_within
nextFront next_front
no-code-no-result no_code_no_result
no-code-one-result no_code_one_result
no-numbers no_numbers
node-fits node_fits
none-not-some none_not_some
not-below not_below
number-of-operation number_of_operation
number-spelt number_spelt
numbers-whole numbers_whole
ofZ-below of_z_below
one-digit one_digit
one-record one_record
onward-is onward_is
operation-of-number operation_of_number
operationNumber operation_number
other-record other_record
outOfRange out_of_range
part-long part_long
parts-fit parts_fit
pass-is pass_is
pass-over pass_over
passText pass_text
passes-more passes_more
past-sizes past_sizes
place-1-is-missing place_1_is_missing
place-put place_put
placeFields place_fields
places-length places_length
placesLawful places_lawful
placesPut places_put
provided-at provided_at
provided-none provided_none
provided-some provided_some
put-counts put_counts
puts-at puts_at
quotient-else quotient_else
read-if-spelt read_if_spelt
reading-law reading_law
reads-back reads_back
reasonNumber reason_number
reasonNumbers reason_numbers
record-cut record_cut
record-length record_length
record-read record_read
record-spelt record_spelt
record-whole record_whole
recordAt record_at
recordCount record_count
recordLawful record_lawful
recordOf record_of
records-bad records_bad
records-read records_read
records-refused records_refused
records-spelt records_spelt
recordsFrom records_from
refusalAnswer refusal_answer
refusalText refusal_text
refused-at refused_at
refused-if-fault refused_if_fault
refused-lines refused_lines
reportText report_text
ringView ring_view
same-exponent same_exponent
same-fault same_fault
sameDimension same_dimension
short-buffers-are-refused short_buffers_are_refused
simple-short simple_short
slot-inside slot_inside
slot-law slot_law
slot-missing slot_missing
slot-none slot_none
slot-within slot_within
small-range small_range
spelt-if-read spelt_if_read
spelt-lines spelt_lines
spelt-none spelt_none
square-of-sum-in-one-place square_of_sum_in_one_place
square-of-sum-in-two-places square_of_sum_in_two_places
squareOfSum square_of_sum
stepAt step_at
stepMarks step_marks
stopped-at stopped_at
sum-held sum_held
take-there take_there
target-back target_back
target-read target_read
turn-over turn_over
u16-of-bytes u16_of_bytes
u16At u16_at
u16Bytes u16_bytes
u24-of-bytes u24_of_bytes
u32-of-bytes u32_of_bytes
unlawful-at unlawful_at
unlawful-here unlawful_here
value-ge value_ge
verdictText verdict_text
view-after view_after
view-before view_before
view-length view_length
view-long view_long
view-over view_over
view-turn view_turn
wellFormed well_formed
whole-fits whole_fits
whole-text whole_text
wholeMeaning whole_meaning
wholeRecords whole_records
wordDimension word_dimension
xs-long xs_long
zero-at zero_at
zeroExponent zero_exponent
zeros-end zeros_end
zeros-go-on zeros_go_on
"""

# respelled by port.py itself: for the pages alone
PAGES = """
placesOf places_of
targetOf target_of
andThen and_then
byteAt byte_at
fieldsAt fields_at
allBelow all_below
linesRead lines_read
answerOf answer_of
codeOf code_of
"""


def table(text):
    return dict(line.split() for line in text.split("\n") if line.strip())


def respell(text, names):
    word = re.compile(r"(?<![\w'-])(" + "|".join(sorted(map(re.escape, names), key=len, reverse=True)) + r")(?![\w'-])")
    return word.sub(lambda found: names[found.group(1)], text)


def main(top):
    names = table(NAMES)
    pages = names | table(PAGES)
    for path in sorted(top.glob("crates/*/**/*")):
        if path.suffix in (".antt", ".rt") and "out" not in path.parts:
            path.write_text(respell(path.read_text(), names))
    for path in [top / "README.md", *sorted((top / "docs").glob("*.md"))]:
        text = path.read_text()
        path.write_text(re.sub(r"`[^`\n]*`", lambda quoted: respell(quoted.group(0), pages), text))


if __name__ == "__main__":
    main(pathlib.Path(sys.argv[1] if len(sys.argv) > 1 else "."))
