#!/usr/bin/env bash
# A delivery in which every label is at fault in turn. It holds the tables of the examples, delivery.c here and the one
# in outside/examples, to the library: a row that is wrong tells a line otherwise than is due.
#
#   console/labels.sh        prints the delivery
#   console/labels.sh due    prints how each of its lines must be told, up to the `;` before what to do
set -u

asked=${1:-lines}
count=0

# For each label the position of its first field, the bytes of the field, a value that nothing but a field rule refuses,
# and one as long as the field (0: zeros). What has the form of CPN, MTN and ZIP is always good.
labels='FOC 1 1 E I
CPN 2 10 - 0
HNO 12 10 12x 00000000\x20\x20
HNS 22 4 \x20x 0
PRD 26 2 X NE
STN 28 60 \x20x 0
STS 88 4 \x20x 0
POD 92 2 NN SW
MCN 94 32 \x20x 0
STA 126 2 Or OR
LOC 128 60 \x20x 0
NAM 188 32 \x20x 0
CLS 220 1 V 0
TYS 221 1 8 0
EXC 222 4 \x20x 0
ESN 226 5 8x 0
MTN 231 10 - 0
ORD 241 10 \x20x 0
CPD 251 10 2001-02-29 2026-11-14
COI 257 4 \x20x 0
CPF 261 5 abc 0
ZIP 267 10 - 97301-1234
CUS 287 3 \x20x 0
CMT 290 30 \x20x 0
TAR 350 6 \x20x 0
GU1 276 11 \x7f 0
CEL 343 6 \x20x 0
SEC 349 1 \x7f 0'

# A line has at least these pairs.
needed='FOCI CPN5035550100 STNMAIN MCNSALEM STAOR CLS1 TYS0 CPD2026-11-14 CPFALPHA'
all="DAT|${needed// /|}"

# line DUE TEXT: one line, or how it must be told
line() {
    count=$((count + 1))
    if [ "$asked" = due ]; then
        printf 'line %d: %s\n' "$count" "$1"
    else
        printf '%b\n' "$2"
    fi
}

# without LABEL: the needed pairs but for this label's
without() {
    local pair
    printf DAT
    for pair in $needed; do
        if [ "${pair:0:3}" != "$1" ]; then
            printf '|%s' "$pair"
        fi
    done
}

# zeros COUNT: a value of so many bytes
zeros() {
    printf "%0${1}d" 0
}

# Each label with a bad value, with one byte more than its field has, twice, and missing if it is needed. The last line
# has every label with a value as long as its field.
full=DAT
while read -r label position most bad good; do
    rest=$(without "$label")
    if [ "$bad" != - ]; then
        line "refused (9 at $position), label $label: its value is bad" "$rest|$label$bad"
    fi
    line "refused (36), label $label: its value does not fit" "$rest|$label$(zeros $((most + 1)))"
    line "refused (35), label $label: it stands twice" "$rest|$label|${label}x"
    if [ "$rest" != "$all" ]; then
        line "refused (9 at $position), label $label: it is missing" "$rest"
    fi
    if [ "$good" = 0 ]; then
        good=$(zeros "$most")
    fi
    full+="|$label$good"
done <<<"$labels"
line "read, I 0000000000" "$full"

# Labels that are not taken or cut short, and are shown as far as they go; a `|` in a value begins a label.
for label in STI PCN LMK CPS LON LAT ELV GU2 cmt; do
    line "refused (34), label $label: it is not taken" "$all|${label}x"
done
line "refused (34), label ?[?: it is not taken" "$all|\x1b[\xc3\xa9"
line "refused (34), label ST: it is cut short" "$all|ST"
line "refused (34), label (none): it is cut short" "$all|"
line "refused (34), label (none): it is cut short" "DAT|"
line "refused (34), label B: it is cut short" "$all|LOCA|B"

# The refusals go by their order over the whole line, and of several pairs the first is told.
line "refused (34), label ZZZ: it is not taken" "DAT|FOCII|FOCI|CPN5|ZZZ1|YYY1"
line "refused (35), label CPN: it stands twice" "DAT|FOCII|CPN5|CPN5|FOCI"
line "refused (36), label CPN: its value does not fit" "DAT|FOC?|CPN5|CPD1"
line "refused (36), label ZIP: its value does not fit" "$all|ZIPK1A0B1"
line "refused (36), label MTN: its value does not fit" "$all|MTN"
line "refused (9 at 1), label FOC: it is missing" "DAT"

# A carriage return belongs to the last value, and is told of behind what to do.
line "refused (36), label CPF: its value does not fit" "$all\r"
line "refused (9 at 88), label STS: its value is bad" "$all|STSST\r"

# No `DAT`, or something behind it; the last line has no newline.
frame="begin it with DAT and |, and end it with a newline, 0a hex"
for text in "" "D" "RTN|FOCI" "DATX|FOCI" "dat|FOCI" "DAT\r"; do
    line "refused (33): $frame" "$text"
done
if [ "$asked" = due ]; then
    line "refused (33): $frame" ""
else
    printf '%s' "$all"
fi
