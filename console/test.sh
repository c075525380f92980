#!/usr/bin/env bash
# Builds the console, the circle, the delivery and the measure of the stack against the static libraries and runs them,
# a line a check.
#
#   console/test.sh [FOLDER]    FOLDER has liblookup.a and libboundary.a; it may also be named by HAKKIYOLU_LIBS.
#                               Otherwise it is target/staticlib under the repository's root.
#
# The last line is 'N passed, 0 failed'; the exit status is 1 if a check failed.
set -u

root=$(cd "$(dirname "${BASH_SOURCE[0]}")/.." && pwd) || exit 1
libs=${1:-${HAKKIYOLU_LIBS:-$root/target/staticlib}}
passed=0
failed=0

ok() {
    echo "ok $1"
    passed=$((passed + 1))
}

# A failed check, and behind it, indented, what is known of it.
fail() {
    echo "FAILED $1"
    if [ -n "${2:-}" ]; then
        printf '    %s\n' "${2//$'\n'/$'\n'    }"
    fi
    failed=$((failed + 1))
}

finish() {
    echo "$passed passed, $failed failed"
    [ "$failed" -eq 0 ]
    exit
}

for name in lookup boundary; do
    if [ ! -f "$libs/lib$name.a" ]; then
        fail "lib$name.a is in $libs" "write it with: tools/libraries"
    fi
done
if [ "$failed" -ne 0 ]; then
    finish
fi
libs=$(cd "$libs" && pwd) || exit 1
lookup=$libs/liblookup.a
boundary=$libs/libboundary.a

# Everything is built and run in a folder of its own, under short names, so that messages can be compared whole.
work=$(mktemp -d) || exit 1
trap 'rm -rf "$work"' EXIT
cd "$work" || exit 1

warnings=(-Wall -Wextra -Wpedantic -Wconversion -Werror "-I$root/include")
sanitizers=(-O1 -g "-fsanitize=address,undefined" -fno-sanitize-recover=all)

# A check that a command succeeds without a word.
quiet() {
    local name=$1 said
    shift
    if said=$("$@" 2>&1) && [ -z "$said" ]; then
        ok "$name"
    else
        fail "$name" "$said"
    fi
}

# A check of a command's exit status, standard output and standard error. Under valgrind its own words go to a file.
runs() {
    local name=$1 status=$2 out=$3 err=$4 got
    shift 4
    : >valgrind.log
    "$@" >got.out 2>got.err
    got=$?
    if [ "$got" -eq "$status" ] && [ "$(cat got.out)" = "$out" ] && [ "$(cat got.err)" = "$err" ]; then
        ok "$name"
    else
        fail "$name" "exit status $got, not $status
$(diff <(printf '%s\n' "$out") got.out)
$(diff <(printf '%s\n' "$err") got.err)
$(cat valgrind.log)"
    fi
}

# ---- The header alone --------------------------------------------------------------------------------------------

# Included twice, for the guard. Every call once with nothing lent: NULL with length 0 is allowed, and refused by 1, as
# a tagged text by 33, as a record by 9. The checks are lent pointers to const, so this compiles only if they promise to
# write nowhere.
cat >face.c <<'END'
#include "hakkiyolu.h"
#include "hakkiyolu.h"

int main(void)
{
    const uint64_t seen = hakkiyolu_lookup(NULL, 0, NULL, 0);
    const uint8_t *const none = NULL;
    const struct hakkiyolu_taken files[] = {
        hakkiyolu_apply_data(NULL, 0, NULL, 0, NULL, 0, NULL, 0, 7),
        hakkiyolu_apply_data_v1(NULL, 0, NULL, 0, NULL, 0, NULL, 0, 8),
        hakkiyolu_apply_guide(NULL, 0, NULL, 0, NULL, 0, NULL, 0, 9),
        hakkiyolu_check_data(none, 0, none, 0, none, 0, none, 0, 10),
        hakkiyolu_check_data_v1(none, 0, none, 0, none, 0, none, 0, 11),
        hakkiyolu_check_guide(none, 0, none, 0, none, 0, none, 0, 12),
    };
    const struct hakkiyolu_loaded loads[] = {
        hakkiyolu_write_load(NULL, 0, NULL, 0, NULL, 0, 1, NULL, 0),
        hakkiyolu_write_load_v1(NULL, 0, NULL, 0, NULL, 0, 1, NULL, 0),
    };
    const struct hakkiyolu_converted converted = hakkiyolu_convert_register(NULL, 0);
    const struct hakkiyolu_tagged read = hakkiyolu_read_tagged(NULL, 0, NULL, 0);
    const struct hakkiyolu_tagged written = hakkiyolu_write_tagged(NULL, 0, NULL, 0);
    const int lookup = hakkiyolu_seen_refusal(seen) == HAKKIYOLU_REFUSED_REGISTER && hakkiyolu_seen_looked(seen) == 0
        && hakkiyolu_seen_slot(seen) == 0 && hakkiyolu_seen_state(seen) == HAKKIYOLU_STATE_ABSENT;
    const int rest = converted.refusal == HAKKIYOLU_REFUSED_REGISTER && converted.slot == 0
        && read.refusal == HAKKIYOLU_REFUSED_TEXT && read.position == 0 && read.bytes == 0
        && written.refusal == HAKKIYOLU_REFUSED_RECORD && written.position == 0 && written.bytes == 0;
    int taken = 1, loaded = 1;
    for (uint32_t i = 0; i < sizeof files / sizeof files[0]; i++) {
        taken = taken && files[i].refusal == HAKKIYOLU_REFUSED_REGISTER && files[i].place == 0
            && files[i].position == 0 && files[i].records == 0 && files[i].done == 0 && files[i].undone == 0
            && files[i].last == 7 + i;
    }
    for (uint32_t i = 0; i < sizeof loads / sizeof loads[0]; i++) {
        loaded = loaded && loads[i].refusal == HAKKIYOLU_REFUSED_REGISTER && loads[i].bytes == 0
            && loads[i].entries == 0 && loads[i].slot == 0;
    }
    return lookup && rest && taken && loaded ? 0 : 1;
}
END
cp face.c face.cpp
echo '#include "hakkiyolu.h"' >alone.c
cp alone.c alone.cpp

c_compilers=(gcc)
cpp_compilers=(g++)
if command -v clang >/dev/null; then c_compilers+=(clang); fi
if command -v clang++ >/dev/null; then cpp_compilers+=(clang++); fi

for compiler in "${c_compilers[@]}"; do
    quiet "header alone, C11, $compiler" "$compiler" -std=c11 "${warnings[@]}" -c alone.c -o alone.o
    quiet "every call links, C11, $compiler" "$compiler" -std=c11 "${warnings[@]}" face.c "$lookup" "$boundary" -o face
    runs "nothing lent is refused, C11, $compiler" 0 "" "" ./face
done
for compiler in "${cpp_compilers[@]}"; do
    quiet "header alone, C++17, $compiler" "$compiler" -std=c++17 "${warnings[@]}" -c alone.cpp -o alone.o
    quiet "every call links, C++17, $compiler" "$compiler" -std=c++17 "${warnings[@]}" face.cpp "$lookup" "$boundary" \
        -o face
    runs "nothing lent is refused, C++17, $compiler" 0 "" "" ./face
done
quiet "libraries link in the other order" gcc -std=c11 "${warnings[@]}" face.c "$boundary" "$lookup" -o face
runs "nothing lent is refused, other order" 0 "" "" ./face

# exports LIBRARY CALL...: a check that the library has these calls alone as global names, so that no old one can still
# be linked, and none clashes with the other library's
exports() {
    local library=$1 got
    shift
    got=$(nm -g --defined-only "$library" | awk 'NF == 3 { print $2 == "T" ? $3 : $0 }' | LC_ALL=C sort)
    if [ "$got" = "$(printf 'hakkiyolu_%s\n' "$@")" ]; then
        ok "${library##*/} has these calls alone: $*"
    else
        fail "${library##*/} has these calls alone: $*" "$got"
    fi
}

exports "$lookup" lookup
exports "$boundary" apply_data apply_data_v1 apply_guide check_data check_data_v1 check_guide convert_register \
    read_tagged write_load write_load_v1 write_tagged

# ---- The programs ------------------------------------------------------------------------------------------------

# builds NAME COMPILER OPTION...: writes console.NAME, circle.NAME and delivery.NAME
builds() {
    local name=$1 compiler=$2
    shift 2
    quiet "console builds, $name" "$compiler" -std=c11 "$@" "${warnings[@]}" "$root/console/console.c" "$lookup" \
        -o "console.$name"
    quiet "circle builds, $name" "$compiler" -std=c11 "$@" "${warnings[@]}" "$root/console/circle.c" "$boundary" \
        "$lookup" -o "circle.$name"
    quiet "delivery builds, $name" "$compiler" -std=c11 "$@" "${warnings[@]}" "$root/console/delivery.c" "$boundary" \
        -o "delivery.$name"
}

builds plain gcc -O2
builds sanitized gcc "${sanitizers[@]}"
if command -v clang >/dev/null; then builds clang clang -O2; fi

circle_says="guide file of MILL COUNTY, cycle 1: checked, 4 records
guide file of MILL COUNTY, cycle 1: 3 done, 1 not done
  I 1 to 99 MAIN ST, B, ESN 83: done
  I 100 to 198 MILL RD, E, ESN 84: done
  I 101 to 199 MILL RD, O, ESN 85: done
  I 150 to 150 MILL RD, B, ESN 86: turned away (21), clashes with a present row
data file of OLDCO TELEPHONE, cycle 1: checked, 8 records
data file of OLDCO TELEPHONE, cycle 1: 7 done, 1 not done
  I 5035550100 of OLDCO: done
  I 5035550101 of OLDCO: done
  I 5035550102 of OLDCO: done
  I 5035550103 of OLDCO: done
  I 5035550104 of OLDCO: turned away (18), no guide row covers the address
  D 5035550102 of OLDCO: done
  U 5035550100 of OLDCO: done
  U 5035550103 of OLDCO: done
data file of NEWCO TELEPHONE, cycle 2: checked, 1 record
data file of NEWCO TELEPHONE, cycle 2: 1 done, 0 not done
  M 5035550100 of NEWCO: done
5035550100 shows 109 MILL RD, ESN 85, of NEWCO
data file of OLDCO TELEPHONE, cycle 3: checked, 2 records
data file of OLDCO TELEPHONE, cycle 3: 0 done, 2 not done
  C 5035550100 of OLDCO: turned away (16), another company holds the number
  C 5035550103 of OLDCO: turned away (15), the number is open
5035550100 shows 109 MILL RD, ESN 85, of NEWCO
in the evening a file of Version 1 is checked:
Version 1 data file of GRAND HOTELS, cycle 4: checked, 4 records
in the morning it is applied:
Version 1 data file of GRAND HOTELS, cycle 4: 4 done, 0 not done
  I 5035550106 of HOTEL: done
  I 5035550107 of HOTEL: done
  C 5035550106 of HOTEL: done
  D 5035550107 of HOTEL: done
5035550106 shows 52 MAIN ST, ESN 83, of HOTEL
Version 1 load file written: 4 entries, 1280 bytes
Version 1 load file of REGISTER OFFICE, cycle 1: checked, 4 records
Version 1 load file of REGISTER OFFICE, cycle 1: 4 done, 0 not done
  slot 0, 5035550100: came back to slot 0
  slot 1, 5035550101: came back to slot 1
  slot 3, 5035550103: came back to slot 2
  slot 4, 5035550106: came back to slot 3
  the other 4 slots: free
in the evening a file is checked, to be applied in the morning:
data file of NEWCO TELEPHONE, cycle 5: checked, 1 record
before the morning another file of that cycle comes, and is taken:
tagged record of 123 bytes: read
data file of OLDCO TELEPHONE, cycle 5: checked, 1 record
data file of OLDCO TELEPHONE, cycle 5: 1 done, 0 not done
  I 5035550105 of OLDCO: done
5035550105, written tagged: 123 bytes, the text that came
in the morning the file that was checked is applied:
data file of NEWCO TELEPHONE, cycle 5: refused (6), record 0, position 0
its cycle went to the other file since the check; register and answers are unchanged
Version 1 load file refused (27), slot 6
5035550105 stands there, with comments: DOOR IS IN MILL RD
load file written: 5 entries, 2960 bytes
load file of REGISTER OFFICE, cycle 1: checked, 5 records
load file of REGISTER OFFICE, cycle 1: 5 done, 0 not done
  slot 0, 5035550100: came back to slot 0
  slot 1, 5035550101: came back to slot 1
  slot 3, 5035550103: came back to slot 2
  slot 4, 5035550106: came back to slot 3
  slot 6, 5035550105: came back to slot 4
  the other 3 slots: free
5035550105 in the load file, written tagged: refused (37)
5035550105 with Source cleared, written tagged: 123 bytes, the text that came
converted an old register of 8 slots: same as today's
a day after 2069 in slot 2: refused (28), nothing changed
the circle closes"

no_register='refused (1): not 1 to 4096 whole slots of 520 bytes'
no_number='refused (10): not ten digits'
no_usage='console: bad usage: give a register and a number (console --help tells more)'

# The sample delivery; its good lines alone; one with every label at fault; one of more records than a file may have,
# all the same insert, which is done once and turned away afterwards; and one without a line.
sample=$root/console/delivery.txt
sed -n '1,2p;10p' "$sample" >good.txt
"$root/console/labels.sh" >labels.txt
awk 'NR == 2 { for (i = 0; i < 10001; i++) print }' "$sample" >many.txt
: >none.txt

sample_says=$(cat "$root/console/delivery.expected")
labels_say=$(cat "$root/console/labels.expected")
guide_says=$(head -n 5 "$root/console/delivery.expected")
good_says="$guide_says
line 1: read, I 5035550100
line 2: read, I 5035550101
line 3: read, U 5035550101
data file of ALPHA TELEPHONE, cycle 1: checked, 3 records
data file of ALPHA TELEPHONE, cycle 1: 3 done, 0 not done
line 1: done
line 2: done
line 3: done"
present='turned away (12), the number is present already'
many_say="$guide_says
$(seq -f 'line %.0f: read, I 5035550101' 9999)
data file of ALPHA TELEPHONE, cycle 1: checked, 9999 records
data file of ALPHA TELEPHONE, cycle 1: 1 done, 9998 not done
line 1: done
$(seq -f "line %.0f: $present" 2 9999)
line 10000: read, I 5035550101
line 10001: read, I 5035550101
data file of ALPHA TELEPHONE, cycle 2: checked, 2 records
data file of ALPHA TELEPHONE, cycle 2: 0 done, 2 not done
line 10000: $present
line 10001: $present"

# What is due of each label is said apart from what the example prints: up to what to do, the two must be the same.
told=$(sed -n '/^data file/q; s/^\(line [^;]*\).*/\1/p' "$root/console/labels.expected")
runs "every label is told as is due" 0 "$told" "" "$root/console/labels.sh" due

# zeros FILE BYTES: a file of zero bytes; whole slots of them are free slots
zeros() {
    head -c "$2" /dev/zero >"$1"
}
zeros empty 0
zeros one_slot 520
zeros byte_short 519
zeros byte_over 521
zeros most_slots $((4096 * 520))
zeros slot_over $((4097 * 520))
zeros byte_over_most $((4096 * 520 + 1))
mkdir folder
many=({5035551000..5035551999}) # more than a stream buffers

# programs NAME BUILD [BEFORE...]: runs the programs of a build, with BEFORE (valgrind) in front of them
programs() {
    local name=$1 build=$2
    shift 2
    local console=("$@" "./console.$build") circle=("$@" "./circle.$build") delivery=("$@" "./delivery.$build")

    runs "circle closes, $name" 0 "$circle_says" "" "${circle[@]}"
    rm -f register
    runs "circle writes its register, $name" 0 "$circle_says" "" "${circle[@]}" register
    runs "circle: a file it can't write, $name" 3 "$circle_says" "folder: Is a directory" "${circle[@]}" folder
    runs "circle: too many arguments, $name" 2 "" "Usage: circle [REGISTER]" "${circle[@]}" register more

    runs "delivery: the sample, $name" 1 "$sample_says" "" "${delivery[@]}" "$sample"
    runs "delivery: every label at fault, $name" 1 "$labels_say" "" "${delivery[@]}" labels.txt
    runs "delivery: more than a file of records, $name" 1 "$many_say" "" "${delivery[@]}" many.txt
    runs "delivery: no line, $name" 0 "$guide_says" "" "${delivery[@]}" none.txt
    rm -f delivered
    runs "delivery: all lines done, and the register written, $name" 0 "$good_says" "" \
        "${delivery[@]}" good.txt delivered
    runs "delivery: what was delivered, $name" 0 "5035550100: held, slot 0, 1 slot looked at
5035550101: open, slot 1, 2 slots looked at
5035550102: absent, no slot, 4096 slots looked at" "" "${console[@]}" delivered 5035550100 5035550101 5035550102
    runs "delivery: a file it can't write, $name" 3 "$good_says" "folder: Is a directory" \
        "${delivery[@]}" good.txt folder
    runs "delivery: a missing file, $name" 3 "" "missing: No such file or directory" "${delivery[@]}" missing unwritten
    runs "delivery: a folder, $name" 3 "$guide_says" "folder: Is a directory" "${delivery[@]}" folder unwritten
    runs "delivery: no register where there is no delivery, $name" 1 "" "" test -e unwritten
    runs "delivery: no arguments, $name" 2 "" "Usage: delivery DELIVERY [REGISTER]" "${delivery[@]}"
    runs "delivery: too many arguments, $name" 2 "" "Usage: delivery DELIVERY [REGISTER]" \
        "${delivery[@]}" good.txt delivered more

    runs "held, $name" 0 "5035550100: held, slot 0, 1 slot looked at" "" "${console[@]}" register 5035550100
    runs "resting, $name" 0 "5035550102: resting, slot 2, 3 slots looked at" "" "${console[@]}" register 5035550102
    runs "open, $name" 0 "5035550103: open, slot 3, 4 slots looked at" "" "${console[@]}" register 5035550103
    runs "absent, $name" 0 "5035550104: absent, no slot, 8 slots looked at" "" "${console[@]}" register 5035550104
    runs "several numbers, $name" 0 "5035550104: absent, no slot, 8 slots looked at
5035550101: held, slot 1, 2 slots looked at
5035550101: held, slot 1, 2 slots looked at" "" "${console[@]}" register 5035550104 5035550101 5035550101

    runs "1000 numbers, $name" 0 "$(printf '%s: absent, no slot, 8 slots looked at\n' "${many[@]}")" "" \
        "${console[@]}" register "${many[@]}"

    runs "letters in the number, $name" 1 "" "console: 50355501ab: $no_number" "${console[@]}" register 50355501ab
    runs "9 digits, $name" 1 "" "console: 503555010: $no_number" "${console[@]}" register 503555010
    runs "11 digits, $name" 1 "" "console: 50355501000: $no_number" "${console[@]}" register 50355501000
    runs "no digit, $name" 1 "" "console: : $no_number" "${console[@]}" register ""
    runs "the others are answered, $name" 1 "5035550100: held, slot 0, 1 slot looked at
5035550103: open, slot 3, 4 slots looked at" "console: 503-555-01: $no_number" \
        "${console[@]}" register 5035550100 503-555-01 5035550103

    runs "one free slot, $name" 0 "5035550100: absent, no slot, 1 slot looked at" "" "${console[@]}" one_slot 5035550100
    runs "4096 slots, $name" 0 "5035550100: absent, no slot, 4096 slots looked at" "" \
        "${console[@]}" most_slots 5035550100
    local file
    for file in empty byte_short byte_over slot_over byte_over_most; do
        runs "refused register: $file ($(stat -c %s "$file") bytes), $name" 4 "" "console: $file: $no_register" \
            "${console[@]}" "$file" 5035550100 5035550101
    done
    runs "refused register before bad number, $name" 4 "" "console: empty: $no_register" "${console[@]}" empty 12

    runs "missing file, $name" 3 "" "console: missing: No such file or directory" "${console[@]}" missing 5035550100
    runs "a folder, $name" 3 "" "console: folder: Is a directory" "${console[@]}" folder 5035550100
    runs "no arguments, $name" 2 "" "$no_usage" "${console[@]}"
    runs "no number, $name" 2 "" "$no_usage" "${console[@]}" register
    if [ -c /dev/full ]; then
        runs "output that can't be written, $name" 5 "" "console: standard output: cannot be written" \
            full "${console[@]}" register 5035550100
        runs "much output that can't be written, $name" 5 "" "console: standard output: cannot be written" \
            full "${console[@]}" register "${many[@]}"
        runs "circle: output that can't be written, $name" 3 "" "circle: the standard output cannot be written" \
            full "${circle[@]}"
        runs "delivery: output that can't be written, $name" 3 "" "delivery: the standard output cannot be written" \
            full "${delivery[@]}" good.txt
    fi
}

# Runs a command with its standard output on a device that is always full.
# shellcheck disable=SC2317 # it is called by its name, in runs
full() {
    "$@" >/dev/full
}

programs plain plain
programs sanitized sanitized
if [ -x console.clang ]; then programs clang clang; fi
if command -v valgrind >/dev/null; then
    programs valgrind plain valgrind -q --error-exitcode=99 --leak-check=full --errors-for-leak-kinds=all \
        --log-file=valgrind.log
fi

help=$(./console.plain --help)
status=$?
if [ "$status" -eq 0 ] && [[ $help == "Usage: console REGISTER NUMBER..."* ]]; then
    ok "console --help"
else
    fail "console --help" "exit status $status"
fi

# ---- The stack of each call --------------------------------------------------------------------------------------

# Sanitizers and valgrind use stack of their own, so only a plain build is measured. A call that is over the bound has
# more on its line.
quiet "stack builds" gcc -std=c11 -O2 -pthread "${warnings[@]}" "$root/console/stack.c" "$boundary" "$lookup" -o stack
said=$(./stack 2>&1)
status=$?
for call in check_data check_data_refused apply_data apply_data_refused check_data_v1 check_data_v1_refused \
    apply_data_v1 apply_data_v1_refused check_guide check_guide_refused apply_guide apply_guide_refused write_load \
    write_load_v1 write_load_v1_refused convert_register convert_register_refused read_tagged read_tagged_refused \
    write_tagged write_tagged_refused lookup_hit lookup_miss; do
    if line=$(grep -Ex "stack $call [0-9]+" <<<"$said"); then
        ok "$line"
    else
        fail "stack $call" "exit status $status
$said"
    fi
done

# ---- The constants -----------------------------------------------------------------------------------------------

# What the compilers make of the programs beside the libraries holds no table of months either.
built=(console.plain circle.plain delivery.plain stack)
if [ -x circle.clang ]; then built+=(console.clang circle.clang delivery.clang); fi
said=$("$root/tools/constants" "${built[@]}" 2>&1)
for program in "${built[@]}"; do
    if line=$(grep -Ex "ok $program: [0-9]+ bytes of constants, no table of months" <<<"$said"); then
        ok "${line#ok }"
    else
        fail "$program: no table of months" "$said"
    fi
done

finish
