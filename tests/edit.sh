#!/bin/sh
# examples/edit.c on copies of the example day: what it says, the bytes of its journal, and the day that it saves. It is killed between two
# commands, with a part of a further field behind them, and started again: every edit that was said to be done is there. It is killed in a save,
# before and behind the renaming, and functions of the C library fail it, each flush in turn (tests/edit/faults.c). Two of them meet on one
# journal and on one day; journal and day are removed or replaced beside it; a journal is taken for that of another record.
# What is expected comes from the text's columns and from the rules: fields of the forms F7.3 and F8.3 (R73, R104), and the journal's fields byte
# by byte.
set -u
LC_ALL=C
export LC_ALL
cd "$(dirname "$0")/.." || exit 2
name=edit
. tests/cases
. tests/kit

counted 'the archive' archived || finished 1 || exit 1
counted 'the program' editor_linked "$work/edit" || finished 1 || exit 1
counted 'faults for it' compiled tests/edit/faults.c "$work/faults.o" -std=c99 && counted 'with faults' editor_linked "$work/faulty" "$work/faults.o" ||
    finished 1 || exit 1
for source in examples/edit.c examples/files.c; do
    if command -v cc >/dev/null; then
        counted "$source, cc with its own headers" cc -std=c99 -Wall -Wextra -pedantic -Werror -Iinclude -fsyntax-only "$source"
    fi
    counted "$source: no function is longer than 40 lines" \
        none "$(awk '/^{/ { from = NR } /^}/ && from { if (NR - from > 39) print; from = 0 }' "$source")"
done

mkdir "$work/files"
day=$work/files/day
journal=$work/files/journal
program=$work/edit

begin() { # a day as it was, and no journal; nothing else is there
    rm -rf "$work/files"
    mkdir "$work/files"
    cp examples/day.sao "$day"
}

edit() { # RECORD LINE..: what it says to these lines, in "$work/got"; its exit status
    record=$1
    shift
    if [ $# -gt 0 ]; then
        printf '%s\n' "$@"
    fi >"$work/commands"
    (becomes "$program" "$day" "$record" "$journal" <"$work/commands" >"$work/said" 2>&1)
    ended_with=$?
    without_letters <"$work/said" >"$work/got"
    return "$ended_with"
}

without_letters() { # the six letters of a new file's name are any, behind a copy's name at a line's end and behind any where it fails
    letters='\.[A-Za-z0-9]\{6\}'
    sed "s/\(journal\)$letters\$/\1.??????/;s/\(third\)$letters\$/\1.??????/;s/\(link\)$letters\$/\1.??????/;s/$letters: /.??????: /"
}

faulty() { # FAULT LINE..: the same of record 2, with that fault; what the shell says of a kill is dropped
    FAULT=$1
    export FAULT
    program=$work/faulty
    shift
    { edit 2 "$@"; } 2>/dev/null
    status=$?
    unset FAULT
    program=$work/edit
    return "$status"
}

there() { # the names in the folder
    find "$work/files" ! -name files | sed 's|.*/||' | sort
}

files() { # CASE NAME..: these are in the folder, and no others
    what=$1
    shift
    printf '%s\n' "$@" | sort >"$work/want"
    there | without_letters >"$work/got"
    compared "$what: the files there are" "$work/want"
}

said() { # CASE LINE..: exactly that was said
    what=$1
    shift
    printf '%s\n' "$@" >"$work/want"
    compared "$what" "$work/want"
}

bytes() { # FILE: in hexadecimal
    od -An -v -tx1 "$1" | tr -d ' \n'
}

set_field() { # GROUP CELL OLD NEW: tag 1, nineteen bytes
    printf '010013%02x%04x%016x%016x' "$1" "$2" "$3" "$4"
}

savepoint_field() { # TAG SAVEPOINT: one byte
    printf '%02x0001%02x' "$1" "$2"
}

holds() { # CASE HEXADECIMAL: the journal's bytes
    counted "$1: the journal" [ "$(bytes "$journal")" = "$2" ]
}

kept() { # CASE: day and journal are those of "$work/before"
    counted "$1: the day is as it was" cmp -s "$day" "$work/before/day"
    counted "$1: the journal is as it was" cmp -s "$journal" "$work/before/journal"
}

keep() { # what has to stay as it is
    mkdir -p "$work/before"
    cp "$day" "$journal" "$work/before"
}

# Record 2 is that of 01:00. Group 1 stands in the record's third line, in columns of seven, and group 4 in the three lines behind the date, in
# columns of eight. A cell is the digits without the point.
awk '
    function shown(line, width, from, field) {
        for (from = 1; from < length(line); from += width) {
            field = substr(line, from, width)
            sub(/\./, "", field)
            printf " %d", field
        }
    }
    /^AA20040600229010000/ {
        printf "group 1:"; shown(first, 7); print ""
        printf "group 4:"
        for (i = 1; i <= 3; i++) { getline; sub(/\r$/, ""); shown($0, 8) }
        print ""
    }
    { sub(/\r$/, ""); first = second; second = $0 }' examples/day.sao >"$work/groups"
one=$(sed -n 1p "$work/groups")
four=$(sed -n 2p "$work/groups")
counted 'five constants and forty characteristics in the text' [ "$(echo "$one $four" | wc -w)" -eq 49 ]
of_four=${four#group 4: 3525 }
counted 'foF2 of 01:00 in the text' [ "$of_four" != "$four" ]

dated() { # RECORD: its date, from the columns of its line
    grep -a '^AA2004060' examples/day.sao | sed -n "$1s/^..\(....\)...\(..\)\(..\)\(..\)\(..\)\(..\).*/\1-\2-\3 \4:\5:\6/p"
}

counted 'the date of 01:00 in the text' [ "$(dated 2)" = '2004-02-29 01:00:00' ]

replayed() { # RECORD BYTES SAVEPOINTS: what is said at a start
    echo "replayed $2 bytes of the journal over record $1, of $(dated "$1"); savepoints open: $3"
}

# 5 + 120 + 19 + 40 + 8 cells of groups 1, 2, 3, 4 and 6, five times 22 of the trace, 19 + 19 + 38 of the profile, twice 40 letters
loaded='record 2 has 458 cells'
# record 3 is that of 02:00, the lines from 51 to 75; its trace has 21 points
third_loaded='record 3 has 453 cells'
commands='not understood: commands are set G C VALUE, open, release N, undo N, show G, save'

# ---- what is asked wrongly

begin
usage='usage: edit DAY RECORD JOURNAL (two files, and a record'"'"'s number from 1)'
for words in '' "$day" "$day 1" "$day 0 $journal" "$day x $journal" "$day -1 $journal" "$day 1x $journal" "$day 18446744073709551616 $journal" \
    "$day 1 $journal more"; do
    # shellcheck disable=SC2086
    started "$work/edit" $words </dev/null >"$work/got" 2>&1
    counted "usage, exit status: $words" [ "$?" = 2 ]
    said "usage: $words" "$usage"
done

refused() { # CASE LINE..: it ends with 1 and says so; no file is made or altered
    counted "$1: exit status" [ "$status" = 1 ]
    said "$@"
    counted "$1: no journal" [ ! -e "$journal" ]
}

started "$work/edit" "$work/none" 1 "$journal" </dev/null >"$work/got" 2>&1
status=$?
refused 'no day' "edit: $work/none: No such file or directory"
edit 25
status=$?
refused 'no record 25' 'edit: there is no record 25: the text ends there (reply 1)'
edit 18446744073709551615
status=$?
refused 'no record of the greatest number' 'edit: there is no record 18446744073709551615: the text ends there (reply 1)'
cp examples/damaged.sao "$day"
edit 14
status=$?
refused 'a damaged record' 'edit: group 7 of record 14 cannot be read: a field is misformed (reply 9, line 2, element 20)'
sed '1s/^  4/  1/' examples/s.sao >"$day"
edit 1
status=$?
refused 'a broken rule' 'edit: record 1 cannot be read: the counts break a rule (reply 7, group 1)'
begin
started "$work/edit" "$day" 2 "$work/none/journal" </dev/null >"$work/got" 2>&1
status=$?
refused 'no folder for the journal' "$loaded" "edit: $work/none/journal: No such file or directory"

# ---- a run that is killed between two commands

trap '' PIPE
mkfifo "$work/pipe"

run() { # in the background, with commands from the pipe; its number is in `running`
    : >"$work/got" # else the lines of another run would be taken for its own
    becomes "$program" "$day" 2 "$journal" <"$work/pipe" >"$work/got" 2>&1 &
    running=$!
    [ "$patience" = 0 ] || patience=600
    exec 3>"$work/pipe"
    echo "$loaded" >"$work/all"
    awaited 1
}

patience=600
awaited() { # LINES: it has said so many, or a minute of waiting for this run is over; then no other is waited for
    while [ "$(wc -l <"$work/got")" -lt "$1" ] && [ "$patience" -gt 0 ]; do
        sleep 0.1
        patience=$((patience - 1))
    done
}

ask() { # COMMAND ANSWER: the answer is awaited, and compared with all others below
    printf '%s\n' "$1" >&3 2>/dev/null
    printf '%s\n' "$2" >>"$work/all"
    awaited "$(wc -l <"$work/all")"
}

closed() { # CASE STATUS: the editor in the background ends with it, and has said what it was asked for
    exec 3>&-
    wait "$running"
    counted "$1: exit status" [ "$?" = "$2" ]
    cp "$work/got" "$work/said"
    without_letters <"$work/said" >"$work/got"
    cp "$work/all" "$work/want"
    compared "$1" "$work/want"
}

begin
run
not_open='refused: that savepoint is not open or, to be released, not the innermost (reply 15)'
no_cell='refused: there is no such group or cell (reply 12)'
ask 'show 4' "$four"
ask 'show 5' 'group 5:'
ask 'set 4 1 7300' 'done: cell 1 of group 4 is 7300'
ask 'release 1' "$not_open"
ask 'open' 'done: savepoint 1 is open'
ask 'set 4 1 -7400' 'done: cell 1 of group 4 is -7400'
ask 'open' 'done: savepoint 2 is open'
ask 'set 1 2 66000' 'done: cell 2 of group 1 is 66000'
ask 'release 1' "$not_open"
ask 'undo 3' "$not_open"
ask 'show 1' "$(echo "$one" | awk '{ $4 = 66000; print }')"
ask 'undo 1' 'done: all is as it was when savepoint 1 was opened'
ask 'release 2' "$not_open"
ask 'show 1' "$one"
ask 'show 4' "group 4: 7300 $of_four"
ask 'open' 'done: savepoint 2 is open'
ask 'set 4 40 9223372036854775807' 'done: cell 40 of group 4 is 9223372036854775807'
ask 'set 4 40 -9223372036854775808' 'done: cell 40 of group 4 is -9223372036854775808'
ask 'set 4 40 47600' 'done: cell 40 of group 4 is 47600'
for words in '4 41' '4 0' '5 1' '0 1' '61 1' '4 65537' '260 1' '18446744073709551615 1'; do
    ask "set $words 1" "$no_cell"
done
ask 'release 0' "$not_open"
ask 'undo 18446744073709551615' "$not_open"
ask 'show 0' 'refused: there is no group 0'
ask 'show 61' 'refused: there is no group 61'
for words in frob set 'set 4 1' 'set 4 1 x' 'set 4 1 9223372036854775808' 'set 4 1 -' 'set 4 1 1 1' 'open 1' 'undo' 'undo -1' 'show' 'save it' \
    'undo 18446744073709551616'; do
    ask "$words" "$commands"
done
ask 'release 2' 'done: savepoint 2 is released'
kill -9 "$running"
wait "$running" 2>/dev/null
exec 3>&-
cp "$work/all" "$work/want"
compared 'what is said, up to the kill' "$work/want"

least=-9223372036854775808
greatest=9223372036854775807
done_so_far=$(
    set_field 4 1 3525 7300
    savepoint_field 2 1
    set_field 4 1 7300 -7400
    savepoint_field 2 2
    set_field 1 2 63000 66000
    savepoint_field 4 1
    savepoint_field 2 2
    set_field 4 40 47500 "$greatest"
    set_field 4 40 "$greatest" "$least"
    set_field 4 40 "$least" 47600
    savepoint_field 3 2
)
used=$((6 * 22 + 5 * 4))
holds 'killed' "$done_so_far"
counted 'killed: the day is as it was' cmp -s "$day" examples/day.sao
four_now="group 4: 7300 ${of_four% 47500} 47600"
cp "$journal" "$work/right"

# ---- started again: with nothing behind, and with each part of a further field

resumed=$(replayed 2 "$used" 1)
edit 2 'show 4' 'show 1'
counted 'started again: exit status' [ "$?" = 0 ]
said 'started again' "$loaded" "$resumed" "$four_now" "$one"
holds 'started again' "$done_so_far"

head -c 22 "$work/right" >"$work/set"
printf '\002\000\001\002' >"$work/open"
for field in set open; do
    part=1
    while [ "$part" -lt "$(wc -c <"$work/$field")" ]; do
        { cat "$work/right" && head -c "$part" "$work/$field"; } >"$journal"
        edit 2 'show 4'
        counted "$part bytes of a further $field: exit status" [ "$?" = 0 ]
        said "$part bytes of a further $field" "$loaded" \
            "the field at place $used of the journal was cut short, and its $part bytes were removed" "$resumed" "$four_now"
        holds "$part bytes of a further $field" "$done_so_far"
        part=$((part + 1))
    done
done
head -c 3 "$work/set" >"$journal"
edit 2 'show 4'
said 'the first field cut short' "$loaded" 'the field at place 0 of the journal was cut short, and its 3 bytes were removed' "$four"
holds 'the first field cut short' ''

# ---- a journal that is wrong otherwise: nothing is altered

set_bytes() { # GROUP CELL OLD NEW: a set, as bytes
    set_field "$@" | sed 's/../& /g' | awk '
        BEGIN { for (i = 0; i < 16; i++) digit[sprintf("%x", i)] = i }
        { for (i = 1; i <= NF; i++) printf "\\%03o", 16 * digit[substr($i, 1, 1)] + digit[substr($i, 2, 1)] }' >"$work/escapes"
    # shellcheck disable=SC2059
    printf "$(cat "$work/escapes")"
}

wrong() { # CASE PLACE
    keep
    edit 2 'set 4 1 1' 'save'
    counted "$1: exit status" [ "$?" = 1 ]
    said "$1" "$loaded" "edit: the journal cannot be replayed, and nothing was altered: a field of the journal is wrong (reply 17, place $2)"
    kept "$1"
}

over() { # PLACE OCTAL: the right journal with another byte there
    head -c "$1" "$work/right"
    # shellcheck disable=SC2059
    printf "\\$2"
    tail -c +$(($1 + 2)) "$work/right"
}

begin
over 22 011 >"$journal"
wrong 'a wrong tag in the middle' 22
over 24 002 >"$journal"
wrong 'a wrong length in the middle' 22
over 13 306 >"$journal"
wrong 'another old value' 0
over 25 002 >"$journal"
wrong 'a savepoint that is not the next' 22
{ cat "$work/right" && printf '\005'; } >"$journal"
wrong 'a byte behind that begins no field' "$used"
{ cat "$work/right" && printf '\001\000\001'; } >"$journal"
wrong 'a set with the length of an open' "$used"
{ cat "$work/right" && printf '\001\000\023\075' && tail -c +5 "$work/set"; } >"$journal"
wrong 'a whole field of a group that is not there' "$used"

# ---- saving

set_anew='; the journal has all edits: set that anew or undo, and save again'
done_saved='done: record 2 is saved, in 1992 bytes, and the journal is empty'
kept_saved="$done_saved
what was replayed, and all edits since, are kept in $journal.??????"
begin
cp "$work/right" "$journal"
keep
edit 2 'set 4 1 10000000' 'save'
counted 'a value without a field: exit status' [ "$?" = 1 ]
said 'a value without a field' "$loaded" "$resumed" 'done: cell 1 of group 4 is 10000000' \
    "refused: the cells fit no field (reply 13, group 4, element 1)$set_anew"
counted 'a value without a field: the day is as it was' cmp -s "$day" examples/day.sao
holds 'a value without a field' "$done_so_far$(set_field 4 1 7300 10000000)"
# month 92; position 10 is its first
edit 2 'undo 1' 'set 3 10 57' 'save' 'undo 1'
counted 'a wrong date, set right and not saved: exit status' [ "$?" = 1 ]
said 'a wrong date' "$loaded" "$(replayed 2 $((used + 22)) 1)" \
    'done: all is as it was when savepoint 1 was opened' 'done: cell 10 of group 3 is 57' "refused: the date is wrong (reply 10, position 10)$set_anew" \
    'done: all is as it was when savepoint 1 was opened'
counted 'a wrong date: the day is as it was' cmp -s "$day" examples/day.sao

edited() { # SCRIPT: the day with record 2 altered by it, from the line of its date on
    sed "/^AA20040600229010000/,/^AA20040600229020000/{$1
}" examples/day.sao
}

cp "$work/right" "$journal"
edit 2 'save' 'show 4' 'undo 1'
counted 'saved: exit status' [ "$?" = 0 ]
said 'saved' "$loaded" "$resumed" "$kept_saved" "$four_now" "$not_open"
edited 's/^   3\.5259999/   7.3009999/
s/^\(9999\.000 325.*\)  47\.500/\1  47.600/' >"$work/want"
counted 'two lines of the day differ' [ "$(diff -a examples/day.sao "$work/want" | grep -ac '^>')" -eq 2 ]
cp "$day" "$work/got"
compared 'the saved day' "$work/want"
holds 'saved' ''
files 'saved' day journal 'journal.??????'
counted 'saved: what was replayed is kept' cmp -s "$journal".?????? "$work/right"

# a save that was cut off before it emptied the journal: the journal is that of the day as it was before
ended="record 2, of $(dated 2), has the edits of the journal already: a save was cut off before it had emptied the journal, which is empty now
the edits were those of $journal.??????"
rm "$journal".??????
cp "$work/right" "$journal"
keep
edit 2 'show 4' 'undo 1' 'set 4 1 7301'
counted 'the journal of a saved day: exit status' [ "$?" = 0 ]
said 'the journal of a saved day' "$loaded" "$ended" "$four_now" "$not_open" 'done: cell 1 of group 4 is 7301'
counted 'the journal of a saved day: the day is as it was' cmp -s "$day" "$work/before/day"
files 'the journal of a saved day' day journal 'journal.??????'
counted 'the journal of a saved day is kept' cmp -s "$journal".?????? "$work/right"
holds 'the journal of a saved day' "$(set_field 4 1 7300 7301)"

# the same, but not all of the day is what the journal's calls have made, or not all of the journal is right
sed '/^AA20040600229010000/,/^AA20040600229020000/s/^   7\.300/   7.302/' "$work/before/day" >"$day"
cp "$work/right" "$journal"
wrong 'a saved day that was altered since' 0
cp "$work/before/day" "$day"
{ cat "$work/right" && set_bytes 4 2 1 2; } >"$journal"
wrong 'the journal of a saved day, and a set of something else' 0
{ cat "$work/right" && printf '\001\000'; } >"$journal"
wrong 'the journal of a saved day, and a part of a field' 0
{ cat "$work/right" && printf '\001\000\000'; } >"$journal"
wrong 'the journal of a saved day, and what is no field' 0
for spot in '0 1' '61 1' '4 0' '4 41' '255 65535' '5 1'; do
    # shellcheck disable=SC2086
    { cat "$work/right" && set_bytes $spot 1 2; } >"$journal"
    wrong "the journal of a saved day, and a set of $spot" 0
done
over 150 001 >"$journal"
wrong 'the journal of a saved day, with a wrong length' 0
cp "$work/right" "$journal"
keep
edit 3 'save'
counted 'the journal of another record: exit status' [ "$?" = 1 ]
kept 'the journal of another record'

# all old values count, those of the stretches that were undone too, and of sixteen savepoints
begin
set -- 'set 4 2 11' 'open' 'set 4 2 12' 'set 4 3 13' 'undo 1' 'set 4 3 14' 'undo 1' 'set 4 3 15'
while [ $# -lt 23 ]; do
    set -- "$@" open
done
edit 2 "$@" 'set 4 2 16' 'set 4 2 17' 'undo 16' 'set 4 4 18' 'set 4 4 19'
cp "$journal" "$work/long"
edit 2 'save' 'show 4'
saved_four=$(echo "$four" | awk '{ $4 = 11; $5 = 15; $6 = 19; print }')
said 'many edits are saved' "$loaded" "$(replayed 2 $((9 * 22 + 19 * 4)) 16)" "$kept_saved" "$saved_four"
cp "$work/long" "$journal"
edit 2 'show 4'
said 'the journal of many edits, saved' "$loaded" "$ended" "$saved_four"
holds 'the journal of many edits, saved' ''

# it goes on behind a save
begin
edit 2 'open' 'set 4 1 7301' 'save' 'open' 'set 4 1 7302' 'undo 1' 'set 4 40 1' 'save'
said 'saved twice' "$loaded" 'done: savepoint 1 is open' 'done: cell 1 of group 4 is 7301' \
    "$done_saved" 'done: savepoint 1 is open' 'done: cell 1 of group 4 is 7302' \
    'done: all is as it was when savepoint 1 was opened' 'done: cell 40 of group 4 is 1' \
    "$done_saved"
edited 's/^   3\.5259999/   7.3019999/
s/^\(9999\.000 325.*\)  47\.500/\1   0.001/' >"$work/want"
cp "$day" "$work/got"
compared 'the day that was saved twice' "$work/want"

# somebody else alters the day meanwhile
begin
run
ask 'set 4 1 7301' 'done: cell 1 of group 4 is 7301'
printf 'x' >>"$day"
keep
ask 'save' 'refused: the day is not as it was loaded; the journal has all edits, so start again'
closed 'an altered day' 1
kept 'an altered day'
edit 2 'save'
said 'an altered day, loaded again' "$loaded" "$(replayed 2 22 0)" "$kept_saved"
{ edited 's/^   3\.5259999/   7.3019999/' && printf 'x'; } >"$work/want"
cp "$day" "$work/got"
compared 'the altered day, saved' "$work/want"

# a new day that can't be written: its name would have more bytes than a name can have
begin
name_of_250=$(awk 'BEGIN { for (i = 0; i < 250; i++) printf "d" }')
day=$work/files/$name_of_250
mv "$work/files/day" "$day"
edit 2 'set 4 1 7301' 'save' 'show 5'
said 'a day that cannot be written' "$loaded" 'done: cell 1 of group 4 is 7301' "edit: $day: File name too long" \
    'refused: the day could not be written, and is as it was; the journal has all edits' 'group 5:'
counted 'a day that cannot be written is as it was' cmp -s "$day" examples/day.sao
holds 'a day that cannot be written' "$(set_field 4 1 3525 7301)"
files 'a day that cannot be written' journal "$name_of_250"
day=$work/files/day

# R101: the saved record, the lines from 26 to 50, has carriage returns, and all other bytes of a day without them stay
begin
tr -d '\r' <examples/day.sao >"$day"
edit 2 'set 4 1 7301' 'save'
said 'a day without carriage returns' "$loaded" 'done: cell 1 of group 4 is 7301' "$done_saved"
edited 's/^   3\.5259999/   7.3019999/' | awk 'NR < 26 || NR > 50 { sub(/\r$/, "") } { print }' >"$work/want"
cp "$day" "$work/got"
compared 'a day without carriage returns, saved' "$work/want"

# a journal with any name that a new day might have
edited 's/^   3\.5259999/   7.3019999/' >"$work/saved"
begin
plain_journal=$journal
for journal in "$day.new" "$day.XXXXXX" "$day~" "$day.tmp"; do
    cp examples/day.sao "$day"
    edit 2 'set 4 1 7300' 'save' 'set 4 1 7301' 'save' 'open'
    said "$journal" "$loaded" 'done: cell 1 of group 4 is 7300' "$done_saved" \
        'done: cell 1 of group 4 is 7301' "$done_saved" 'done: savepoint 1 is open'
    counted "$journal: the day is saved" cmp -s "$day" "$work/saved"
    holds "$journal" "$(savepoint_field 2 1)"
done
files 'journals with names like that of the day' day day.new day.XXXXXX 'day~' day.tmp
journal=$plain_journal

# the day itself as its journal, by any of its names
begin
ln "$day" "$work/files/other"
ln -s day "$work/files/link"
for journal in "$day" "$work/files/other" "$work/files/link"; do
    edit 2 'open'
    counted "the day as its journal, $journal: exit status" [ "$?" = 1 ]
    said "the day as its journal, $journal" "$loaded" "edit: the journal $journal is the day itself; nothing was altered"
    counted "the day as its journal, $journal: it is as it was" cmp -s "$day" examples/day.sao
done
journal=$plain_journal

# a day that is a symbolic link, into another folder, stays one; the file behind it has its mode and its owner
begin
mkdir "$work/files/kept"
mv "$day" "$work/files/kept/true"
ln -s kept/true "$day"
chmod 640 "$work/files/kept/true"
[ "$(id -u)" != 0 ] || chown 12:34 "$work/files/kept/true"
mode_of() { # FILE: its mode, owner and group
    # shellcheck disable=SC2012
    ls -ln "$1" | awk '{ print $1, $3, $4 }'
}
mode_of "$work/files/kept/true" >"$work/mode"
edit 2 'set 4 1 7301' 'save'
said 'a day behind a link' "$loaded" 'done: cell 1 of group 4 is 7301' "$done_saved"
counted 'a day behind a link is saved' cmp -s "$work/files/kept/true" "$work/saved"
counted 'and stays behind it' [ "$(readlink "$day")" = kept/true ]
counted 'with a mode that is not that of other files' grep -q '^-rw-r-----' "$work/mode"
counted 'which it keeps' [ "$(mode_of "$work/files/kept/true")" = "$(cat "$work/mode")" ]
files 'a day behind a link' day journal kept true

# ---- a save that is killed, or fails, on its way

begin
faulty unrenamed 'set 4 1 7301' 'save'
counted 'killed before the renaming: exit status' [ "$?" = 137 ]
said 'killed before the renaming' "$loaded" 'done: cell 1 of group 4 is 7301'
counted 'killed before the renaming: the day is as it was' cmp -s "$day" examples/day.sao
holds 'killed before the renaming' "$(set_field 4 1 3525 7301)"
counted 'killed before the renaming: the new day is there' [ "$(there | wc -l)" = 3 ]
edit 2 'save'
said 'killed before the renaming, started again' "$loaded" "$(replayed 2 22 0)" "$kept_saved"
counted 'killed before the renaming, saved again' cmp -s "$day" "$work/saved"

for fault in renamed emptying; do
    begin
    faulty "$fault" 'set 4 1 7302' 'open' 'set 4 1 7301' 'set 4 2 1' 'open' 'set 4 2 2' 'undo 1' 'set 4 1 7301' 'save'
    counted "$fault, killed: exit status" [ "$?" = 137 ]
    counted "$fault, killed: the day is saved" cmp -s "$day" "$work/saved"
    counted "$fault, killed: the journal has all edits" [ "$(wc -c <"$journal")" -eq $((5 * 22 + 3 * 4)) ]
    edit 2 'show 4' 'set 4 1 7300'
    counted "$fault, started again: exit status" [ "$?" = 0 ]
    said "$fault, started again" "$loaded" "$ended" "group 4: 7301 $of_four" 'done: cell 1 of group 4 is 7300'
    counted "$fault, started again: the day is saved" cmp -s "$day" "$work/saved"
    holds "$fault, started again" "$(set_field 4 1 7301 7300)"
    files "$fault" day journal 'journal.??????'
done

# the wrong record, whose cell happens to have what was set: the edit is not lost
begin
edit 3 'set 4 1 3525'
edit 2
said 'the wrong record, with the same cell' "$loaded" "$ended"
cp "$journal".?????? "$journal"
edit 3
said 'the right record, with the journal that was kept' "$third_loaded" "$(replayed 3 22 0)"

# each flush of a run fails it in turn: that of the journal's folder, of the first field, of the new day, of its folder, of the emptied journal
folder=$(cd "$work/files" && pwd -P)
first=$(set_field 4 1 3525 7301)

flush_fails() { # NUMBER CASE LINE..: with that flush, that is said behind the first line
    begin
    fault=flush$1
    shift
    what=$1
    shift
    faulty "$fault" 'set 4 1 7301' 'save' 'show 5'
    ended_with=$?
    said "$what" "$loaded" "$@"
}

flush_fails 1 'a folder for the journal that cannot be flushed' "edit: $folder/.: Input/output error"
counted 'a folder for the journal that cannot be flushed: exit status' [ "$ended_with" = 1 ]

flush_fails 2 'a journal that cannot be written' "edit: $journal: Input/output error" \
    'perhaps not done: the journal could not be written; what was done before is in it, so start again and look'
counted 'a journal that cannot be written: exit status' [ "$ended_with" = 1 ]

not_saved() { # CASE: a refused save ends nothing, and leaves no file but the two
    counted "$1: exit status" [ "$ended_with" = 1 ]
    counted "$1: the day is as it was" cmp -s "$day" examples/day.sao
    holds "$1" "$first"
    files "$1" day journal
}

not_written='refused: the day could not be written, and is as it was; the journal has all edits'
flush_fails 3 'a new day that cannot be flushed' 'done: cell 1 of group 4 is 7301' "edit: $folder/day.??????: Input/output error" \
    "$not_written" 'group 5:'
not_saved 'a new day that cannot be flushed'

begin
faulty fixed 'set 4 1 7301' 'save' 'show 5'
ended_with=$?
said 'a day that cannot be replaced' "$loaded" 'done: cell 1 of group 4 is 7301' "edit: $folder/day: Input/output error" "$not_written" 'group 5:'
not_saved 'a day that cannot be replaced'

begin
faulty unlocked 'set 4 1 7301' 'save' 'show 5'
ended_with=$?
said 'a day that cannot be locked' "$loaded" 'done: cell 1 of group 4 is 7301' "edit: $day: Input/output error" \
    'refused: the day cannot be locked, and is as it was; the journal has all edits' 'group 5:'
not_saved 'a day that cannot be locked'

flush_fails 4 'a folder that cannot be flushed' 'done: cell 1 of group 4 is 7301' "edit: $folder/.: Input/output error" \
    'saved, but perhaps not yet safe: a power failure may bring the old day back; the journal is kept, so start again'
counted 'a folder that cannot be flushed: exit status' [ "$ended_with" = 1 ]
counted 'a folder that cannot be flushed: the day is saved' cmp -s "$day" "$work/saved"
holds 'a folder that cannot be flushed' "$first"
files 'a folder that cannot be flushed' day journal
keep

# the save is ended at the next start: its flushes are those of the journal's folder, of the day's, of the copy, of its folder, of the emptied journal
end_fails() { # FAULT CASE LINE..: the save is not ended, and that is said behind the first line
    cp "$work/before/day" "$work/before/journal" "$work/files"
    fault=$1
    shift
    what=$1
    shift
    faulty "$fault" 'show 4'
    ended_with=$?
    said "$what" "$loaded" "$@"
    counted "$what: the day is saved" cmp -s "$day" "$work/saved"
}

not_emptied='edit: the day has the edits of the journal already, but the journal could not be emptied: start again, or move it away'
end_fails flush2 'a folder that cannot be flushed again' "edit: $folder/.: Input/output error" \
    'edit: the day has the edits of the journal already, but perhaps not yet safe; nothing was altered, so start again'
counted 'a folder that cannot be flushed again: exit status' [ "$ended_with" = 1 ]
kept 'a folder that cannot be flushed again'
end_fails flush3 'a copy that cannot be flushed' "edit: $journal.??????: Input/output error" "$not_emptied"
counted 'a copy that cannot be flushed: exit status' [ "$ended_with" = 1 ]
kept 'a copy that cannot be flushed'
files 'a copy that cannot be flushed' day journal
end_fails flush4 'a folder of the copy that cannot be flushed' "edit: $work/files/.: Input/output error" "$not_emptied"
counted 'a folder of the copy that cannot be flushed: exit status' [ "$ended_with" = 1 ]
kept 'a folder of the copy that cannot be flushed'
files 'a folder of the copy that cannot be flushed' day journal
end_fails emptying 'killed before the journal is emptied'
counted 'killed before the journal is emptied: exit status' [ "$ended_with" = 137 ]
kept 'killed before the journal is emptied'
counted 'killed before the journal is emptied: the copy is there' cmp -s "$journal".?????? "$work/before/journal"
rm -f "$journal".??????
for fault in full flush5; do
    end_fails "$fault" "a journal that cannot be emptied at a start, $fault" "edit: $journal: Input/output error" "$not_emptied"
    counted "a journal that cannot be emptied at a start, $fault: exit status" [ "$ended_with" = 1 ]
    counted "a journal that cannot be emptied at a start, $fault: the copy is there" cmp -s "$journal".?????? "$work/before/journal"
    rm -f "$journal".??????
done
cp "$work/before/journal" "$journal"
edit 2 'show 5'
said 'a folder that can be flushed again' "$loaded" "$ended" 'group 5:'
holds 'a folder that can be flushed again' ''
# the power failure brought the old day back
cp examples/day.sao "$day"
cp "$work/before/journal" "$journal"
edit 2 'show 4'
said 'the old day is back' "$loaded" "$(replayed 2 22 0)" "group 4: 7301 $of_four"

could_not='saved, but the journal could not be emptied: start again, which does so'
begin
faulty full 'set 4 1 7301' 'save' 'show 4'
counted 'a journal that cannot be emptied: exit status' [ "$?" = 1 ]
said 'a journal that cannot be emptied' "$loaded" 'done: cell 1 of group 4 is 7301' "edit: $journal: Input/output error" "$could_not"
counted 'a journal that cannot be emptied: the day is saved' cmp -s "$day" "$work/saved"
edit 2
said 'a journal that can be emptied' "$loaded" "$ended"
holds 'a journal that can be emptied' ''

flush_fails 5 'an emptied journal that cannot be flushed' 'done: cell 1 of group 4 is 7301' "edit: $journal: Input/output error" "$could_not"
counted 'an emptied journal that cannot be flushed: exit status' [ "$ended_with" = 1 ]
counted 'an emptied journal that cannot be flushed: the day is saved' cmp -s "$day" "$work/saved"
holds 'an emptied journal that cannot be flushed' ''

# a save whose run began with a replay: what was replayed is kept before the journal is emptied
begin
edit 2 'set 4 1 7301'
keep
faulty flush4 'save'
counted 'a copy of what was replayed that cannot be flushed: exit status' [ "$?" = 1 ]
said 'a copy of what was replayed that cannot be flushed' "$loaded" "$(replayed 2 22 0)" "edit: $journal.??????: Input/output error" "$could_not"
holds 'a copy of what was replayed that cannot be flushed' "$first"
files 'a copy of what was replayed that cannot be flushed' day journal
cp "$work/before/day" "$day"
faulty emptying 'save'
counted 'killed when what was replayed is kept: exit status' [ "$?" = 137 ]
holds 'killed when what was replayed is kept' "$first"
counted 'killed when what was replayed is kept: the copy is there' cmp -s "$journal".?????? "$work/before/journal"

# the date that is told is that of the day, not one that was set; and the minute and second of record S
begin
edit 2 'set 3 15 50'
edit 2
said 'a journal that sets the hour' "$loaded" "$(replayed 2 22 0)"
cp examples/s.sao "$day"
rm "$journal"
edit 1 'open'
edit 1
counted 'the date of S in the text' grep -aq '^AA20062650922142530' "$day"
said 'the date of S' 'record 1 has 24 cells' 'replayed 4 bytes of the journal over record 1, of 2006-09-22 14:25:30; savepoints open: 1'

# the wrong record, whose cells are what those of the right one were: the dip angle is the same all day. What is said names the record, and the
# edits are not lost
begin
edit 3 'set 1 2 66000'
keep
edit 2 'show 1' 'set 4 1 7301' 'save' 'set 4 1 7300' 'save'
said 'the wrong record, with cells that are alike' "$loaded" "$(replayed 2 22 0)" "$(echo "$one" | awk '{ $4 = 66000; print }')" \
    'done: cell 1 of group 4 is 7301' "$kept_saved" 'done: cell 1 of group 4 is 7300' "$done_saved"
files 'the wrong record, with cells that are alike' day journal 'journal.??????'
counted 'the wrong record, with cells that are alike: all edits are kept' \
    [ "$(bytes "$(echo "$journal".??????)")" = "$(set_field 1 2 63000 66000)$first" ]
head -c 22 "$journal".?????? >"$journal"
counted 'what was replayed is the journal of the right record' cmp -s "$journal" "$work/before/journal"
edit 3 'show 1'
said 'the right record, with what was kept of the journal' "$third_loaded" "$(replayed 3 22 0)" "$(echo "$one" | awk '{ $4 = 66000; print }')"

# ---- two editors

second() { # RECORD JOURNAL LINE..: another editor of the day; what it says is in "$work/second"
    second_record=$1
    second_journal=$2
    shift 2
    printf '%s\n' "$@" >"$work/commands"
    started "$work/edit" "$day" "$second_record" "$second_journal" <"$work/commands" >"$work/said" 2>&1
    second_status=$?
    without_letters <"$work/said" >"$work/second"
    return "$second_status"
}

second_said() { # CASE LINE..
    what=$1
    shift
    printf '%s\n' "$@" >"$work/want"
    counted "$what" cmp -s "$work/second" "$work/want" || diff -a "$work/want" "$work/second"
}

# on one journal, by any of its names
begin
run
ask 'set 4 1 7300' 'done: cell 1 of group 4 is 7300'
ln -s journal "$work/files/link"
ln "$journal" "$work/files/other"
keep
for other in "$journal" "$work/files/link" "$work/files/other"; do
    second 2 "$other" 'set 4 1 1' 'save'
    counted "a second editor on $other: exit status" [ "$?" = 1 ]
    second_said "a second editor on $other" "$loaded" "edit: another editor is at work with $other; nothing was altered"
    kept "a second editor on $other"
done
ask 'set 4 1 7301' 'done: cell 1 of group 4 is 7301'
ask 'save' "$done_saved"
second 2 "$journal" 'open'
counted 'a second editor behind a save: exit status' [ "$?" = 1 ]
holds 'a second editor behind a save' ''
closed 'the first of two editors' 0
counted 'the first of two editors has saved' cmp -s "$day" "$work/saved"
second 2 "$journal" 'open'
second_said 'the second editor, when the first has gone' "$loaded" 'done: savepoint 1 is open'

# on two records of one day
third_set='done: cell 1 of group 4 is 3426'
third_saved="done: record 3 is saved, in $(sed -n 51,75p examples/day.sao | wc -c) bytes, and the journal is empty"
sed '/^AA20040600229020000/,/^AA20040600229030000/s/^   3\.4259999/   3.4269999/' "$work/saved" >"$work/both"
counted 'a line of record 3 differs' [ "$(diff -a "$work/saved" "$work/both" | grep -ac '^>')" -eq 1 ]
begin
run
ask 'set 4 1 7301' 'done: cell 1 of group 4 is 7301'
second 3 "$work/files/third" 'set 4 1 3426' 'save'
second_said 'two records: the second editor' "$third_loaded" "$third_set" "$third_saved"
ask 'save' 'refused: the day is not as it was loaded; the journal has all edits, so start again'
closed 'two records: the first editor' 1
edit 2 'save'
said 'two records: the first editor, started again' "$loaded" "$(replayed 2 22 0)" "$kept_saved"
counted 'two records: both are saved' cmp -s "$day" "$work/both"

# on one record of it: what the other has saved in another cell stays, and in the same cell it refuses the journal
begin
run
ask 'set 4 1 7301' 'done: cell 1 of group 4 is 7301'
second 2 "$work/files/third" 'set 4 40 1' 'save'
second_said 'one record, two cells: the second editor' "$loaded" 'done: cell 40 of group 4 is 1' "$done_saved"
ask 'save' 'refused: the day is not as it was loaded; the journal has all edits, so start again'
closed 'one record, two cells: the first editor' 1
edit 2 'show 4'
said 'one record, two cells: started again' "$loaded" "$(replayed 2 22 0)" "group 4: 7301 ${of_four% 47500} 1"
second 2 "$work/files/third" 'set 4 1 7302' 'save'
wrong 'one record, one cell: started again' 0
second 2 "$work/files/new" 'show 4' 'set 4 1 7301' 'save'
second_said 'one record, one cell: with a new journal' "$loaded" "group 4: 7302 ${of_four% 47500} 1" 'done: cell 1 of group 4 is 7301' "$done_saved"

# the day is replaced by another editor in the very moment in which it is loaded, or locked for a save
OTHER=$work/files/other
REPLACED=$day
export OTHER REPLACED
begin
cp "$work/saved" "$OTHER"
faulty loading 'set 4 1 1'
counted 'saved while it is loaded: exit status' [ "$?" = 1 ]
said 'saved while it is loaded' "$loaded" 'edit: the day was saved by another editor while it was being loaded; start again'
counted 'saved while it is loaded: the day' cmp -s "$day" "$work/saved"
holds 'saved while it is loaded' ''
begin
cp "$day" "$OTHER"
faulty saving 'set 4 1 7301' 'save' 'save'
said 'replaced while it is locked' "$loaded" 'done: cell 1 of group 4 is 7301' \
    'refused: another editor is saving this day just now; the journal has all edits, so save again' "$done_saved"
counted 'replaced while it is locked, and saved again' cmp -s "$day" "$work/saved"

# the journal is replaced before it is locked
begin
: >"$OTHER"
REPLACED=$journal
faulty loading 'set 4 1 1'
counted 'a journal that is replaced before it is locked: exit status' [ "$?" = 1 ]
said 'a journal that is replaced before it is locked' "$loaded" "edit: $journal was removed or replaced while it was being opened; start again"
holds 'a journal that is replaced before it is locked' ''

# ---- the journal's name, or the day's, leads elsewhere while the editor is at work

elsewhere() { # WAY: it does from now on
    case $1 in
    removed) rm "$journal" ;;
    replaced) : >"$work/files/new" && mv "$work/files/new" "$journal" ;;
    relinked) ln -sf new "$journal" && : >"$work/files/new" ;;
    moved) mv "$work/files/kept" "$work/files/gone" && mkdir "$work/files/kept" ;;
    followed) mv "$work/files/old" "$work/files/kept/old" && ln -sf kept/old "$journal" ;; # into a folder that was not flushed
    esac
}

starts_elsewhere() { # WAY: an editor has set a cell, and the name leads elsewhere
    begin
    mkdir "$work/files/kept"
    case $1 in
    relinked | followed) journal=$work/files/link && ln -s old "$journal" ;;
    moved) journal=$work/files/kept/journal ;;
    esac
    run
    ask 'set 4 1 7300' 'done: cell 1 of group 4 is 7300'
    elsewhere "$1"
}

for way in removed replaced relinked moved followed; do
    for command in 'set 4 1 7301' open; do
        starts_elsewhere "$way"
        ask "$command" "perhaps not done: $journal does not lead where it led at the start, so what was done may not be found again
to go on with all edits since the last save, start again with the journal $journal.??????"
        closed "a journal that was $way, $command" 1
        counted "a journal that was $way, $command: the day is as it was" cmp -s "$day" examples/day.sao
        case $command in
        open) last=$(savepoint_field 2 1) ;;
        *) last=$(set_field 4 1 7300 7301) ;;
        esac
        counted "a journal that was $way, $command: all edits are kept" \
            [ "$(bytes "$(echo "$journal".??????)")" = "$(set_field 4 1 3525 7300)$last" ]
        journal=$plain_journal
    done
    starts_elsewhere "$way"
    ask 'save' "saved, but $journal does not lead where it led at the start: look what stands there, and start again"
    closed "a journal that was $way, save" 1
    counted "a journal that was $way, save: the day is saved" [ "$(sed 's/^   7\.300/   7.301/' "$day" | cmp - "$work/saved")" = '' ]
    journal=$plain_journal
done

# the copy is taken up as the journal
starts_elsewhere removed
ask 'set 4 1 7301' "perhaps not done: $journal does not lead where it led at the start, so what was done may not be found again
to go on with all edits since the last save, start again with the journal $journal.??????"
closed 'a journal that was removed' 1
second 2 "$(echo "$journal".??????)" 'show 4'
second_said 'the copy of a journal that was removed' "$loaded" "$(replayed 2 44 0)" "group 4: 7301 $of_four"

# no file can be made beside it
begin
mkdir "$work/files/kept"
journal=$work/files/kept/journal
run
ask 'set 4 1 7300' 'done: cell 1 of group 4 is 7300'
rm -r "$work/files/kept"
ask 'set 4 1 7301' "edit: $journal: No such file or directory
perhaps not done: $journal does not lead where it led at the start, so what was done may not be found again"
closed 'a journal whose folder was removed' 1
journal=$plain_journal

# the day is removed, and there again
begin
run
ask 'set 4 1 7301' 'done: cell 1 of group 4 is 7301'
mv "$day" "$work/files/gone"
ask 'save' "edit: $day: No such file or directory
refused: the day cannot be opened; the journal has all edits"
counted 'a day that was removed: no other is made' [ "$(there | tr '\n' ' ')" = 'gone journal ' ]
mv "$work/files/gone" "$day"
ask 'save' "$done_saved"
closed 'a day that was removed, and is there again' 0
counted 'a day that was removed, and is there again: it is saved' cmp -s "$day" "$work/saved"

# two saves at once
begin
FAULT=stopped
export FAULT
program=$work/faulty
run
program=$work/edit
unset FAULT
ask 'set 4 1 7301' 'done: cell 1 of group 4 is 7301'
ask 'save' 'stopped'
grep -qx stopped "$work/got" || kill -9 "$running" # else it might stop behind the signal to go on
keep
second 3 "$work/files/third" 'set 4 1 3426' 'save'
second_said 'two saves at once: the second' "$third_loaded" "$third_set" \
    'refused: another editor is saving this day just now; the journal has all edits, so save again'
kept 'two saves at once: the second'
kill -CONT "$running"
echo "$done_saved" >>"$work/all"
awaited "$(wc -l <"$work/all")"
closed 'two saves at once: the first' 0
counted 'two saves at once: the first has saved' cmp -s "$day" "$work/saved"
second 3 "$work/files/third" 'save'
second_said 'two saves at once: the second, again' "$third_loaded" "$(replayed 3 22 0)" "$third_saved
what was replayed, and all edits since, are kept in $work/files/third.??????"
counted 'two saves at once: both are saved' cmp -s "$day" "$work/both"

# ---- a text

# records that are not canonical: the edited one becomes so, all others stay as they are, and one byte behind the last is kept
rm -f "$journal"
{ below_zero | sed 's/^ -12\.345/000.010 /;s/^000\.010 /0000.010/' && printf 'x'; } >"$day"
edit 2 'set 1 1 -0' 'save'
said 'a text that is not canonical' 'record 2 has 24 cells' 'done: cell 1 of group 1 is 0' \
    'done: record 2 is saved, in 305 bytes, and the journal is empty'
{ cat examples/s.sao && sed 's/^   7\.250/  -0.500/;s/^  1\.200/  0.000/' examples/s.sao && sed 's/^   7\.250/0000.010/' examples/s.sao &&
    cat examples/s.sao && printf 'x'; } >"$work/want"
cp "$day" "$work/got"
compared 'the saved text' "$work/want"

# ---- the limits

begin
: >"$work/want"
set --
savepoint=1
while [ "$savepoint" -le 17 ]; do
    set -- "$@" open
    savepoint=$((savepoint + 1))
done
edit 2 "$@" 'release 16' 'open' 'undo 3' 'open'
{ echo "$loaded" && awk 'BEGIN { for (i = 1; i <= 16; i++) print "done: savepoint " i " is open" }' &&
    printf '%s\n' 'refused: 16 savepoints are open already (reply 16)' 'done: savepoint 16 is released' 'done: savepoint 16 is open' \
        'done: all is as it was when savepoint 3 was opened' 'done: savepoint 4 is open'; } >"$work/want"
compared 'sixteen savepoints' "$work/want"

# a journal of 1,048,576 bytes, opened and released again and again, is full for set and open
full='refused: there is no room left (reply 11); the journal is full: save empties it, and undo and release have room'
no_field="refused: the cells fit no field (reply 13, group 4, element 1)$set_anew"

doubled() { # BYTES: a file, which is doubled up to so many
    while [ "$(wc -c <"$work/doubled")" -lt "$1" ]; do
        cat "$work/doubled" "$work/doubled" >"$work/twice"
        mv "$work/twice" "$work/doubled"
    done
    head -c "$1" "$work/doubled"
}

begin
printf '\002\000\001\001\003\000\001\001' >"$work/doubled"
doubled 1048576 >"$journal"
keep
edit 2 'set 4 1 1' 'open'
said 'a full journal' "$loaded" "$(replayed 2 1048576 0)" "$full" "$full"
kept 'a full journal'
edit 2 'set 4 1 7301' 'save' 'set 4 1 7301' 'save'
said 'a full journal is saved' "$loaded" "$(replayed 2 1048576 0)" "$full" "$kept_saved" \
    'done: cell 1 of group 4 is 7301' "$done_saved"
counted 'a full journal is saved: the day' cmp -s "$day" "$work/saved"
holds 'a full journal is saved' ''

# one with a value that has no field: it can be set anew once a save has found it, also when the run was killed meanwhile
begin
{ set_bytes 4 1 3525 10000000 && doubled 1048552; } >"$journal"
edit 2 'set 4 1 7301' 'open' 'save' 'set 4 1 20000000' 'open' 'save'
said 'a full journal that cannot be saved' "$loaded" "$(replayed 2 1048574 0)" "$full" "$full" "$no_field" \
    'done: cell 1 of group 4 is 20000000' "$full" "$no_field"
edit 2 'set 4 1 7301' 'save' 'set 4 1 7301' 'save' 'open'
said 'a full journal with a value set anew' "$loaded" "$(replayed 2 1048596 0)" "$full" "$no_field" \
    'done: cell 1 of group 4 is 7301' "$kept_saved" 'done: savepoint 1 is open'
counted 'a full journal with a value set anew: the day' cmp -s "$day" "$work/saved"
holds 'a full journal with a value set anew' "$(savepoint_field 2 1)"

# one in which savepoints are open
begin
printf '\002\000\001\003\003\000\001\003' >"$work/doubled"
{ set_bytes 4 1 3525 7301 && printf '\002\000\001\001\002\000\001\002' && set_bytes 4 1 7301 10000000 && doubled 1048520; } >"$journal"
edit 2 'open' 'save' 'open' 'release 2' 'undo 1' 'save'
said 'a full journal that is undone' "$loaded" "$(replayed 2 1048572 2)" 'done: savepoint 3 is open' \
    "$no_field" "$full" "$not_open" 'done: all is as it was when savepoint 1 was opened' "$kept_saved"
counted 'a full journal that is undone: the day' cmp -s "$day" "$work/saved"

# 65,536 bytes are left for that, and no more
begin
printf '\002\000\001\001\003\000\001\001' >"$work/doubled"
{ doubled 1114108 && printf '\003\000\001\001'; } >"$journal"
keep
edit 2 'set 4 1 1' 'open'
said 'the longest journal' "$loaded" "$(replayed 2 1114112 0)" "$full" "$full"
kept 'the longest journal'
printf '\002' >>"$journal"
keep
edit 2 'open'
counted 'a journal that is too long: exit status' [ "$?" = 1 ]
said 'a journal that is too long' "$loaded" "edit: $journal has more than 1114112 bytes; nothing was altered"
kept 'a journal that is too long'

# the most cells that the rules on counts let a record have: 999 elements in each group but 2 (two lines), 4, 54 and 55 (49 each); all of them 0
awk '
    function form(groups, field, many, cells, i, list) {
        split(groups, list, " ")
        for (i in list) { fields[list[i]] = field; per_line[list[i]] = many; cells_of[list[i]] = cells }
    }
    function times(text, many, all) { for (all = ""; many > 0; many--) all = all text; return all }
    BEGIN {
        for (g = 1; g <= 60; g++) form(g, "   0.000", 15, 1)
        form("1 6", "  0.000", 16, 1)
        form("2", times(" ", 120), 1, 120)
        form("3 54 55", "A", 120, 1)
        form("5", " 0", 60, 1)
        form("9 14 19 23 27 31 34 35 36 44 48", "  0", 40, 1)
        form("10 15 20 24 28 32 41 45 49 56", "0", 120, 1)
        form("37 38 39 42 57", "0.000000E+0", 10, 2)
        form("40", "  0.000000000000E+00", 6, 2)
        form("53 60", "0.000E+0", 15, 2)
        for (g = 1; g <= 80; g++) {
            count = g == 2 ? 2 : g == 4 || g == 54 || g == 55 ? 49 : g <= 60 ? 999 : g == 80 ? 5 : 0
            counts[g] = count
            printf "%3d%s", count, g % 40 ? "" : "\r\n"
        }
        for (g = 1; g <= 60; g++) {
            for (n = counts[g]; n > 0; n -= per_line[g]) {
                line = times(fields[g], n < per_line[g] ? n : per_line[g])
                if (g == 3 && n == 999)
                    line = "AA20062650922142530" substr(line, 20)
                printf "%s\r\n", line
            }
            cells += counts[g] * cells_of[g]
        }
        print cells >"/dev/stderr"
    }' >"$day" 2>"$work/cells"
rm -f "$journal"
most=$(cat "$work/cells")
counted 'the most cells' [ "$most" -gt 64000 ]
edit 1 'set 60 1998 7' 'set 60 1999 7' 'save'
said 'a record of the most cells' "record 1 has $most cells" 'done: cell 1998 of group 60 is 7' "$no_cell" \
    "done: record 1 is saved, in $(wc -c <"$day") bytes, and the journal is empty"
counted 'a record of the most cells: its last field' [ "$(tail -c 10 "$day")" = "$(printf '0.000E+7\r')" ]

# a line that may be a part of what was meant
begin
{ echo && awk 'BEGIN { printf "set 4 1 7"; for (i = 0; i < 300; i++) printf " "; print "" }' && printf 'set 4 1 73'; } >"$work/commands"
started "$work/edit" "$day" 2 "$journal" <"$work/commands" >"$work/got" 2>&1
counted 'a part of a line: exit status' [ "$?" = 0 ]
said 'a part of a line' "$loaded" "$commands" "$commands"
holds 'a part of a line' ''
finished 512
