#!/bin/sh
# examples/follow.c on texts that come in pieces (R256, R257). Each record of the example day is told once, after the piece that has its last byte,
# with the places of the listing, whatever the pieces are; a cut text ends in waiting, and goes on as if it had never been cut. A walk that meets a
# ruined index stops for good once both lines of it are there. Where each record begins and ends comes from the program `list` and, of texts made
# of S, from R381. Prints each case that fails, and how many passed.
set -u
LC_ALL=C
export LC_ALL
cd "$(dirname "$0")/.." || exit 2
name=grow
. tests/cases
. tests/kit

day=examples/day.sao
source=examples/follow.c
counted 'the archive' archived || finished 1 || exit 1
counted 'the program' compiled "$source" "$work/follow.o" -std=c99 && counted 'linked' linked "$work/follow" "$work/follow.o" || finished 1 || exit 1
if command -v cc >/dev/null; then
    counted "$source, cc with its own headers" cc -std=c99 -Wall -Wextra -pedantic -Werror -Iinclude -fsyntax-only "$source"
fi
counted "$source: no function is longer than 40 lines" \
    none "$(awk '/^{/ { from = NR } /^}/ && from { if (NR - from > 39) print; from = 0 }' "$source")"

follow() { # TEXT WORD..: what it prints, in "$work/got"; its exit status
    text=$1
    shift
    started "$work/follow" "$@" <"$text" >"$work/got" 2>"$work/said"
}

# What is due: a row `NUMBER PLACE NEXT REPLY ..` of a listing is told after the first whole piece with the byte before NEXT, or at the text's end;
# `end MANY PLACE REPLY ..` is the last line, after all bytes.
due() { # LISTING BYTES SIZE
    awk -v bytes="$2" -v size="$3" '
        function after(place, pieces) {
            pieces = int((place + bytes - 1) / bytes) * bytes
            return pieces < size ? pieces : size
        }
        $1 == "end" { print "waiting at " $3 ", reply " $4 ", after " size " bytes"; next }
        { print "record " $1 ": " $2 " to " $3 ", reply " $4 ", after " after($3) " bytes" }' "$1"
}

told() { # CASE TEXT LISTING BYTES..: in pieces of each length, and with exit status 0
    what=$1 whole=$2 rows=$3
    shift 3
    for bytes in "$@"; do
        due "$rows" "$bytes" "$(wc -c <"$whole" | tr -d ' ')" >"$work/want"
        counted "$what, $bytes at a time: exit status 0" follow "$whole" "$bytes"
        compared "$what, $bytes at a time" "$work/want"
        counted "$what, $bytes at a time: nothing on standard error" [ ! -s "$work/said" ]
    done
}

# ---- the day

./run list <"$day" >"$work/day.list"
counted 'the day has 24 records' [ "$(grep -vc '^end' "$work/day.list")" -eq 24 ]
told 'the day' "$day" "$work/day.list" 1 7 1000 65536
told 'the damaged day' examples/damaged.sao "$work/day.list" 1 7 1000

# cut one byte before the end of the first record and of the last two, one byte behind that of the last but one, and in the last one's index: told
# is what is whole
for cut in 56139 54063 54065 54300 2019; do
    head -c "$cut" "$day" >"$work/cut"
    ./run list <"$work/cut" >"$work/cut.list"
    awk -v cut="$cut" '$1 != "end" && $3 <= cut' "$work/day.list" >"$work/whole"
    grep -v '^end' "$work/cut.list" >"$work/rows"
    counted "cut at $cut: the records that are whole" cmp -s "$work/rows" "$work/whole"
    counted "cut at $cut: the listing ends with 3" grep -q '^end [0-9]* [0-9]* 3 0$' "$work/cut.list"
    told "cut at $cut" "$work/cut" "$work/cut.list" 1 1000
done
head -c 54064 "$day" >"$work/cut"
{ head -n 23 "$work/day.list"; echo 'end 23 54064 1 0'; } >"$work/cut.list"
told 'cut between two records' "$work/cut" "$work/cut.list" 1 7 1000
: >"$work/none"
echo 'end 0 0 1 0' >"$work/none.list"
told 'nothing at all' "$work/none" "$work/none.list" 1 1000

# ---- while it is still open: a record is told though nothing more comes, behind a part of the next and at its own end

lines() { # NUMBER: so many lines have been told, within a minute
    waited=0
    while [ "$(wc -l <"$work/told")" -lt "$1" ] && [ "$waited" -lt 600 ]; do
        sleep 0.1
        waited=$((waited + 1))
    done
    [ "$(wc -l <"$work/told")" -eq "$1" ]
}

mkfifo "$work/pipe"
: >"$work/told"
(becomes "$work/follow" 4096 <"$work/pipe" >"$work/told" 2>&1) &
exec 3>"$work/pipe"
head -c 3000 "$day" >&3
counted 'the first record, while the second is not whole' lines 1
tail -c +3001 "$day" | head -c 1012 >&3
counted 'the second, as soon as it is' lines 2
exec 3>&-
wait
cut -d , -f 1,2 "$work/told" >"$work/got"
printf '%s\n' 'record 1: 0 to 2020, reply 0' 'record 2: 2020 to 4012, reply 0' 'waiting at 4012, reply 1' >"$work/want"
compared 'and nothing twice' "$work/want"

# ---- 7 is a record; 4, 5 and 6 end the walk for good, once two line feeds have come behind the place where it stands

swapped() { # PATTERN REPLACEMENT: S, with the replacement in each line that has the pattern
    sed "s/$1/$2/" examples/s.sao
}

# the index of S is 244 bytes; behind S and the altered S stands S once more
stopped() { # CASE REPLY BYTES..: of "$work/text", whose second record stands at 305
    what=$1 reply=$2
    shift 2
    for bytes in "$@"; do
        {
            echo "record 1: 0 to 305, reply 0, after $(((305 + bytes - 1) / bytes * bytes)) bytes"
            echo "stopped for good at 305, reply $reply, after $(((305 + 244 + bytes - 1) / bytes * bytes)) bytes"
        } >"$work/want"
        follow "$work/text" "$bytes"
        counted "$what, $bytes at a time: exit status 1" [ $? -eq 1 ]
        compared "$what, $bytes at a time" "$work/want"
    done
}

{ cat examples/s.sao; swapped '^  4' ' -4'; cat examples/s.sao; } >"$work/text"
sized 'an entry with a minus' "$work/text" 915
stopped 'an entry with a minus' 4 1 7 100
{ cat examples/s.sao; swapped '  5\(.\)$' '  4\1'; cat examples/s.sao; } >"$work/text"
sized 'release 4' "$work/text" 915
stopped 'release 4' 5 1 7 100
{ cat examples/s.sao; swapped '  0  5\(.\)$' '  1  5\1'; cat examples/s.sao; } >"$work/text"
sized 'a count for group 79' "$work/text" 915
stopped 'a count for group 79' 6 1 7 100

# without the sunspot number group 1 has four constants, and with three it breaks a rule (R121): the record is told, and the walk goes on
{ swapped '^  4' '  3'; cat examples/s.sao; } >"$work/text"
printf '%s\n' '1 0 305 7 1 3 5' '2 305 610 0 0 3 5' 'end 2 610 1 0' >"$work/text.list"
told 'a broken rule on counts' "$work/text" "$work/text.list" 1 7 1000

# ---- what the system refuses

follow . 7
counted 'a folder: exit status 1' [ $? -eq 1 ]
counted 'a folder: nothing is told' [ ! -s "$work/got" ]
counted 'a folder: why' grep -q '^follow: ' "$work/said"
if [ -c /dev/full ]; then
    for cut in 0 2019 56140; do
        head -c "$cut" "$day" >"$work/cut"
        started "$work/follow" 1000 <"$work/cut" >/dev/full 2>"$work/said"
        counted "$cut bytes, and no room for what is told: exit status 1" [ $? -eq 1 ]
        counted "$cut bytes, and no room for what is told: why" grep -q '^follow: ' "$work/said"
    done
else
    echo 'tests/grow.sh: skipped: an output that is full, for want of /dev/full'
fi

# ---- words

for words in '' '0' '-1' '7x' '1000001' '99999999999999999999' '1 2'; do
    # shellcheck disable=SC2086
    follow "$day" $words
    counted "follow $words: exit status 2" [ $? -eq 2 ]
    counted "follow $words: nothing on standard output" [ ! -s "$work/got" ]
    counted "follow $words: how it is started" grep -q '^usage: follow BYTES' "$work/said"
done
finished 100
