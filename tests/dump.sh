#!/bin/sh
# The test program dump: every answer about every text of tests/vectors, or of the folder that is named (`tests/dump.sh FOLDER [--strict]
# [--entries]`), under both rules for line ends and both for counts of group 40, and about 65,536 bytes; and damage by running (D3.2 to D3.7):
# bytes of one group's lines are replaced in each text that has such lines; then only that group's row may differ, and for group 4 the
# characteristics of that record. Which bytes are replaced by what is drawn from a fixed seed, and is the same in each run. Prints each case that
# fails, and how many passed.
set -u
cd "$(dirname "$0")/.." || exit 2
name=dump
. tests/cases
. tests/limit
chosen "$@"

counted 'there are texts' texts
answered dump dump
refuses_words dump

# 65,536 bytes, the last of them the end of the last record. Of each record: its counts, the cells of groups 1, 3 and 4, and one characteristic.
limit_text 281 >"$work/text"
sized '65,536 bytes' "$work/text" 65536
limit_letters 281 | awk '
    { letter[NR] = " " $1 }
    function counts(letters, line, g) {
        line = " 4 0 " letters " 1"
        for (g = 5; g <= 79; g++)
            line = line " 0"
        return line " 5"
    }
    function record(place, letters, lines, third, fourth, next_place, i, line) {
        third = place + 274; fourth = third + letters + 2 * lines; next_place = fourth + 10
        print "record " place " 0 " next_place " 0" counts(letters)
        print "group 1 0 4 0", place + 244, third, "1200 67000 -23500 143000"
        print "group 2 0 0 0", third, third
        line = "group 3 0 " letters " 0 " third " " fourth
        for (i = 1; i <= letters; i++)
            line = line letter[i]
        print line
        print "group 4 0 1 0", fourth, next_place, 7250
        for (i = 5; i <= 60; i++)
            print "group", i, "0 0 0", next_place, next_place
        print "char 1 0 7250 0 0 0"
        for (i = 2; i <= 49; i++)
            print "char", i, "2 0 0 0 0"
        return next_place
    }
    END {
        for (k = 0; k < 213; k++)
            place = record(place + 0, 19, 1)
        print "stop " record(place, 281, 3) " 1 0 0"
    }' >"$work/want"
counted 'which ends at 65,536' grep -qx 'stop 65536 1 0 0' "$work/want"
./run dump <"$work/text" >"$work/got"
compared '65,536 bytes' "$work/want"

# and one byte more, behind the last record or in it
echo 'stop 0 11 0 0' >"$work/want"
printf 'x' >>"$work/text"
./run dump <"$work/text" >"$work/got"
compared '65,536 bytes and one behind the last record' "$work/want"
limit_text 282 >"$work/text"
sized '65,537 bytes' "$work/text" 65537
./run dump <"$work/text" >"$work/got"
compared '65,537 bytes' "$work/want"

# R13: as many elements of group 40 as the input has room for, with the longest cells. S without carriage returns has 300 bytes; 539 entries behind
# it are 538 lines of 121 bytes and one of 21, so they end at 65,419, and have 3,229 elements.
tr -d '\r' <examples/s.sao | awk '
    NR == 1 { $0 = substr($0, 1, 117) "539" }
    { print }
    END {
        for (i = 1; i <= 3229; i++)
            printf " -0.999999999999E-99%s", i % 6 == 0 || i == 3229 ? "\n" : ""
    }' >"$work/text"
sized '539 entries' "$work/text" 65419
./run dump --entries <"$work/text" | grep -E '^(group (39|40|41)|stop) ' >"$work/got"
awk 'BEGIN {
    print "group 39 0 0 0 300 300"
    printf "group 40 0 6458 0 300 65419"
    for (i = 1; i <= 3229; i++)
        printf " -999999999999 -99"
    print "\ngroup 41 0 0 0 65419 65419"
    print "stop 65419 1 0 0"
}' >"$work/want"
compared '539 entries' "$work/want"

# R411, R412: S with blanks behind the field of its last line, up to 120 bytes and one more; R414: with a blank for its last carriage return
row() { # CASE EXPECTED [WORD]: the row of group 4 of the text made
    # shellcheck disable=SC2086
    ./run dump ${3-} <"$work/text" | grep '^group 4 ' >"$work/got"
    echo "$2" >"$work/want"
    compared "$1" "$work/want"
}

behind() { # COUNT: S with so many blanks behind the field of its last line
    head -c 303 examples/s.sao
    printf "%$1s\r\n" ''
}

behind 112 >"$work/text"
row 'S with 112 blanks behind its last field (R411)' 'group 4 0 1 0 295 417 7250'
behind 113 >"$work/text"
row 'S with 113 blanks behind its last field (R412)' 'group 4 8 1 0 295 418'
{ head -c 303 examples/s.sao && printf ' \n'; } >"$work/text"
row 'S with a blank for its last carriage return (R414), strict' 'group 4 8 1 0 295 305' --strict
row 'S with a blank for its last carriage return (R414)' 'group 4 0 1 0 295 305 7250'
{ head -c 303 examples/s.sao && printf '\n'; } >"$work/text"
row 'S without its last carriage return (R9), strict' 'group 4 8 1 0 295 304' --strict
row 'S without its last carriage return (R9)' 'group 4 0 1 0 295 304 7250'

# R295: of the numbers that docs/FORMAT.md lists as frequencies, and marks as such in its table, and of no others, 999.900 is no reading; the
# header and the crate for Rust list them too
if own; then
    ./run dump <"$vectors/01001.sao" | awk '$1 == "char" && $3 == 1 { print $2 }' >"$work/got"
    sed -n '/^## The 49/,/^## Data/s/^| \([0-9]*\) |.*| f |$/\1/p' docs/FORMAT.md >"$work/want"
    compared 'the frequencies that FORMAT.md marks' "$work/want"
    numbers() { # a list of numbers and runs of numbers, as 4 to 10, one number a line
        sed 's/ and /, /' | tr ',' '\n' | awk 'NF == 3 { for (k = $1; k <= $3; k++) print k } NF == 1 { print $1 }'
    }
    sed -n 's/^- \*\*R295\*\* [^0-9]*\([^.]*\), and no others.*/\1/p' docs/FORMAT.md | numbers >"$work/want"
    compared 'the frequencies that FORMAT.md lists' "$work/want"
    for file in include/seambeacon.h bindings/rust/src/lib.rs; do
        tr '\n' ' ' <"$file" | sed 's, ///,,g; s/  */ /g; s/.*Frequencies are \([^(]*\) (R295).*/\1/' | numbers >"$work/want"
        compared "the frequencies that $file lists" "$work/want"
    done
fi

damaged_by() { # TEXT: the rules under which it is asked with damage: entries where it has its own answer under them, else the first
    case " $rules " in
    *' entries '*) [ ! -e "${1%.sao}.entries.dump" ] || { echo entries; return; } ;;
    esac
    echo "${rules%% *}"
}

# Five replacements for each text: the record and the group by their rows in the dump, up to four bytes of its lines, none of them a line
# feed. One line each: text, number of the row, record's place, group, and then places and bytes.
for text in "$vectors"/*.sao; do
    od -An -v -tu1 -w1 "$text" >"$work/bytes"
    awk -v text="$text" -v seed="${text##*/}" '
        function drawn(n) {
            state = (state * 1103 + 12345) % 1048576
            return int(state / 16) % n
        }
        FNR == NR { byte[NR - 1] = $1 + 0; next }
        $1 == "record" { place = $2 }
        $1 == "group" && $6 < $7 {
            rows++
            row[rows] = FNR; at[rows] = place; group[rows] = $2; from[rows] = $6; to[rows] = $7
        }
        END {
            state = 20061 + seed
            values = split("0 13 127 255 32 45 46 48 57 65 126 31", value, " ")
            for (k = 0; rows && k < 5; k++) {
                r = 1 + drawn(rows)
                line = text " " row[r] " " at[r] " " group[r]
                many = 0
                for (tries = 0; tries < 12 && many < 1 + drawn(4); tries++) {
                    p = from[r] + drawn(to[r] - from[r])
                    if (byte[p] != 10) {
                        line = line " " p " " value[1 + drawn(values)]
                        many++
                    }
                }
                if (many)
                    print line
            }
        }' "$work/bytes" "$(answer_of "$text" "$(damaged_by "$text")" dump)"
done >"$work/damage"

confined() { # EXPECTED ROW PLACE GROUP: what was dumped differs from it only in that row, and for group 4 in that record's characteristics
    awk -v row="$2" -v place="$3" -v group="$4" '
        FNR == NR { want[NR] = $0; rows = NR; next }
        $1 == "record" { here = $2 }
        $0 != want[FNR] {
            split(want[FNR], old, " ")
            if (FNR == row && $1 == "group" && $2 == group && $6 == old[6] && $7 == old[7] && $3 ~ /^(0|8|9|10)$/)
                next
            if (group == 4 && here == place && $1 == "char" && $2 == old[2])
                next
            bad = 1
        }
        END { exit bad || FNR != rows }' "$1" "$work/got"
}

differ=0
while read -r text row place group bytes; do
    cp "$text" "$work/damaged"
    set -- $bytes
    while [ $# -gt 1 ]; do
        printf "\\$(printf '%03o' "$2")" | dd of="$work/damaged" bs=1 seek="$1" conv=notrunc 2>/dev/null
        shift 2
    done
    ruled=$(damaged_by "$text")
    # shellcheck disable=SC2046
    ./run dump $(words_for "$ruled") <"$work/damaged" >"$work/got"
    want=$(answer_of "$text" "$ruled" dump)
    cmp -s "$work/got" "$want" || differ=$((differ + 1))
    counted "$text, $ruled, group $group of the record at $place, bytes $bytes" confined "$want" "$row" "$place" "$group"
done <"$work/damage"

# these cases show something only if most of them change an answer, and if the worst bytes are among them
if own; then
    counted 'damage that changes an answer' [ "$differ" -gt 200 ]
    for byte in 0 13 127 255; do
        counted "damage with byte $byte" grep -q " $byte\$" "$work/damage"
    done
fi
finished 1640
