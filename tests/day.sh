#!/bin/sh
# The example day and its damaged copy: rewriting returns the day byte for byte, both are listed alike, and one byte that was replaced in a trace
# is seen in the row of one group alone. Where that group stands, which line and element are refused and what foF2 was are cut out of the text's
# fixed columns here (R41, R61, R140); one hour has no foF2 (R291). Without its carriage returns the day answers as before (R9), and so it does
# with counts of entries, since it has no group 40 (R13). Prints each case that fails, and how many passed.
set -u
LC_ALL=C
export LC_ALL
cd "$(dirname "$0")/.." || exit 2
name=day
. tests/cases

day=examples/day.sao
damaged=examples/damaged.sao

# A line for each line of the text: record, its place, group (0 for the index), line in group, place of the line, and its bytes with the
# carriage return. The index and the elements per line of each form decide where a group ends.
awk '
    function put(groups, perLine, many, i) {
        many = split(groups, list, " ")
        for (i = 1; i <= many; i++)
            per[list[i]] = perLine
    }
    BEGIN {
        for (g = 1; g <= 60; g++)
            per[g] = 15
        put("1 6", 16); put("2", 1); put("5", 60); put("9 14 19 23 27 31 34 35 36 44 48", 40)
        put("3 54 55 10 15 20 24 28 32 41 45 49 56", 120); put("37 38 39 42 57", 10); put("40", 6)
        left = 0; group = 61; place = 0
    }
    {
        if (left == 0 && group > 60) { record++; start = place; group = 0; left = 2; entries = ""; line = 0 }
        line++; left--
        print record, start, group, line, place, $0
        if (group == 0)
            entries = entries substr($0, 1, 120)
        place += length($0) + 1
        while (left == 0 && group <= 60) {
            group++; line = 0
            count = substr(entries, 3 * group - 2, 3) + 0
            left = group <= 60 ? int((count + per[group] - 1) / per[group]) : 0
        }
    }' "$day" >"$work/lines"

# ---- the files

for text in "$day" "$damaged"; do
    counted "$text is shorter than 65,536 bytes" [ "$(wc -c <"$text")" -lt 65536 ]
done
counted 'as long as each other' [ "$(wc -c <"$day")" -eq "$(wc -c <"$damaged")" ]
counted '24 records in the text' [ "$(tail -n 1 "$work/lines" | cut -d ' ' -f 1)" -eq 24 ]
awk '$1 != last { if (last) print $2 - start; last = $1; start = $2 } END { print size - start }' size="$(wc -c <"$day" | tr -d ' ')" \
    "$work/lines" >"$work/sizes"
counted 'no record is longer than 8,192 bytes' [ "$(sort -n "$work/sizes" | tail -n 1)" -le 8192 ]

if command -v python3 >/dev/null; then
    python3 examples/make-day >"$work/got"
    compared 'the day as it is made' "$day"
    python3 examples/make-day damaged >"$work/got"
    compared 'the damaged day as it is made' "$damaged"
else
    echo 'tests/day.sh: skipped: no python3, so the two files were not made anew'
fi

# the hours 00 to 23 of one leap day, from group 3's columns
awk 'BEGIN { for (h = 0; h < 24; h++) printf "AA20040600229%02d0000\n", h }' >"$work/want"
sed -n 's/^[0-9]* [0-9]* 3 1 [0-9]* \(.*\).$/\1/p' "$work/lines" >"$work/got"
compared 'an hour for each record' "$work/want"

# ---- what the programs print

for which in list dump rewrite; do
    ./run "$which" <"$day" >"$work/day.$which"
    ./run "$which" <"$damaged" >"$work/damaged.$which"
done

cp "$work/day.rewrite" "$work/got"
compared 'the day rewritten' "$day"

# R64: a gateway took the blanks at the ends of the letter lines, groups 54 and 55; the day comes back
awk -v taken="$work/taken" '{
    text = substr($0, length($1 $2 $3 $4 $5) + 6)
    if (($3 == 54 || $3 == 55) && sub(/ +\r$/, "\r", text))
        print $1 >taken
    print text
}' "$work/lines" >"$work/stripped"
counted 'blanks were taken in each record' [ "$(sort -u "$work/taken" | wc -l)" -eq 24 ]
./run rewrite <"$work/stripped" >"$work/got"
compared 'the day, stripped and rewritten' "$day"

# R9: the day without its carriage returns answers as the day, places aside, and comes back with them; strict it has no record
tr -d '\r' <"$day" >"$work/lean"
counted 'a carriage return was taken from each line' [ "$(($(wc -c <"$day") - $(wc -c <"$work/lean")))" -eq "$(wc -l <"$day")" ]
placeless() { # what was dumped, without places
    awk '$1 == "record" { $2 = $4 = "" } $1 == "group" { $6 = $7 = "" } $1 == "stop" { $2 = "" } { print }' "$1"
}
placeless "$work/day.dump" >"$work/want"
./run dump <"$work/lean" >"$work/lean.dump"
placeless "$work/lean.dump" >"$work/got"
compared 'the day without carriage returns, dumped' "$work/want"
unplaced() { # what was listed, without places
    awk '$1 == "end" { $3 = "" } $1 != "end" { $2 = $3 = "" } { print }' "$1"
}
unplaced "$work/day.list" >"$work/want"
counted 'there are 24 rows and one' [ "$(wc -l <"$work/want")" -eq 25 ]
./run list <"$work/lean" >"$work/lean.list"
unplaced "$work/lean.list" >"$work/got"
compared 'the day without carriage returns, listed' "$work/want"
./run rewrite <"$work/lean" >"$work/got"
compared 'the day without carriage returns, rewritten' "$day"
./run dump --strict <"$day" >"$work/got"
compared 'the day, strict' "$work/day.dump"
# R13: it has no group 40
counted 'no record of the day has a group 40' [ "$(awk '$3 == 40' "$work/lines" | wc -l)" -eq 0 ]
./run dump --entries <"$day" >"$work/got"
compared 'the day, by entries' "$work/day.dump"
./run rewrite --strict <"$work/lean" >"$work/got"
counted 'the day without carriage returns, rewritten strict' [ ! -s "$work/got" ]
./run list --strict <"$work/lean" >"$work/got"
echo 'end 0 0 4 0' >"$work/want"
compared 'the day without carriage returns, listed strict' "$work/want"

# a row for each record: its place, the next place, reply 0, 15 groups with a count, its lines; at the end 24 records and reply 1
awk '
    function row() { print record, start, place, 0, 0, groups, lines }
    $1 != record { place = $2; if (record) row(); record = $1; start = $2; groups = 0; lines = 0 }
    { lines++; if ($3 && $4 == 1) groups++ }
    END { place = size; row(); print "end", record, size, 1, 0 }' size="$(wc -c <"$day" | tr -d ' ')" "$work/lines" >"$work/want"
cp "$work/day.list" "$work/got"
compared 'the listing of the day' "$work/want"
cp "$work/damaged.list" "$work/got"
compared 'the listing of the damaged day' "$work/want"

# A characteristic of each hour, from its eight columns in the first line of group 4: in thousandths, or no reading (R291)
told() { # NUMBER: 1 to 15, the number of a frequency
    sed -n 's/^[0-9]* [0-9]* 4 1 [0-9]* //p' "$work/lines" | cut -c $((8 * $1 - 7))-$((8 * $1)) | tr -d ' .' |
        sed "s/^\(999900\|9999000\)\$/char $1 1 0 0 0 0/; t; s/.*/char $1 0 & 0 0 0/"
}

# foF2 and MUF(D); at 03:00 both fields are 999.900
for number in 1 4; do
    told "$number" >"$work/want"
    counted "characteristic $number of 24 hours in the text" [ "$(wc -l <"$work/want")" -eq 24 ]
    sed -n 4p "$work/want" >"$work/fourth"
    counted "characteristic $number has no reading at 03:00, and at no other hour" \
        [ "$(cat "$work/fourth")$(grep -c ' 1 0 0 0 0$' "$work/want")" = "char $number 1 0 0 0 01" ]
    for which in day damaged; do
        grep "^char $number " "$work/$which.dump" >"$work/got"
        compared "characteristic $number of each hour, $which" "$work/want"
    done
done
# the cells are those of the fields (R296)
grep '^group 4 ' "$work/day.dump" | sed -n 4p | cut -d ' ' -f 8-11 >"$work/got"
echo '999900 9999000 9999000 999900' >"$work/want"
compared 'the cells of 03:00' "$work/want"

# ---- the damage: one byte of group 7 of the 13:00 record, and in what is dumped the row of that group

cmp -l "$day" "$damaged" >"$work/replaced"
counted 'one byte is replaced' [ "$(wc -l <"$work/replaced")" -eq 1 ]
read -r at _ _ <"$work/replaced"
at=$((at - 1))
awk -v at="$at" '$5 <= at { record = $1; start = $2; group = $3; line = $4; place = $5 } END { print record, start, group, line, at - place }' \
    "$work/lines" >"$work/where"
read -r record start group line column <"$work/where"
counted 'in the record of 13:00' [ "$record" -eq 14 ]
counted 'in the virtual heights of the F2 trace' [ "$group" -eq 7 ]
# F8.3 has 15 elements of 8 columns in a line; a colon is no part of any field, so the element that has it is the first misformed one
element=$(((line - 1) * 15 + column / 8 + 1))
row=$(((record - 1) * 110 + 1 + group))
sed "${row}s/^group 7 0 [0-9]* 0 \([0-9]* [0-9]*\) .*/group 7 9 $line $element \1/" "$work/day.dump" >"$work/want"
diff "$work/day.dump" "$work/want" | grep -c '^[<>]' >"$work/rows"
counted 'the row of that group is expected to change' [ "$(cat "$work/rows")" -eq 2 ]
cp "$work/damaged.dump" "$work/got"
compared 'the damaged day, dumped' "$work/want"

# R346: the records before the damaged one, and nothing else
head -c "$start" "$day" >"$work/want"
cp "$work/damaged.rewrite" "$work/got"
compared 'the damaged day rewritten' "$work/want"

# ---- the day is plausible: what is read of each record, in order

sound() { # CONDITION: it holds of each record; cell[g, i] is the i-th cell of group g, of the counts n[g]
    awk '
        $1 == "record" { records++ }
        $1 == "group" { n[$2] = $4; for (i = 1; i <= $4; i++) cell[$2, i] = $(i + 7) }
        $1 == "group" && $2 == 60 { good += ('"$1"') }
        function rising(g, i) {
            for (i = 2; i <= n[g]; i++)
                if (cell[g, i] <= cell[g, i - 1])
                    return 0
            return n[g] > 1
        }
        function within(g, least, most, i) {
            for (i = 1; i <= n[g]; i++)
                if (cell[g, i] < least || cell[g, i] > most)
                    return 0
            return n[g] > 1
        }
        function told(i) { # an interpolated point has amplitude 0
            for (i = 1; i <= n[10]; i++)
                if (cell[9, i] == 0 ? cell[10, i] != 9 : cell[10, i] >= n[6])
                    return 0
            return n[10] > 1
        }
        function peak() { # foF2, or what the profile has for it where it was not scaled
            return cell[4, 1] == 999900 ? cell[52, n[52]] : cell[4, 1]
        }
        function below(g, h, i) {
            for (i = 1; i <= n[g]; i++)
                if (cell[g, i] >= cell[h, i])
                    return 0
            return n[g] > 1
        }
        END { exit !(records == 24 && good == 24) }' "$work/day.dump"
}

counted 'trace frequencies rise' sound 'rising(11)'
counted 'virtual heights rise' sound 'rising(7)'
counted 'true heights rise' sound 'rising(8)'
counted 'true heights are below the virtual ones' sound 'below(8, 7)'
counted 'the trace ends less than 0.1 MHz below foF2' sound 'cell[11, n[11]] < peak() && cell[11, n[11]] > peak() - 101'
counted 'amplitudes from 0 to 99' sound 'within(9, 0, 99)'
counted 'a Doppler number of the table for each echo, 9 for each interpolated point' sound 'told()'
counted 'profile heights rise' sound 'rising(51)'
counted 'plasma frequencies rise' sound 'rising(52)'
counted 'the profile ends at foF2 and the peak height' sound 'cell[52, n[52]] == peak() && cell[51, n[51]] == cell[4, 32]'
finished 44
