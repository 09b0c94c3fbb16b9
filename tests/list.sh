#!/bin/sh
# The listing program (R341 to R344): record S and its neighbours, inputs at the limit of 65,536 bytes, and every text of tests/vectors, or of
# the folder that is named (`tests/list.sh FOLDER [--strict] [--entries]`), under both rules for line ends and both for counts of group 40.
# Expected lines come from the rules (R382, R411 to R415), from their arithmetic, or from the vectors. Prints each case that fails, and how many
# passed.
set -u
cd "$(dirname "$0")/.." || exit 2
name=list
. tests/cases
. tests/limit
chosen "$@"

listed() { # CASE EXPECTED [WORD], with the input on standard input
    # shellcheck disable=SC2086
    ./run list ${3-} >"$work/got"
    compared "$1" "$2"
}

lines() { # the arguments as lines, in a file of its own
    printf '%s\n' "$@" >"$work/want"
}

bytes() { # FILE FROM COUNT
    dd if="$1" bs=1 skip="$2" count="$3" 2>/dev/null
}

filled() { # COUNT: as many bytes `x`
    awk -v n="$1" 'BEGIN { for (i = 0; i < n; i++) printf "x" }'
}

rows() { # COUNT SIZE REST: the rows of so many records of that size, REST their last four numbers
    awk -v n="$1" -v size="$2" -v rest="$3" 'BEGIN { for (k = 1; k <= n; k++) print k, (k - 1) * size, k * size, rest }'
}

slowly() { # FILE: in four pieces, a second between two
    for piece in 0 1 2 3; do
        dd if="$1" bs=16385 skip="$piece" count=1 2>/dev/null
        [ "$piece" = 3 ] || sleep 1
    done
}

s=examples/s.sao

# R382: record S, and S twice
lines '1 0 305 0 0 3 5' 'end 1 305 1 0'
listed 'record S' "$work/want" <"$s"
cat "$s" "$s" >"$work/in"
lines '1 0 305 0 0 3 5' '2 305 610 0 0 3 5' 'end 2 610 1 0'
listed 'S twice' "$work/want" <"$work/in"

# R411 to R415, as far as they are of placing
bytes "$s" 0 304 >"$work/in"
lines 'end 0 0 3 0'
listed 'S without its last byte (R413)' "$work/want" <"$work/in"
{
    bytes "$s" 0 30
    printf '  3'
    bytes "$s" 33 272
    printf '   1.000   2.000   3.000\r\n'
} >"$work/in"
lines '1 0 331 7 7 4 6' 'end 1 331 1 0'
listed 'S with group 11 alone of its trace set (R415)' "$work/want" <"$work/in"
for blanks in 112 113; do
    {
        bytes "$s" 0 303
        printf "%${blanks}s\r\n" ''
    } >"$work/in"
    lines "1 0 $((305 + blanks)) 0 0 3 5" "end 1 $((305 + blanks)) 1 0"
    listed "S with $blanks blanks behind its last field (R411, R412)" "$work/want" <"$work/in"
done
{
    bytes "$s" 0 303
    printf ' \n'
} >"$work/in"
lines '1 0 305 0 0 3 5' 'end 1 305 1 0'
listed 'S with a blank for its last carriage return (R414)' "$work/want" <"$work/in"
listed 'S with a blank for its last carriage return (R414), strict' "$work/want" --strict <"$work/in"

# R9: S without carriage returns has five bytes fewer; without that of the second index line alone, one fewer
tr -d '\r' <"$s" >"$work/in"
lines '1 0 300 0 0 3 5' 'end 1 300 1 0'
listed 'S without carriage returns' "$work/want" <"$work/in"
lines 'end 0 0 4 0'
listed 'S without carriage returns, strict' "$work/want" --strict <"$work/in"
{
    bytes "$s" 0 242
    bytes "$s" 243 62
} >"$work/in"
lines '1 0 304 0 0 3 5' 'end 1 304 1 0'
listed 'S without the carriage return of its second line' "$work/want" <"$work/in"
lines 'end 0 0 4 0'
listed 'S without the carriage return of its second line, strict' "$work/want" --strict <"$work/in"
refuses_words list

# short inputs
lines 'end 0 0 1 0'
listed 'an empty input' "$work/want" </dev/null
printf 'x' >"$work/in"
lines 'end 0 0 3 0'
listed 'one byte' "$work/want" <"$work/in"
printf '\n' >"$work/in"
listed 'one line feed' "$work/want" <"$work/in"

# R341: 65,536 bytes, the last of them the end of the last record: its 571 bytes are 7 lines with the index
limit_text 281 >"$work/in"
sized '65,536 bytes' "$work/in" 65536
{
    rows 213 305 '0 0 3 5'
    echo '214 64965 65536 0 0 3 7'
    echo 'end 214 65536 1 0'
} >"$work/want"
listed '65,536 bytes, from a file' "$work/want" <"$work/in"
slowly "$work/in" | ./run list >"$work/got"
compared '65,536 bytes, from a slow pipe' "$work/want"

# and one byte more, behind the last record or in it
lines 'end 0 0 11 0'
printf 'x' >>"$work/in"
listed '65,536 bytes and one behind the last record' "$work/want" <"$work/in"
limit_text 282 >"$work/in"
sized '65,537 bytes' "$work/in" 65537
listed '65,537 bytes, from a file' "$work/want" <"$work/in"
slowly "$work/in" | ./run list >"$work/got"
compared '65,537 bytes, from a slow pipe' "$work/want"

# as many records as 65,536 bytes hold: 270 of two index lines alone, whose count of group 1 is too small (R121), with line feeds alone; 268 with
# carriage returns
awk 'BEGIN { for (i = 0; i < 40; i++) printf "  0"; printf "\r\n"; for (i = 0; i < 39; i++) printf "  0"; printf "  5\r\n" }' >"$work/index"
{
    repeated 268 "$work/index"
    filled 144
} >"$work/in"
{
    rows 268 244 '7 1 0 2'
    echo 'end 268 65392 3 0'
} >"$work/want"
listed '268 records' "$work/want" <"$work/in"
listed '268 records, strict' "$work/want" --strict <"$work/in"
tr -d '\r' <"$work/index" >"$work/lean"
{
    repeated 270 "$work/lean"
    filled 196
} >"$work/in"
sized '270 records' "$work/in" 65536
{
    rows 270 242 '7 1 0 2'
    echo 'end 270 65340 3 0'
} >"$work/want"
listed '270 records' "$work/want" <"$work/in"
lines 'end 0 0 4 0'
listed '270 records, strict' "$work/want" --strict <"$work/in"

# every text of the vectors
counted 'there are texts' texts
answered list list

finished 790
