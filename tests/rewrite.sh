#!/bin/sh
# The rewriting program (R341, R345, R346): every text of tests/vectors, or of the folder that is named (`tests/rewrite.sh FOLDER [--strict]
# [--entries]`), under both rules for line ends and both for counts of group 40, and what was printed given to it again; record S with other
# spellings of its fields; records of 8,192 canonical bytes and of one more; output longer than the input may be; inputs at the limit of 65,536
# bytes. Expected texts come from the vectors, from the rules, or from their arithmetic. Prints each case that fails, and how many passed.
set -u
LC_ALL=C
export LC_ALL
cd "$(dirname "$0")/.." || exit 2
name=rewrite
. tests/cases
. tests/limit
chosen "$@"

rewritten() { # CASE TEXT EXPECTED [WORDS]: what is printed for the text, with what is expected
    # shellcheck disable=SC2086
    ./run rewrite ${4-} <"$2" >"$work/got"
    compared "$1" "$3"
}

s=examples/s.sao
: >"$work/nothing"

counted 'there are texts' texts
answered rewrite rewrite

# what was printed, given to the program again, comes out byte for byte, under either rule for line ends and with counts as before; longer than it
# takes, nothing
again=0
for text in "$vectors"/*.rewrite; do
    case "${rules%% *} $text" in
    entries\ * | strict-entries\ * | *entries.rewrite) counting=--entries ;;
    *) counting='' ;;
    esac
    if [ "$(wc -c <"$text")" -le 65536 ]; then
        rewritten "$text again" "$text" "$text" "$counting"
        rewritten "$text again, strict" "$text" "$text" "--strict $counting"
        [ -s "$text" ] && again=$((again + 1))
    else
        rewritten "$text again" "$text" "$work/nothing" "$counting"
    fi
done
! own || counted 'canonical texts among the vectors' [ "$again" -gt 20 ]

# ---- record S and its neighbours

spelled() { # CASE OLD NEW CANONICAL: S with NEW in place of OLD is rewritten with CANONICAL there
    sed "s/$2/$3/" "$s" >"$work/text"
    sed "s/$2/$4/" "$s" >"$work/want"
    rewritten "$1" "$work/text" "$work/want"
}

rewritten 'S' "$s" "$s"
spelled 'no digit before the point' '   7\.250' '   -.500' '  -0.500'
spelled 'negative zero' '   7\.250' '  -0.000' '   0.000'
spelled 'needless zeros' '   7\.250' '0007.250' '   7.250'
spelled 'needless zeros in the index' '  4  0 19' '004000019' '  4  0 19'

{ head -c 303 "$s" && printf '%112s\r\n' ''; } >"$work/text"
rewritten 'S with 112 blanks behind its last field (R411)' "$work/text" "$s"
{ head -c 303 "$s" && printf '%113s\r\n' ''; } >"$work/text"
rewritten 'S with 113 blanks behind its last field (R412)' "$work/text" "$work/nothing"
{ head -c 303 "$s" && printf ' \n'; } >"$work/text"
rewritten 'S with a blank for its last carriage return (R414), strict' "$work/text" "$work/nothing" --strict
rewritten 'S with a blank for its last carriage return (R414)' "$work/text" "$s"
tr -d '\r' <"$s" >"$work/text"
rewritten 'S without carriage returns (R9)' "$work/text" "$s"
rewritten 'S without carriage returns, strict' "$work/text" "$work/nothing" --strict
refuses_words rewrite
head -c 304 "$s" >"$work/text"
rewritten 'S without its last byte (R413)' "$work/text" "$work/nothing"

# R346: of the first record that is refused (9, 10, 5, 7), and of all behind it, nothing
refused() { # CASE OLD NEW: S, S with NEW in place of OLD, S
    { cat "$s" && sed "s/$2/$3/" "$s" && cat "$s"; } >"$work/text"
    rewritten "$1" "$work/text" "$s"
}

refused 'a misformed field in the second record' '   7\.250' '  123456'
refused 'a wrong date in the second record' '0922' '0923'
refused 'another release in the second record' '  5' '  4'
refused 'a broken rule in the second record' '  4  0 19' '  4  0 18'
rewritten 'no input' "$work/nothing" "$work/nothing"

# ---- R346: records at the limit of 8,192 bytes: counts 999, 0, n, 1. Group 1 takes 999 * 7 + 63 * 2 bytes, group 3 n + 7 * 2, group 4 10 bytes.

long() { # N: such a canonical record, group 3's lines of 120 letters each
    awk -v n="$1" 'BEGIN {
        printf "%3d%3d%3d%3d", 999, 0, n, 1
        for (g = 5; g <= 80; g++) {
            printf "%3d", g == 80 ? 5 : 0
            if (g == 40 || g == 80)
                printf "\r\n"
        }
        for (i = 1; i <= 999; i++)
            printf "%3d.%03d%s", i % 1000, i * 7 % 1000, i % 16 == 0 || i == 999 ? "\r\n" : ""
        date = "AA20062650922142530"
        for (i = 1; i <= n; i++)
            printf "%s%s", i <= 19 ? substr(date, i, 1) : sprintf("%c", 32 + i % 95), i % 120 == 0 || i == n ? "\r\n" : ""
        printf "   7.250\r\n"
    }'
}

long 805 >"$work/full"
sized 'a record of 8,192 bytes' "$work/full" 8192
rewritten 'a record of 8,192 bytes' "$work/full" "$work/full"
long 806 >"$work/longer"
sized 'a record of 8,193 bytes' "$work/longer" 8193
rewritten 'a record of 8,193 bytes' "$work/longer" "$work/nothing"
{ cat "$s" "$work/full" "$work/longer" "$s"; } >"$work/text"
cat "$s" "$work/full" >"$work/want"
rewritten 'S, a record of 8,192 bytes, one of 8,193 bytes, S' "$work/text" "$work/want"

# ---- R341: inputs of 65,536 bytes, and of one more

repeated 8 "$work/full" >"$work/text"
sized 'eight records of 8,192 bytes' "$work/text" 65536
rewritten 'eight records of 8,192 bytes' "$work/text" "$work/text"
printf ' ' >>"$work/text"
rewritten 'eight records of 8,192 bytes, and a byte' "$work/text" "$work/nothing"
limit_text 281 >"$work/text"
sized '65,536 bytes' "$work/text" 65536
rewritten '65,536 bytes, the last of them the end of the last record' "$work/text" "$work/text"
printf 'x' >>"$work/text"
rewritten '65,536 bytes and one behind the last record' "$work/text" "$work/nothing"
limit_text 282 >"$work/text"
sized '65,537 bytes' "$work/text" 65537
rewritten '65,537 bytes, the last of them the end of the last record' "$work/text" "$work/nothing"

# ---- R64, R65, R102: letters that lost their blanks come back. S with a letter for its characteristic in groups 54 and 55 has 3 bytes more for each.

scaled() { # LINE54 LINE55: S with counts 1 of groups 54 and 55, and these lines
    head -c 161 "$s"
    printf '  1  1'
    tail -c +168 "$s"
    printf '%s\r\n%s\r\n' "$1" "$2"
}

scaled ' ' ' ' >"$work/want"
sized 'S with blanks in groups 54 and 55' "$work/want" 311
rewritten 'S with blanks in groups 54 and 55' "$work/want" "$work/want"
scaled '' '' >"$work/text"
rewritten 'the same, stripped' "$work/text" "$work/want"
scaled '' '  ' >"$work/text"
rewritten 'one line stripped, and a blank too many in the other' "$work/text" "$work/want"
scaled '/' ' ' >"$work/want"
scaled '/' '' >"$work/text"
rewritten 'a letter, and a line stripped' "$work/text" "$work/want"
scaled '' ' /' >"$work/text"
rewritten 'a letter behind the element' "$work/text" "$work/nothing"

# ---- output longer than 65,536 bytes: lines of A120 are filled (R102). S with two empty lines in group 2 has 309 bytes, and 549 when rewritten.

lettered() { # LINE: S with group 2's count 2, and this line twice
    head -c 3 "$s"
    printf '  2'
    tail -c +7 "$s" | head -c 268
    printf '%s\r\n%s\r\n' "$1" "$1"
    tail -c 31 "$s"
}

lettered '' >"$work/short"
sized 'S with two empty lines in group 2' "$work/short" 309
lettered "$(printf '%120s' '')" >"$work/wide"
sized 'S with two lines of blanks in group 2' "$work/wide" 549
repeated 212 "$work/short" >"$work/text"
repeated 212 "$work/wide" >"$work/want"
sized 'the output' "$work/want" 116388
rewritten 'output of 116,388 bytes' "$work/text" "$work/want"

finished 1430
