#!/bin/sh
# The salvaging program (R341, R353 to R357): every text of tests/vectors/W9, or of the folder that is named (`tests/salvage.sh FOLDER [--strict]
# [--entries]`), with what is due on both outputs. What is copied and what is left out are then put together again and have to be the text, and what
# was copied is given to the program again. Every text of tests/vectors under all rules: what the listing says was placed is copied, and the first
# stretch begins where the walk stops. Record S with each kind of ruin, line ends, words; inputs at the limit; line feeds alone, and index lines alone
# that all have to be tried. From C, by the program of tests/c, every text of the vectors and examples comes to the same pieces under all rules by two
# questions, placing and the end of a stretch. Expected texts come from the vectors, from the rules, or from their arithmetic. Prints each case that fails, and
# how many passed.
set -u
LC_ALL=C
export LC_ALL
cd "$(dirname "$0")/.." || exit 2
name=salvage
. tests/cases
. tests/kit
. tests/limit
chosen "$@"
folder=$vectors
! own || folder=$vectors/W9
words=''
known=usual
[ "$rules" != "${rules%% *}" ] || { known=$rules; words=$(words_for "$rules"); }
s=examples/s.sao
: >"$work/nothing"
# it is built where it has to be, which is told on standard error
./run salvage <"$work/nothing" >/dev/null 2>&1

bytes() { # FILE FROM TO: those from a place up to another
    tail -c +$(($2 + 1)) "$1" | head -c $(($3 - $2))
}

salvaged() { # CASE TEXT COPY STRETCHES [WORDS]: what is printed on both outputs, with what is expected
    # shellcheck disable=SC2086
    ./run salvage ${5-} <"$2" >"$work/got" 2>"$work/said"
    compared "$1" "$3"
    counted "$1: the stretches" cmp -s "$work/said" "$4" || diff "$4" "$work/said" | head -n 6
}

covered() { # CASE TEXT [WORDS]: what was copied and the stretches are the text, piece by piece, and no two stretches are neighbours (R354)
    at=0
    : >"$work/copied"
    apart=1
    while read -r place long; do
        [ "$place" -gt "$at" ] || [ "$place" = 0 ] || apart=''
        bytes "$2" "$at" "$place" >>"$work/copied"
        at=$((place + long))
    done <"$work/said"
    bytes "$2" "$at" "$(wc -c <"$2")" >>"$work/copied"
    counted "$1: no two stretches are neighbours" [ -n "$apart" ]
    counted "$1: all but the stretches is copied" cmp -s "$work/copied" "$work/got"
    mv "$work/got" "$work/copy"
    salvaged "$1, the copy again" "$work/copy" "$work/copy" "$work/nothing" "${3-}"
}

mkdir "$work/printed"
kept() { # TEXT RULES: what was printed of it, to be compared with what is asked from C
    many_kept=$((${many_kept-0} + 1))
    cp "$work/got" "$work/printed/$many_kept.salvage"
    cp "$work/said" "$work/printed/$many_kept.stretches"
    echo "$2 $1 $work/printed/$many_kept.salvage $work/printed/$many_kept.stretches" >>"$work/pieces"
}

# ---- the vectors

many=0
for text in "$folder"/*.sao; do
    [ -e "$text" ] || continue
    many=$((many + 1))
    salvaged "$text" "$text" "${text%.sao}.salvage" "${text%.sao}.stretches" "$words"
    [ "$(wc -c <"$text")" -le 65536 ] || continue
    kept "$text" "$known"
    covered "$text" "$text" "$words"
done
counted 'there are texts' [ "$many" -gt 0 ]
! own || counted 'as many texts as there are' [ "$many" -ge 85 ]

# ---- what a walk has placed is copied (R354), by what the listing says of it

follows_listing() { # TEXT RULES LISTING
    # shellcheck disable=SC2046
    ./run salvage $(words_for "$2") <"$1" >"$work/got" 2>"$work/said"
    # shellcheck disable=SC2046
    set -- "$1" "$2" $(tail -n 1 "$3")
    if [ "$6" = 11 ]; then
        counted "$1, $2: longer than it takes" [ ! -s "$work/got" ] && counted "$1, $2: nothing left out" [ ! -s "$work/said" ]
        return
    fi
    kept "$1" "$2"
    bytes "$1" 0 "$5" >"$work/first"
    head -c "$5" "$work/got" | cmp -s "$work/first" -
    counted "$1, $2: begins with what the walk has placed" [ $? = 0 ]
    if [ "$6" = 1 ]; then
        counted "$1, $2: nothing left out" [ ! -s "$work/said" ] && counted "$1, $2: the text itself" cmp -s "$1" "$work/got"
    else
        read -r place long <"$work/said"
        counted "$1, $2: the first stretch" [ "$place" = "$5" ]
        covered "$1, $2" "$1" "$(words_for "$2")"
    fi
}

if own; then
    for text in "$vectors"/*.sao; do
        for ruled in $rules; do
            want=$(answer_of "$text" "$ruled" list)
            [ -z "$want" ] || follows_listing "$text" "$ruled" "$want"
        done
    done
fi

# ---- S with a ruin in it, between others

between() { # CASE RUINED STRETCHES: S, such a text, S
    cat "$s" "$2" "$s" >"$work/text"
    cat "$s" "$s" >"$work/want"
    printf '%s\n' "$3" >"$work/left"
    salvaged "$1" "$work/text" "$work/want" "$work/left"
}

ruined() { # CASE OLD NEW: one S is ruined by NEW in place of OLD, and it alone is left out (R355)
    sed "s/$2/$3/" "$s" >"$work/ruin"
    between "$1" "$work/ruin" "305 $(wc -c <"$work/ruin")"
}

ruined 'a letter in the index (4)' '  4  0 19' '  4  x 19'
ruined 'a byte lost from the index (4)' '  4  0 19' '  4  019'
ruined 'another release (5)' '  5' '  4'
ruined 'a vacant group with a count (6)' '  0  5' '  1  5'
ruined 'more lines than there are (3)' '  4  0 19' '  4999 19'
sed '1d' "$s" >"$work/ruin"
between 'a lost index line' "$work/ruin" '305 183'
sed '1,2d' "$s" >"$work/ruin"
between 'a lost index' "$work/ruin" '305 61'
cat "$s" "$s" | sed 's/  5/  6/' >"$work/ruin"
between 'two in a row' "$work/ruin" '305 610'

# R351: what is placed with 7 is copied, but nothing goes on from it; so it is with a record whose groups 1, 3 or 4 don't read with 0
behind() { # CASE OLD NEW: S, S with NEW in place of OLD, S: all is copied; behind a ruin, the stretch goes on to the next
    { cat "$s" && sed "s/$2/$3/" "$s" && cat "$s"; } >"$work/text"
    salvaged "$1" "$work/text" "$work/text" "$work/nothing"
    { sed 's/  5/  6/' "$s" && sed "s/$2/$3/" "$s" && cat "$s"; } >"$work/text"
    echo "0 $(($(wc -c <"$work/text") - 305))" >"$work/left"
    salvaged "$1, behind a ruin" "$work/text" "$s" "$work/left"
}

behind 'a broken rule (7)' '  4  0 19' '  4  0 18'
behind 'a misformed constant (9)' ' 67\.000' ' 67,000'
behind 'a wrong date (10)' '0922' '0923'
behind 'a byte behind the date (8)' '142530' '142530x'
behind 'a misformed characteristic (9)' '   7\.250' '   7,250'

# other groups are not looked at: group 5 of S, with a letter for its flag
{ head -c 12 "$s" && printf '  1' && tail -c +16 "$s" && printf ' x\r\n'; } >"$work/five"
{ sed 's/  5/  6/' "$s" && cat "$work/five" && cat "$s"; } >"$work/text"
cat "$work/five" "$s" >"$work/want"
echo '0 305' >"$work/left"
salvaged 'a misformed flag, behind a ruin' "$work/text" "$work/want" "$work/left"

# R351: only behind a line feed
{ printf 'x' && cat "$s" "$s"; } >"$work/text"
echo '0 306' >"$work/left"
salvaged 'a byte before S' "$work/text" "$s" "$work/left"
{ printf '\n' && cat "$s" "$s"; } >"$work/text"
cat "$s" "$s" >"$work/want"
echo '0 1' >"$work/left"
salvaged 'a line feed before S' "$work/text" "$work/want" "$work/left"
{ cat "$s" && printf 'x'; } >"$work/text"
echo '305 1' >"$work/left"
salvaged 'a byte behind S' "$work/text" "$s" "$work/left"
head -c 304 "$s" >"$work/text"
echo '0 304' >"$work/left"
salvaged 'S without its last byte (R413)' "$work/text" "$work/nothing" "$work/left"
salvaged 'no input' "$work/nothing" "$work/nothing" "$work/nothing"

# ---- line ends and words

tr -d '\r' <"$s" >"$work/lean"
cat "$s" "$work/lean" "$s" >"$work/text"
salvaged 'S without carriage returns (R9)' "$work/text" "$work/text" "$work/nothing"
cat "$s" "$s" >"$work/want"
echo '305 300' >"$work/left"
salvaged 'S without carriage returns, strict' "$work/text" "$work/want" "$work/left" --strict
# by elements the last line of 10003 is too much, as its listings say
head -c 427 tests/vectors/10003.sao >"$work/usual40"
refuses_words salvage "$work/usual40" tests/vectors/10003.sao

# ---- R341: inputs of 65,536 bytes, and of one more

limit_text 281 >"$work/text"
sized '65,536 bytes' "$work/text" 65536
salvaged '65,536 bytes, the last of them the end of the last record' "$work/text" "$work/text" "$work/nothing"
printf 'x' >>"$work/text"
salvaged '65,536 bytes and one behind the last record' "$work/text" "$work/nothing" "$work/nothing"
limit_text 282 >"$work/text"
salvaged '65,537 bytes, the last of them the end of the last record' "$work/text" "$work/nothing" "$work/nothing"

# ---- texts of which every line is tried: line feeds alone; lines that all are right as either index line, and name more lines than there are

awk 'BEGIN { for (i = 0; i < 65536; i++) printf "\n" }' >"$work/text"
echo '0 65536' >"$work/left"
salvaged '65,536 line feeds' "$work/text" "$work/nothing" "$work/left"
awk 'BEGIN {
    printf "x\n"
    for (i = 0; i < 541; i++) {
        printf "  4999"
        for (k = 3; k < 40; k++)
            printf "  0"
        printf "  5\n"
    }
}' >"$work/text"
sized '541 lines of an index' "$work/text" 65463
echo '0 65463' >"$work/left"
salvaged '541 lines of an index' "$work/text" "$work/nothing" "$work/left"

# ---- the same pieces from C

if own; then
    for text in $(find "$vectors"/W* examples -name '*.sao' | sort); do
        for ruled in $rules; do
            [ "$(wc -c <"$text")" -le 65536 ] || continue
            # shellcheck disable=SC2046
            ./run salvage $(words_for "$ruled") <"$text" >"$work/got" 2>"$work/said"
            kept "$text" "$ruled"
        done
    done
fi
program_made
short_functions tests/c/salvage.c
# shellcheck disable=SC2046
set -- $(cat "$work/pieces")
held "$(($# / 4)) texts by their rules" 8978 pieces "$@"
counted 'as many records that are copied' asked 1 2640
counted 'as many stretches' asked 2 1014
finished 3680
