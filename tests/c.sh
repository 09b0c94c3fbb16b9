#!/bin/sh
# The library from C: include/seambeacon.h compiles alone as C and as C++, the archive needs no more than memcpy and memset from outside (where
# there is an nm that reads it), and the program of tests/c asks every question on record S, S twice,
# damaged texts, texts with other line ends and records with a group 40 of up to 999 elements and 999 entries, by several numbers for the rules,
# every month and day of seven years, every line of tests/vectors/writes.txt and tests/vectors/W10/writes.txt and, by both rules for line ends and
# both for counts of group 40, every answer of the texts of tests/vectors, or of the folder that is named (`tests/c.sh FOLDER [--strict]
# [--entries]`), also each record whole, as the answers about its groups say it together, and compares all lent memory. The program counts its checks;
# so many are demanded that none of its parts can be left out. examples/fof2.c prints a value below zero too.
set -u
cd "$(dirname "$0")/.." || exit 2
name=c
. tests/cases
. tests/kit
chosen "$@"

echo '#include "seambeacon.h"' >"$work/alone.c"
counted 'the header alone, C99' compiled "$work/alone.c" "$work/alone.o" -std=c99
counted 'the header alone, C++' compiled "$work/alone.c" "$work/alone.o" -x c++ -std=c++11
counted 'no line of the header is longer than 100 columns' none "$(awk 'length > 100' include/seambeacon.h)"
counted 'the header is refused where enums are short' fails compiled "$work/alone.c" "$work/alone.o" -std=c99 -fshort-enums
for host in 'cc -std=c99' 'c++ -x c++ -std=c++11'; do
    command -v "${host%% *}" >/dev/null || continue
    counted "the header alone, $host with its own headers" $host -Wall -Wextra -pedantic -Werror -Iinclude -fsyntax-only "$work/alone.c"
done

rm -f "$work/alone.o"
program_made
if nm "$archive" >/dev/null 2>&1; then
    counted 'from outside the archive needs at most memcpy and memset' \
        none "$(nm -u "$archive" | awk '$1 == "U" && $2 !~ /^mem(cpy|set)$/')"
fi

set -- "$vectors/writes.txt"
! own || set -- "$@" "$vectors/W10/writes.txt"
own || [ -e "$1" ] || shift # a folder of texts alone
held 'record S, line ends, group 40, dates and writing' 53840 answers "${rules%% *}" "$@"

counted 'there are texts' texts
set --
for text in "$vectors"/*.sao; do
    for ruled in $rules; do
        list=$(answer_of "$text" "$ruled" list)
        rewrite=$(answer_of "$text" "$ruled" rewrite)
        dump=$(answer_of "$text" "$ruled" dump)
        [ -z "$list$rewrite$dump" ] || set -- "$@" "$ruled" "$text" "${list:--}" "${rewrite:--}" "${dump:--}"
    done
done
held 'texts' 332988 texts "$@"

counted 'the example' compiled examples/fof2.c "$work/fof2.o" -std=c99 && linked "$work/fof2" "$work/fof2.o"
below_zero >"$work/below"
started "$work/fof2" <"$work/below" >"$work/got"
below_zero_due >"$work/want"
compared 'values below zero' "$work/want"
finished 26
